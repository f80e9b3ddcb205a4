//! Asking a table, and the clash check.

use std::hint::black_box;

use dookerand::Answer;
use generate::{bytes, instruction_set, instruction_starts, Rng};
use reference::Description;

use crate::clock::{median, Time};
use crate::timing::{print, print_part, rounds, Job, MANY};
use crate::{proved_check, reference_check};

pub const TABLE: u32 = 0;
const CONTEXT: u32 = 1;

pub fn all() {
    for constructors in [200, 512] {
        let set = Set::new(constructors);
        set.ask();
        set.clash();
    }
}

pub fn one_ask() -> Answer {
    let set = Set::new(512);
    dookerand::ask(black_box(&set.bytes), TABLE, CONTEXT, set.code(0))
}

pub fn one_clash() -> Answer {
    dookerand::clash(black_box(&Set::new(512).bytes), TABLE)
}

pub fn one_check() -> Answer {
    dookerand::check(black_box(&Set::new(512).bytes))
}

/// An instruction set with code for it.
pub struct Set {
    pub description: Description,
    pub bytes: Vec<u8>,
    code: Vec<u8>,
    starts: Vec<usize>,
}

impl Set {
    pub fn new(constructors: usize) -> Set {
        let description = instruction_set(constructors);
        let code = instruction_starts(&mut Rng::new(1), &description, 1000);
        Set::of(description, code)
    }

    /// A description with code for it, and where its instructions start.
    pub fn of(description: Description, (code, starts): (Vec<u8>, Vec<usize>)) -> Set {
        Set {
            bytes: bytes(&description),
            description,
            code,
            starts,
        }
    }

    /// The code from the start of an instruction on.
    pub fn code(&self, call: usize) -> &[u8] {
        black_box(&self.code[self.starts[call % self.starts.len()]..])
    }

    fn ask(&self) {
        let proved = |call| {
            let answer = dookerand::ask(black_box(&self.bytes), TABLE, CONTEXT, self.code(call));
            assert_eq!(black_box(answer).number, 0);
        };
        let whole = |call| {
            let bytes = black_box(&self.bytes);
            let answer = reference::requests::ask(bytes, TABLE, CONTEXT, self.code(call));
            assert_eq!(black_box(answer.number_and_values()).0, 0);
        };
        let proper = |call| {
            let description = black_box(&self.description);
            let taken = reference::ask(description, TABLE, CONTEXT, self.code(call));
            assert!(black_box(taken).is_ok());
        };
        self.compare("ask", (MANY, 100), [&proved, &whole, &proper]);
    }

    fn clash(&self) {
        let proved = |_| {
            let answer = dookerand::clash(black_box(&self.bytes), TABLE);
            assert_eq!(black_box(answer).values, [0; 4]);
        };
        let whole = |_| {
            let answer = reference::requests::clash(black_box(&self.bytes), TABLE);
            assert_eq!(black_box(answer.number_and_values()), (0, [0; 4]));
        };
        let proper = |_| {
            let clear = reference::clash(black_box(&self.description), TABLE);
            assert!(black_box(clear).is_ok());
        };
        self.compare("clash", (MANY, 3), [&proved, &whole, &proper]);
    }

    /// Prints the times of a request on a description's bytes, of the check
    /// that it begins with, and of what is left; last beside the reference
    /// on the parsed description, which the cache then holds.
    pub fn compare(&self, request: &str, (count, calls): (usize, usize), jobs: [Job; 3]) -> Times {
        let [proved, whole, proper] = jobs;
        let check = |_| proved_check(&self.bytes);
        let other_check = |_| reference_check(&self.bytes);
        let [check, other_check, proved, whole, proper] =
            rounds(count, calls, [&check, &other_check, proved, whole, proper]);
        let rest = differences(&proved, &check);
        let other_rest = differences(&whole, &other_check);
        let constructors = self.description.constructors.len();
        let length = self.bytes.len();
        println!("{request}, {constructors} constructors, {length} bytes");
        print("  whole", median(&proved), median(&whole));
        print("  check", median(&check), median(&other_check));
        let part = median(&check).cpu / median(&proved).cpu;
        print_part("  check's part of whole", part);
        print("  whole - check", median(&rest), median(&other_rest));
        print("  alone, parsed", median(&rest), median(&proper));
        Times {
            whole: [median(&proved), median(&whole)],
            alone: [median(&rest), median(&proper)],
        }
    }
}

/// Time of a call, proved and reference.
pub struct Times {
    pub whole: [Time; 2],
    /// Without the check.
    pub alone: [Time; 2],
}

/// What the longer job takes more, round by round.
fn differences(longer: &[Time], shorter: &[Time]) -> Vec<Time> {
    let pairs = longer.iter().zip(shorter);
    pairs.map(|(&longer, &shorter)| longer - shorter).collect()
}
