//! Decoding instructions one by one.

use std::cell::RefCell;
use std::hint::black_box;

use dookerand::Answer;
use generate::{instruction_stream, nested_instruction_set, Rng};

use crate::choosing::Set;
use crate::timing::MANY;

pub const CONTEXT: u32 = 1;
pub const ADDRESS: u32 = 0;

/// Numbers for the most rows.
const LENT: usize = 128;

pub fn all() {
    let set = set(1000);
    let lent = RefCell::new([0; LENT]);
    let proved = |call| {
        let rows = &mut *black_box(lent.borrow_mut());
        let bytes = black_box(&set.bytes);
        let answer = dookerand::decode(bytes, CONTEXT, ADDRESS, set.code(call), rows);
        assert_eq!(black_box(answer).number, 0);
    };
    let whole = |call| {
        let rows = &mut *black_box(lent.borrow_mut());
        let bytes = black_box(&set.bytes);
        let answer = reference::requests::rows(bytes, CONTEXT, ADDRESS, set.code(call), rows);
        assert_eq!(black_box(answer.number_and_values()).0, 0);
    };
    let alone = |call| {
        let description = black_box(&set.description);
        let rows = reference::decode(description, CONTEXT, ADDRESS, set.code(call));
        assert!(black_box(rows).is_ok());
    };
    set.compare("decode", (MANY, 100), [&proved, &whole, &alone]);
}

pub fn one_decode() -> Answer {
    let mut rows = [0; LENT];
    let set = set(1);
    let bytes = black_box(&set.bytes);
    dookerand::decode(bytes, CONTEXT, ADDRESS, set.code(0), &mut rows)
}

pub fn one_check() -> Answer {
    dookerand::check(black_box(&set(1).bytes))
}

/// A set with tables inside tables, and a stream of so many instructions.
pub fn set(instructions: usize) -> Set {
    let description = nested_instruction_set(200);
    let stream = instruction_stream(&mut Rng::new(1), &description, CONTEXT, instructions);
    Set::of(description, stream)
}
