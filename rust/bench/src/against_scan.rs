//! Sweeps and single decodings beside the simplest fast scan, which has its
//! description parsed beforehand.

use std::cell::RefCell;
use std::hint::black_box;

use generate::example::description_s;
use generate::{instruction_set, instruction_stream, nested_instruction_set, Rng};
use reference::Description;

use crate::choosing::Set;
use crate::proved_check;
use crate::scan::{Scan, ROOM};
use crate::subjects::{any_instructions, avr_description};
use crate::sweep::{ALIGNMENT, CODE};
use crate::timing::medians_of;

const ADDRESS: u32 = 0;

const ROW_NUMBERS: usize = 4;

/// So many instructions are compared one by one.
const COMPARED: usize = 2_000;

/// A description in both forms, with code for it.
struct Case {
    name: &'static str,
    set: Set,
    plain: Scan<1>,
    by_fours: Scan<4>,
    context: u32,
    alignment: u32,
}

/// The proved request, the check that it begins with, and both scans'.
type Jobs<'a> = [Job<'a>; 4];
type Job<'a> = Box<dyn Fn(usize) + 'a>;

type Request = fn(&Case) -> Jobs<'_>;

const REQUESTS: [(&str, Request); 2] = [("sweep", Case::sweep), ("decode", Case::decode)];

const NOTE: &str = "\
The plain scan is a Rust loop over all constructors of a table, one after the other, that by fours
the same with four at a time, both on a description that is parsed beforehand. Ratios are of
processor time, of the proved call to a scan, and less the check that it begins with. All gave the
same rows for all of this code.";

pub fn print() {
    let cases = cases();
    cases.iter().for_each(Case::answers_alike);
    let (mut names, mut jobs) = (Vec::new(), Vec::new());
    for (request, of) in REQUESTS {
        // A decoding takes no alignment.
        let takes = |case: &&Case| request == "sweep" || case.alignment == ALIGNMENT;
        for case in cases.iter().filter(takes) {
            names.push((request, case.name));
            jobs.push(of(case));
        }
    }
    print!("                         CPU, us                      ");
    println!("to plain         to fours         wall, us");
    print!("request   description       proved     plain     fours");
    println!("   whole    less   whole    less    proved     plain     fours");
    for ((request, name), [proved, check, plain, fours]) in names.into_iter().zip(medians_of(&jobs))
    {
        print!("{request:10}{name:15}");
        for time in [proved, plain, fours] {
            print!("{:>10.3}", time.cpu);
        }
        for scan in [plain, fours] {
            let less = proved - check;
            print!("{:>8.2}{:>8.2}", proved.cpu / scan.cpu, less.cpu / scan.cpu);
        }
        for time in [proved, plain, fours] {
            print!("{:>10.3}", time.wall);
        }
        println!();
    }
    println!("{NOTE} A sweep takes {CODE} bytes, by words with alignment 2,");
    println!("else with 1; a decoding takes another instruction at each call.");
}

/// S, AVR by bytes and by words, tables of 200 and 512 constructors, and 200
/// constructors in three tables.
fn cases() -> [Case; 6] {
    let s = description_s();
    let s_code = instruction_stream(&mut Rng::new(1), &s, 0, CODE);
    let avr = avr_description();
    let avr_code = any_instructions(&avr, CODE + 16);
    let by_words = Case {
        alignment: 2,
        ..case("AVR, by words", avr.clone(), 0, avr_code.clone())
    };
    [
        case("S", s, 0, s_code),
        case("AVR", avr, 0, avr_code),
        by_words,
        made("200", instruction_set(200)),
        made("512", instruction_set(512)),
        made("200, 3 tables", nested_instruction_set(200)),
    ]
}

fn made(name: &'static str, d: Description) -> Case {
    let stream = instruction_stream(&mut Rng::new(1), &d, 1, CODE);
    case(name, d, 1, stream)
}

fn case(
    name: &'static str,
    description: Description,
    context: u32,
    stream: (Vec<u8>, Vec<usize>),
) -> Case {
    Case {
        name,
        plain: Scan::new(&description),
        by_fours: Scan::new(&description),
        set: Set::of(description, stream),
        context,
        alignment: ALIGNMENT,
    }
}

impl Case {
    fn code(&self) -> &[u8] {
        &self.set.code(0)[..CODE]
    }

    /// Stops unless the proved library and the scans give the same.
    fn answers_alike(&self) {
        self.scans_alike(&self.plain);
        self.scans_alike(&self.by_fours);
    }

    fn scans_alike<const GROUP: usize>(&self, scan: &Scan<GROUP>) {
        let [mut proved, mut scanned] = [(); 2].map(|()| vec![0; ROW_NUMBERS * CODE]);
        let (bytes, code) = (&self.set.bytes, self.code());
        let (context, alignment) = (self.context, self.alignment);
        let answer = dookerand::sweep(bytes, context, ADDRESS, alignment, code, &mut proved);
        let (end, rows, next) = scan.sweep(context, ADDRESS, alignment, code, &mut scanned);
        let found = (0, [end as u64, rows as u64, next as u64, 0]);
        assert_eq!((answer.number, answer.values), found, "{}", self.name);
        assert!(proved == scanned, "{}: other rows", self.name);
        for call in 0..COMPARED {
            let code = self.set.code(call);
            let [mut proved, mut scanned] = [[0; ROOM]; 2];
            let answer = dookerand::decode(bytes, context, ADDRESS, code, &mut proved);
            let rows = scan.decode(context, ADDRESS, code, &mut scanned);
            assert_eq!(answer.number, 0, "{}", self.name);
            assert_eq!(rows, Ok(answer.values[0] as usize), "{}", self.name);
            assert_eq!(proved, scanned, "{}", self.name);
        }
    }

    fn sweep(&self) -> Jobs<'_> {
        let lent = RefCell::new(vec![0; ROW_NUMBERS * CODE]);
        let proved = move |_| {
            let rows = &mut *black_box(lent.borrow_mut());
            let (bytes, code) = (black_box(&self.set.bytes), black_box(self.code()));
            let (context, alignment) = (self.context, self.alignment);
            let answer = dookerand::sweep(bytes, context, ADDRESS, alignment, code, rows);
            assert_eq!(black_box(answer).number, 0);
        };
        let scans = (
            self.scan_sweep(&self.plain),
            self.scan_sweep(&self.by_fours),
        );
        [Box::new(proved), self.check(), scans.0, scans.1]
    }

    fn scan_sweep<'a, const GROUP: usize>(&'a self, scan: &'a Scan<GROUP>) -> Job<'a> {
        let lent = RefCell::new(vec![0; ROW_NUMBERS * CODE]);
        Box::new(move |_| {
            let rows = &mut *black_box(lent.borrow_mut());
            let (scan, code) = (black_box(scan), black_box(self.code()));
            let swept = scan.sweep(self.context, ADDRESS, self.alignment, code, rows);
            assert!(black_box(swept).1 > 0);
        })
    }

    fn decode(&self) -> Jobs<'_> {
        let lent = RefCell::new([0; ROOM]);
        let proved = move |call| {
            let rows = &mut *black_box(lent.borrow_mut());
            let bytes = black_box(&self.set.bytes);
            let answer = dookerand::decode(bytes, self.context, ADDRESS, self.set.code(call), rows);
            assert_eq!(black_box(answer).number, 0);
        };
        let scans = (
            self.scan_decode(&self.plain),
            self.scan_decode(&self.by_fours),
        );
        [Box::new(proved), self.check(), scans.0, scans.1]
    }

    fn scan_decode<'a, const GROUP: usize>(&'a self, scan: &'a Scan<GROUP>) -> Job<'a> {
        let lent = RefCell::new([0; ROOM]);
        Box::new(move |call| {
            let rows = &mut *black_box(lent.borrow_mut());
            let decoded = black_box(scan).decode(self.context, ADDRESS, self.set.code(call), rows);
            assert!(black_box(decoded).is_ok());
        })
    }

    fn check(&self) -> Job<'_> {
        Box::new(|_| proved_check(&self.set.bytes))
    }
}
