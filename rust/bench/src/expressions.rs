//! What the evaluation of an expression costs.

use std::cell::RefCell;
use std::hint::black_box;

use generate::bytes;
use generate::example::{branch, step};
use reference::{Description, Step};

use crate::clock::median;
use crate::scan::{value, Scan, Terms};
use crate::sweep::{ALIGNMENT, CODE};
use crate::timing::{rounds, FEW};

const CONTEXT: u32 = 0;
const ADDRESS: u32 = 0x1000;

const ROW_NUMBERS: usize = 4;

/// Branches of two bytes.
const INSTRUCTIONS: usize = CODE / 2;

/// Each operator, of terms of each kind.
const STEPS: [(u8, i64); 16] = [
    (Step::ADDRESS_AFTER, 0),
    (Step::OPERAND, 1),
    (Step::SHIFT_LEFT, 1),
    (Step::PLUS, 0),
    (Step::ADDRESS, 0),
    (Step::MINUS, 0),
    (Step::CONSTANT, -8),
    (Step::AND, 0),
    (Step::CONSTANT, 1),
    (Step::OR, 0),
    (Step::OPERAND, 1),
    (Step::TIMES, 0),
    (Step::CONSTANT, 0x55),
    (Step::EXCLUSIVE_OR, 0),
    (Step::SHIFT_LEFT, 4),
    (Step::SHIFT_RIGHT, 2),
];

/// Sweeps over branches whose expression has 16 steps, less such whose
/// expression is a constant; and evaluations alone.
pub fn print() {
    let long = branch(&STEPS.map(|(kind, value)| step(kind, value)));
    let short = branch(&[step(Step::CONSTANT, 1)]);
    let code: Vec<u8> = (0..INSTRUCTIONS).flat_map(|i| [0x25, i as u8]).collect();
    let (proved_long, proved_short) = (proved(&long, &code), proved(&short, &code));
    let (scan_long, scan_short) = (scan(&long, &code), scan(&short, &code));
    let alone = |_| {
        let expression = black_box(&long.expressions[0]);
        for displacement in 0..INSTRUCTIONS {
            let terms = Terms {
                address: black_box(i64::from(ADDRESS)),
                address_after: i64::from(ADDRESS) + 2,
                operands: [i64::from(displacement as i8); 8],
            };
            assert!(black_box(value(expression, &terms)).is_some());
        }
    };
    let times = rounds(
        FEW,
        1,
        [&proved_long, &proved_short, &scan_long, &scan_short, &alone],
    );
    let [proved_long, proved_short, scan_long, scan_short, alone] =
        times.map(|times| 1e3 * median(&times).of_each(INSTRUCTIONS).cpu);
    println!("An expression of 16 steps, evaluated: CPU, ns");
    println!("{:>10.2}  proved", proved_long - proved_short);
    println!("{:>10.2}  scan", scan_long - scan_short);
    println!("{alone:>10.2}  plain Rust, alone");
    println!(
        "Proved and scan: an instruction of a sweep, {proved_long:.2} and {scan_long:.2}, less"
    );
    println!("one whose expression is a constant, {proved_short:.2} and {scan_short:.2}.");
}

fn proved<'a>(d: &Description, code: &'a [u8]) -> impl Fn(usize) + 'a {
    let description = bytes(d);
    let lent = RefCell::new(vec![0; ROW_NUMBERS * INSTRUCTIONS]);
    move |_| {
        let rows = &mut *black_box(lent.borrow_mut());
        let (description, code) = (black_box(&description), black_box(code));
        let answer = dookerand::sweep(description, CONTEXT, ADDRESS, ALIGNMENT, code, rows);
        let all = [0, INSTRUCTIONS as u64, code.len() as u64, 0];
        assert_eq!((black_box(answer).number, answer.values), (0, all));
    }
}

fn scan<'a>(d: &Description, code: &'a [u8]) -> impl Fn(usize) + 'a {
    let scan = Scan::<1>::new(d);
    let lent = RefCell::new(vec![0; ROW_NUMBERS * INSTRUCTIONS]);
    move |_| {
        let rows = &mut *black_box(lent.borrow_mut());
        let (scan, code) = (black_box(&scan), black_box(code));
        let (_, written, _) = scan.sweep(CONTEXT, ADDRESS, ALIGNMENT, code, rows);
        assert_eq!(black_box(written), INSTRUCTIONS);
    }
}
