//! Sweeping a code buffer.

use std::cell::RefCell;
use std::hint::black_box;

use dookerand::Answer;
use reference::{requests, Alignment, Sweep};

use crate::choosing::Set;
use crate::decoding::{set, ADDRESS, CONTEXT};
use crate::subjects::{any_instructions, avr_description};
use crate::timing::{print_each, print_speed, FEW};

/// Bytes of code.
pub const CODE: usize = 64 * 1024;

/// Every place may have an instruction, unless it says otherwise.
pub const ALIGNMENT: u32 = Alignment::One as u32;

const ROW_NUMBERS: usize = 4;

pub fn all() {
    let set = set(CODE);
    let lent = RefCell::new(vec![0; ROW_NUMBERS * CODE]);
    let proved = |_| {
        let rows = &mut *black_box(lent.borrow_mut());
        let bytes = black_box(&set.bytes);
        let answer = dookerand::sweep(bytes, CONTEXT, ADDRESS, ALIGNMENT, code(&set), rows);
        assert_eq!(black_box(answer).number, 0);
    };
    let whole = |_| {
        let rows = &mut *black_box(lent.borrow_mut());
        let bytes = black_box(&set.bytes);
        let answer = requests::sweep(bytes, CONTEXT, ADDRESS, ALIGNMENT, code(&set), rows);
        assert_eq!(black_box(answer.number_and_values()).0, 0);
    };
    let alone = |_| {
        let swept = reference_sweep(black_box(&set));
        assert!(!black_box(swept).rows.is_empty());
    };
    let instructions = reference_sweep(&set).rows.len();
    let request = format!("sweep of {CODE} bytes, {instructions} instructions");
    let times = set.compare(&request, (FEW, 1), [&proved, &whole, &alone]);
    print_each("  a byte", CODE, times.whole);
    print_each("  a byte, alone", CODE, times.alone);
    print_each("  an instruction", instructions, times.whole);
    print_each("  an instruction, alone", instructions, times.alone);
    print_speed("  bytes a second", CODE, times.whole);
}

pub fn one_sweep() -> Answer {
    let mut rows = vec![0; ROW_NUMBERS * CODE];
    let set = set(CODE);
    let bytes = black_box(&set.bytes);
    dookerand::sweep(bytes, CONTEXT, ADDRESS, ALIGNMENT, code(&set), &mut rows)
}

pub fn one_avr_sweep() -> Answer {
    let mut rows = vec![0; ROW_NUMBERS * CODE];
    let description = avr_description();
    let stream = any_instructions(&description, CODE);
    let set = Set::of(description, stream);
    let bytes = black_box(&set.bytes);
    dookerand::sweep(bytes, 0, ADDRESS, ALIGNMENT, code(&set), &mut rows)
}

fn reference_sweep(set: &Set) -> Sweep {
    let (d, code) = (&set.description, code(set));
    reference::sweep(d, CONTEXT, ADDRESS, Alignment::One, code, CODE)
}

/// As much of the stream as is swept.
fn code(set: &Set) -> &[u8] {
    &set.code(0)[..CODE]
}
