//! Decoding to rows through the C face, on description S.

use std::path::Path;

use dookerand::{decode, Answer};

const ADD: [i64; 16] = [0, 2, 0, 2, 1, 0, 0, 5, 0, 0, 1, 1, 1, 1, 1, -2];

fn s() -> Vec<u8> {
    let manifest = Path::new(env!("CARGO_MANIFEST_DIR"));
    std::fs::read(manifest.join("../../examples/s.description")).unwrap()
}

fn answer(number: u32, values: [u64; 4]) -> Answer {
    Answer { number, values }
}

fn done(rows: u64) -> Answer {
    answer(0, [rows, 0, 0, 0])
}

/// What the numbers are before a call: each another, and none that a row has.
fn untouched() -> [i64; 20] {
    std::array::from_fn(|i| i64::MAX - i as i64)
}

/// Decodes with the first so many numbers lent. All of them come back.
fn decoded(description: &[u8], code: &[u8], lent: usize) -> (Answer, [i64; 20]) {
    let mut rows = untouched();
    let answer = decode(description, 0, 0, code, &mut rows[..lent]);
    (answer, rows)
}

/// These rows are written, and nothing behind them.
fn writes(code: &[u8], lent: usize, rows: &[[i64; 4]]) {
    let (answer, numbers) = decoded(&s(), code, lent);
    assert_eq!(answer, done(rows.len() as u64));
    let (written, rest) = numbers.split_at(4 * rows.len());
    assert_eq!(written, rows.as_flattened());
    assert_eq!(rest, &untouched()[written.len()..]);
}

/// Nothing is written.
fn refuses(description: &[u8], code: &[u8], refusal: Answer) {
    for lent in [0, 1, 4, 20] {
        assert_eq!(decoded(description, code, lent), (refusal, untouched()));
    }
}

#[test]
fn inc() {
    writes(&[0x13], 20, &[[0, 1, 0, 1], [1, 0, 0, 3]]);
}

#[test]
fn halt() {
    writes(&[0x1f], 20, &[[0, 3, 0, 1]]);
}

#[test]
fn add() {
    let displaced = |value| [[0, 2, 0, 2], [1, 0, 0, 5], [0, 0, 1, 1], [1, 1, 1, value]];
    assert_eq!(displaced(-2).as_flattened(), ADD);
    writes(&[0x25, 0xfe], 20, &displaced(-2));
    writes(&[0x25, 0x80], 20, &displaced(-128));
    writes(&[0x25, 0x7f], 20, &displaced(127));
    writes(&[0x25, 0x00], 20, &displaced(0));
    // What follows the instruction is not looked at.
    writes(&[0x25, 0xfe, 0x30], 20, &displaced(-2));
}

#[test]
fn refused() {
    refuses(&s(), &[0x25], answer(2, [1, 0, 0, 0]));
    refuses(&s(), &[], answer(2, [0; 4]));
    refuses(&s(), &[0x30], answer(3, [0, 1, 0, 0]));
}

#[test]
fn malformed() {
    let mut longer = s();
    longer.push(b' ');
    for code in [&[][..], &[0x13], &[0x30]] {
        refuses(&s()[..215], code, answer(1, [6, 65_535, 0, 0]));
        refuses(&longer, code, answer(1, [7, 65_535, 0, 0]));
        refuses(&[], code, answer(1, [1, 65_535, 0, 0]));
    }
}

#[test]
fn lent_numbers() {
    let code = [0x25, 0xfe];
    let mut written = untouched();
    written[..16].copy_from_slice(&ADD);
    let too_short = answer(9, [0; 4]);
    for lent in 0..16 {
        assert_eq!(decoded(&s(), &code, lent), (too_short, untouched()));
    }
    for lent in 16..=20 {
        assert_eq!(decoded(&s(), &code, lent), (done(4), written));
    }
}

/// S with another first byte of a constructor's mask and value, and another
/// minimum length.
fn with_constructor(constructor: usize, minimum: u8, mask: u8, value: u8) -> Vec<u8> {
    let mut changed = s();
    let record = 22 + 32 * constructor;
    changed[record + 1] = minimum;
    changed[record + 2] = mask;
    changed[record + 10] = value;
    changed
}

#[test]
fn ambiguous_long_and_empty() {
    let crossing = with_constructor(2, 1, 0x0f, 0x01);
    refuses(&crossing, &[0x11], answer(4, [0, 1, 0, 0]));
    // The inner constructor would end at 17.
    let long = with_constructor(0, 16, 0x00, 0x00);
    refuses(&long, &[0x25; 20], answer(6, [1, 0, 0, 0]));
    let empty = with_constructor(3, 0, 0x00, 0x00);
    refuses(&empty, &[0x30], answer(8, [0; 4]));
}
