//! Asking and the clash check through the C face, on description S.

use std::path::Path;

use dookerand::{ask, clash, Answer};

fn s() -> Vec<u8> {
    let manifest = Path::new(env!("CARGO_MANIFEST_DIR"));
    std::fs::read(manifest.join("../../examples/s.description")).unwrap()
}

fn answer(number: u32, values: [u64; 4]) -> Answer {
    Answer { number, values }
}

fn asked(table: u32, code: &[u8]) -> Answer {
    ask(&s(), table, 0, code)
}

#[test]
fn taken() {
    assert_eq!(asked(1, &[0x1f]), answer(0, [3, 8, 0, 0]));
    assert_eq!(asked(1, &[0x13]), answer(0, [1, 4, 0, 0]));
    // Operands and minimum lengths play no part.
    assert_eq!(asked(1, &[0x25]), answer(0, [2, 4, 0, 0]));
    assert_eq!(asked(0, &[]), answer(0, [0, 0, 0, 0]));
}

#[test]
fn refused() {
    assert_eq!(asked(1, &[]), answer(2, [0; 4]));
    assert_eq!(asked(1, &[0x30]), answer(3, [0, 1, 0, 0]));
    for table in [2, 9, 64, 256, 257, 65_537, u32::MAX] {
        let no_table = answer(12, [table.into(), 0, 0, 0]);
        assert_eq!(asked(table, &[0x1f]), no_table);
        assert_eq!(clash(&s(), table), no_table);
    }
}

#[test]
fn malformed() {
    let malformed = answer(1, [6, 65_535, 0, 0]);
    for table in [0, 1, 9] {
        assert_eq!(ask(&s()[..215], table, 0, &[]), malformed);
        assert_eq!(clash(&s()[..215], table), malformed);
    }
}

#[test]
fn clear() {
    assert_eq!(clash(&s(), 0), answer(0, [0; 4]));
    assert_eq!(clash(&s(), 1), answer(0, [0; 4]));
}

/// S with another first byte of a constructor's mask and value.
fn with_pattern(constructor: usize, mask: u8, value: u8) -> Vec<u8> {
    let mut changed = s();
    let record = 22 + 32 * constructor;
    changed[record + 2] = mask;
    changed[record + 10] = value;
    changed
}

#[test]
fn ambiguous() {
    let crossing = with_pattern(2, 0x0f, 0x01);
    assert_eq!(ask(&crossing, 1, 0, &[0x11]), answer(4, [0, 1, 0, 0]));
    assert_eq!(clash(&crossing, 1), answer(0, [1, 1, 2, 0]));
    let equal = with_pattern(3, 0xf0, 0x20);
    assert_eq!(ask(&equal, 1, 0, &[0x20]), answer(4, [0, 1, 0, 0]));
    assert_eq!(clash(&equal, 1), answer(0, [1, 2, 3, 0]));
}
