//! Computed operands through the C face.

use dookerand::{check, decode, list, sweep, text, Answer, Listing};
use generate::bytes;
use generate::example::{branch, expression, operand, step, target};

/// Kinds of steps.
const CONSTANT: u8 = 0;
const ADDRESS: u8 = 2;
const SHIFT_LEFT: u8 = 10;

/// Two branches, the second back to itself, and a byte that is none.
const CODE: [u8; 5] = [0x25, 0x7f, 0x25, 0xff, 0x30];

/// More numbers or bytes than are written here.
const MOST: usize = 100;

fn answer(number: u32, values: [u64; 4]) -> Answer {
    Answer { number, values }
}

/// The address moved left by 32 bits, which fits below 2^31.
fn moved() -> Vec<u8> {
    bytes(&branch(&[step(ADDRESS, 0), step(SHIFT_LEFT, 32)]))
}

/// The rows, of which nothing is written for a refusal.
fn decoded(description: &[u8], address: u32, code: &[u8]) -> (Answer, Vec<i64>) {
    let mut rows = [77; MOST];
    let answer = decode(description, 0, address, code, &mut rows);
    let written = match answer.number {
        0 => 4 * answer.values[0] as usize,
        _ => 0,
    };
    assert!(rows[written..].iter().all(|&number| number == 77));
    (answer, rows[..written].to_vec())
}

#[test]
fn rows() {
    let target = bytes(&target());
    let rows = |value| vec![0, 0, 0, 2, 1, 0, 1, -2, 3, 0, 0, value];
    let done = answer(0, [3, 0, 0, 0]);
    let code = [0x25, 0xfe];
    assert_eq!(decoded(&target, 0, &code), (done, rows(-2)));
    assert_eq!(decoded(&target, 0x100, &code), (done, rows(0xfe)));
    let last = rows(i64::from(u32::MAX) - 2);
    assert_eq!(decoded(&target, u32::MAX, &code), (done, last));
}

#[test]
fn outside() {
    let refused = (answer(13, [0; 4]), Vec::new());
    assert_eq!(decoded(&moved(), 1 << 31, &CODE), refused);
    assert_eq!(decoded(&moved(), u32::MAX, &CODE), refused);
    let value = ((1_i64 << 31) - 1) << 32;
    let (done, rows) = decoded(&moved(), (1 << 31) - 1, &CODE);
    assert_eq!((done.number, rows[11]), (0, value));
    // A refusal of the walk comes first.
    let short = (answer(2, [1, 0, 0, 0]), Vec::new());
    assert_eq!(decoded(&moved(), 1 << 31, &CODE[..1]), short);
}

#[test]
fn texts() {
    let shown = |description: &[u8], address| {
        let mut lent = [b'~'; MOST];
        let answer = text(description, 0, address, &CODE, &mut lent);
        assert_eq!((answer.number, &answer.values[1..]), (0, &[0; 3][..]));
        let (text, rest) = lent.split_at(answer.values[0] as usize);
        assert!(rest.iter().all(|&byte| byte == b'~'));
        String::from_utf8(text.to_vec()).unwrap()
    };
    assert_eq!(shown(&bytes(&target()), 0), "0x100");
    assert_eq!(shown(&bytes(&target()), u32::MAX), "0x1000000ff");
    let least = branch(&[step(CONSTANT, i64::MIN)]);
    assert_eq!(shown(&bytes(&least), 0), "-0x8000000000000000");
    let mut lent = [b'~'; MOST];
    let refused = text(&moved(), 0, 1 << 31, &CODE, &mut lent);
    assert_eq!((refused, lent), (answer(13, [0; 4]), [b'~'; MOST]));
    // Before too little room.
    let refused = text(&moved(), 0, 1 << 31, &CODE, &mut []);
    assert_eq!(refused, answer(13, [0; 4]));
}

/// From the address 2^31 on there are gaps.
#[test]
fn sweeps() {
    let swept = |description: &[u8], address| {
        let mut rows = [77; MOST];
        let answer = sweep(description, 0, address, 1, &CODE, &mut rows);
        let (written, rest) = rows.split_at(4 * answer.values[1] as usize);
        assert!(rest.iter().all(|&number| number == 77));
        (answer, written.to_vec())
    };
    let used = |rows| answer(0, [0, rows, 5, 0]);
    let gap = |start, answer| [start, 1, answer, 65_535];
    let all = [[0, 2, 0, 0], [2, 2, 0, 0], gap(4, 3)].concat();
    assert_eq!(swept(&bytes(&target()), u32::MAX), (used(3), all));
    let last = [[0, 2, 0, 0], gap(2, 13), gap(3, 3), gap(4, 3)].concat();
    assert_eq!(swept(&moved(), (1 << 31) - 2), (used(4), last));
}

/// The lines that are listed from a place on.
fn listed(description: &[u8], address: u32, from: u64) -> String {
    let mut lent = [b'~'; MOST];
    let found = list(description, 0, address, 1, &CODE, from, &mut lent);
    let Listing::Listed {
        bytes, next, full, ..
    } = found
    else {
        panic!("{found:?}");
    };
    assert_eq!((next, full), (5, false));
    assert!(lent[bytes..].iter().all(|&byte| byte == b'~'));
    String::from_utf8(lent[..bytes].to_vec()).unwrap()
}

#[test]
fn lines() {
    let target = bytes(&target());
    let all = "\
        00001000: 0x1100\n\
        00001002: 0x1002\n\
        00001004: .byte 0x30\n";
    assert_eq!(listed(&target, 0x1000, 0), all);
    assert_eq!(listed(&target, 0x1000, 2), all[17..]);
    let last = "\
        ffffffff: 0x1000000ff\n\
        100000001: 0x100000001\n\
        100000003: .byte 0x30\n";
    assert_eq!(listed(&target, u32::MAX, 0), last);
    let gaps = "\
        7ffffffe: 0x7ffffffe00000000\n\
        80000000: .byte 0x25\n\
        80000001: .byte 0xff\n\
        80000002: .byte 0x30\n";
    assert_eq!(listed(&moved(), (1 << 31) - 2, 0), gaps);
}

#[test]
fn faults() {
    let fault = |section, record| answer(1, [section, record, 0, 0]);
    let whole = bytes(&target());
    assert_eq!(check(&whole), answer(0, [0; 4]));
    assert_eq!(check(&whole[..whole.len() - 1]), fault(7, 65_535));
    assert_eq!(check(&[&whole[..], &[0]].concat()), fault(7, 65_535));
    let mut d = target();
    d.expressions[0].steps[2].value = 64;
    assert_eq!(check(&bytes(&d)), fault(7, 0));
    d = target();
    d.expressions.push(expression(&[]));
    assert_eq!(check(&bytes(&d)), fault(7, 1));
    d = target();
    d.expressions[0].steps[1].value = 2;
    assert_eq!(check(&bytes(&d)), fault(3, 0));
    d = target();
    d.operands[1] = operand(2, 1, 0, 0);
    assert_eq!(check(&bytes(&d)), fault(4, 1));
}
