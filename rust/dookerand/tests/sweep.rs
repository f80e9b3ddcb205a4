//! Sweeps through the C face, on description S and with parts of it changed.

use std::path::Path;

use dookerand::{sweep, Answer};
use generate::example::{description_s, field, name};
use generate::{bytes, with_rows, Rng};

const USED: u64 = 0;
const FULL: u64 = 1;
const SHORT: u64 = 2;

/// An instruction, a gap, an instruction, and one whose end is missing.
const CODE: [u8; 4] = [0x13, 0x30, 0x1f, 0x25];
const ROWS: [[i64; 4]; 3] = [[0, 1, 0, 1], [1, 1, 3, 65_535], [2, 1, 0, 3]];

/// More numbers than the sweeps here fill.
const MOST: usize = 100;

fn s() -> Vec<u8> {
    let manifest = Path::new(env!("CARGO_MANIFEST_DIR"));
    std::fs::read(manifest.join("../../examples/s.description")).unwrap()
}

fn answer(number: u32, values: [u64; 4]) -> Answer {
    Answer { number, values }
}

/// What the numbers are before a call: each another, and none that a row has.
fn untouched() -> [i64; MOST] {
    std::array::from_fn(|i| i64::MAX - i as i64)
}

/// Sweeps with the first so many numbers lent. All of them come back.
fn swept(description: &[u8], code: &[u8], lent: usize) -> (Answer, [i64; MOST]) {
    let mut rows = untouched();
    let answer = sweep(description, 0, 0, 1, code, &mut rows[..lent]);
    (answer, rows)
}

/// These rows are written, and nothing behind them.
fn gives(description: &[u8], code: &[u8], lent: usize, (end, rows, next): (u64, &[[i64; 4]], u64)) {
    let mut written = untouched();
    written[..4 * rows.len()].copy_from_slice(rows.as_flattened());
    let expected = answer(0, [end, rows.len() as u64, next, 0]);
    assert_eq!(swept(description, code, lent), (expected, written));
}

/// The three ends, by the room and by where the code is cut.
#[test]
fn ends() {
    gives(&s(), &CODE, MOST, (SHORT, &ROWS, 3));
    gives(&s(), &CODE[..3], MOST, (USED, &ROWS, 3));
    gives(&s(), &CODE[..2], MOST, (USED, &ROWS[..2], 2));
    gives(&s(), &CODE, 8, (FULL, &ROWS[..2], 2));
    gives(&s(), &CODE[..3], 8, (FULL, &ROWS[..2], 2));
}

/// Fewer than four numbers are no row.
#[test]
fn rests() {
    for lent in 0..=MOST {
        let expected = match lent / 4 {
            room @ ..=3 => (FULL, &ROWS[..room], room as u64),
            _ => (SHORT, &ROWS[..], 3),
        };
        gives(&s(), &CODE, lent, expected);
    }
}

/// Used comes before full, and full before short.
#[test]
fn the_order_of_ends() {
    for rest in 0..4 {
        gives(&s(), &CODE[..3], 12 + rest, (USED, &ROWS, 3));
        gives(&s(), &CODE, 12 + rest, (FULL, &ROWS, 3));
        gives(&s(), &[0x25], rest, (FULL, &[], 0));
        gives(&s(), &[0x25], 4 + rest, (SHORT, &[], 0));
    }
}

#[test]
fn no_code() {
    for lent in 0..=MOST {
        gives(&s(), &[], lent, (USED, &[], 0));
    }
}

#[test]
fn lengths() {
    let code = [0x25, 0xfe, 0x21, 0x80, 0x1f];
    let rows = [[0, 2, 0, 2], [2, 2, 0, 2], [4, 1, 0, 3]];
    gives(&s(), &code, MOST, (USED, &rows, 5));
    gives(&s(), &code, 8, (FULL, &rows[..2], 4));
    gives(&s(), &code[..3], MOST, (SHORT, &rows[..1], 2));
}

/// The next instruction starts one byte behind a gap, not behind what was
/// looked at.
#[test]
fn gaps() {
    let mut crossing = description_s();
    crossing.constructors[2].pattern.byte_mask = 0x0f;
    crossing.constructors[2].pattern.byte_value = 0x01;
    let rows = [[0, 1, 4, 65_535], [1, 1, 4, 65_535], [2, 1, 0, 1]];
    let code = [0x11, 0x11, 0x12];
    gives(&bytes(&crossing), &code, MOST, (USED, &rows, 3));

    let mut empty = description_s();
    empty.constructors[3].minimum_length = 0;
    empty.constructors[3].pattern.byte_mask = 0;
    empty.constructors[3].pattern.byte_value = 0;
    let rows = [[0, 1, 8, 65_535], [1, 1, 0, 1], [2, 1, 8, 65_535]];
    gives(&bytes(&empty), &[0x1, 0x13, 0x1], MOST, (USED, &rows, 3));

    // The inner constructor would end at 17. Without its field it is short.
    let mut far = description_s();
    far.constructors[0].minimum_length = 16;
    let rows: [_; 19] = std::array::from_fn(|start| [start as i64, 1, 6, 65_535]);
    gives(&bytes(&far), &[0x25; 20], MOST, (SHORT, &rows, 19));
}

#[test]
fn gaps_at_holes() {
    let mut d = description_s();
    d.fields[0] = field(0, 1, 0, 0, 3, 4);
    d.names = (1..=16).map(|length| name(0, length)).collect();
    d.names[3].length = 0;
    let rows = [[0, 1, 5, 65_535], [1, 1, 0, 1], [2, 1, 5, 65_535]];
    let code = [0x13, 0x14, 0x23, 0x25];
    gives(&bytes(&d), &code, MOST, (SHORT, &rows, 3));
}

#[test]
fn gaps_of_too_many_rows() {
    let description = bytes(&with_rows(&mut Rng::new(1), 33));
    let (answer, rows) = swept(&description, &[0; 20], 8);
    assert_eq!(answer.values, [FULL, 2, 2, 0]);
    assert_eq!(rows[..8], [0, 1, 7, 65_535, 1, 1, 7, 65_535]);
}

#[test]
fn malformed() {
    let mut longer = s();
    longer.push(b' ');
    for lent in [0, 3, 4, MOST] {
        for code in [&[][..], &CODE] {
            let refused = |section| (answer(1, [section, 65_535, 0, 0]), untouched());
            assert_eq!(swept(&s()[..215], code, lent), refused(6));
            assert_eq!(swept(&longer, code, lent), refused(7));
            assert_eq!(swept(&[], code, lent), refused(1));
        }
    }
}

#[test]
fn the_context() {
    let mut d = description_s();
    d.constructors[3].pattern.context_mask = 1 << 31;
    d.constructors[3].pattern.context_value = 1 << 31;
    let taken = |context| {
        let mut rows = [0; 8];
        let answer = sweep(&bytes(&d), context, 0, 1, &[0x1f, 0x1f], &mut rows);
        assert_eq!(answer.values, [USED, 2, 2, 0]);
        [rows[3], rows[7]]
    };
    assert_eq!(taken(1 << 31), [3, 3]);
    assert_eq!(taken(1), [1, 1]);
}
