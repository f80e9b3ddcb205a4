//! Listing code through the C face, on description S and with parts of it
//! changed.

use std::path::Path;

use dookerand::{list, list_answer, Answer, Listing, LINE};
use generate::bytes;
use generate::example::{description_s, literal, CODE, LINES};

/// More bytes than are lent.
const MOST: usize = 300;

fn s() -> Vec<u8> {
    let manifest = Path::new(env!("CARGO_MANIFEST_DIR"));
    std::fs::read(manifest.join("../../examples/s.description")).unwrap()
}

/// What the bytes are before a call: none that a line has.
fn untouched() -> [u8; MOST] {
    std::array::from_fn(|i| 0x80 | i as u8)
}

/// These lines are written, and nothing behind them.
fn gives(
    (description, context, code): (&[u8], u32, &[u8]),
    from: u64,
    lent: usize,
    (lines, next, full): (&[&str], u64, bool),
) {
    let mut text = untouched();
    let found = list(description, context, 0, 1, code, from, &mut text[..lent]);
    let joined = lines.concat();
    let expected = Listing::Listed {
        bytes: joined.len(),
        lines: lines.len(),
        next,
        full,
    };
    assert_eq!(found, expected, "from {from}, {lent} lent");
    let mut written = untouched();
    written[..joined.len()].copy_from_slice(joined.as_bytes());
    assert_eq!(text, written, "from {from}, {lent} lent");
}

#[test]
fn every_room() {
    for from in 0..4 {
        for lent in 0..=100 {
            let fitting = (from..4)
                .take_while(|&last| LINES[from..=last].concat().len() <= lent)
                .count();
            let next = from + fitting;
            let expected = (&LINES[from..next], next as u64, next < 4);
            gives((&s(), 0, &CODE), from as u64, lent, expected);
        }
    }
}

#[test]
fn from_past_the_end() {
    for lent in [0, 1, LINE] {
        for from in [4, 5, 1 << 32, u64::MAX] {
            gives((&s(), 0, &CODE), from, lent, (&[], from, false));
        }
        gives((&s(), 0, &[]), 0, lent, (&[], 0, false));
    }
}

/// The next place is the code's end, however much is left of it.
#[test]
fn behind_a_short_one() {
    let mut d = description_s();
    d.constructors[3].minimum_length = 9;
    let d = bytes(&d);
    let code = [0x13, 0x1f, 0x13, 0x13];
    let short = "00000001: .short\n";
    gives((&d, 0, &code), 1, 17, (&[short], 4, false));
    gives((&d, 0, &code), 1, 16, (&[], 1, true));
    gives((&d, 0, &code), 0, 33, (&LINES[..1], 1, true));
}

#[test]
fn long_and_empty_texts() {
    let shows = |lengths: &[u8]| {
        let mut d = description_s();
        let xs = d.text.len() as u16;
        d.text.extend([b'x'; 255]);
        d.constructors[3].first_piece = d.pieces.len() as u16;
        d.constructors[3].piece_count = lengths.len() as u8;
        d.pieces.extend(lengths.iter().map(|&n| literal(xs, n)));
        bytes(&d)
    };
    let longest = format!("00000000: {}\n", "x".repeat(256));
    // Eight digits more would fit.
    assert_eq!(longest.len() + 8, LINE);
    let whole = (&[&longest[..]][..], 1, false);
    gives((&shows(&[255, 1]), 0, &[0x1f]), 0, LINE - 8, whole);
    gives((&shows(&[255, 1]), 0, &[0x1f]), 0, LINE - 9, (&[], 0, true));
    let long = (&["00000000: .long\n"][..], 1, false);
    gives((&shows(&[255, 2]), 0, &[0x1f]), 0, 16, long);
    let empty = (&["00000000: \n"][..], 1, false);
    gives((&shows(&[]), 0, &[0x1f]), 0, 11, empty);
}

#[test]
fn the_context() {
    let mut d = description_s();
    d.constructors[3].pattern.context_mask = 1 << 31;
    d.constructors[3].pattern.context_value = 1 << 31;
    let d = bytes(&d);
    let halt = ["00000000: halt\n"];
    gives((&d, 1 << 31, &[0x1f]), 0, 100, (&halt, 1, false));
    let inc = ["00000000: inc r15\n"];
    gives((&d, 1, &[0x1f]), 0, 100, (&inc, 1, false));
}

/// Far more code than the listing program takes.
#[test]
fn much_code() {
    let code = [0x1f; 70_000];
    let last = ["0001116e: halt\n", "0001116f: halt\n"];
    gives((&s(), 0, &code), 69_998, 30, (&last, 70_000, false));
    gives((&s(), 0, &code), 69_998, 29, (&last[..1], 69_999, true));
}

#[test]
fn malformed() {
    for lent in [0, 17, MOST] {
        for from in [0, 4, u64::MAX] {
            let mut text = untouched();
            let fault = Listing::Malformed {
                section: 6,
                record: 65_535,
            };
            let found = list(&s()[..215], 0, 0, 1, &CODE, from, &mut text[..lent]);
            assert_eq!((found, text), (fault, untouched()));
        }
    }
}

#[test]
fn numbers() {
    let numbers = |lent: usize| list_answer(&s(), 0, 0, 1, &CODE, 0, &mut vec![0; lent]);
    let answer = |values| Answer { number: 0, values };
    assert_eq!(numbers(70), answer([70, 4, 4, 0]));
    assert_eq!(numbers(69), answer([53, 3, 3, 1]));
    assert_eq!(numbers(16), answer([0, 0, 0, 1]));
}
