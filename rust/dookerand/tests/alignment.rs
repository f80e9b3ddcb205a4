//! Alignments through the C face, on description S: 13 is "inc r3", 1F "halt",
//! 25 and a byte "add", 30 and 31 are nothing.

use std::path::Path;

use dookerand::{list, list_answer, sweep, Answer, Listing, LINE};
use generate::example::CODE;
use generate::NO_ALIGNMENTS;

const USED: u64 = 0;
const FULL: u64 = 1;
const SHORT: u64 = 2;

const NONE: i64 = 65_535;

/// More numbers or bytes than are written here.
const MOST: usize = 200;

fn s() -> Vec<u8> {
    let manifest = Path::new(env!("CARGO_MANIFEST_DIR"));
    std::fs::read(manifest.join("../../examples/s.description")).unwrap()
}

fn answer(number: u32, values: [u64; 4]) -> Answer {
    Answer { number, values }
}

/// A sweep with room for so many rows ends so, has these rows and this next
/// byte, and writes nothing else.
fn gives(
    (address, alignment, code): (u32, u32, &[u8]),
    room: usize,
    (end, rows, next): (u64, &[[i64; 4]], u64),
) {
    let mut lent = [77; MOST];
    let found = sweep(&s(), 0, address, alignment, code, &mut lent[..4 * room]);
    let mut written = [77; MOST];
    written[..4 * rows.len()].copy_from_slice(rows.as_flattened());
    let expected = answer(0, [end, rows.len() as u64, next, 0]);
    let request = format!("{address:#x}, {alignment}, {code:x?}, {room}");
    assert_eq!((found, lent), (expected, written), "{request}");
}

/// The lines from a place on, of which nothing is left.
fn listed(address: u32, alignment: u32, code: &[u8], from: u64) -> String {
    let mut lent = [b'~'; MOST];
    let found = list(&s(), 0, address, alignment, code, from, &mut lent);
    let Listing::Listed {
        bytes, next, full, ..
    } = found
    else {
        panic!("{found:?}");
    };
    assert_eq!((next, full), (code.len() as u64, false));
    assert!(lent[bytes..].iter().all(|&byte| byte == b'~'));
    String::from_utf8(lent[..bytes].to_vec()).unwrap()
}

/// From each remainder to the next multiple, then from there to the end.
#[test]
fn gaps() {
    for alignment in [2, 4, 8] {
        for multiple in [0, 8, u32::MAX - 7] {
            gives(
                (multiple, alignment, &[0x30]),
                9,
                (USED, &[[0, 1, 3, NONE]], 1),
            );
            for remainder in 1..alignment {
                let first = i64::from(alignment - remainder);
                let rows = [[0, first, 14, NONE], [first, 1, 3, NONE]];
                let (both, alone) = (first as usize + 1, first as usize);
                let given = |length| (multiple + remainder, alignment, &[0x30; 8][..length]);
                gives(given(both), 9, (USED, &rows, both as u64));
                gives(given(alone), 9, (USED, &rows[..1], alone as u64));
                // Cut at the end.
                gives(given(1), 9, (USED, &[[0, 1, 14, NONE]], 1));
            }
        }
    }
    gives(
        (0, 8, &[0x30; 9]),
        9,
        (USED, &[[0, 8, 3, NONE], [8, 1, 3, NONE]], 9),
    );
}

/// An instruction is not stretched.
#[test]
fn gaps_behind_instructions() {
    let code = [0x13, 0x13, 0x13, 0x13, 0x25, 0xfe, 0x1f, 0x1f];
    let rows = [
        [0, 1, 0, 1],
        [1, 3, 14, NONE],
        [4, 2, 0, 2],
        [6, 2, 14, NONE],
    ];
    gives((0, 4, &code), 9, (USED, &rows, 8));
    gives(
        (0, 8, &code),
        9,
        (USED, &[[0, 1, 0, 1], [1, 7, 14, NONE]], 8),
    );
}

/// Used, full, no multiple, short.
#[test]
fn the_order_of_tests() {
    let rows = [[0, 1, 0, 1], [1, 1, 14, NONE]];
    gives((0, 2, &[0x13]), 1, (USED, &rows[..1], 1));
    gives((0, 2, &[0x13, 0x25]), 1, (FULL, &rows[..1], 1));
    gives((0, 2, &[0x13, 0x25]), 2, (USED, &rows, 2));
    gives((0, 2, &[0x13, 0x25, 0x25]), 9, (SHORT, &rows, 2));
    gives((1, 2, &[0x25]), 0, (FULL, &[], 0));
    gives((1, 2, &[0x25]), 1, (USED, &[[0, 1, 14, NONE]], 1));
    gives((1, 2, &[]), 0, (USED, &[], 0));
}

#[test]
fn addresses_above_32_bits() {
    let code = [0x30, 0x13, 0x30];
    let rows = [[0, 1, 14, NONE], [1, 1, 0, 1], [2, 1, 14, NONE]];
    gives((u32::MAX, 8, &code), 9, (USED, &rows, 3));
    let lines = "ffffffff: .byte 0x30\n100000000: inc r3\n100000001: .byte 0x30\n";
    assert_eq!(listed(u32::MAX, 8, &code, 0), lines);
}

#[test]
fn lines_of_gaps() {
    let code = [0x30, 0x31, 0x13, 0x25];
    let twos = "00000000: .byte 0x30, 0x31\n00000002: inc r3\n00000003: .byte 0x25\n";
    assert_eq!(listed(0, 2, &code, 0), twos);
    assert_eq!(
        listed(0, 2, &code, 1),
        format!("00000001: .byte 0x31\n{}", &twos[27..])
    );
    let odd = "00000001: .byte 0x30\n00000002: .byte 0x31, 0x13\n00000004: .short\n";
    assert_eq!(listed(1, 2, &code, 0), odd);
    let fours = "00000000: .byte 0x30, 0x31, 0x13, 0x25\n";
    assert_eq!(listed(0, 4, &code, 0), fours);
    let eight = "00000008: .byte 0x00, 0x0f, 0x30, 0x30, 0x30, 0x30, 0x30, 0x30\n";
    let code = [0x00, 0x0f, 0x30, 0x30, 0x30, 0x30, 0x30, 0x30];
    assert_eq!(listed(8, 8, &code, 0), eight);
    let listed = |lent: usize| list_answer(&s(), 0, 8, 8, &code, 0, &mut vec![0; lent]);
    assert_eq!(listed(eight.len()), answer(0, [63, 1, 8, 0]));
    assert_eq!(listed(eight.len() - 1), answer(0, [0, 0, 0, 1]));
}

#[test]
fn refused() {
    for number in NO_ALIGNMENTS {
        let refused = answer(12, [number.into(), 0, 0, 0]);
        for (code, lent) in [(&[][..], 0), (&[], LINE), (&CODE, 0), (&CODE, LINE)] {
            let mut rows = [77; LINE];
            let found = sweep(&s(), 0, 0, number, code, &mut rows[..lent]);
            assert_eq!((found, rows), (refused, [77; LINE]));
            for from in [0, 4, u64::MAX] {
                let mut text = [b'~'; LINE];
                let found = list_answer(&s(), 0, 0, number, code, from, &mut text[..lent]);
                assert_eq!((found, text), (refused, [b'~'; LINE]));
                let found = list(&s(), 0, 0, number, code, from, &mut text[..lent]);
                assert_eq!(found, Listing::NoAlignment { number });
            }
        }
        // The description comes first.
        let malformed = answer(1, [6, 65_535, 0, 0]);
        let description = &s()[..215];
        assert_eq!(sweep(description, 0, 0, number, &CODE, &mut []), malformed);
        let found = list_answer(description, 0, 0, number, &CODE, 0, &mut []);
        assert_eq!(found, malformed);
    }
}
