//! Sweeps and listings at alignments above 1, on description S: 13 is "inc r3",
//! 1F "halt", 25 and a byte "add", 30 and 31 are nothing.

use generate::example::{branch, description_s, step, CODE};
use generate::{bytes, ALIGNMENTS, NO_ALIGNMENTS};
use reference::Alignment::{self, Eight, Four, One, Two};
use reference::{list, requests, sweep, End, Row, Step};

const NONE: i64 = 65_535;

/// The rows of a sweep with enough room, which uses the code up.
fn swept(alignment: Alignment, address: u32, code: &[u8]) -> Vec<Row> {
    let swept = sweep(&description_s(), 0, address, alignment, code, code.len());
    assert_eq!((swept.end, swept.next), (End::Used, code.len()));
    swept.rows
}

/// The end, how many rows and the next byte.
fn ends(alignment: Alignment, address: u32, code: &[u8], room: usize) -> (End, usize, usize) {
    let swept = sweep(&description_s(), 0, address, alignment, code, room);
    (swept.end, swept.rows.len(), swept.next)
}

/// The lines from a place on, with enough room.
fn lines(alignment: Alignment, address: u32, code: &[u8], from: u64) -> String {
    let listed = list(&description_s(), 0, address, alignment, code, from, 1000);
    assert_eq!((listed.next, listed.full), (code.len() as u64, false));
    String::from_utf8(listed.text).unwrap()
}

/// A gap to the next multiple, whatever the address is beyond its remainder.
#[test]
fn gaps_at_each_remainder() {
    let gaps: [(Alignment, u32, &[Row]); 14] = [
        (Two, 0, &[[0, 2, 3, NONE], [2, 2, 3, NONE], [4, 1, 3, NONE]]),
        (
            Two,
            1,
            &[[0, 1, 14, NONE], [1, 2, 3, NONE], [3, 2, 3, NONE]],
        ),
        (Four, 0, &[[0, 4, 3, NONE], [4, 1, 3, NONE]]),
        (Four, 1, &[[0, 3, 14, NONE], [3, 2, 3, NONE]]),
        (Four, 2, &[[0, 2, 14, NONE], [2, 3, 3, NONE]]),
        (Four, 3, &[[0, 1, 14, NONE], [1, 4, 3, NONE]]),
        (Eight, 0, &[[0, 5, 3, NONE]]),
        (Eight, 1, &[[0, 5, 14, NONE]]),
        (Eight, 2, &[[0, 5, 14, NONE]]),
        (Eight, 3, &[[0, 5, 14, NONE]]),
        (Eight, 4, &[[0, 4, 14, NONE], [4, 1, 3, NONE]]),
        (Eight, 5, &[[0, 3, 14, NONE], [3, 2, 3, NONE]]),
        (Eight, 6, &[[0, 2, 14, NONE], [2, 3, 3, NONE]]),
        (Eight, 7, &[[0, 1, 14, NONE], [1, 4, 3, NONE]]),
    ];
    for (alignment, remainder, rows) in gaps {
        for multiple in [0, 8, 0x1000, 1 << 31, u32::MAX - 7] {
            let found = swept(alignment, multiple + remainder, &[0x30; 5]);
            assert_eq!(found, rows, "{alignment:?}, {remainder}");
        }
    }
}

#[test]
fn gaps_cut_at_the_end() {
    for length in 1..=8 {
        let code = &[0x30; 8][..length];
        let cut = length as i64;
        assert_eq!(swept(Eight, 0, code), [[0, cut, 3, NONE]]);
        let fours = match length {
            ..=4 => vec![[0, cut, 3, NONE]],
            _ => vec![[0, 4, 3, NONE], [4, cut - 4, 3, NONE]],
        };
        assert_eq!(swept(Four, 0, code), fours);
    }
    for length in 1..=5 {
        let code = &[0x13; 8][..length];
        assert_eq!(swept(Eight, 3, code), [[0, length as i64, 14, NONE]]);
    }
}

/// An instruction is not stretched, so the next place may be no multiple.
#[test]
fn gaps_behind_instructions() {
    let code = [0x13, 0x13, 0x13, 0x13, 0x25, 0xfe, 0x1f, 0x1f];
    let twos = [
        [0, 1, 0, 1],
        [1, 1, 14, NONE],
        [2, 1, 0, 1],
        [3, 1, 14, NONE],
        [4, 2, 0, 2],
        [6, 1, 0, 3],
        [7, 1, 14, NONE],
    ];
    assert_eq!(swept(Two, 0, &code), twos);
    let fours = [
        [0, 1, 0, 1],
        [1, 3, 14, NONE],
        [4, 2, 0, 2],
        [6, 2, 14, NONE],
    ];
    assert_eq!(swept(Four, 0, &code), fours);
    assert_eq!(swept(Eight, 0, &code), [[0, 1, 0, 1], [1, 7, 14, NONE]]);
}

/// Multiples are of the address, not of the place.
#[test]
fn multiples_of_the_address() {
    let code = [0x13, 0x1f, 0x13];
    let odd = [[0, 1, 14, NONE], [1, 1, 0, 3], [2, 1, 14, NONE]];
    assert_eq!(swept(Two, 1, &code), odd);
    let even = [[0, 1, 0, 1], [1, 1, 14, NONE], [2, 1, 0, 1]];
    assert_eq!(swept(Two, 2, &code), even);
    assert_eq!(swept(Four, 2, &code), [[0, 2, 14, NONE], [2, 1, 0, 1]]);
}

/// Every place is a multiple of 1.
#[test]
fn alignment_1() {
    let rows = [[0, 1, 0, 1], [1, 1, 3, NONE], [2, 1, 0, 3]];
    for address in (0..8).chain([u32::MAX - 1, u32::MAX]) {
        assert_eq!(swept(One, address, &CODE[..3]), rows);
    }
}

/// Used, then full, then no multiple.
#[test]
fn the_order_of_ends() {
    assert_eq!(ends(Two, 0, &[0x13], 1), (End::Used, 1, 1));
    assert_eq!(ends(Two, 1, &[], 0), (End::Used, 0, 0));
    assert_eq!(ends(Two, 0, &[0x13, 0x30], 1), (End::Full, 1, 1));
    assert_eq!(ends(Two, 1, &[0x30], 0), (End::Full, 0, 0));
    assert_eq!(ends(Two, 0, &[0x13, 0x30], 2), (End::Used, 2, 2));
    // A gap that reaches to the end leaves nothing to be full at.
    assert_eq!(ends(Eight, 0, &[0x30; 8], 1), (End::Used, 1, 8));
    assert_eq!(ends(Eight, 0, &[0x30; 9], 1), (End::Full, 1, 8));
}

/// A place that is no multiple is never short.
#[test]
fn no_multiple_before_short() {
    assert_eq!(swept(Two, 1, &[0x25]), [[0, 1, 14, NONE]]);
    assert_eq!(
        swept(Two, 0, &[0x13, 0x25]),
        [[0, 1, 0, 1], [1, 1, 14, NONE]]
    );
    // A gap takes what would be short.
    assert_eq!(swept(Two, 0, &[0x30, 0x25]), [[0, 2, 3, NONE]]);
    for alignment in [One, Two, Four, Eight] {
        assert_eq!(ends(alignment, 8, &[0x25], 1), (End::Short, 0, 0));
    }
    assert_eq!(ends(Two, 0, &[0x13, 0x30, 0x25], 9), (End::Short, 2, 2));
    assert_eq!(
        ends(Four, 1, &[0x13, 0x13, 0x13, 0x25], 9),
        (End::Short, 1, 3)
    );
}

/// No address wraps.
#[test]
fn addresses_above_32_bits() {
    let code = [0x30, 0x13, 0x30, 0x30, 0x30, 0x30, 0x30, 0x30, 0x30, 0x1f];
    let rows = [
        [0, 1, 14, NONE],
        [1, 1, 0, 1],
        [2, 7, 14, NONE],
        [9, 1, 0, 3],
    ];
    assert_eq!(swept(Eight, u32::MAX, &code), rows);
    let shown = "\
        ffffffff: .byte 0x30\n\
        100000000: inc r3\n\
        100000001: .byte 0x30, 0x30, 0x30, 0x30, 0x30, 0x30, 0x30\n\
        100000008: halt\n";
    assert_eq!(lines(Eight, u32::MAX, &code, 0), shown);
}

/// A value that is outside makes a gap like others.
#[test]
fn gaps_of_computed_values() {
    let d = branch(&[step(Step::ADDRESS, 0), step(Step::SHIFT_LEFT, 32)]);
    let code = [0x25, 0x00, 0x25, 0x00, 0x25, 0x00];
    let rows = |alignment| sweep(&d, 0, (1 << 31) - 2, alignment, &code, 9).rows;
    let twos = [[0, 2, 0, 0], [2, 2, 13, NONE], [4, 2, 13, NONE]];
    assert_eq!(rows(Two), twos);
    assert_eq!(rows(Four), [[0, 2, 14, NONE], [2, 4, 13, NONE]]);
}

#[test]
fn refused_alignments() {
    let s = bytes(&description_s());
    for number in NO_ALIGNMENTS {
        let refused = (12, [number.into(), 0, 0, 0]);
        for (code, lent) in [(&[][..], 0), (&[], 8), (&CODE, 0), (&CODE, 8)] {
            let mut rows = [77; 8];
            let answer = requests::sweep(&s, 0, 0, number, code, &mut rows[..lent]);
            assert_eq!((answer.number_and_values(), rows), (refused, [77; 8]));
            for from in [0, 1, 4, 5, u64::MAX] {
                let mut text = [b'~'; 8];
                let answer = requests::list(&s, 0, 0, number, code, from, &mut text[..lent]);
                assert_eq!((answer.number_and_values(), text), (refused, [b'~'; 8]));
            }
        }
        // The description comes first.
        let malformed = (1, [6, 65_535, 0, 0]);
        let answer = requests::sweep(&s[..215], 0, 0, number, &CODE, &mut []);
        assert_eq!(answer.number_and_values(), malformed);
        let answer = requests::list(&s[..215], 0, 0, number, &CODE, 0, &mut []);
        assert_eq!(answer.number_and_values(), malformed);
    }
}

#[test]
fn no_code() {
    let s = bytes(&description_s());
    for alignment in ALIGNMENTS {
        for address in 0..8 {
            let answer = requests::sweep(&s, 0, address, alignment, &[], &mut []);
            assert_eq!(answer.number_and_values(), (0, [0; 4]));
            let answer = requests::list(&s, 0, address, alignment, &[], 0, &mut []);
            assert_eq!(answer.number_and_values(), (0, [0; 4]));
        }
    }
}

/// A gap's line shows all its bytes.
#[test]
fn lines_of_gaps() {
    let code = [0x30, 0x31, 0x13, 0x25];
    let ones = "\
        00000000: .byte 0x30\n\
        00000001: .byte 0x31\n\
        00000002: inc r3\n\
        00000003: .short\n";
    assert_eq!(lines(One, 0, &code, 0), ones);
    let twos = "\
        00000000: .byte 0x30, 0x31\n\
        00000002: inc r3\n\
        00000003: .byte 0x25\n";
    assert_eq!(lines(Two, 0, &code, 0), twos);
    let odd = "\
        00000001: .byte 0x30\n\
        00000002: .byte 0x31, 0x13\n\
        00000004: .short\n";
    assert_eq!(lines(Two, 1, &code, 0), odd);
    let fours = "00000000: .byte 0x30, 0x31, 0x13, 0x25\n";
    assert_eq!(lines(Four, 0, &code, 0), fours);
    assert_eq!(lines(Eight, 0, &code, 0), fours);
    // Two digits always.
    let digits = "00000000: .byte 0x00, 0x0f\n";
    assert_eq!(lines(Two, 0, &[0x00, 0x0f], 0), digits);
}

#[test]
fn lines_from_any_place() {
    let code = [0x30; 8];
    let fours = ".byte 0x30, 0x30, 0x30, 0x30\n";
    let whole = format!("00000000: {fours}00000004: {fours}");
    assert_eq!(lines(Four, 0, &code, 0), whole);
    let inside = format!("00000003: .byte 0x30\n00000004: {fours}");
    assert_eq!(lines(Four, 0, &code, 3), inside);
    assert_eq!(lines(Four, 0, &code, 6), "00000006: .byte 0x30, 0x30\n");
    assert_eq!(lines(Four, 1, &code, 7), "00000008: .byte 0x30\n");
}

/// The next place is the gap's end, or that of the line which did not fit.
#[test]
fn rooms_of_gaps() {
    let line = "00000000: .byte 0x30, 0x30, 0x30, 0x30, 0x30, 0x30, 0x30, 0x30\n";
    let listed = |room| {
        let listed = list(&description_s(), 0, 0, Eight, &[0x30; 9], 0, room);
        (listed.text, listed.lines, listed.next, listed.full)
    };
    assert_eq!(listed(62), (vec![], 0, 0, true));
    assert_eq!(listed(63), (line.into(), 1, 8, true));
    let both = format!("{line}00000008: .byte 0x30\n");
    assert_eq!(listed(84), (both.into(), 2, 9, false));
}
