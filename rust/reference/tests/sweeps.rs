//! Ends and gaps of sweeps, on description S and with parts of it changed.

use generate::bytes;
use generate::example::{description_s, field, literal, name};
use reference::Alignment::One;
use reference::{decode_text, requests, sweep, Description, End, Refusal};

fn ends(code: &[u8], room: usize) -> (usize, usize, End) {
    let swept = sweep(&description_s(), 0, 0, One, code, room);
    (swept.rows.len(), swept.next, swept.end)
}

/// Used comes before full, and full before short.
#[test]
fn ends_that_meet() {
    assert_eq!(ends(&[0x13, 0x1f], 2), (2, 2, End::Used));
    assert_eq!(ends(&[0x13, 0x25], 1), (1, 1, End::Full));
    assert_eq!(ends(&[0x13, 0x25], 2), (1, 1, End::Short));
    assert_eq!(ends(&[0x25], 0), (0, 0, End::Full));
    assert_eq!(ends(&[0x25], 1), (0, 0, End::Short));
    assert_eq!(ends(&[], 0), (0, 0, End::Used));
}

/// The answers of the rows, with enough room.
fn answers(d: &Description, code: &[u8]) -> Vec<i64> {
    let swept = sweep(d, 0, 0, One, code, code.len());
    for row in swept.rows.iter().filter(|row| row[2] != 0) {
        assert_eq!((row[1], row[3]), (1, 65_535));
    }
    swept.rows.iter().map(|row| row[2]).collect()
}

#[test]
fn gaps() {
    let mut d = description_s();
    assert_eq!(answers(&d, &[0x30, 0x13, 0x40]), [3, 0, 3]);
    // Registers by names, of which r3 has none.
    d.fields[0] = field(0, 1, 0, 0, 3, 4);
    d.names = (1..=16).map(|length| name(0, length)).collect();
    d.names[3].length = 0;
    assert_eq!(answers(&d, &[0x13, 0x14, 0x23]), [5, 0, 5]);
    // The inner constructor would end at 17.
    d.constructors[0].minimum_length = 16;
    assert_eq!(answers(&d, &[0x24, 0x1f, 0x1f]), [6, 0, 0]);
    d.constructors[2].pattern.byte_mask = 0x0f;
    d.constructors[2].pattern.byte_value = 0x01;
    assert_eq!(answers(&d, &[0x11, 0x1f]), [4, 0]);
}

/// A text that is too long is no gap.
#[test]
fn long_texts() {
    let mut d = description_s();
    d.text = vec![b'x'; 255];
    d.constructors[3].first_piece = d.pieces.len() as u16;
    d.constructors[3].piece_count = 2;
    d.pieces.extend([literal(0, 255), literal(0, 2)]);
    assert_eq!(decode_text(&d, 0, 0, &[0x1f]), Err(Refusal::TextTooLong));
    assert_eq!(answers(&d, &[0x1f, 0x1f]), [0, 0]);
}

#[test]
fn lent_numbers() {
    let s = bytes(&description_s());
    let code = [0x13, 0x30, 0x25];
    let rows = [0, 1, 0, 1, 1, 1, 3, 65_535];
    for lent in 0..=16 {
        let mut numbers = [77; 16];
        let answer = requests::sweep(&s, 0, 0, 1, &code, &mut numbers[..lent]);
        let room = lent / 4;
        let (end, written) = if room < 3 { (1, room) } else { (2, 2) };
        let values = [end, written as u64, written as u64, 0];
        assert_eq!(answer.number_and_values(), (0, values));
        assert_eq!(numbers[..4 * written], rows[..4 * written]);
        assert_eq!(numbers[4 * written..], [77; 16][4 * written..]);
    }
    let mut numbers = [77; 16];
    let answer = requests::sweep(&s[..215], 0, 0, 1, &code, &mut numbers);
    assert_eq!(answer.number_and_values(), (1, [6, 65_535, 0, 0]));
    assert_eq!(numbers, [77; 16]);
}
