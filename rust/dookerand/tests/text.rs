//! Decoding to text through the C face, on description S and with parts of it
//! changed.

use std::path::Path;

use dookerand::{text, Answer};
use generate::example::{description_s, field, literal, name, shown};
use generate::{bytes, with_rows, Rng};

use Shown::{Operand, Xs};

const INC: usize = 1;
const ADD: usize = 2;
const HALT: usize = 3;

/// More bytes than any text has.
const MOST: usize = 300;

fn s() -> Vec<u8> {
    let manifest = Path::new(env!("CARGO_MANIFEST_DIR"));
    std::fs::read(manifest.join("../../examples/s.description")).unwrap()
}

fn answer(number: u32, values: [u64; 4]) -> Answer {
    Answer { number, values }
}

/// What the bytes are before a call: none that a text has.
fn untouched() -> [u8; MOST] {
    std::array::from_fn(|i| 0x80 | i as u8)
}

/// Decodes with the first so many bytes lent. All of them come back.
fn decoded(description: &[u8], code: &[u8], lent: usize) -> (Answer, [u8; MOST]) {
    let mut bytes = untouched();
    let answer = text(description, 0, 0, code, &mut bytes[..lent]);
    (answer, bytes)
}

/// This text is written if there is room for it, and nothing behind it.
fn writes(description: &[u8], code: &[u8], text: &str) {
    let mut written = untouched();
    written[..text.len()].copy_from_slice(text.as_bytes());
    let done = answer(0, [text.len() as u64, 0, 0, 0]);
    for lent in [text.len(), text.len() + 1, 256, MOST] {
        assert_eq!(decoded(description, code, lent), (done, written));
    }
    let too_short = answer(9, [0; 4]);
    for lent in 0..text.len() {
        let unwritten = (too_short, untouched());
        assert_eq!(decoded(description, code, lent), unwritten);
    }
}

/// Nothing is written.
fn refuses(description: &[u8], code: &[u8], refusal: Answer) {
    for lent in [0, 1, 6, 255, 256, MOST] {
        assert_eq!(decoded(description, code, lent), (refusal, untouched()));
    }
}

#[test]
fn worked_texts() {
    writes(&s(), &[0x13], "inc r3");
    writes(&s(), &[0x1f], "halt");
    writes(&s(), &[0x25, 0xfe], "add r5, -0x2");
    writes(&s(), &[0x25, 0x80], "add r5, -0x80");
    writes(&s(), &[0x25, 0x7f], "add r5, 0x7f");
    writes(&s(), &[0x25, 0x00], "add r5, 0x0");
    // What follows the instruction is not looked at.
    writes(&s(), &[0x25, 0xfe, 0x30], "add r5, -0x2");
}

#[test]
fn refused() {
    refuses(&s(), &[0x25], answer(2, [1, 0, 0, 0]));
    refuses(&s(), &[], answer(2, [0; 4]));
    refuses(&s(), &[0x30], answer(3, [0, 1, 0, 0]));
}

#[test]
fn malformed() {
    let mut longer = s();
    longer.push(b' ');
    for code in [&[][..], &[0x13], &[0x30]] {
        refuses(&s()[..215], code, answer(1, [6, 65_535, 0, 0]));
        refuses(&longer, code, answer(1, [7, 65_535, 0, 0]));
        refuses(&[], code, answer(1, [1, 65_535, 0, 0]));
    }
}

#[test]
fn ambiguous_far_and_empty() {
    let mut crossing = description_s();
    crossing.constructors[ADD].pattern.byte_mask = 0x0f;
    crossing.constructors[ADD].pattern.byte_value = 0x01;
    refuses(&bytes(&crossing), &[0x11], answer(4, [0, 1, 0, 0]));
    // The inner constructor would end at 17.
    let mut far = description_s();
    far.constructors[0].minimum_length = 16;
    refuses(&bytes(&far), &[0x25; 20], answer(6, [1, 0, 0, 0]));
    let mut empty = description_s();
    empty.constructors[HALT].minimum_length = 0;
    empty.constructors[HALT].pattern.byte_mask = 0;
    empty.constructors[HALT].pattern.byte_value = 0;
    refuses(&bytes(&empty), &[0x30], answer(8, [0; 4]));
}

#[test]
fn too_many_rows() {
    let description = bytes(&with_rows(&mut Rng::new(1), 33));
    refuses(&description, &[0; 16], answer(7, [0; 4]));
}

/// What a piece shows.
#[derive(Clone, Copy)]
enum Shown {
    /// The letter x, so many times.
    Xs(u8),
    Operand(u8),
}

/// S, with other pieces of a constructor.
fn showing<const N: usize>(constructor: usize, pieces: [Shown; N]) -> Vec<u8> {
    let mut d = description_s();
    let xs = d.text.len() as u16;
    d.text.extend([b'x'; 255]);
    d.constructors[constructor].first_piece = d.pieces.len() as u16;
    d.constructors[constructor].piece_count = N as u8;
    d.pieces.extend(pieces.map(|piece| match piece {
        Shown::Xs(count) => literal(xs, count),
        Shown::Operand(n) => shown(n),
    }));
    bytes(&d)
}

/// 256 bytes are shown, one more is not, whatever the room.
#[test]
fn long_texts() {
    let too_long = answer(10, [0; 4]);
    let xs = |count| "x".repeat(count);
    writes(&showing(HALT, [Xs(255)]), &[0x1f], &xs(255));
    writes(&showing(HALT, [Xs(255), Xs(1)]), &[0x1f], &xs(256));
    refuses(&showing(HALT, [Xs(255), Xs(2)]), &[0x1f], too_long);
    refuses(&showing(HALT, [Xs(255); 16]), &[0x1f], too_long);
}

/// A number may fill the last bytes, and one that doesn't fit is not cut.
#[test]
fn long_texts_with_a_number() {
    let too_long = answer(10, [0; 4]);
    let xs = |count| "x".repeat(count);
    writes(
        &showing(INC, [Xs(255), Operand(1)]),
        &[0x13],
        &(xs(255) + "3"),
    );
    refuses(&showing(INC, [Xs(255), Operand(1)]), &[0x1a], too_long);
    refuses(
        &showing(INC, [Xs(255), Xs(1), Operand(1)]),
        &[0x13],
        too_long,
    );
    // The inner constructor's.
    let inner = |count| showing(ADD, [Xs(count), Operand(2)]);
    writes(&inner(252), &[0x25, 0xfe], &(xs(252) + "-0x2"));
    writes(&inner(253), &[0x25, 0x02], &(xs(253) + "0x2"));
    for count in 253..=255 {
        refuses(&inner(count), &[0x25, 0xfe], too_long);
    }
}

#[test]
fn operands_in_another_order() {
    let turned = showing(ADD, [Operand(2), Xs(1), Operand(1)]);
    writes(&turned, &[0x25, 0xfe], "-0x2x5");
    let together = showing(ADD, [Operand(2), Operand(1)]);
    writes(&together, &[0x21, 0x80], "-0x801");
}

/// Operands that are not shown are decoded all the same.
#[test]
fn invisible_operands() {
    let invisible = showing(ADD, [Xs(2), Operand(1)]);
    writes(&invisible, &[0x25, 0xfe], "xx5");
    refuses(&invisible, &[0x25], answer(2, [1, 0, 0, 0]));
    writes(&showing(ADD, [Xs(2)]), &[0x25, 0xfe], "xx");
}

/// No text needs no room.
#[test]
fn no_pieces() {
    writes(&showing(HALT, []), &[0x1f], "");
    writes(&showing(ADD, []), &[0x25, 0xfe], "");
    refuses(&showing(ADD, []), &[0x25], answer(2, [1, 0, 0, 0]));
}

/// S, whose registers have names: "i", "in", "inc" and so on, but r3 has none.
fn with_names() -> Vec<u8> {
    let mut d = description_s();
    d.fields[0] = field(0, 1, 0, 0, 3, 4);
    d.names = (1..=16).map(|length| name(0, length)).collect();
    d.names[3].length = 0;
    bytes(&d)
}

#[test]
fn names_and_a_hole() {
    writes(&with_names(), &[0x10], "inc ri");
    writes(&with_names(), &[0x22, 0xff], "add rinc, -0x1");
    refuses(&with_names(), &[0x13], answer(5, [0; 4]));
}

#[test]
fn the_context() {
    let mut d = description_s();
    d.constructors[HALT].pattern.context_mask = 1 << 31;
    d.constructors[HALT].pattern.context_value = 1 << 31;
    let mut lent = [0; 7];
    let done = |length| answer(0, [length, 0, 0, 0]);
    assert_eq!(text(&bytes(&d), 1 << 31, 0, &[0x1f], &mut lent), done(4));
    assert_eq!(&lent, b"halt\0\0\0");
    assert_eq!(text(&bytes(&d), 1, 0, &[0x1f], &mut lent), done(7));
    assert_eq!(&lent, b"inc r15");
}
