//! The rules of sections 5 and 6.

use reference::{Description, Fault, Piece};

use super::{fault, give_pieces, lengthen_text, some_constructor, Rule};
use crate::example::{literal, shown};
use crate::write::LIMITS;
use crate::Rng;

pub const RULES: &[Rule] = &[
    ("piece kind", kind),
    ("piece kind, used, no operand's n", kind_with_any_n),
    ("text piece of no bytes", literal_empty),
    ("text piece past text", literal_past),
    ("text piece far past text", literal_far),
    ("operand piece offset", shown_offset),
    ("operand piece offset, unused", shown_offset_unused),
    ("text byte", text_byte),
];

/// Some record, which users may have or not.
fn some_record(d: &mut Description, rng: &mut Rng) -> usize {
    if d.pieces.is_empty() {
        d.pieces.push(shown(1));
    }
    rng.below(d.pieces.len())
}

fn kind(d: &mut Description, rng: &mut Rng) -> Option<Fault> {
    let record = some_record(d, rng);
    d.pieces[record].kind = rng.pick(&[2, 2, 3, 255]);
    fault(5, record)
}

/// A piece of unknown kind shows no operand, so its user is sound.
fn kind_with_any_n(d: &mut Description, rng: &mut Rng) -> Option<Fault> {
    let user = some_constructor(d, rng);
    let unknown = Piece {
        kind: rng.pick(&[2, 2, 3, 255]),
        n: rng.pick(&[0, 9, 255]),
        text_offset: 0,
    };
    let first = d.pieces.len();
    give_pieces(d, user, &[unknown, unknown])?;
    fault(5, first)
}

fn literal_empty(d: &mut Description, rng: &mut Rng) -> Option<Fault> {
    let record = some_record(d, rng);
    let offset = rng.within(0..=d.text.len());
    d.pieces[record] = literal(offset as u16, 0);
    fault(5, record)
}

fn literal_past(d: &mut Description, rng: &mut Rng) -> Option<Fault> {
    let record = some_record(d, rng);
    let past = d.text.len() + 1;
    let length = rng.within(1..=past.min(255));
    d.pieces[record] = literal((past - length) as u16, length as u8);
    fault(5, record)
}

/// So far that the sum doesn't fit two bytes.
fn literal_far(d: &mut Description, rng: &mut Rng) -> Option<Fault> {
    let record = some_record(d, rng);
    let length = rng.byte_within(1..=255);
    let offset = 65_536 - rng.within(1..=usize::from(length));
    d.pieces[record] = literal(offset as u16, length);
    fault(5, record)
}

fn shown_offset(d: &mut Description, rng: &mut Rng) -> Option<Fault> {
    let record = rng.index_where(d.pieces.len(), |i| d.pieces[i].kind == Piece::OPERAND)?;
    d.pieces[record].text_offset = rng.pick(&[1, 1, 255, 256, 65_535]);
    fault(5, record)
}

fn shown_offset_unused(d: &mut Description, rng: &mut Rng) -> Option<Fault> {
    let mut unused = shown(rng.byte());
    unused.text_offset = rng.pick(&[1, 256]);
    d.pieces.push(unused);
    let last = d.pieces.len() - 1;
    (last < LIMITS[4]).then_some(())?;
    fault(5, last)
}

fn text_byte(d: &mut Description, rng: &mut Rng) -> Option<Fault> {
    lengthen_text(d, rng, 1);
    let record = match rng.below(3) {
        0 => 0,
        1 => d.text.len() - 1,
        _ => rng.below(d.text.len()),
    };
    d.text[record] = rng.pick(&[0, 9, 10, 31, 31, 127, 127, 128, 160, 255]);
    fault(6, record)
}
