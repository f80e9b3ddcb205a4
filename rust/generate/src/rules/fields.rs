//! The rules of section 1.

use reference::{Description, Fault, Field, Name};

use super::{fault, Rule};
use crate::example::field;
use crate::Rng;

pub const RULES: &[Rule] = &[
    ("field source", source),
    ("field width 0", width_0),
    ("field width over 4", width_over),
    ("field order", order),
    ("context field width", context_width),
    ("context field order", context_order),
    ("field low above high", low_above_high),
    ("field high past width", high_past_width),
    ("context field high past width", context_high_past_width),
    ("field look", look),
    ("named field bits", named_bits),
    ("named field names present", named_present),
    ("named field first name far", named_far),
    ("other field first name", other_first_name),
];

/// Puts the field in some record's place.
fn put(d: &mut Description, rng: &mut Rng, field: Field) -> Option<Fault> {
    if d.fields.is_empty() {
        d.fields.push(field);
    }
    let record = rng.below(d.fields.len());
    d.fields[record] = field;
    fault(1, record)
}

fn plain_look(rng: &mut Rng) -> u8 {
    rng.byte_within(0..=3)
}

fn source(d: &mut Description, rng: &mut Rng) -> Option<Fault> {
    let source = rng.pick(&[2, 2, 3, 128, 255]);
    let look = plain_look(rng);
    put(d, rng, field(source, 4, 0, 0, 7, look))
}

fn width_0(d: &mut Description, rng: &mut Rng) -> Option<Fault> {
    put(d, rng, field(0, 0, 0, 0, 0, 0))
}

fn width_over(d: &mut Description, rng: &mut Rng) -> Option<Fault> {
    let width = rng.pick(&[5, 5, 6, 8, 31, 32, 33, 255]);
    let high = rng.byte_within(0..=7);
    put(d, rng, field(0, width, 0, 0, high, 0))
}

fn order(d: &mut Description, rng: &mut Rng) -> Option<Fault> {
    let width = rng.byte_within(1..=4);
    let order = rng.pick(&[2, 2, 3, 255]);
    put(d, rng, field(0, width, order, 0, 7, 0))
}

fn context_width(d: &mut Description, rng: &mut Rng) -> Option<Fault> {
    let width = rng.pick(&[0, 1, 2, 3, 3, 5, 5, 8, 36, 255]);
    let high = rng.byte_within(0..=7);
    put(d, rng, field(1, width, 0, 0, high, 0))
}

fn context_order(d: &mut Description, rng: &mut Rng) -> Option<Fault> {
    let order = rng.pick(&[1, 1, 2, 255]);
    put(d, rng, field(1, 4, order, 0, 31, 0))
}

fn low_above_high(d: &mut Description, rng: &mut Rng) -> Option<Fault> {
    let width = rng.byte_within(1..=4);
    let high = rng.byte_within(0..=8 * width - 1);
    let low = if rng.once_in(4) {
        rng.byte_within(high + 1..=255)
    } else {
        high + 1
    };
    let look = rng.byte_within(0..=4);
    put(d, rng, field(0, width, 0, low, high, look))
}

fn high_past_width(d: &mut Description, rng: &mut Rng) -> Option<Fault> {
    let width = rng.byte_within(1..=4);
    let high = if rng.once_in(4) {
        rng.byte_within(8 * width..=255)
    } else {
        8 * width
    };
    let low = rng.byte_within(0..=high);
    put(d, rng, field(0, width, 0, low, high, 0))
}

fn context_high_past_width(d: &mut Description, rng: &mut Rng) -> Option<Fault> {
    let high = rng.pick(&[32, 32, 33, 63, 255]);
    let low = rng.byte_within(0..=high);
    put(d, rng, field(1, 4, 0, low, high, 0))
}

fn look(d: &mut Description, rng: &mut Rng) -> Option<Fault> {
    let look = rng.pick(&[5, 5, 6, 7, 128, 255]);
    let high = rng.byte_within(0..=7);
    put(d, rng, field(0, 1, 0, 0, high, look))
}

/// Too many bits, though there are names for them all.
fn named_bits(d: &mut Description, rng: &mut Rng) -> Option<Fault> {
    let bits = rng.pick(&[9, 9, 9, 10, 16, 32]);
    while d.names.len() < 1 << bits.min(10) {
        d.names.push(Name {
            text_offset: 0,
            length: 0,
        });
    }
    let source = rng.byte_within(0..=1);
    put(d, rng, field(source, 4, 0, 32 - bits, 31, Field::NAMES))
}

/// One name too few.
fn named_present(d: &mut Description, rng: &mut Rng) -> Option<Fault> {
    let bits = rng.byte_within(1..=8);
    let low = rng.byte_within(0..=24);
    let mut named = field(0, 4, 0, low, low + bits - 1, Field::NAMES);
    named.first_name = (d.names.len() + 1).saturating_sub(1 << bits) as u16;
    put(d, rng, named)
}

/// So far that the sum doesn't fit two bytes.
fn named_far(d: &mut Description, rng: &mut Rng) -> Option<Fault> {
    let bits = rng.byte_within(1..=8);
    let mut named = field(0, 1, 0, 0, bits - 1, Field::NAMES);
    named.first_name = 65_535 - rng.below(1 << bits) as u16;
    put(d, rng, named)
}

fn other_first_name(d: &mut Description, rng: &mut Rng) -> Option<Fault> {
    let look = plain_look(rng);
    let mut other = field(0, 1, 0, 0, 7, look);
    other.first_name = rng.pick(&[1, 1, 2, 256, 65_535]);
    put(d, rng, other)
}
