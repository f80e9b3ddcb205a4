//! The rules of section 2.

use reference::{Description, Fault, Name};

use super::{fault, Rule};
use crate::example::name;
use crate::Rng;

pub const RULES: &[Rule] = &[
    ("name past text", past_text),
    ("hole past text", hole_past_text),
    ("name far past text", far_past_text),
];

fn put(d: &mut Description, rng: &mut Rng, name: Name) -> Option<Fault> {
    if d.names.is_empty() {
        d.names.push(name);
    }
    let record = rng.below(d.names.len());
    d.names[record] = name;
    fault(2, record)
}

fn past_text(d: &mut Description, rng: &mut Rng) -> Option<Fault> {
    let past = d.text.len() + 1;
    let length = rng.within(1..=past.min(255));
    put(d, rng, name((past - length) as u16, length as u8))
}

fn hole_past_text(d: &mut Description, rng: &mut Rng) -> Option<Fault> {
    let past = d.text.len() as u16 + 1;
    let offset = if rng.once_in(4) { 65_535 } else { past };
    put(d, rng, name(offset, 0))
}

/// So far that the sum doesn't fit two bytes.
fn far_past_text(d: &mut Description, rng: &mut Rng) -> Option<Fault> {
    let length = rng.byte_within(1..=255);
    let offset = 65_536 - rng.within(1..=usize::from(length));
    put(d, rng, name(offset as u16, length))
}
