//! Code and contexts that a description's patterns are likely to match.

use reference::{Constructor, Description, Pattern};

use crate::operators::EDGE_ADDRESSES;
use crate::Rng;

/// Up to `longest` bytes of code: bytes that match constructors, the root's
/// first, and at times a byte changed or the end missing.
pub fn code(rng: &mut Rng, d: &Description, longest: usize) -> Vec<u8> {
    let length = rng.within(0..=longest);
    let mut code = Vec::new();
    while code.len() < length {
        let constructor = match code.is_empty() || rng.once_in(4) {
            true => some_of_root(rng, d),
            false => rng.pick(&d.constructors),
        };
        code.extend(matching_bytes(rng, &constructor));
    }
    code.truncate(length);
    if length > 0 && rng.once_in(4) {
        let at = rng.below(length);
        code[at] = rng.byte();
    }
    code
}

/// A context that some constructor matches, often the one of 0.
pub fn context(rng: &mut Rng, d: &Description) -> u32 {
    let pattern = rng.pick(&d.constructors).pattern;
    match rng.below(3) {
        0 => 0,
        1 => pattern.context_value,
        _ => pattern.context_value | rng.word() as u32 & !pattern.context_mask,
    }
}

/// An address, often one at which something may change.
pub fn address(rng: &mut Rng) -> u32 {
    let any = rng.word() as u32;
    match rng.below(3) {
        0 => any,
        _ => rng.pick(&EDGE_ADDRESSES),
    }
}

pub const ALIGNMENTS: [u32; 4] = [1, 2, 4, 8];

/// Numbers that are no alignment, some of them such as look like one in a byte
/// or two.
pub const NO_ALIGNMENTS: [u32; 11] = [0, 3, 5, 6, 7, 9, 16, 257, 65_538, 1 << 31, u32::MAX];

/// An alignment, each as often, and at times a number that is none.
pub fn alignment(rng: &mut Rng) -> u32 {
    let any = rng.word() as u32;
    match rng.below(32) {
        0 => rng.pick(&NO_ALIGNMENTS),
        1 => any,
        _ => rng.pick(&ALIGNMENTS),
    }
}

/// Bytes from an asked table's constructor's start on, and a context.
#[derive(Clone, Copy, Debug)]
pub struct Input {
    pub code: [u8; 10],
    pub context: u32,
}

/// An input that one or two of the patterns match, at times with a few of
/// the bits changed that some pattern masks.
pub fn input(rng: &mut Rng, patterns: &[Pattern]) -> Input {
    let mut matched = rng.pick(patterns);
    let other = rng.pick(patterns);
    if matched.overlaps(&other) {
        matched = matched.overlap(&other);
    }
    let any = rng.word();
    let rest = rng.pick(&[0, u64::MAX, any, any]);
    let mut bytes = matched.byte_value | rest & !matched.byte_mask;
    let mut context = matched.context_value | rest as u32 & !matched.context_mask;
    for _ in 0..rng.pick(&[0, 0, 0, 1, 1, 2, 3]) {
        let masked = rng.pick(patterns);
        bytes ^= some_bit(rng, masked.byte_mask);
        if rng.once_in(3) {
            context ^= some_bit(rng, masked.context_mask.into()) as u32;
        }
    }
    if rng.once_in(16) {
        context = rng.word() as u32;
    }
    let mut code = [rng.byte(); 10];
    code[..8].copy_from_slice(&bytes.to_le_bytes());
    Input { code, context }
}

/// One of the mask's bits; none of none.
fn some_bit(rng: &mut Rng, mask: u64) -> u64 {
    let bit = rng.index_where(64, |bit| mask >> bit & 1 == 1);
    bit.map_or(0, |bit| 1 << bit)
}

fn some_of_root(rng: &mut Rng, d: &Description) -> Constructor {
    let root = d.table(d.root()).expect("the root has a constructor");
    d.constructors[rng.within(root.start..=root.end - 1)]
}

fn matching_bytes(rng: &mut Rng, constructor: &Constructor) -> Vec<u8> {
    let pattern = &constructor.pattern;
    let bytes = pattern.byte_value | rng.word() & !pattern.byte_mask;
    let length = (pattern.masked_length() as usize).max(1);
    bytes.to_le_bytes()[..length].to_vec()
}
