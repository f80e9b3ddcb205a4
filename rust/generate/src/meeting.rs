//! Patterns of one table that meet in every way: apart, equal, one inside
//! the other, or crossing, with their overlap in the table or without.

use std::cmp::Reverse;
use std::collections::BTreeSet;

use reference::Pattern;

use crate::Rng;

/// How the patterns of a table meet.
#[derive(Clone, Copy, Debug, PartialEq, Eq)]
pub enum Meeting {
    /// Each in any way with the ones before.
    Any,
    /// One inside the other.
    Nested,
    /// With the overlap of every two that overlap, so that none clash.
    Closed,
    /// One change away from closed.
    NearlyClosed,
}

impl Meeting {
    pub const ALL: [Meeting; 4] = [
        Meeting::Any,
        Meeting::Nested,
        Meeting::Closed,
        Meeting::NearlyClosed,
    ];
}

/// Up to `most` patterns.
pub fn meeting(rng: &mut Rng, space: &Space, kind: Meeting, most: usize) -> Vec<Pattern> {
    let mut found = match kind {
        Meeting::Any => any(rng, space, most),
        Meeting::Nested => nested(rng, space, most),
        Meeting::Closed => closed(rng, space, most),
        Meeting::NearlyClosed => nearly_closed(rng, space, most),
    };
    match rng.below(8) {
        0 => found.sort_by_key(|bits| bits.mask.count_ones()),
        1 => found.sort_by_key(|bits| Reverse(bits.mask.count_ones())),
        _ => rng.shuffle(&mut found),
    }
    found.truncate(most);
    found.into_iter().map(Bits::pattern).collect()
}

/// A pattern as one word: the bytes' 64 bits and, above them, the 32 of the
/// context.
#[derive(Clone, Copy, Debug, Default, PartialEq, Eq, PartialOrd, Ord)]
pub struct Bits {
    mask: u128,
    value: u128,
}

impl Bits {
    pub fn pattern(self) -> Pattern {
        Pattern {
            byte_mask: self.mask as u64,
            byte_value: self.value as u64,
            context_mask: (self.mask >> 64) as u32,
            context_value: (self.value >> 64) as u32,
        }
    }

    pub fn with(self, bit: u128, one: bool) -> Bits {
        Bits {
            mask: self.mask | bit,
            value: self.value & !bit | if one { bit } else { 0 },
        }
    }

    fn without(self, bit: u128) -> Bits {
        Bits {
            mask: self.mask & !bit,
            value: self.value & !bit,
        }
    }

    /// What both match, if there is such a thing.
    fn overlap(self, other: Bits) -> Option<Bits> {
        let apart = (self.value ^ other.value) & self.mask & other.mask;
        (apart == 0).then_some(Bits {
            mask: self.mask | other.mask,
            value: self.value | other.value,
        })
    }
}

/// What the patterns of a table have in common, and the few bits that make
/// the difference, so that they meet often.
#[derive(Clone, Debug)]
pub struct Space {
    common: Bits,
    free: Vec<u128>,
}

impl Space {
    /// Enough free bits for so many patterns.
    pub fn new(rng: &mut Rng, patterns: usize) -> Space {
        let least = patterns.ilog2() as usize + 1;
        let span = 8 * rng.pick(&[1, 1, 1, 2, 2, 2, 3, 4, 6, 8, 8]);
        let mut places: Vec<usize> = (0..span).collect();
        rng.shuffle(&mut places);
        places.truncate(rng.within(least.min(8)..=least.max(8)));
        if rng.once_in(2) {
            let count = rng.within(1..=3);
            places.extend((0..count).map(|_| 64 + rng.below(32)));
        }
        places.sort();
        places.dedup();
        let free: Vec<u128> = places.into_iter().map(|place| 1 << place).collect();
        let free_mask: u128 = free.iter().sum();
        Space {
            common: common(rng, span).without(free_mask),
            free,
        }
    }

    /// Some free bits that a pattern leaves out, in any order.
    fn unmasked(&self, rng: &mut Rng, bits: Bits) -> Vec<u128> {
        let mut left: Vec<u128> = self.free.clone();
        left.retain(|bit| bits.mask & bit == 0);
        rng.shuffle(&mut left);
        left
    }

    /// Any pattern: few free bits masked, or many.
    fn fresh(&self, rng: &mut Rng) -> Bits {
        let mut fresh = match rng.once_in(12) {
            true => Bits::default(),
            false => self.common,
        };
        let one_in = rng.pick(&[2, 2, 3, 5]);
        for &bit in &self.free {
            if rng.once_in(one_in) {
                fresh = fresh.with(bit, rng.once_in(2));
            }
        }
        fresh
    }
}

/// No bits, the first byte's upper ones, or about half of all bits.
fn common(rng: &mut Rng, span: usize) -> Bits {
    let span_mask = u128::MAX >> (128 - span);
    let mask = match rng.below(6) {
        0..=2 => 0,
        3 => 0xf0,
        4 => u128::from(rng.word()) & span_mask,
        _ => (u128::from(rng.word() as u32) << 64) | span_mask,
    };
    Bits {
        mask,
        value: (u128::from(rng.word()) << 64 | u128::from(rng.word())) & mask,
    }
}

fn any(rng: &mut Rng, space: &Space, most: usize) -> Vec<Bits> {
    let mut found = vec![space.fresh(rng)];
    while found.len() < most {
        let earlier = rng.pick(&found);
        match rng.below(9) {
            0 => found.push(space.fresh(rng)),
            1 => found.extend(refined(rng, space, earlier)),
            2 => found.extend(changed(rng, earlier, Bits::without)),
            3 => found.extend(changed(rng, earlier, flipped)),
            4 => found.push(earlier),
            5 | 6 => {
                let other = rng.pick(&found);
                found.extend(earlier.overlap(other));
            }
            _ => found.extend(crossing(rng, space, earlier)),
        }
        // Where all free bits are masked the earlier ones give nothing new.
        if rng.once_in(4) {
            found.push(space.fresh(rng));
        }
    }
    found
}

/// One or two more bits masked.
fn refined(rng: &mut Rng, space: &Space, mut bits: Bits) -> Option<Bits> {
    let left = space.unmasked(rng, bits);
    let count = rng.within(1..=2).min(left.len());
    for &bit in &left[..count] {
        bits = bits.with(bit, rng.once_in(2));
    }
    (count > 0).then_some(bits)
}

/// A change at one masked bit.
fn changed(rng: &mut Rng, bits: Bits, change: fn(Bits, u128) -> Bits) -> Option<Bits> {
    let place = rng.index_where(96, |place| bits.mask >> place & 1 == 1)?;
    Some(change(bits, 1 << place))
}

/// The same mask and another value.
fn flipped(bits: Bits, bit: u128) -> Bits {
    bits.with(bit, bits.value & bit == 0)
}

/// Two refinements that cross: alone, with their overlap once or twice, or
/// with the overlap in two parts.
fn crossing(rng: &mut Rng, space: &Space, bits: Bits) -> Vec<Bits> {
    let [x, y, z] = match space.unmasked(rng, bits)[..] {
        [x, y, z, ..] => [x, y, z],
        _ => return vec![],
    };
    let (one, other) = (rng.once_in(2), rng.once_in(2));
    let overlap = bits.with(x, one).with(y, other);
    let mut found = vec![bits.with(x, one), bits.with(y, other)];
    match rng.below(5) {
        0 => {}
        1 => found.extend([overlap.with(z, false), overlap.with(z, true)]),
        2 => found.extend([overlap, overlap]),
        _ => found.push(overlap),
    }
    found
}

fn nested(rng: &mut Rng, space: &Space, most: usize) -> Vec<Bits> {
    let mut found = vec![space.common];
    while found.len() < most {
        let last = found[found.len() - 1];
        let next = refined(rng, space, last).unwrap_or_else(|| space.fresh(rng));
        found.push(next);
    }
    found
}

/// What a new pattern adds keeps the table closed: its overlaps with the
/// ones there, whose own overlaps are there.
fn closed(rng: &mut Rng, space: &Space, most: usize) -> Vec<Bits> {
    let mut found: BTreeSet<Bits> = BTreeSet::new();
    for _ in 0..most * 2 {
        let fresh = space.fresh(rng);
        let mut more: BTreeSet<Bits> = found
            .iter()
            .filter_map(|earlier| earlier.overlap(fresh))
            .filter(|overlap| !found.contains(overlap))
            .collect();
        more.insert(fresh);
        if found.len() + more.len() <= most {
            found.extend(more);
        }
    }
    found.into_iter().collect()
}

fn nearly_closed(rng: &mut Rng, space: &Space, most: usize) -> Vec<Bits> {
    let mut found = closed(rng, space, most);
    let at = rng.below(found.len());
    match rng.below(4) {
        0 => found.push(found[at]),
        1 => {
            // In two parts, or twice where no bit is left for that.
            let whole = found.swap_remove(at);
            let bit = space.unmasked(rng, whole).pop().unwrap_or(0);
            found.extend([whole.with(bit, false), whole.with(bit, true)]);
        }
        _ if found.len() > 1 => {
            found.swap_remove(at);
        }
        _ => {}
    }
    found
}
