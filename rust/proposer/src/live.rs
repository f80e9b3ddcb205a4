//! The patterns that are live on a path, and the bit that is tested next.

use std::ops::Range;

use reference::Description;

use crate::bits::{numbers, Bits, ALL_BITS};
use crate::tree::{NODE_LIMIT, NONE};

/// So many of the bits that split best are looked at closer.
const CLOSER: usize = 4;

/// Looking closer makes a tree smaller by a tenth or so. One of more nodes than
/// this stays too large.
const HOPELESS: usize = 4 * NODE_LIMIT;

/// A path, and the records and patterns that agree with it.
pub struct Live {
    path: Bits,
    patterns: Vec<(u16, Bits)>,
}

/// How a bit splits the live patterns. Best is the one that the fewest stand on
/// both sides of, then the one with the fewest on its smaller side: bits that
/// all agree on are tested once, and not again on every side.
#[derive(Clone, Copy, PartialEq, Eq, PartialOrd, Ord)]
struct Split {
    on_both_sides: usize,
    on_smaller_side: usize,
    bit: u32,
}

impl Split {
    /// All patterns are on one side.
    fn is_of_all(&self) -> bool {
        self.on_both_sides == 0 && self.on_smaller_side == 0
    }
}

impl Live {
    /// The patterns of these records, before any test.
    pub fn all(description: &Description, records: Range<usize>) -> Live {
        let constructors = &description.constructors[records.clone()];
        let patterns = constructors.iter().map(|c| Bits::from(&c.pattern));
        Live {
            path: Bits::default(),
            patterns: records.map(|i| i as u16).zip(patterns).collect(),
        }
    }

    /// What a leaf says here: none without a live pattern, else the one that
    /// contains the path and lies inside all others. Nothing if a test is needed.
    pub fn leaf(&self) -> Option<u16> {
        if self.patterns.is_empty() {
            return Some(NONE);
        }
        let others = || self.patterns.iter().map(|&(_, other)| other);
        let decides = |&&(_, pattern): &&(u16, Bits)| {
            self.path.lies_inside(pattern) && others().all(|other| pattern.lies_inside(other))
        };
        self.patterns
            .iter()
            .find(decides)
            .map(|&(record, _)| record)
    }

    /// What is live on the zero side of a test and on its one side.
    pub fn sides(&self, bit: u32) -> [Live; 2] {
        [false, true].map(|one| {
            let path = self.path.with(bit, one);
            let patterns = self.patterns.iter().copied();
            Live {
                path,
                patterns: patterns.filter(|&(_, p)| path.agrees(p)).collect(),
            }
        })
    }

    /// The bits off the path that live patterns mask.
    fn splits(&self) -> Vec<Split> {
        let mut sides = [[0; 2]; ALL_BITS as usize];
        let mut masked = 0;
        for (_, pattern) in &self.patterns {
            let off_path = pattern.mask & !self.path.mask;
            masked |= off_path;
            for bit in numbers(off_path) {
                sides[bit as usize][(pattern.value >> bit & 1) as usize] += 1;
            }
        }
        let split = |bit| {
            let [zero, one]: [usize; 2] = sides[bit as usize];
            Split {
                on_both_sides: self.patterns.len() - zero - one,
                on_smaller_side: zero.min(one),
                bit,
            }
        };
        numbers(masked).map(split).collect()
    }

    /// The bit that is tested where there is no leaf: of those that split best
    /// the one whose tree comes out smallest if each bit behind it is the best
    /// split. Nothing if all of these trees are far too large.
    pub fn tested_bit(&self) -> Option<u32> {
        let mut splits = self.splits();
        splits.sort();
        if splits[0].is_of_all() {
            return Some(splits[0].bit);
        }
        splits.truncate(CLOSER);
        let sizes = splits
            .iter()
            .filter_map(|split| Some((self.size_from(split.bit, HOPELESS)?, split)));
        sizes.min().map(|(_, split)| split.bit)
    }

    /// Nodes of the tree whose every test is the best split, if they are no more
    /// than these.
    fn size(&self, most: usize) -> Option<usize> {
        if self.leaf().is_some() {
            return (most > 0).then_some(1);
        }
        let best = self.splits().into_iter().min();
        self.size_from(best.expect("a bit is undecided").bit, most)
    }

    /// The same behind a test of this bit, with the test.
    fn size_from(&self, bit: u32, most: usize) -> Option<usize> {
        let mut nodes = 1;
        for side in self.sides(bit) {
            nodes += side.size(most.checked_sub(nodes)?)?;
        }
        Some(nodes)
    }
}
