//! Descriptions for asking and for the clash check: tables whose patterns
//! meet in every way.

use std::ops::Range;

use reference::{Constructor, Description, Pattern};

use crate::meeting::{meeting, Meeting, Space};
use crate::well_formed::{well_formed, Size};
use crate::write::{bytes, LIMITS};
use crate::Rng;

/// A well-formed description with up to `most` constructors in each table;
/// one of them may move to another table.
pub fn meeting_tables(rng: &mut Rng, most: usize) -> Description {
    let mut d = well_formed(rng, Size::SMALL);
    let ranges = table_ranges(&d);
    let mut patterns = table_patterns(rng, ranges.len(), most);
    if rng.once_in(4) {
        move_one(rng, &mut patterns);
    }
    let mut constructors = Vec::new();
    for (range, patterns) in ranges.into_iter().zip(patterns) {
        for pattern in patterns {
            let model = rng.pick(&d.constructors[range.clone()]);
            constructors.push(with_pattern(rng, model, pattern));
        }
    }
    d.constructors = constructors;
    assert!(
        reference::check(&bytes(&d)).is_ok(),
        "not well formed: {d:?}"
    );
    d
}

/// The records of each table, in order.
pub fn table_ranges(d: &Description) -> Vec<Range<usize>> {
    (0..64).filter_map(|table| d.table(table)).collect()
}

/// Patterns for so many tables, at least one each and no more than the
/// section holds. Half of the time all tables differ in the same bits.
fn table_patterns(rng: &mut Rng, tables: usize, most: usize) -> Vec<Vec<Pattern>> {
    let shared = rng.once_in(2).then(|| Space::new(rng, most));
    let mut left = LIMITS[2] - tables;
    let mut patterns = Vec::new();
    for _ in 0..tables {
        let longest = 1 + left.min(most - 1);
        let most = match rng.once_in(3) {
            true => longest,
            false => rng.within(1..=longest),
        };
        let space = match &shared {
            Some(space) => space.clone(),
            None => Space::new(rng, most),
        };
        let kind = rng.pick(&Meeting::ALL);
        patterns.push(meeting(rng, &space, kind, most));
        left -= patterns[patterns.len() - 1].len() - 1;
    }
    patterns
}

/// Moves a pattern to another table, where it is no third to any pair.
fn move_one(rng: &mut Rng, patterns: &mut [Vec<Pattern>]) {
    let from = rng.below(patterns.len());
    let to = rng.below(patterns.len());
    if patterns[from].len() > 1 {
        let at = rng.below(patterns[from].len());
        let moved = patterns[from].remove(at);
        patterns[to].push(moved);
    }
}

/// The model's operands and pieces with another pattern.
fn with_pattern(rng: &mut Rng, model: Constructor, pattern: Pattern) -> Constructor {
    let least = pattern.masked_length() as u8;
    Constructor {
        minimum_length: match rng.once_in(4) {
            true => rng.byte_within(least..=16),
            false => least,
        },
        pattern,
        ..model
    }
}
