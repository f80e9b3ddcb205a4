//! The clash check of a table.

use std::collections::HashSet;

use crate::answer::Refusal;
use crate::description::{Description, Pattern};

#[derive(Clone, Copy, Debug, PartialEq, Eq)]
pub enum Clash {
    Clear,
    /// The first pair of records whose patterns clash.
    Pair(usize, usize),
}

/// The pair of a table's records with the smallest i, then j, that clash.
pub fn clash(description: &Description, table: u32) -> Result<Clash, Refusal> {
    let records = description.table(table).ok_or(Refusal::NoTable { table })?;
    let pattern = |record: usize| &description.constructors[record].pattern;
    let all: HashSet<&Pattern> = records.clone().map(pattern).collect();
    for i in records.clone() {
        let later = i + 1..records.end;
        if let Some(j) = later
            .into_iter()
            .find(|&j| pair_clashes(pattern(i), pattern(j), &all))
        {
            return Ok(Clash::Pair(i, j));
        }
    }
    Ok(Clash::Clear)
}

/// Most pairs are apart, so that comes first. Where neither lies inside the
/// other, a pattern equal to their overlap is always a third one.
fn pair_clashes(a: &Pattern, b: &Pattern, all: &HashSet<&Pattern>) -> bool {
    a.overlaps(b)
        && (a == b || !a.lies_inside(b) && !b.lies_inside(a) && !all.contains(&a.overlap(b)))
}
