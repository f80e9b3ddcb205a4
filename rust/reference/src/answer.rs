//! The numbered answers.

use crate::choose::Taken;
use crate::clash::Clash;
use crate::listing::Listed;
use crate::read::Fault;
use crate::sweep::{End, Sweep};
use crate::tree::Verdict;

/// Why the decoder says no. `NoMultiple` is given in a sweep's rows alone;
/// `Clashing` has the first pair of records that clash.
#[derive(Clone, Copy, Debug, PartialEq, Eq)]
pub enum Refusal {
    Malformed(Fault),
    Short { place: usize },
    NoMatch { place: usize, table: u32 },
    Ambiguous { place: usize, table: u32 },
    Hole { place: usize },
    TooFar { place: usize },
    TooManyRows,
    RootLengthZero,
    LentTooShort,
    TextTooLong,
    BadTree { node: u16 },
    NoTable { table: u32 },
    NoAlignment { number: u32 },
    Outside { place: usize },
    NoMultiple,
    Clashing(usize, usize),
    TreeTooLarge,
}

impl From<Fault> for Refusal {
    fn from(fault: Fault) -> Refusal {
        Refusal::Malformed(fault)
    }
}

impl Refusal {
    /// The refusal's number and values; unused values are 0.
    pub fn number_and_values(&self) -> (u32, [u64; 4]) {
        match *self {
            Refusal::Malformed(fault) => (1, values([fault.section.into(), fault.record.into()])),
            Refusal::Short { place } => (2, values([place as u64])),
            Refusal::NoMatch { place, table } => (3, values([place as u64, table.into()])),
            Refusal::Ambiguous { place, table } => (4, values([place as u64, table.into()])),
            Refusal::Hole { place } => (5, values([place as u64])),
            Refusal::TooFar { place } => (6, values([place as u64])),
            Refusal::TooManyRows => (7, values([])),
            Refusal::RootLengthZero => (8, values([])),
            Refusal::LentTooShort => (9, values([])),
            Refusal::TextTooLong => (10, values([])),
            Refusal::BadTree { node } => (11, values([node.into()])),
            Refusal::NoTable { table } => (12, values([table.into()])),
            Refusal::NoAlignment { number } => (12, values([number.into()])),
            Refusal::Outside { place } => (13, values([place as u64])),
            Refusal::NoMultiple => (14, values([])),
            Refusal::Clashing(i, j) => (15, values([i as u64, j as u64])),
            Refusal::TreeTooLarge => (16, values([])),
        }
    }
}

/// What any of the requests answers.
#[derive(Clone, Debug, PartialEq, Eq)]
pub enum Answer {
    WellFormed,
    Asked(Taken),
    Clash(Clash),
    Tree(Verdict),
    /// Rows, or bytes of text or of a tree.
    Written(usize),
    Swept(Sweep),
    Listed(Listed),
    Refused(Refusal),
}

impl Answer {
    /// The answer's number and values; unused values are 0.
    pub fn number_and_values(&self) -> (u32, [u64; 4]) {
        match self {
            Answer::WellFormed => (0, values([])),
            Answer::Asked(taken) => (0, values([taken.constructor as u64, taken.weight.into()])),
            Answer::Clash(Clash::Clear) => (0, values([0])),
            Answer::Clash(Clash::Pair(i, j)) => (0, values([1, *i as u64, *j as u64])),
            Answer::Tree(Verdict::Accepted) => (0, values([0])),
            Answer::Tree(Verdict::Rejected {
                node,
                bytes,
                context,
            }) => (
                0,
                [
                    1,
                    *node as u64,
                    u64::from_le_bytes(*bytes),
                    (*context).into(),
                ],
            ),
            Answer::Written(count) => (0, values([*count as u64])),
            Answer::Swept(sweep) => (0, swept_values(sweep)),
            Answer::Listed(listed) => (0, listed_values(listed)),
            Answer::Refused(refusal) => refusal.number_and_values(),
        }
    }
}

/// The end, the rows written and the next byte.
fn swept_values(sweep: &Sweep) -> [u64; 4] {
    let end = match sweep.end {
        End::Used => 0,
        End::Full => 1,
        End::Short => 2,
    };
    values([end, sweep.rows.len() as u64, sweep.next as u64])
}

/// The bytes and lines written, the next place, and whether the text is full.
fn listed_values(listed: &Listed) -> [u64; 4] {
    let (bytes, lines) = (listed.text.len() as u64, listed.lines as u64);
    [bytes, lines, listed.next, listed.full.into()]
}

fn values<const N: usize>(used: [u64; N]) -> [u64; 4] {
    let mut values = [0; 4];
    values[..N].copy_from_slice(&used);
    values
}
