//! Clear tables for trees: with trees of a known size, with long paths, and with
//! as many constructors as may be.

use std::collections::BTreeSet;

use reference::{Constructor, Description, Pattern};

use crate::tree::{bits, extended};
use crate::write::LIMITS;
use crate::Rng;

/// The most constructors of a table, and a number of bits with so many values.
const MOST: usize = LIMITS[2];
const MOST_BITS: usize = 9;

/// A description of one table with these patterns and nothing else.
pub fn one_table(patterns: &[Pattern]) -> Description {
    let constructor = |&pattern: &Pattern| Constructor {
        table: 0,
        minimum_length: pattern.masked_length() as u8,
        pattern,
        operand_count: 0,
        first_operand: 0,
        piece_count: 0,
        first_piece: 0,
    };
    Description {
        constructors: patterns.iter().map(constructor).collect(),
        ..Description::default()
    }
}

fn shuffled(rng: &mut Rng, mut patterns: Vec<Pattern>) -> Description {
    rng.shuffle(&mut patterns);
    one_table(&patterns)
}

/// A pattern that masks bits of the bytes alone.
fn of_bytes((byte_mask, byte_value): (u64, u64)) -> Pattern {
    Pattern {
        byte_mask,
        byte_value,
        ..Pattern::default()
    }
}

/// All bits of the bytes and of the context, in any order.
fn any_order(rng: &mut Rng) -> Vec<(u8, u8)> {
    let mut bits = bits(u64::MAX, u32::MAX);
    rng.shuffle(&mut bits);
    bits
}

/// The pattern with some value of one more bit.
fn masking(rng: &mut Rng, pattern: Pattern, bit: (u8, u8)) -> Pattern {
    extended(pattern, bit, rng.once_in(2))
}

/// One pattern of all bits inside one of none, so that a path tests all 96.
pub fn deepest_table(rng: &mut Rng) -> Description {
    let none = Pattern::default();
    let bits = bits(u64::MAX, u32::MAX).into_iter();
    let all = bits.fold(none, |pattern, bit| masking(rng, pattern, bit));
    shuffled(rng, vec![none, all])
}

/// 512 patterns of all bits, which differ in the last nine of them, so that each
/// has a path of 96 tests.
pub fn deepest_full_table(rng: &mut Rng) -> Description {
    let mut patterns = vec![Pattern::default()];
    let all = bits(u64::MAX, u32::MAX);
    let (same, last) = all.split_at(all.len() - MOST_BITS);
    for &bit in same {
        patterns[0] = masking(rng, patterns[0], bit);
    }
    for &bit in last {
        let both = |&pattern: &Pattern| [false, true].map(|one| extended(pattern, bit, one));
        patterns = patterns.iter().flat_map(both).collect();
    }
    shuffled(rng, patterns)
}

/// The fewest tests of [`table_with_tests`].
pub const LEAST_TESTS: usize = 255;

/// A table whose tree has so many tests where the lowest bits are tested first:
/// a pattern for each first byte, and inside some of them one that masks more
/// bits, each of which is a test.
pub fn table_with_tests(rng: &mut Rng, tests: usize) -> Description {
    let mut patterns: Vec<Pattern> = (0..=0xff).map(|byte| of_bytes((0xff, byte))).collect();
    let others = bits(!0xff, u32::MAX);
    let mut more = vec![0; patterns.len()];
    for _ in LEAST_TESTS..tests {
        let special = rng.index_where(more.len(), |i| more[i] < others.len());
        more[special.expect("there is room for so many tests")] += 1;
    }
    for (byte, &more) in more.iter().enumerate().filter(|(_, &more)| more > 0) {
        let mut others = others.clone();
        rng.shuffle(&mut others);
        let general = patterns[byte];
        let special = others[..more]
            .iter()
            .fold(general, |pattern, &bit| masking(rng, pattern, bit));
        patterns.push(special);
    }
    shuffled(rng, patterns)
}

/// 512 patterns whose tree has 11 tests on every path where the lowest bits are
/// tested first, and so the most nodes that a tree may have. Two of the patterns
/// mask bits 0 and 1, so that all others stand four times in the tree.
pub fn largest_tree_table() -> Description {
    let upper = 0x7fc;
    let others = (0..MOST as u64 - 2).map(|opcode| of_bytes((upper, opcode << 2)));
    let lower = [0, 1].map(|low| of_bytes((upper | 3, upper | low)));
    let patterns: Vec<Pattern> = others.chain(lower).collect();
    one_table(&patterns)
}

/// So many patterns of just these bits of the bytes.
pub fn opcode_table(rng: &mut Rng, byte_mask: u64, constructors: usize) -> Description {
    let mut opcodes = BTreeSet::new();
    while opcodes.len() < constructors {
        opcodes.insert((byte_mask, rng.word() & byte_mask));
    }
    shuffled(rng, opcodes.into_iter().map(of_bytes).collect())
}

/// Formats of an instruction of two bytes: digits say which it is, dots are
/// opcode bits, letters are operands between them.
const FORMATS: [&str; 6] = [
    "000......ddd.rrr",
    "001....ddddd....",
    "01.d.d.d.d......",
    "10k.kk.kkkk..kkk",
    "110kkkk.........",
    "111.............",
];

/// 512 patterns of these formats, some of them with all bits inside another.
pub fn format_table(rng: &mut Rng) -> Description {
    let mut opcodes = BTreeSet::new();
    while opcodes.len() < MOST {
        let format = rng.pick(&FORMATS);
        let (mask, value) = opcode(rng, format);
        opcodes.insert((mask, value));
        if opcodes.len() < MOST && rng.once_in(4) {
            opcodes.insert((0xffff, value | rng.word() & 0xffff & !mask));
        }
    }
    shuffled(rng, opcodes.into_iter().map(of_bytes).collect())
}

/// Mask and value of an opcode.
fn opcode(rng: &mut Rng, format: &str) -> (u64, u64) {
    format.chars().fold((0, 0), |(mask, value), letter| {
        let (masked, one) = match letter {
            '0' => (true, false),
            '1' => (true, true),
            '.' => (true, rng.once_in(2)),
            _ => (false, false),
        };
        (mask << 1 | u64::from(masked), value << 1 | u64::from(one))
    })
}

/// 512 patterns: eight apart, by some three bits, and inside each of them 63,
/// each inside the one before.
pub fn nested_table(rng: &mut Rng) -> Description {
    const CHAINS: usize = 8;
    let order = any_order(rng);
    let (which, others) = order.split_at(CHAINS.ilog2() as usize);
    let mut patterns = Vec::new();
    for chain in 0..CHAINS {
        let first = which.iter().enumerate();
        let first = first.fold(Pattern::default(), |pattern, (i, &bit)| {
            extended(pattern, bit, chain >> i & 1 == 1)
        });
        let mut others = others.to_vec();
        rng.shuffle(&mut others);
        patterns.push(first);
        for &bit in &others[..MOST / CHAINS - 1] {
            let last = patterns[patterns.len() - 1];
            patterns.push(masking(rng, last, bit));
        }
    }
    shuffled(rng, patterns)
}

/// 512 patterns, one for each set of nine bits, which masks just these, so that
/// any two that cross have their third.
pub fn subset_table(rng: &mut Rng) -> Description {
    let mut patterns = vec![Pattern::default()];
    for &bit in &any_order(rng)[..MOST_BITS] {
        let one = rng.once_in(2);
        let with: Vec<Pattern> = patterns.iter().map(|&p| extended(p, bit, one)).collect();
        patterns.extend(with);
    }
    shuffled(rng, patterns)
}
