//! Every operator on values at which something may change.

use reference::{Description, Expression, Step};

use crate::example::{computed, constructor, expression, shown, step};

/// Addresses at which something may change.
pub const EDGE_ADDRESSES: [u32; 5] = [0, 1, 1 << 31, u32::MAX - 15, u32::MAX];

/// The most expressions of a description made of them.
pub const TABLE_EXPRESSIONS: usize = 256;

const OPERATORS: std::ops::RangeInclusive<u8> = Step::PLUS..=Step::EXCLUSIVE_OR;

/// Powers of two, their neighbours, the negatives of these, and the ends.
pub fn edge_values() -> Vec<i64> {
    let near = |bit: i64| (0..6).map(move |which| near_power(1 << bit, which));
    let mut values: Vec<i64> = (0..63).flat_map(near).collect();
    values.extend([i64::MIN, i64::MIN + 1, i64::MAX - 1, i64::MAX]);
    values.sort();
    values.dedup();
    values
}

/// One of the six: a power of two, one less, one more, or the negative of one
/// of these.
pub fn near_power(power: i64, which: usize) -> i64 {
    let near = power + which as i64 % 3 - 1;
    match which < 3 {
        true => near,
        false => -near,
    }
}

fn constant(value: i64) -> Step {
    step(Step::CONSTANT, value)
}

/// Each operator between each two of the terms.
fn operated(left: Vec<Step>, right: Vec<Step>) -> impl Iterator<Item = Expression> {
    left.into_iter().flat_map(move |left| {
        right.clone().into_iter().flat_map(move |right| {
            OPERATORS.map(move |kind| expression(&[left, right, step(kind, 0)]))
        })
    })
}

/// Each term shifted by every number of places.
fn shifted(terms: Vec<Step>) -> impl Iterator<Item = Expression> {
    terms.into_iter().flat_map(|term| {
        (0..64).flat_map(move |places| {
            [Step::SHIFT_LEFT, Step::SHIFT_RIGHT]
                .map(|kind| expression(&[term, step(kind, places)]))
        })
    })
}

/// Each operator on each two edge values, and every shift of each.
pub fn operators_on_constants() -> impl Iterator<Item = Expression> {
    let constants: Vec<Step> = edge_values().into_iter().map(constant).collect();
    operated(constants.clone(), constants.clone()).chain(shifted(constants))
}

/// The same with an address on one side or both.
pub fn operators_on_addresses() -> impl Iterator<Item = Expression> {
    let constants: Vec<Step> = edge_values().into_iter().map(constant).collect();
    let addresses = vec![step(Step::ADDRESS, 0), step(Step::ADDRESS_AFTER, 0)];
    operated(constants.clone(), addresses.clone())
        .chain(operated(addresses.clone(), constants))
        .chain(operated(addresses.clone(), addresses.clone()))
        .chain(shifted(addresses))
}

/// Instructions of one byte, each of which shows one of up to 256 expressions.
pub fn expression_table(expressions: &[Expression]) -> Description {
    let records = || 0..expressions.len();
    let instruction = |i: usize| constructor(0, 1, (0xff, i as u64), (i as u16, 1), (0, 1));
    Description {
        constructors: records().map(instruction).collect(),
        operands: records().map(|i| computed(i as u8)).collect(),
        pieces: vec![shown(1)],
        expressions: expressions.to_vec(),
        ..Description::default()
    }
}
