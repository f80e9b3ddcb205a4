//! The rules of section 3 that need no operand or piece.

use reference::{Description, Fault};

use super::{
    fault, give_operands, give_pieces, good_operands, lengthen_text, some_constructor, Rule,
};
use crate::example::literal;
use crate::Rng;

pub const RULES: &[Rule] = &[
    ("constructor table over 63", table_over),
    ("constructor table falls", table_falls),
    ("minimum length over 16", minimum_over),
    ("minimum length within mask", minimum_within_mask),
    ("byte value outside mask", byte_value),
    ("context value outside mask", context_value),
    ("operands over 8", operands_over),
    ("pieces over 16", pieces_over),
    ("operand range past section", operand_range),
    ("empty operand range past section", empty_operand_range),
    ("operand range far past section", far_operand_range),
    ("piece range past section", piece_range),
    ("empty piece range past section", empty_piece_range),
    ("piece range far past section", far_piece_range),
];

fn table_over(d: &mut Description, rng: &mut Rng) -> Option<Fault> {
    let record = match rng.once_in(2) {
        true => d.constructors.len() - 1,
        false => some_constructor(d, rng),
    };
    d.constructors[record].table = rng.pick(&[64, 64, 65, 128, 255]);
    fault(3, record)
}

fn table_falls(d: &mut Description, rng: &mut Rng) -> Option<Fault> {
    let tables: Vec<u8> = d.constructors.iter().map(|c| c.table).collect();
    let record = rng.index_where(tables.len(), |i| i > 0 && tables[i - 1] > 0)?;
    let before = tables[record - 1];
    d.constructors[record].table = match rng.once_in(2) {
        true => before - 1,
        false => rng.byte_within(0..=before - 1),
    };
    fault(3, record)
}

fn minimum_over(d: &mut Description, rng: &mut Rng) -> Option<Fault> {
    let record = some_constructor(d, rng);
    d.constructors[record].minimum_length = rng.pick(&[17, 17, 18, 128, 255]);
    fault(3, record)
}

/// The minimum ends before the last byte with a masked bit.
fn minimum_within_mask(d: &mut Description, rng: &mut Rng) -> Option<Fault> {
    let record = some_constructor(d, rng);
    let last = rng.byte_within(0..=7);
    let bit = 8 * last + rng.byte_within(0..=7);
    let constructor = &mut d.constructors[record];
    let pattern = &mut constructor.pattern;
    pattern.byte_mask &= (1 << bit) - 1;
    pattern.byte_mask |= 1 << bit;
    pattern.byte_value &= pattern.byte_mask;
    constructor.minimum_length = if rng.once_in(4) {
        rng.byte_within(0..=last)
    } else {
        last
    };
    fault(3, record)
}

fn byte_value(d: &mut Description, rng: &mut Rng) -> Option<Fault> {
    let record = some_constructor(d, rng);
    let bit = 1 << rng.below(64);
    let pattern = &mut d.constructors[record].pattern;
    pattern.byte_mask &= !bit;
    pattern.byte_value |= bit;
    fault(3, record)
}

fn context_value(d: &mut Description, rng: &mut Rng) -> Option<Fault> {
    let record = some_constructor(d, rng);
    let bit = 1 << rng.below(32);
    let pattern = &mut d.constructors[record].pattern;
    pattern.context_mask &= !bit;
    pattern.context_value |= bit;
    fault(3, record)
}

fn operands_over(d: &mut Description, rng: &mut Rng) -> Option<Fault> {
    let record = some_constructor(d, rng);
    let count = rng.pick(&[9, 9, 10, 16, 255]);
    let operands = good_operands(d, rng, record, count)?;
    give_operands(d, record, &operands)?;
    fault(3, record)
}

fn pieces_over(d: &mut Description, rng: &mut Rng) -> Option<Fault> {
    let record = some_constructor(d, rng);
    let count = rng.pick(&[17, 17, 18, 32, 255]);
    lengthen_text(d, rng, 1);
    give_pieces(d, record, &vec![literal(0, 1); count])?;
    fault(3, record)
}

fn operand_range(d: &mut Description, rng: &mut Rng) -> Option<Fault> {
    let record = some_constructor(d, rng);
    let count = rng.within(1..=8);
    let operands = good_operands(d, rng, record, count - 1)?;
    give_operands(d, record, &operands)?;
    d.constructors[record].operand_count = count as u8;
    fault(3, record)
}

fn empty_operand_range(d: &mut Description, rng: &mut Rng) -> Option<Fault> {
    let record = some_constructor(d, rng);
    give_operands(d, record, &[])?;
    let past = d.operands.len() as u16 + 1;
    d.constructors[record].first_operand = if rng.once_in(4) { 65_535 } else { past };
    fault(3, record)
}

/// So far that the sum doesn't fit two bytes.
fn far_operand_range(d: &mut Description, rng: &mut Rng) -> Option<Fault> {
    let record = some_constructor(d, rng);
    let count = rng.within(1..=8);
    give_operands(d, record, &[])?;
    d.constructors[record].operand_count = count as u8;
    d.constructors[record].first_operand = (65_536 - rng.within(1..=count)) as u16;
    fault(3, record)
}

fn piece_range(d: &mut Description, rng: &mut Rng) -> Option<Fault> {
    let record = some_constructor(d, rng);
    lengthen_text(d, rng, 1);
    let count = rng.within(1..=16);
    give_pieces(d, record, &vec![literal(0, 1); count - 1])?;
    d.constructors[record].piece_count = count as u8;
    fault(3, record)
}

fn empty_piece_range(d: &mut Description, rng: &mut Rng) -> Option<Fault> {
    let record = some_constructor(d, rng);
    give_pieces(d, record, &[])?;
    let past = d.pieces.len() as u16 + 1;
    d.constructors[record].first_piece = if rng.once_in(4) { 65_535 } else { past };
    fault(3, record)
}

/// So far that the sum doesn't fit two bytes.
fn far_piece_range(d: &mut Description, rng: &mut Rng) -> Option<Fault> {
    let record = some_constructor(d, rng);
    let count = rng.within(1..=16);
    d.constructors[record].piece_count = count as u8;
    d.constructors[record].first_piece = (65_536 - rng.within(1..=count)) as u16;
    fault(3, record)
}
