//! Changes that use a rule to its limit and leave a description well formed.

use reference::{Description, Expression, Field, Operand, Pattern, Step};

use crate::example::{computed, expression, field, literal, name, operand, shown, step};
use crate::expressions::some_expression;
use crate::rules::{
    add_expression, give_operands, give_pieces, good_operands, lengthen_text, lower_tables,
    some_constructor, some_field,
};
use crate::write::LIMITS;
use crate::Rng;

/// What is allowed, and a change that makes use of it; nothing if the
/// change can't be made.
pub type Change = (&'static str, fn(&mut Description, &mut Rng) -> Option<()>);

pub const CHANGES: &[Change] = &[
    ("fields up to the last bit", widest_fields),
    ("field of one byte, big", one_byte_big),
    ("256 names at the section's end", all_names),
    ("name up to the text's end", name_to_end),
    ("table 63", table_63),
    ("minimum length 16", minimum_16),
    ("minimum length just past the mask", minimum_past_mask),
    ("pattern of context bits alone", context_alone),
    ("all bits masked", all_masked),
    ("8 operands, each after the last", eight_operands),
    ("16 pieces", sixteen_pieces),
    ("empty ranges at the section's end", empty_ranges),
    ("table operand one lower", next_lower_table),
    ("unused operands of any anchor and table", unused_operands),
    ("unused pieces of any n", unused_pieces),
    ("text piece up to the text's end", literal_to_end),
    ("text bytes 32 and 126", text_ends),
    ("equal constructors", equal_constructors),
    ("16 steps", sixteen_steps),
    ("constants at the ends", end_constants),
    ("shifts by 0 and by 63", end_shifts),
    ("expressions of later and of context fields", later_fields),
    ("unused expressions of any operands", unused_expressions),
    ("one expression, two users", shared_expression),
];

fn add<T>(records: &mut Vec<T>, record: T, limit: usize) -> Option<()> {
    records.push(record);
    (records.len() <= limit).then_some(())
}

fn widest_fields(d: &mut Description, rng: &mut Rng) -> Option<()> {
    for width in 1..=4 {
        let high = 8 * width - 1;
        let low = rng.pick(&[0, high]);
        let order = rng.byte_within(0..=1);
        let look = rng.byte_within(0..=3);
        add(
            &mut d.fields,
            field(0, width, order, low, high, look),
            LIMITS[0],
        )?;
    }
    add(&mut d.fields, field(1, 4, 0, 0, 31, 3), LIMITS[0])
}

fn one_byte_big(d: &mut Description, _: &mut Rng) -> Option<()> {
    let one_byte = field(0, 1, Field::BIG, 0, 7, 0);
    add(&mut d.fields, one_byte, LIMITS[0])
}

/// Eight bits, with holes among the names.
fn all_names(d: &mut Description, rng: &mut Rng) -> Option<()> {
    while d.names.len() < 256 {
        let offset = rng.within(0..=d.text.len()) as u16;
        d.names.push(name(offset, 0));
    }
    let mut named = field(1, 4, 0, 24, 31, Field::NAMES);
    named.first_name = d.names.len() as u16 - 256;
    add(&mut d.fields, named, LIMITS[0])
}

fn name_to_end(d: &mut Description, rng: &mut Rng) -> Option<()> {
    if rng.once_in(2) {
        lengthen_text(d, rng, 255);
    }
    let longest = d.text.len().min(255);
    for length in [0, 1.min(longest), longest] {
        let offset = d.text.len() - length;
        add(&mut d.names, name(offset as u16, length as u8), LIMITS[1])?;
    }
    Some(())
}

fn table_63(d: &mut Description, _: &mut Rng) -> Option<()> {
    d.constructors.last_mut()?.table = 63;
    Some(())
}

fn minimum_16(d: &mut Description, rng: &mut Rng) -> Option<()> {
    let record = some_constructor(d, rng);
    d.constructors[record].minimum_length = 16;
    Some(())
}

fn minimum_past_mask(d: &mut Description, rng: &mut Rng) -> Option<()> {
    let record = some_constructor(d, rng);
    let bit = rng.below(64);
    let constructor = &mut d.constructors[record];
    constructor.pattern.byte_mask = 1 << bit;
    constructor.pattern.byte_value = rng.word() & 1 << bit;
    constructor.minimum_length = bit as u8 / 8 + 1;
    Some(())
}

fn context_alone(d: &mut Description, rng: &mut Rng) -> Option<()> {
    let record = some_constructor(d, rng);
    let context_mask = rng.word() as u32;
    d.constructors[record].minimum_length = 0;
    d.constructors[record].pattern = Pattern {
        context_mask,
        context_value: rng.word() as u32 & context_mask,
        ..Pattern::default()
    };
    Some(())
}

fn all_masked(d: &mut Description, rng: &mut Rng) -> Option<()> {
    let record = some_constructor(d, rng);
    d.constructors[record].minimum_length = rng.byte_within(8..=16);
    d.constructors[record].pattern = Pattern {
        byte_mask: u64::MAX,
        byte_value: rng.word(),
        context_mask: u32::MAX,
        context_value: rng.word() as u32,
    };
    Some(())
}

fn eight_operands(d: &mut Description, rng: &mut Rng) -> Option<()> {
    let user = some_constructor(d, rng);
    let index = some_field(d, rng, false)?;
    let operands: Vec<_> = (0..8)
        .map(|earlier| operand(Operand::FIELD, index, earlier, 15))
        .collect();
    give_operands(d, user, &operands)
}

/// All operands, in any order, though their records may be equal.
fn sixteen_pieces(d: &mut Description, rng: &mut Rng) -> Option<()> {
    let user = some_constructor(d, rng);
    let operands = match rng.once_in(2) {
        true => good_operands(d, rng, user, 8)?,
        false => vec![good_operands(d, rng, user, 1)?[0]; 8],
    };
    give_operands(d, user, &operands)?;
    lengthen_text(d, rng, 1);
    let mut pieces: Vec<_> = (1..=8).map(shown).collect();
    pieces.resize(16, literal(0, 1));
    rng.shuffle(&mut pieces);
    give_pieces(d, user, &pieces)
}

fn empty_ranges(d: &mut Description, rng: &mut Rng) -> Option<()> {
    let user = some_constructor(d, rng);
    give_operands(d, user, &[])
}

fn next_lower_table(d: &mut Description, rng: &mut Rng) -> Option<()> {
    let lowest = d.constructors[0].table;
    let user = rng.index_where(d.constructors.len(), |i| d.constructors[i].table > lowest)?;
    let table = *lower_tables(d, user).last()?;
    give_operands(d, user, &[operand(Operand::TABLE, table, 0, 15)])
}

fn unused_operands(d: &mut Description, rng: &mut Rng) -> Option<()> {
    let index = some_field(d, rng, false)?;
    for anchor in [1, 8, 9, 255] {
        add(
            &mut d.operands,
            operand(Operand::FIELD, index, anchor, 15),
            LIMITS[3],
        )?;
        add(
            &mut d.operands,
            operand(Operand::TABLE, rng.byte(), anchor, 0),
            LIMITS[3],
        )?;
    }
    Some(())
}

fn unused_pieces(d: &mut Description, rng: &mut Rng) -> Option<()> {
    for n in [0, 9, 255, rng.byte()] {
        add(&mut d.pieces, shown(n), LIMITS[4])?;
    }
    Some(())
}

fn literal_to_end(d: &mut Description, rng: &mut Rng) -> Option<()> {
    lengthen_text(d, rng, 1);
    if rng.once_in(2) {
        lengthen_text(d, rng, 255);
    }
    for length in [1, d.text.len().min(255)] {
        let offset = d.text.len() - length;
        add(
            &mut d.pieces,
            literal(offset as u16, length as u8),
            LIMITS[4],
        )?;
    }
    Some(())
}

fn text_ends(d: &mut Description, _: &mut Rng) -> Option<()> {
    add(&mut d.text, 32, LIMITS[5])?;
    add(&mut d.text, 126, LIMITS[5])
}

fn equal_constructors(d: &mut Description, rng: &mut Rng) -> Option<()> {
    let record = some_constructor(d, rng);
    d.constructors.insert(record, d.constructors[record]);
    (d.constructors.len() <= LIMITS[2]).then_some(())
}

/// Gives some constructor computed operands alone, with these expressions.
fn give_computed(d: &mut Description, rng: &mut Rng, expressions: &[Expression]) -> Option<()> {
    let user = some_constructor(d, rng);
    let mut operands = Vec::new();
    for &expression in expressions {
        let index = add_expression(d, expression)?;
        operands.push(computed(index));
    }
    give_operands(d, user, &operands)
}

fn sixteen_steps(d: &mut Description, rng: &mut Rng) -> Option<()> {
    // Eight constants, then seven operators and a shift.
    let mut deep = [Step::default(); 16];
    deep[8..15].fill(step(Step::MINUS, 0));
    deep[15] = step(Step::SHIFT_RIGHT, 1);
    let any = some_expression(rng, &[], 16);
    give_computed(d, rng, &[expression(&deep), any])
}

fn end_constants(d: &mut Description, rng: &mut Rng) -> Option<()> {
    let ends = [i64::MIN, i64::MAX, -1].map(|end| expression(&[step(Step::CONSTANT, end)]));
    give_computed(d, rng, &ends)
}

fn end_shifts(d: &mut Description, rng: &mut Rng) -> Option<()> {
    let mut steps = vec![step(Step::ADDRESS, 0)];
    for kind in [Step::SHIFT_LEFT, Step::SHIFT_RIGHT] {
        steps.extend([step(kind, 0), step(kind, 63)]);
    }
    give_computed(d, rng, &[expression(&steps)])
}

fn later_fields(d: &mut Description, rng: &mut Rng) -> Option<()> {
    let user = some_constructor(d, rng);
    let (field, context) = (some_field(d, rng, false)?, some_field(d, rng, true)?);
    let both = [
        step(Step::OPERAND, 8),
        step(Step::OPERAND, 2),
        step(Step::AND, 0),
    ];
    let index = add_expression(d, expression(&both))?;
    let mut operands = [computed(index); 8];
    operands[1] = operand(Operand::FIELD, context, 0, 0);
    operands[7] = operand(Operand::FIELD, field, 7, 0);
    give_operands(d, user, &operands)
}

fn unused_expressions(d: &mut Description, _: &mut Rng) -> Option<()> {
    for number in [0, 9, 255] {
        let index = add_expression(d, expression(&[step(Step::OPERAND, number)]))?;
        let unused = computed(index);
        add(&mut d.operands, unused, LIMITS[3])?;
    }
    Some(())
}

/// At another position in the second.
fn shared_expression(d: &mut Description, rng: &mut Rng) -> Option<()> {
    let index = add_expression(d, expression(&[step(Step::OPERAND, 2)]))?;
    let field = operand(Operand::FIELD, some_field(d, rng, false)?, 0, 0);
    let computed = computed(index);
    for operands in [&[computed, field][..], &[field, field, computed]] {
        let user = some_constructor(d, rng);
        give_operands(d, user, operands)?;
    }
    Some(())
}
