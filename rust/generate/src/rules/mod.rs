//! Every rule of the description, each with a way to break it alone.

mod constructors;
mod expressions;
mod fields;
mod names;
mod operands;
mod pieces;
mod uses;

use reference::{Description, Expression, Fault, Operand, Piece, Step};

use crate::example::{expression, field};
use crate::well_formed::used_operand;
use crate::write::LIMITS;
use crate::Rng;

/// A rule's name, and a change to a well-formed description after which
/// this rule's fault is the first; nothing if the change can't be made.
pub type Rule = (
    &'static str,
    fn(&mut Description, &mut Rng) -> Option<Fault>,
);

pub fn rules() -> impl Iterator<Item = &'static Rule> {
    fields::RULES
        .iter()
        .chain(names::RULES)
        .chain(constructors::RULES)
        .chain(uses::RULES)
        .chain(operands::RULES)
        .chain(pieces::RULES)
        .chain(expressions::RULES)
}

fn fault(section: u16, record: usize) -> Option<Fault> {
    Some(Fault {
        section,
        record: record as u16,
    })
}

pub(crate) fn some_constructor(d: &Description, rng: &mut Rng) -> usize {
    rng.below(d.constructors.len())
}

/// The tables that a constructor's operands may name.
pub(crate) fn lower_tables(d: &Description, user: usize) -> Vec<u8> {
    let mut tables: Vec<u8> = d.constructors.iter().map(|c| c.table).collect();
    tables.retain(|&table| table < d.constructors[user].table);
    tables.dedup();
    tables
}

/// The number of a field that reads the instruction or the context; it is
/// added if there is none.
pub(crate) fn some_field(d: &mut Description, rng: &mut Rng, context: bool) -> Option<u8> {
    let found = rng.index_where(d.fields.len(), |i| d.fields[i].is_context() == context);
    if found.is_none() && d.fields.len() < LIMITS[0] {
        d.fields.push(field(u8::from(context), 4, 0, 0, 31, 0));
        return Some((d.fields.len() - 1) as u8);
    }
    found.map(|i| i as u8)
}

/// Operands as a constructor may have them.
pub(crate) fn good_operands(
    d: &mut Description,
    rng: &mut Rng,
    user: usize,
    count: usize,
) -> Option<Vec<Operand>> {
    some_field(d, rng, false)?;
    let tables = lower_tables(d, user);
    (0..count)
        .map(|position| used_operand(rng, &d.fields, &tables, position))
        .collect()
}

/// The number of a new expression.
pub(crate) fn add_expression(d: &mut Description, expression: Expression) -> Option<u8> {
    let number = u8::try_from(d.expressions.len()).ok()?;
    d.expressions.push(expression);
    Some(number)
}

/// The number of a new expression that names nothing.
pub(crate) fn constant(d: &mut Description) -> Option<u8> {
    add_expression(d, expression(&[Step::default()]))
}

/// Gives a constructor operand records of its own and no pieces, so that
/// nothing else changes with them.
pub(crate) fn give_operands(d: &mut Description, user: usize, own: &[Operand]) -> Option<()> {
    let first = d.operands.len();
    if first + own.len() > LIMITS[3] {
        return None;
    }
    d.operands.extend(own);
    d.constructors[user].first_operand = first as u16;
    d.constructors[user].operand_count = own.len() as u8;
    give_pieces(d, user, &[])
}

/// Gives a constructor piece records of its own.
pub(crate) fn give_pieces(d: &mut Description, user: usize, own: &[Piece]) -> Option<()> {
    let first = d.pieces.len();
    if first + own.len() > LIMITS[4] {
        return None;
    }
    d.pieces.extend(own);
    d.constructors[user].first_piece = first as u16;
    d.constructors[user].piece_count = own.len() as u8;
    Some(())
}

/// Makes the text at least so long.
pub(crate) fn lengthen_text(d: &mut Description, rng: &mut Rng, length: usize) {
    while d.text.len() < length {
        d.text.push(rng.byte_within(32..=126));
    }
}
