//! The rules of section 4, for used and for unused records.

use reference::{Description, Fault, Operand, Step};

use super::{
    add_expression, constant, fault, give_operands, good_operands, some_constructor, some_field,
    Rule,
};
use crate::example::{computed, expression, operand, step};
use crate::write::LIMITS;
use crate::Rng;

pub const RULES: &[Rule] = &[
    ("operand kind", kind),
    ("field operand index", field_index),
    ("operand offset", offset),
    ("context field anchor, used", context_anchor_used),
    ("context field anchor, unused", context_anchor_unused),
    ("context field offset, used", context_offset_used),
    ("context field offset, unused", context_offset_unused),
    ("computed operand index", expression_index),
    ("computed operand index, used", expression_index_used),
    ("computed operand anchor, used", computed_anchor_used),
    ("computed operand anchor, unused", computed_anchor_unused),
    ("computed operand offset, used", computed_offset_used),
    ("computed operand offset, unused", computed_offset_unused),
    ("expression of a bad field operand", bad_field_named),
];

/// Some record, which users may have or not.
fn some_record(d: &mut Description, rng: &mut Rng) -> usize {
    if d.operands.is_empty() {
        d.operands.push(operand(Operand::TABLE, 0, 0, 0));
    }
    rng.below(d.operands.len())
}

/// No field that an expression may name: that would be its user's fault.
fn kind(d: &mut Description, rng: &mut Rng) -> Option<Fault> {
    some_record(d, rng);
    let record = rng.index_where(d.operands.len(), |i| {
        d.expressions.is_empty() || d.operands[i].kind != Operand::FIELD
    })?;
    d.operands[record].kind = rng.pick(&[3, 3, 4, 255]);
    fault(4, record)
}

fn field_index(d: &mut Description, rng: &mut Rng) -> Option<Fault> {
    let record = some_record(d, rng);
    let past = u8::try_from(d.fields.len()).ok()?;
    d.operands[record].kind = Operand::FIELD;
    d.operands[record].index = if rng.once_in(3) {
        rng.byte_within(past..=255)
    } else {
        past
    };
    fault(4, record)
}

fn offset(d: &mut Description, rng: &mut Rng) -> Option<Fault> {
    let record = some_record(d, rng);
    d.operands[record].offset = rng.pick(&[16, 16, 17, 128, 255]);
    fault(4, record)
}

fn unused(d: &mut Description, operand: Operand) -> Option<Fault> {
    if d.operands.len() == LIMITS[3] {
        return None;
    }
    d.operands.push(operand);
    fault(4, d.operands.len() - 1)
}

fn context_anchor_unused(d: &mut Description, rng: &mut Rng) -> Option<Fault> {
    let index = some_field(d, rng, true)?;
    let anchor = rng.pick(&[1, 1, 2, 8, 9, 255]);
    unused(d, operand(Operand::FIELD, index, anchor, 0))
}

fn context_offset_unused(d: &mut Description, rng: &mut Rng) -> Option<Fault> {
    let index = some_field(d, rng, true)?;
    let offset = rng.byte_within(1..=15);
    unused(d, operand(Operand::FIELD, index, 0, offset))
}

/// Gives some constructor operands with this one among them, from the
/// second on so that anchor 1 is earlier.
fn used(d: &mut Description, rng: &mut Rng, bad: Operand) -> Option<Fault> {
    let user = some_constructor(d, rng);
    let count = rng.within(2..=8);
    let mut operands = good_operands(d, rng, user, count)?;
    let position = rng.within(1..=count - 1);
    operands[position] = bad;
    let first = d.operands.len();
    give_operands(d, user, &operands)?;
    fault(4, first + position)
}

fn context_anchor_used(d: &mut Description, rng: &mut Rng) -> Option<Fault> {
    let index = some_field(d, rng, true)?;
    used(d, rng, operand(Operand::FIELD, index, 1, 0))
}

fn context_offset_used(d: &mut Description, rng: &mut Rng) -> Option<Fault> {
    let index = some_field(d, rng, true)?;
    let offset = rng.byte_within(1..=15);
    used(d, rng, operand(Operand::FIELD, index, 0, offset))
}

/// A number that no expression has.
fn no_expression(d: &Description, rng: &mut Rng) -> Option<u8> {
    let past = u8::try_from(d.expressions.len()).ok()?;
    Some(match rng.once_in(3) {
        true => rng.byte_within(past..=255),
        false => past,
    })
}

fn expression_index(d: &mut Description, rng: &mut Rng) -> Option<Fault> {
    let index = no_expression(d, rng)?;
    unused(d, computed(index))
}

fn expression_index_used(d: &mut Description, rng: &mut Rng) -> Option<Fault> {
    let index = no_expression(d, rng)?;
    used(d, rng, computed(index))
}

fn computed_anchor_used(d: &mut Description, rng: &mut Rng) -> Option<Fault> {
    let index = constant(d)?;
    used(d, rng, operand(Operand::COMPUTED, index, 1, 0))
}

fn computed_anchor_unused(d: &mut Description, rng: &mut Rng) -> Option<Fault> {
    let index = constant(d)?;
    let anchor = rng.pick(&[1, 1, 2, 8, 9, 255]);
    unused(d, operand(Operand::COMPUTED, index, anchor, 0))
}

fn computed_offset_used(d: &mut Description, rng: &mut Rng) -> Option<Fault> {
    let index = constant(d)?;
    let offset = rng.pick(&[1, 1, 15, 16, 255]);
    used(d, rng, operand(Operand::COMPUTED, index, 0, offset))
}

fn computed_offset_unused(d: &mut Description, rng: &mut Rng) -> Option<Fault> {
    let index = constant(d)?;
    let offset = rng.pick(&[1, 1, 15, 16, 255]);
    unused(d, operand(Operand::COMPUTED, index, 0, offset))
}

/// An expression may name a field operand whose index is bad, and that is the
/// operand's fault alone.
fn bad_field_named(d: &mut Description, rng: &mut Rng) -> Option<Fault> {
    let past = u8::try_from(d.fields.len()).ok()?;
    let user = some_constructor(d, rng);
    let index = add_expression(d, expression(&[step(Step::OPERAND, 2)]))?;
    let first = d.operands.len();
    let operands = [computed(index), operand(Operand::FIELD, past, 0, 0)];
    give_operands(d, user, &operands)?;
    fault(4, first + 1)
}
