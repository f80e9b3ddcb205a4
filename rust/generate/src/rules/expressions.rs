//! The rules of section 7, for used and for unused records.

use reference::{Description, Expression, Fault, Step, STEP_LIMIT};

use super::{add_expression, fault, give_operands, some_constructor, Rule};
use crate::example::{computed, expression, step};
use crate::expressions::some_expression;
use crate::Rng;

pub const RULES: &[Rule] = &[
    ("expression of no steps", no_steps),
    ("expression over 16 steps", steps_over),
    ("expression step kind", kind),
    ("expression operator's value not 0", operator_value),
    ("expression operand number of two bytes", operand_number),
    ("expression shift over 63", shift_over),
    ("expression step past the count not 0", past_count),
    ("expression count one too small", count_less),
    ("expression with too few values", too_few_values),
    ("expression with values left over", values_left),
    ("no expression, and a wrong operand named", wrong_name),
];

/// A new expression of so many steps that names nothing.
fn nameless(rng: &mut Rng, steps: usize) -> Expression {
    some_expression(rng, &[], steps)
}

/// Adds the record, at times with a user.
fn put(d: &mut Description, rng: &mut Rng, bad: Expression) -> Option<Fault> {
    let index = add_expression(d, bad)?;
    if rng.once_in(2) {
        let user = some_constructor(d, rng);
        give_operands(d, user, &[computed(index)])?;
    }
    fault(7, index.into())
}

fn no_steps(d: &mut Description, rng: &mut Rng) -> Option<Fault> {
    let mut bad = match rng.once_in(2) {
        true => Expression::default(),
        false => nameless(rng, 3),
    };
    bad.step_count = 0;
    put(d, rng, bad)
}

fn steps_over(d: &mut Description, rng: &mut Rng) -> Option<Fault> {
    let mut bad = nameless(rng, STEP_LIMIT);
    bad.step_count = rng.pick(&[17, 17, 18, 32, 128, 255]);
    put(d, rng, bad)
}

/// Some step that counts, with its number.
fn some_step(rng: &mut Rng, steps: usize) -> (Expression, usize) {
    (nameless(rng, steps), rng.below(steps))
}

fn kind(d: &mut Description, rng: &mut Rng) -> Option<Fault> {
    let steps = rng.within(1..=STEP_LIMIT);
    let (mut bad, at) = some_step(rng, steps);
    bad.steps[at].kind = rng.pick(&[12, 12, 13, 128, 255]);
    put(d, rng, bad)
}

/// A value of which any byte may be the one that is not 0.
fn some_value(rng: &mut Rng) -> i64 {
    let byte = i64::from(rng.byte_within(1..=255));
    byte << (8 * rng.below(8))
}

fn operator_value(d: &mut Description, rng: &mut Rng) -> Option<Fault> {
    let kind = rng.byte_within(Step::ADDRESS..=Step::EXCLUSIVE_OR);
    let value = some_value(rng);
    let bad = match kind <= Step::ADDRESS_AFTER {
        true => expression(&[step(kind, value)]),
        false => expression(&[Step::default(), Step::default(), step(kind, value)]),
    };
    put(d, rng, bad)
}

/// The user's operand 1 is no field either, which nobody then judges.
fn operand_number(d: &mut Description, rng: &mut Rng) -> Option<Fault> {
    let above = i64::from(rng.byte_within(1..=255)) << (8 * rng.within(1..=7));
    let bad = expression(&[step(
        Step::OPERAND,
        rng.pick(&[256, 257, -1, above, above + 1]),
    )]);
    put(d, rng, bad)
}

fn shift_over(d: &mut Description, rng: &mut Rng) -> Option<Fault> {
    let kind = rng.pick(&[Step::SHIFT_LEFT, Step::SHIFT_RIGHT]);
    let far = 256 << (8 * rng.below(7));
    let value = rng.pick(&[64, 64, 65, 127, 255, far, far + 1, -1, i64::MIN]);
    let bad = expression(&[Step::default(), step(kind, value)]);
    put(d, rng, bad)
}

fn past_count(d: &mut Description, rng: &mut Rng) -> Option<Fault> {
    let steps = rng.within(1..=STEP_LIMIT - 1);
    let mut bad = nameless(rng, steps);
    let at = match rng.once_in(2) {
        true => rng.pick(&[steps, STEP_LIMIT - 1]),
        false => rng.within(steps..=STEP_LIMIT - 1),
    };
    bad.steps[at] = match rng.once_in(2) {
        true => step(rng.byte_within(1..=255), 0),
        false => step(Step::CONSTANT, some_value(rng)),
    };
    put(d, rng, bad)
}

/// The last step, an operator, no longer counts, but it is there.
fn count_less(d: &mut Description, rng: &mut Rng) -> Option<Fault> {
    let steps = rng.within(2..=STEP_LIMIT);
    let mut bad = nameless(rng, steps);
    bad.step_count -= 1;
    put(d, rng, bad)
}

/// An operator before its values, or with one value for two.
fn too_few_values(d: &mut Description, rng: &mut Rng) -> Option<Fault> {
    let operator = step(rng.byte_within(Step::PLUS..=Step::EXCLUSIVE_OR), 0);
    let shift = step(rng.byte_within(Step::SHIFT_LEFT..=Step::SHIFT_RIGHT), 1);
    let zero = Step::default();
    let bad = match rng.below(5) {
        0 => expression(&[operator]),
        1 => expression(&[shift]),
        2 => expression(&[zero, operator]),
        3 => expression(&[shift, zero]),
        // It would come out even.
        _ => expression(&[zero, operator, zero]),
    };
    put(d, rng, bad)
}

fn values_left(d: &mut Description, rng: &mut Rng) -> Option<Fault> {
    let mut bad = nameless(rng, STEP_LIMIT);
    let kept = rng.within(2..=STEP_LIMIT);
    let term = Step::default();
    bad = match rng.below(3) {
        0 => expression(&[term, term]),
        1 => expression(&[term; STEP_LIMIT]),
        _ => {
            bad.steps[kept - 1] = term;
            bad.steps[kept..].fill(term);
            bad.step_count = kept as u8;
            bad
        }
    };
    put(d, rng, bad)
}

/// What is no expression names nothing, so its user is sound.
fn wrong_name(d: &mut Description, rng: &mut Rng) -> Option<Fault> {
    let number = rng.pick(&[0, 1, 2, 255]);
    let wrong = step(Step::OPERAND, number);
    let bad = match rng.below(3) {
        0 => expression(&[wrong, wrong]),
        1 => expression(&[wrong, step(Step::SHIFT_LEFT, 64)]),
        _ => expression(&[wrong, step(Step::PLUS, 0)]),
    };
    let index = add_expression(d, bad)?;
    let user = some_constructor(d, rng);
    give_operands(d, user, &[computed(index)])?;
    fault(7, index.into())
}
