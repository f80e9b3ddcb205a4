//! Evaluating an expression by words of 64 bits, each step checked.

use reference::{Expression, Step, STEP_LIMIT};

use super::OPERANDS;

/// What the steps may name.
#[derive(Clone, Copy)]
pub struct Terms {
    pub address: i64,
    pub address_after: i64,
    pub operands: [i64; OPERANDS],
}

/// What a well-formed expression comes to, if all values on the way fit.
#[inline]
pub fn value(expression: &Expression, terms: &Terms) -> Option<i64> {
    let mut values = [0; STEP_LIMIT];
    let mut count = 0;
    for step in &expression.steps[..usize::from(expression.step_count)] {
        if step.kind <= Step::ADDRESS_AFTER {
            values[count] = term(step, terms);
            count += 1;
            continue;
        }
        if step.kind <= Step::EXCLUSIVE_OR {
            count -= 1;
        }
        let right = values[count];
        let left = &mut values[count - 1];
        *left = operated(step, *left, right)?;
    }
    Some(values[0])
}

#[inline(always)]
fn term(step: &Step, terms: &Terms) -> i64 {
    match step.kind {
        Step::CONSTANT => step.value,
        Step::OPERAND => terms.operands[step.value as usize - 1],
        Step::ADDRESS => terms.address,
        _ => terms.address_after,
    }
}

#[inline(always)]
fn operated(step: &Step, left: i64, right: i64) -> Option<i64> {
    match step.kind {
        Step::PLUS => left.checked_add(right),
        Step::MINUS => left.checked_sub(right),
        Step::TIMES => left.checked_mul(right),
        Step::AND => Some(left & right),
        Step::OR => Some(left | right),
        Step::EXCLUSIVE_OR => Some(left ^ right),
        Step::SHIFT_LEFT => {
            // What comes back is what went.
            let shifted = left << step.value;
            (shifted >> step.value == left).then_some(shifted)
        }
        _ => Some(left >> step.value),
    }
}
