//! Expressions of section 7: which records write one, and what it comes to.

use crate::description::Operand;

/// The most steps of an expression.
pub const STEP_LIMIT: usize = 16;

/// A term, or an operator on the values that the steps before it left.
#[derive(Clone, Copy, Debug, Default, PartialEq, Eq)]
pub struct Step {
    pub kind: u8,
    pub value: i64,
}

impl Step {
    pub const CONSTANT: u8 = 0;
    pub const OPERAND: u8 = 1;
    pub const ADDRESS: u8 = 2;
    pub const ADDRESS_AFTER: u8 = 3;
    pub const PLUS: u8 = 4;
    pub const MINUS: u8 = 5;
    pub const TIMES: u8 = 6;
    pub const AND: u8 = 7;
    pub const OR: u8 = 8;
    pub const EXCLUSIVE_OR: u8 = 9;
    pub const SHIFT_LEFT: u8 = 10;
    pub const SHIFT_RIGHT: u8 = 11;

    fn value_is_sound(&self) -> bool {
        match self.kind {
            Step::CONSTANT => true,
            Step::OPERAND => (0..=255).contains(&self.value),
            Step::ADDRESS..=Step::EXCLUSIVE_OR => self.value == 0,
            Step::SHIFT_LEFT | Step::SHIFT_RIGHT => (0..=63).contains(&self.value),
            _ => false,
        }
    }

    /// How many values it takes; it leaves one.
    fn takes(&self) -> usize {
        match self.kind {
            Step::PLUS..=Step::EXCLUSIVE_OR => 2,
            Step::SHIFT_LEFT | Step::SHIFT_RIGHT => 1,
            _ => 0,
        }
    }
}

/// A record, which may write an expression in postfix order.
#[derive(Clone, Copy, Debug, Default, PartialEq, Eq)]
pub struct Expression {
    pub step_count: u8,
    pub steps: [Step; STEP_LIMIT],
}

impl Expression {
    /// The steps that count; nothing if there are none or too many.
    fn used_steps(&self) -> Option<&[Step]> {
        let steps = self.steps.get(..usize::from(self.step_count))?;
        (!steps.is_empty()).then_some(steps)
    }

    /// The record writes an expression.
    pub fn is_sound(&self) -> bool {
        let Some(steps) = self.used_steps() else {
            return false;
        };
        let unused = &self.steps[steps.len()..];
        steps.iter().all(Step::value_is_sound)
            && unused.iter().all(|step| *step == Step::default())
            && leaves_one_value(steps)
    }

    /// The numbers of the operands that it names; none if it is no expression.
    pub fn operand_numbers(&self) -> impl Iterator<Item = u8> + '_ {
        let steps = self.used_steps().filter(|_| self.is_sound());
        let operands = steps.into_iter().flatten();
        operands
            .filter(|step| step.kind == Step::OPERAND)
            .map(|step| step.value as u8)
    }

    /// Every operand that it names is a field operand of a user with these.
    pub fn names_fields_of(&self, operands: &[Operand]) -> bool {
        self.operand_numbers().all(|number| {
            let place = usize::from(number).checked_sub(1);
            let named = place.and_then(|place| operands.get(place));
            named.is_some_and(|operand| operand.kind == Operand::FIELD)
        })
    }

    /// What it comes to, if that and all values on the way fit 64 bits. The
    /// fields' values are those of its user's operands by number.
    pub fn value(&self, addresses: Addresses, field: impl Fn(u8) -> i64) -> Option<i64> {
        let mut values: Vec<i64> = Vec::with_capacity(STEP_LIMIT);
        for step in self.used_steps()? {
            let taken = values.len().checked_sub(step.takes())?;
            // 128 bits hold whatever comes of one or two numbers of 64.
            let result: i128 = match step.kind {
                Step::CONSTANT => step.value.into(),
                Step::OPERAND => field(step.value as u8).into(),
                Step::ADDRESS => addresses.of.into(),
                Step::ADDRESS_AFTER => addresses.after.into(),
                _ => operated(step, &values[taken..])?,
            };
            values.truncate(taken);
            values.push(i64::try_from(result).ok()?);
        }
        values.pop()
    }
}

/// An instruction's address and the one after it.
#[derive(Clone, Copy, Debug)]
pub struct Addresses {
    pub of: u64,
    pub after: u64,
}

/// No step finds too few values, and one is left.
fn leaves_one_value(steps: &[Step]) -> bool {
    let left = steps.iter().try_fold(0_usize, |values, step| {
        Some(values.checked_sub(step.takes())? + 1)
    });
    left == Some(1)
}

/// An operator on the values it takes. Bits below zero are those of endless
/// two's complement, as those of more bits than the values have; a right shift
/// rounds down.
fn operated(operator: &Step, values: &[i64]) -> Option<i128> {
    let left = i128::from(*values.first()?);
    let right = i128::from(*values.last()?);
    Some(match operator.kind {
        Step::PLUS => left + right,
        Step::MINUS => left - right,
        Step::TIMES => left * right,
        Step::AND => left & right,
        Step::OR => left | right,
        Step::EXCLUSIVE_OR => left ^ right,
        Step::SHIFT_LEFT => left << operator.value,
        Step::SHIFT_RIGHT => left >> operator.value,
        _ => return None,
    })
}
