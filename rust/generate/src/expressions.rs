//! Random expressions, and computed operands in descriptions.

use reference::{Constructor, Description, Expression, Operand, Step, STEP_LIMIT};

use crate::example::{computed, expression, step};
use crate::operators::near_power;
use crate::write::LIMITS;
use crate::Rng;

/// The most computed operands that a description is given, so that it can be
/// listed.
const MOST: usize = 32;

/// An expression of so many steps (1 to 16) whose operands are some of these.
pub fn some_expression(rng: &mut Rng, operands: &[u8], steps: usize) -> Expression {
    let mut growing = Growing {
        mild: !rng.once_in(3),
        rng,
        operands,
        steps: Vec::new(),
    };
    growing.value(steps);
    expression(&growing.steps)
}

struct Growing<'a> {
    rng: &'a mut Rng,
    operands: &'a [u8],
    /// Values stay small, as those of branch targets do.
    mild: bool,
    steps: Vec<Step>,
}

impl Growing<'_> {
    /// Adds so many steps, which leave one value.
    fn value(&mut self, steps: usize) {
        let added = match steps {
            1 => self.term(),
            2 => self.shift(1),
            _ if self.rng.once_in(4) => self.shift(steps - 1),
            _ => self.operator(steps - 1),
        };
        self.steps.push(added);
    }

    fn term(&mut self) -> Step {
        match self.rng.below(8) {
            0..=3 if !self.operands.is_empty() => {
                step(Step::OPERAND, self.rng.pick(self.operands).into())
            }
            4 => step(Step::ADDRESS, 0),
            5 => step(Step::ADDRESS_AFTER, 0),
            _ => step(Step::CONSTANT, self.constant()),
        }
    }

    fn constant(&mut self) -> i64 {
        match self.rng.below(8) {
            _ if self.mild => self.rng.within(0..=20) as i64 - 10,
            0 => self.rng.word() as i64,
            1..=2 => self
                .rng
                .pick(&[i64::MIN, i64::MIN + 1, i64::MAX, i64::MAX - 1]),
            _ => near_power(1 << self.rng.below(63), self.rng.below(6)),
        }
    }

    fn shift(&mut self, steps: usize) -> Step {
        self.value(steps);
        let most = if self.mild { 3 } else { 63 };
        let some = self.rng.within(0..=most) as i64;
        let kind = self.rng.pick(&[Step::SHIFT_LEFT, Step::SHIFT_RIGHT]);
        let places = self.rng.pick(&[some, some, some, 0, 1, 31, 32, 62, 63]);
        step(kind, if self.mild { some } else { places })
    }

    fn operator(&mut self, steps: usize) -> Step {
        let left = self.rng.within(1..=steps - 1);
        self.value(left);
        self.value(steps - left);
        step(self.rng.byte_within(Step::PLUS..=Step::EXCLUSIVE_OR), 0)
    }
}

/// Any number of steps, often few and at times as many as may be.
pub fn some_steps(rng: &mut Rng) -> usize {
    match rng.below(8) {
        0 => STEP_LIMIT,
        1 => rng.within(1..=STEP_LIMIT),
        _ => rng.within(1..=5),
    }
}

/// Puts computed operands in the place of some field operands of a well-formed
/// description, which stays so; with them come records that nobody uses. It has
/// no expressions before: one might name a field that is replaced.
pub fn compute_some(rng: &mut Rng, d: &mut Description) {
    assert!(d.expressions.is_empty());
    let one_in = rng.pick(&[2, 4, 8]);
    let mut replaced = Vec::new();
    for record in 0..d.operands.len() {
        let is_field = d.operands[record].kind == Operand::FIELD;
        if is_field && rng.once_in(one_in) && replaced.len() < MOST {
            d.operands[record] = computed(0);
            replaced.push(record);
        }
    }
    for record in replaced {
        if rng.once_in(8) {
            add_unused_expression(rng, d);
        }
        d.operands[record].index = expression_for(rng, d, record);
    }
    if rng.once_in(4) {
        add_unused_expression(rng, d);
    }
}

/// What nobody's use judges may name anything.
fn add_unused_expression(rng: &mut Rng, d: &mut Description) {
    if d.expressions.len() == LIMITS[6] {
        return;
    }
    let numbers = [0, 1, 8, 9, 255];
    let unused = some_expression(rng, &numbers, 3);
    if rng.once_in(2) && d.operands.len() < LIMITS[3] {
        let index = d.expressions.len() as u8;
        d.operands.push(computed(index));
    }
    d.expressions.push(unused);
}

/// The number of an expression for an operand: a new one, or at times one that
/// others use too.
fn expression_for(rng: &mut Rng, d: &mut Description, record: usize) -> u8 {
    let fields = common_fields(d, record);
    let fits = |i: usize| {
        let mut numbers = d.expressions[i].operand_numbers();
        numbers.all(|number| fields.contains(&number))
    };
    let shared = rng.index_where(d.expressions.len(), fits);
    match shared {
        Some(shared) if rng.once_in(6) => shared as u8,
        _ => {
            let steps = some_steps(rng);
            d.expressions.push(some_expression(rng, &fields, steps));
            (d.expressions.len() - 1) as u8
        }
    }
}

/// The numbers of operands that are fields in every user of an operand.
pub fn common_fields(d: &Description, record: usize) -> Vec<u8> {
    let uses = |c: &&Constructor| c.operand_range().contains(&record);
    let users: Vec<&[Operand]> = d
        .constructors
        .iter()
        .filter(uses)
        .map(|user| d.operands_of(user))
        .collect();
    let is_field = |number: &u8| {
        let named = expression(&[step(Step::OPERAND, (*number).into())]);
        users.iter().all(|user| named.names_fields_of(user))
    };
    (1..=8).filter(is_field).collect()
}
