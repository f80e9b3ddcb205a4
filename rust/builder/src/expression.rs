//! What computed operands are computed from.

use std::ops::{Add, BitAnd, BitOr, BitXor, Mul, Shl, Shr, Sub};

use crate::limits;
use crate::refusal::{ensure, Refusal};

/// A whole number, computed for each instruction. Rust's operators and their
/// precedence write it: `Expression::next() + Expression::field("k") * 2`.
#[derive(Clone, Debug)]
pub struct Expression {
    /// Each operator after the two that it joins.
    steps: Vec<Step>,
}

#[derive(Clone, Debug)]
enum Step {
    Constant(i64),
    Field(String),
    Address,
    Next,
    /// Its kind in the record.
    Operator(u8),
    /// Its kind in the record, and by how many bits.
    Shift(u8, u8),
}

/// A kind and a value of eight bytes.
const STEP: usize = 9;

/// The number of steps, then as many as there can be.
const RECORD: usize = 1 + STEP * limits::STEPS;

pub(crate) type Record = [u8; RECORD];

impl Expression {
    /// The value of a field operand by its name. A name that nothing else
    /// introduces is a field at the constructor's start, which is not shown.
    pub fn field(operand: &str) -> Expression {
        Expression::term(Step::Field(operand.to_string()))
    }

    /// The instruction's address.
    pub fn address() -> Expression {
        Expression::term(Step::Address)
    }

    /// The address after the instruction.
    pub fn next() -> Expression {
        Expression::term(Step::Next)
    }

    fn term(step: Step) -> Expression {
        Expression { steps: vec![step] }
    }

    fn then(mut self, steps: impl IntoIterator<Item = Step>) -> Expression {
        self.steps.extend(steps);
        self
    }

    pub(crate) fn fields(&self) -> impl Iterator<Item = &str> {
        self.steps.iter().filter_map(|step| match step {
            Step::Field(name) => Some(name.as_str()),
            _ => None,
        })
    }

    /// Its record, if each field operand that it names has a number.
    pub(crate) fn record(
        &self,
        number: impl Fn(&str) -> Result<u8, Refusal>,
    ) -> Result<Record, Refusal> {
        let count = self.steps.len();
        ensure!(
            count <= limits::STEPS,
            "an expression of {count} steps, and 16 is the most"
        );
        let mut record = [0; RECORD];
        record[0] = count as u8;
        for (step, bytes) in self.steps.iter().zip(record[1..].chunks_mut(STEP)) {
            let (kind, value) = match step {
                Step::Constant(value) => (0, *value),
                Step::Field(name) => (1, i64::from(number(name)?)),
                Step::Address => (2, 0),
                Step::Next => (3, 0),
                Step::Operator(kind) => (*kind, 0),
                Step::Shift(kind, bits) => {
                    ensure!(
                        *bits <= limits::SHIFT,
                        "a shift by {bits}, and 63 is the most"
                    );
                    (*kind, i64::from(*bits))
                }
            };
            bytes[0] = kind;
            bytes[1..].copy_from_slice(&value.to_le_bytes());
        }
        Ok(record)
    }
}

impl From<i64> for Expression {
    fn from(value: i64) -> Expression {
        Expression::term(Step::Constant(value))
    }
}

macro_rules! operators {
    ($($operator:ident $method:ident $kind:literal,)+) => {$(
        impl<T: Into<Expression>> $operator<T> for Expression {
            type Output = Expression;

            fn $method(self, right: T) -> Expression {
                self.then(right.into().steps).then([Step::Operator($kind)])
            }
        }

        impl $operator<Expression> for i64 {
            type Output = Expression;

            fn $method(self, right: Expression) -> Expression {
                Expression::from(self).$method(right)
            }
        }
    )+};
}

operators! {
    Add add 4,
    Sub sub 5,
    Mul mul 6,
    BitAnd bitand 7,
    BitOr bitor 8,
    BitXor bitxor 9,
}

impl Shl<u8> for Expression {
    type Output = Expression;

    fn shl(self, bits: u8) -> Expression {
        self.then([Step::Shift(10, bits)])
    }
}

/// Rounds down.
impl Shr<u8> for Expression {
    type Output = Expression;

    fn shr(self, bits: u8) -> Expression {
        self.then([Step::Shift(11, bits)])
    }
}
