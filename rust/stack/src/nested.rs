//! Tables nested in each other.

use generate::example::{computed, constructor, expression, field, operand, shown, step};
use reference::{Description, Expression, Field, Operand, Step, STEP_LIMIT};

/// What the innermost table has.
#[derive(Clone, Copy)]
pub enum Inner {
    /// A constructor with one field, which is a row more.
    Field,
    /// A constructor without operands.
    Nothing,
    /// Two constructors that it cannot decide between.
    Equals,
    /// A constructor with an operand that is computed in the most steps.
    Computed,
}

impl Inner {
    pub const ALL: [Inner; 4] = [Inner::Field, Inner::Nothing, Inner::Equals, Inner::Computed];
}

/// So many tables, each with one constructor whose only operand is the table
/// below. All is shown, and any code of a byte or more matches.
pub fn nested(depth: usize, inner: Inner) -> Description {
    let nothing = constructor(0, 1, (0, 0), (0, 0), (0, 0));
    let mut d = Description {
        fields: vec![field(0, 1, 0, 0, 7, Field::SIGNED_HEX)],
        constructors: match inner {
            Inner::Field | Inner::Computed => vec![constructor(0, 1, (0, 0), (0, 1), (0, 1))],
            Inner::Nothing => vec![nothing],
            Inner::Equals => vec![nothing; 2],
        },
        operands: vec![operand(Operand::FIELD, 0, 0, 0)],
        pieces: vec![shown(1)],
        ..Description::default()
    };
    if let Inner::Computed = inner {
        d.operands[0] = computed(0);
        d.expressions.push(most_steps());
    }
    for table in 1..depth as u8 {
        d.operands.push(operand(Operand::TABLE, table - 1, 0, 0));
        let operands = (table.into(), 1);
        d.constructors
            .push(constructor(table, 1, (0, 0), operands, (0, 1)));
    }
    d
}

/// Eight addresses, then what makes one value of them, and a shift.
fn most_steps() -> Expression {
    let mut steps = [step(Step::ADDRESS, 0); STEP_LIMIT];
    steps[8..15].fill(step(Step::PLUS, 0));
    steps[15] = step(Step::SHIFT_LEFT, 1);
    expression(&steps)
}
