//! Decoding one instruction.

use crate::answer::Refusal;
use crate::choose::{choose, Choice};
use crate::description::{Constructor, Description, Field, Operand};
use crate::expression::Addresses;

/// Kind, constructor, field or expression, start, and length or value.
pub type Row = [i64; 4];

const CONSTRUCTOR_ROW: i64 = 0;
const VALUE_ROW: i64 = 1;
const NAME_ROW: i64 = 2;
const COMPUTED_ROW: i64 = 3;

const ROW_LIMIT: usize = 32;
const POSITION_LIMIT: usize = 16;

/// A decoded constructor with its operands in order.
#[derive(Clone, Debug, PartialEq, Eq)]
pub struct Decoded {
    pub constructor: usize,
    pub start: usize,
    pub length: usize,
    pub operands: Vec<Part>,
}

/// A decoded operand. A field shown by names has its name number as value.
#[derive(Clone, Debug, PartialEq, Eq)]
pub enum Part {
    Field {
        field: usize,
        start: usize,
        value: i64,
    },
    Constructor(Decoded),
    /// By an expression.
    Computed {
        expression: usize,
        start: usize,
        value: i64,
    },
}

/// Decodes the instruction at the code's start, which has this address, to rows.
pub fn decode(
    description: &Description,
    context: u32,
    address: u32,
    code: &[u8],
) -> Result<Vec<Row>, Refusal> {
    let decoded = decode_instruction(description, context, address.into(), code)?;
    let mut rows = Vec::new();
    add_rows(description, &decoded, &mut rows);
    Ok(rows)
}

fn add_rows(description: &Description, decoded: &Decoded, rows: &mut Vec<Row>) {
    rows.push([
        CONSTRUCTOR_ROW,
        decoded.constructor as i64,
        decoded.start as i64,
        decoded.length as i64,
    ]);
    for part in &decoded.operands {
        match part {
            Part::Constructor(inner) => add_rows(description, inner, rows),
            &Part::Field {
                field,
                start,
                value,
            } => {
                let kind = match description.fields[field].look {
                    Field::NAMES => NAME_ROW,
                    _ => VALUE_ROW,
                };
                rows.push([kind, field as i64, start as i64, value]);
            }
            &Part::Computed {
                expression,
                start,
                value,
            } => rows.push([COMPUTED_ROW, expression as i64, start as i64, value]),
        }
    }
}

/// Walks the instruction at the code's start, which has this address.
pub fn decode_instruction(
    description: &Description,
    context: u32,
    address: u64,
    code: &[u8],
) -> Result<Decoded, Refusal> {
    let mut walk = Walk {
        description,
        context,
        code,
        rows_left: ROW_LIMIT,
    };
    let mut root = walk.table(description.root(), 0)?;
    if root.length == 0 {
        return Err(Refusal::RootLengthZero);
    }
    let addresses = Addresses {
        of: address,
        after: address + root.length as u64,
    };
    compute(description, addresses, &mut root)?;
    Ok(root)
}

/// Computes what the walk left open, in the order of the rows.
fn compute(
    description: &Description,
    addresses: Addresses,
    decoded: &mut Decoded,
) -> Result<(), Refusal> {
    for i in 0..decoded.operands.len() {
        match decoded.operands[i] {
            Part::Constructor(ref mut inner) => compute(description, addresses, inner)?,
            Part::Computed {
                expression, start, ..
            } => {
                let field = |number| counted(description, &decoded.operands, number);
                let computed = description.expressions[expression].value(addresses, field);
                let value = computed.ok_or(Refusal::Outside { place: start })?;
                decoded.operands[i] = Part::Computed {
                    expression,
                    start,
                    value,
                };
            }
            Part::Field { .. } => {}
        }
    }
    Ok(())
}

/// What a field operand counts as: its row's value, or its bits if it is shown
/// by names.
fn counted(description: &Description, operands: &[Part], number: u8) -> i64 {
    match operands[usize::from(number) - 1] {
        Part::Field { field, value, .. } => value - i64::from(description.fields[field].first_name),
        // A well-formed description's expressions name no other operands.
        _ => 0,
    }
}

struct Walk<'a> {
    description: &'a Description,
    context: u32,
    code: &'a [u8],
    rows_left: usize,
}

impl Walk<'_> {
    fn table(&mut self, table: u32, start: usize) -> Result<Decoded, Refusal> {
        self.take_row()?;
        stays_near(start, start)?;
        let chosen = self.choose(table, start)?;
        let constructor = &self.description.constructors[chosen];
        let (operands, length) = self.operands(constructor, start)?;
        stays_near(start + length, start)?;
        self.ends_in_code(start + length, start)?;
        Ok(Decoded {
            constructor: chosen,
            start,
            length,
            operands,
        })
    }

    fn choose(&self, table: u32, start: usize) -> Result<usize, Refusal> {
        // A well-formed description's operands name tables that exist.
        let records = self
            .description
            .table(table)
            .ok_or(Refusal::NoTable { table })?;
        let part = self.code.get(start..).unwrap_or_default();
        match choose(self.description, records, self.context, part) {
            Choice::Taken(constructor) => Ok(constructor),
            Choice::Short => Err(Refusal::Short { place: start }),
            Choice::NoMatch => Err(Refusal::NoMatch {
                place: start,
                table,
            }),
            Choice::Ambiguous => Err(Refusal::Ambiguous {
                place: start,
                table,
            }),
        }
    }

    /// The operands of a constructor, and its length.
    fn operands(
        &mut self,
        constructor: &Constructor,
        start: usize,
    ) -> Result<(Vec<Part>, usize), Refusal> {
        let operands = self.description.operands_of(constructor);
        let mut parts = Vec::with_capacity(operands.len());
        // Where each anchor number stands: the start, then operand ends.
        let mut anchors = vec![start];
        for operand in operands {
            let at = anchors[usize::from(operand.anchor)] + usize::from(operand.offset);
            let (part, end) = self.operand(operand, at)?;
            parts.push(part);
            anchors.push(end);
        }
        let farthest = anchors.into_iter().max().unwrap_or(start) - start;
        Ok((parts, farthest.max(usize::from(constructor.minimum_length))))
    }

    /// An operand and its end.
    fn operand(&mut self, operand: &Operand, start: usize) -> Result<(Part, usize), Refusal> {
        match operand.kind {
            Operand::TABLE => {
                let inner = self.table(u32::from(operand.index), start)?;
                let end = start + inner.length;
                Ok((Part::Constructor(inner), end))
            }
            Operand::COMPUTED => self.computed(usize::from(operand.index), start),
            _ => self.field(usize::from(operand.index), start),
        }
    }

    /// Takes no bytes. Its value needs the root's length.
    fn computed(&mut self, expression: usize, start: usize) -> Result<(Part, usize), Refusal> {
        self.take_row()?;
        stays_near(start, start)?;
        self.ends_in_code(start, start)?;
        let part = Part::Computed {
            expression,
            start,
            value: 0,
        };
        Ok((part, start))
    }

    fn field(&mut self, index: usize, start: usize) -> Result<(Part, usize), Refusal> {
        let field = &self.description.fields[index];
        let end = match field.is_context() {
            true => start,
            false => start + usize::from(field.width),
        };
        self.take_row()?;
        stays_near(end, start)?;
        self.ends_in_code(end, start)?;
        let mut value = field_value(field, self.context, &self.code[start..end]);
        if field.look == Field::NAMES {
            value += i64::from(field.first_name);
            if self.description.names[value as usize].length == 0 {
                return Err(Refusal::Hole { place: start });
            }
        }
        let part = Part::Field {
            field: index,
            start,
            value,
        };
        Ok((part, end))
    }

    fn take_row(&mut self) -> Result<(), Refusal> {
        self.rows_left = self.rows_left.checked_sub(1).ok_or(Refusal::TooManyRows)?;
        Ok(())
    }

    fn ends_in_code(&self, end: usize, place: usize) -> Result<(), Refusal> {
        match end > self.code.len() {
            true => Err(Refusal::Short { place }),
            false => Ok(()),
        }
    }
}

/// No start or end is below its place, so the farther position decides.
fn stays_near(position: usize, place: usize) -> Result<(), Refusal> {
    match position > POSITION_LIMIT {
        true => Err(Refusal::TooFar { place }),
        false => Ok(()),
    }
}

/// The field's bits out of its bytes, or out of the context.
fn field_value(field: &Field, context: u32, bytes: &[u8]) -> i64 {
    let join = |whole: i64, byte: &u8| whole << 8 | i64::from(*byte);
    let whole = match (field.source, field.order) {
        (Field::CONTEXT, _) => i64::from(context),
        (_, Field::BIG) => bytes.iter().fold(0, join),
        _ => bytes.iter().rev().fold(0, join),
    };
    let size = 1_i64 << field.bits();
    let value = whole >> field.low & (size - 1);
    let below_zero = field.is_signed() && value >= size / 2;
    value - if below_zero { size } else { 0 }
}
