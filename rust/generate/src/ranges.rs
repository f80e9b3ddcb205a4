//! Every source, width, order and range of a field.

use reference::{Description, Field, Operand};

use crate::example::{constructor, field, operand};

/// The most fields of a description made of them.
pub const TABLE_FIELDS: usize = 256;

/// The most operands of a constructor.
const EACH: usize = 8;

/// The widest token, with the byte that its constructor is chosen by.
pub const FIELD_INSTRUCTION: usize = 5;

/// A width of 4 bytes is the context's too.
const WIDEST: u8 = 4;

/// All ranges of every token and of the context, without a sign and with one.
pub fn all_fields() -> impl Iterator<Item = Field> {
    let orders = [Field::LITTLE, Field::BIG];
    let of_width = move |width| orders.map(|order| (Field::INSTRUCTION, width, order));
    let tokens = (1..=WIDEST).flat_map(of_width);
    let context = [(Field::CONTEXT, WIDEST, Field::LITTLE)];
    tokens.chain(context).flat_map(|(source, width, order)| {
        ranges(8 * width).flat_map(move |(low, high)| {
            [Field::UNSIGNED_DECIMAL, Field::SIGNED_DECIMAL]
                .map(|look| field(source, width, order, low, high, look))
        })
    })
}

/// Every lowest and highest of so many bits.
fn ranges(bits: u8) -> impl Iterator<Item = (u8, u8)> {
    (0..bits).flat_map(move |low| (low..bits).map(move |high| (low, high)))
}

/// Instructions that each have up to eight of these fields. The first byte says
/// which instruction it is, and tokens start behind it.
pub fn field_table(fields: &[Field]) -> Description {
    let of = |i: usize, some: &[Field]| {
        let operands = ((EACH * i) as u16, some.len() as u8);
        constructor(0, 1, (0xff, i as u64), operands, (0, 0))
    };
    let reading = |(i, field): (usize, &Field)| {
        let offset = u8::from(!field.is_context());
        operand(Operand::FIELD, i as u8, 0, offset)
    };
    let constructors = fields.chunks(EACH).enumerate();
    Description {
        fields: fields.to_vec(),
        constructors: constructors.map(|(i, some)| of(i, some)).collect(),
        operands: fields.iter().enumerate().map(reading).collect(),
        ..Description::default()
    }
}
