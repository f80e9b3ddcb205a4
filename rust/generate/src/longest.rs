//! The longest descriptions: every section full.

use reference::{Constructor, Description, Field, Name, Operand, Pattern, Piece, STEP_LIMIT};

use crate::example::{computed, literal, operand, shown};
use crate::expressions::{common_fields, some_expression};
use crate::well_formed;
use crate::write::LIMITS;
use crate::Rng;

/// Every section full: [`longest`], with a computed operand of 16 steps in the
/// place of a field for every two constructors.
pub fn longest_of_all() -> Description {
    let rng = &mut Rng::new(91_406);
    let mut d = longest();
    for expression in 0..LIMITS[6] {
        let operands = 8 * expression..8 * expression + 8;
        let field = operands
            .clone()
            .rfind(|&i| d.operands[i].kind == Operand::FIELD);
        if let Some(field) = field {
            d.operands[field] = computed(expression as u8);
        }
        let fields = common_fields(&d, operands.start);
        d.expressions
            .push(some_expression(rng, &fields, STEP_LIMIT));
    }
    d
}

/// Every section full but the last, which is absent; 8 operands and 16 pieces for each constructor (each
/// record has two users), and tables in all numbers from 0 to 63.
pub fn longest() -> Description {
    let rng = &mut Rng::new(54_284);
    let [fields, names, constructors, operands, pieces, text, _] = LIMITS;
    let mut d = Description {
        text: (0..text).map(|_| rng.byte_within(32..=126)).collect(),
        ..Description::default()
    };
    d.names = (0..names).map(|_| long_name(rng, text)).collect();
    d.fields = (0..fields)
        .map(|_| well_formed::field(rng, names))
        .collect();
    d.constructors = (0..constructors).map(|i| constructor(rng, i)).collect();
    d.operands = (0..operands)
        .map(|i| used_operand(rng, &d.fields, i))
        .collect();
    for _ in 0..pieces / 16 {
        d.pieces.extend(sixteen_pieces(rng, text));
    }
    d
}

fn long_name(rng: &mut Rng, text: usize) -> Name {
    let length = rng.byte_within(1..=255);
    Name {
        text_offset: rng.within(0..=text - usize::from(length)) as u16,
        length,
    }
}

fn constructor(rng: &mut Rng, record: usize) -> Constructor {
    let byte_mask = rng.word();
    let context_mask = rng.word() as u32;
    Constructor {
        table: table_of(record),
        minimum_length: rng.byte_within(8..=16),
        pattern: Pattern {
            byte_mask,
            byte_value: rng.word() & byte_mask,
            context_mask,
            context_value: rng.word() as u32 & context_mask,
        },
        operand_count: 8,
        first_operand: (record / 2 * 8) as u16,
        piece_count: 16,
        first_piece: (record / 2 * 16) as u16,
    }
}

/// Eight constructors a table.
fn table_of(constructor: usize) -> u8 {
    (constructor / 8) as u8
}

/// Half of the operands are tables, as far as there are lower ones.
fn used_operand(rng: &mut Rng, fields: &[Field], record: usize) -> Operand {
    let position = record % 8;
    let table = table_of(record / 8 * 2);
    let anchor = rng.within(0..=position) as u8;
    let offset = rng.byte_within(0..=15);
    if table > 0 && rng.once_in(2) {
        return operand(
            Operand::TABLE,
            rng.byte_within(0..=table - 1),
            anchor,
            offset,
        );
    }
    let index = rng.below(fields.len());
    match fields[index].is_context() {
        true => operand(Operand::FIELD, index as u8, 0, 0),
        false => operand(Operand::FIELD, index as u8, anchor, offset),
    }
}

/// All eight operands, and text, in any order.
fn sixteen_pieces(rng: &mut Rng, text: usize) -> Vec<Piece> {
    let mut pieces: Vec<Piece> = (1..=8).map(shown).collect();
    for _ in 0..8 {
        let name = long_name(rng, text);
        pieces.push(literal(name.text_offset, name.length));
    }
    rng.shuffle(&mut pieces);
    pieces
}
