//! Judging the records of a description.

use crate::description::{Constructor, Description, Field, Name, Operand, Piece};
use crate::read::{read, Fault};

/// The description, if it is well formed; else its first fault.
pub fn check(bytes: &[u8]) -> Result<Description, Fault> {
    let description = read(bytes)?;
    match first_faulty_record(&description) {
        Some(fault) => Err(fault),
        None => Ok(description),
    }
}

fn first_faulty_record(d: &Description) -> Option<Fault> {
    let tables = Tables::of(d);
    first_faulty(1, &d.fields, |_, field| field_is_sound(d, field))
        .or_else(|| first_faulty(2, &d.names, |_, name| name_is_sound(d, name)))
        .or_else(|| {
            first_faulty(3, &d.constructors, |i, constructor| {
                constructor_is_sound(d, &tables, i, constructor)
            })
        })
        .or_else(|| first_faulty(4, &d.operands, |_, operand| operand_is_sound(d, operand)))
        .or_else(|| first_faulty(5, &d.pieces, |_, piece| piece_is_sound(d, piece)))
        .or_else(|| first_faulty(6, &d.text, |_, byte| (32..=126).contains(byte)))
        .or_else(|| first_faulty(7, &d.expressions, |_, expression| expression.is_sound()))
}

fn first_faulty<T>(
    section: u16,
    records: &[T],
    is_sound: impl Fn(usize, &T) -> bool,
) -> Option<Fault> {
    let mut numbered = records.iter().enumerate();
    let record = numbered.position(|(i, record)| !is_sound(i, record))?;
    Some(Fault {
        section,
        record: record as u16,
    })
}

/// Which table numbers have a constructor, found once for all operands.
struct Tables([bool; 256]);

impl Tables {
    fn of(d: &Description) -> Tables {
        let mut present = [false; 256];
        for constructor in &d.constructors {
            present[usize::from(constructor.table)] = true;
        }
        Tables(present)
    }

    fn has(&self, table: u8) -> bool {
        self.0[usize::from(table)]
    }
}

fn field_is_sound(d: &Description, field: &Field) -> bool {
    let source_is_sound = match field.source {
        Field::INSTRUCTION => (1..=4).contains(&field.width) && field.order <= Field::BIG,
        Field::CONTEXT => field.width == 4 && field.order == Field::LITTLE,
        _ => false,
    };
    source_is_sound
        && field.low <= field.high
        && field.high < 8 * field.width
        && look_is_sound(d, field)
}

fn look_is_sound(d: &Description, field: &Field) -> bool {
    match field.look {
        Field::NAMES => {
            field.bits() <= 8
                && usize::from(field.first_name) + (1 << field.bits()) <= d.names.len()
        }
        look => look < Field::NAMES && field.first_name == 0,
    }
}

fn name_is_sound(d: &Description, name: &Name) -> bool {
    usize::from(name.text_offset) + usize::from(name.length) <= d.text.len()
}

fn constructor_is_sound(
    d: &Description,
    tables: &Tables,
    record: usize,
    constructor: &Constructor,
) -> bool {
    let least_table = match record {
        0 => 0,
        _ => d.constructors[record - 1].table,
    };
    (least_table..=63).contains(&constructor.table)
        && pattern_is_sound(constructor)
        && constructor.operand_count <= 8
        && constructor.piece_count <= 16
        && used_operands_are_sound(d, tables, constructor)
        && used_pieces_are_sound(d, constructor)
}

fn pattern_is_sound(constructor: &Constructor) -> bool {
    let pattern = &constructor.pattern;
    let minimum = u32::from(constructor.minimum_length);
    (pattern.masked_length()..=16).contains(&minimum)
        && pattern.byte_value & !pattern.byte_mask == 0
        && pattern.context_value & !pattern.context_mask == 0
}

/// What depends on the user: the range, each anchor, each table number and the
/// operands that expressions name.
fn used_operands_are_sound(d: &Description, tables: &Tables, user: &Constructor) -> bool {
    let Some(operands) = d.operands.get(user.operand_range()) else {
        return false;
    };
    operands.iter().enumerate().all(|(earlier, operand)| {
        let index = usize::from(operand.index);
        let index_is_sound = match operand.kind {
            Operand::TABLE => operand.index < user.table && tables.has(operand.index),
            // An index past the section is the operand's own fault.
            Operand::COMPUTED => match d.expressions.get(index) {
                Some(expression) => expression.names_fields_of(operands),
                None => true,
            },
            _ => true,
        };
        usize::from(operand.anchor) <= earlier && index_is_sound
    })
}

/// What depends on the user: the range and the operands that are shown.
fn used_pieces_are_sound(d: &Description, user: &Constructor) -> bool {
    let Some(pieces) = d.pieces.get(user.piece_range()) else {
        return false;
    };
    let mut shown = [false; 9];
    pieces
        .iter()
        .filter(|piece| piece.kind == Piece::OPERAND)
        .all(|piece| {
            (1..=user.operand_count).contains(&piece.n)
                && !std::mem::replace(&mut shown[usize::from(piece.n)], true)
        })
}

fn operand_is_sound(d: &Description, operand: &Operand) -> bool {
    let index = usize::from(operand.index);
    let at_start = operand.anchor == 0 && operand.offset == 0;
    let index_is_sound = match operand.kind {
        Operand::FIELD => match d.fields.get(index) {
            Some(field) => at_start || !field.is_context(),
            None => false,
        },
        Operand::TABLE => true,
        Operand::COMPUTED => at_start && index < d.expressions.len(),
        _ => false,
    };
    index_is_sound && operand.offset <= 15
}

fn piece_is_sound(d: &Description, piece: &Piece) -> bool {
    match piece.kind {
        Piece::TEXT => {
            piece.n >= 1 && usize::from(piece.text_offset) + usize::from(piece.n) <= d.text.len()
        }
        Piece::OPERAND => piece.text_offset == 0,
        _ => false,
    }
}
