//! Reading the sections, before any record is judged.

use std::ops::RangeInclusive;

use crate::description::{Constructor, Description, Field, Name, Operand, Pattern, Piece};
use crate::expression::{Expression, Step};

/// Where a description is not well formed: a section from 1 to 7 and a
/// record from 0, or [`WHOLE_SECTION`].
#[derive(Clone, Copy, Debug, PartialEq, Eq)]
pub struct Fault {
    pub section: u16,
    pub record: u16,
}

/// The record that a fault of a count or of a section's length names.
pub const WHOLE_SECTION: u16 = 65_535;

struct Cursor<'a> {
    rest: &'a [u8],
    section: u16,
}

impl<'a> Cursor<'a> {
    fn fault(&self) -> Fault {
        Fault {
            section: self.section,
            record: WHOLE_SECTION,
        }
    }

    /// The next section's records, each of `SIZE` bytes.
    fn section<const SIZE: usize>(
        &mut self,
        limit: RangeInclusive<usize>,
    ) -> Result<&'a [[u8; SIZE]], Fault> {
        self.section += 1;
        let (count, rest) = self.rest.split_first_chunk().ok_or(self.fault())?;
        let count = usize::from(u16::from_le_bytes(*count));
        if !limit.contains(&count) {
            return Err(self.fault());
        }
        let (records, rest) = rest.split_at_checked(count * SIZE).ok_or(self.fault())?;
        self.rest = rest;
        Ok(records.as_chunks().0)
    }
}

/// Reads the counts in order and every record; the records may be faulty.
pub fn read(bytes: &[u8]) -> Result<Description, Fault> {
    let mut cursor = Cursor {
        rest: bytes,
        section: 0,
    };
    let fields = cursor.section(0..=256)?;
    let names = cursor.section(0..=1024)?;
    let constructors = cursor.section(1..=512)?;
    let operands = cursor.section(0..=2048)?;
    let pieces = cursor.section(0..=4096)?;
    let text = cursor.section::<1>(0..=8192)?;
    let expressions = match cursor.rest {
        [] => &[],
        _ => cursor.section(0..=256)?,
    };
    if !cursor.rest.is_empty() {
        return Err(cursor.fault());
    }
    Ok(Description {
        fields: fields.iter().map(field).collect(),
        names: names.iter().map(name).collect(),
        constructors: constructors.iter().map(constructor).collect(),
        operands: operands.iter().map(operand).collect(),
        pieces: pieces.iter().map(piece).collect(),
        text: text.as_flattened().to_vec(),
        expressions: expressions.iter().map(expression).collect(),
    })
}

fn field(record: &[u8; 8]) -> Field {
    let [source, width, order, low, high, look, name_0, name_1] = *record;
    Field {
        source,
        width,
        order,
        low,
        high,
        look,
        first_name: u16::from_le_bytes([name_0, name_1]),
    }
}

fn name(record: &[u8; 3]) -> Name {
    let [offset_0, offset_1, length] = *record;
    Name {
        text_offset: u16::from_le_bytes([offset_0, offset_1]),
        length,
    }
}

fn constructor(record: &[u8; 32]) -> Constructor {
    Constructor {
        table: record[0],
        minimum_length: record[1],
        pattern: Pattern {
            byte_mask: u64::from_le_bytes(part(record, 2)),
            byte_value: u64::from_le_bytes(part(record, 10)),
            context_mask: u32::from_le_bytes(part(record, 18)),
            context_value: u32::from_le_bytes(part(record, 22)),
        },
        operand_count: record[26],
        first_operand: u16::from_le_bytes(part(record, 27)),
        piece_count: record[29],
        first_piece: u16::from_le_bytes(part(record, 30)),
    }
}

fn part<const N: usize>(record: &[u8], at: usize) -> [u8; N] {
    std::array::from_fn(|i| record[at + i])
}

fn operand(record: &[u8; 4]) -> Operand {
    let [kind, index, anchor, offset] = *record;
    Operand {
        kind,
        index,
        anchor,
        offset,
    }
}

fn piece(record: &[u8; 4]) -> Piece {
    let [kind, n, offset_0, offset_1] = *record;
    Piece {
        kind,
        n,
        text_offset: u16::from_le_bytes([offset_0, offset_1]),
    }
}

fn expression(record: &[u8; 145]) -> Expression {
    let step = |i: usize| Step {
        kind: record[1 + 9 * i],
        value: i64::from_le_bytes(part(record, 2 + 9 * i)),
    };
    Expression {
        step_count: record[0],
        steps: std::array::from_fn(step),
    }
}
