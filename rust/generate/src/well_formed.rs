//! Random well-formed descriptions.

use reference::{Constructor, Description, Field, Name, Operand, Pattern, Piece};

use crate::example::{literal, operand, shown};
use crate::expressions::compute_some;
use crate::patterns;
use crate::write::{bytes, LIMITS};
use crate::Rng;

/// The most of each thing that a description gets.
#[derive(Clone, Copy, Debug)]
pub struct Size {
    pub tables: usize,
    pub table_constructors: usize,
    pub fields: usize,
    pub names: usize,
    pub text: usize,
}

impl Size {
    pub const SMALL: Size = Size {
        tables: 3,
        table_constructors: 3,
        fields: 4,
        names: 10,
        text: 24,
    };
    pub const MIDDLE: Size = Size {
        tables: 8,
        table_constructors: 8,
        fields: 24,
        names: 300,
        text: 300,
    };
    pub const LARGE: Size = Size {
        tables: 64,
        table_constructors: 8,
        fields: 256,
        names: 1024,
        text: 8192,
    };
}

/// A random description, which the reference accepts.
pub fn well_formed(rng: &mut Rng, size: Size) -> Description {
    let mut d = Description::default();
    d.text = (0..count(rng, size.text))
        .map(|_| rng.byte_within(32..=126))
        .collect();
    d.names = (0..count(rng, size.names))
        .map(|_| name(rng, d.text.len()))
        .collect();
    d.fields = (0..count(rng, size.fields))
        .map(|_| field(rng, d.names.len()))
        .collect();
    let tables = table_numbers(rng, size.tables);
    let clear = !rng.once_in(4);
    for (i, &table) in tables.iter().enumerate() {
        let first = d.constructors.len();
        for _ in 0..rng.within(1..=size.table_constructors) {
            let earlier: Vec<Pattern> = d.constructors[first..].iter().map(|c| c.pattern).collect();
            let pattern = patterns::pattern(rng, &earlier, clear);
            let constructor = constructor(rng, &mut d, table, &tables[..i], pattern);
            d.constructors.push(constructor);
        }
    }
    place_empty_ranges(rng, &mut d);
    if rng.once_in(2) {
        compute_some(rng, &mut d);
    }
    assert!(
        reference::check(&bytes(&d)).is_ok(),
        "not well formed: {d:?}"
    );
    d
}

/// Any number up to the limit; now and then none, or all.
fn count(rng: &mut Rng, limit: usize) -> usize {
    match rng.below(12) {
        0 => 0,
        1 => limit,
        _ => rng.within(0..=limit),
    }
}

/// Rising numbers: without a gap from 0, or anywhere up to 63.
pub fn table_numbers(rng: &mut Rng, limit: usize) -> Vec<u8> {
    let count = rng.within(1..=limit) as u8;
    if rng.once_in(2) {
        return (0..count).collect();
    }
    let mut numbers: Vec<u8> = (0..count).map(|_| rng.byte_within(0..=63)).collect();
    if rng.once_in(3) {
        numbers.push(63);
    }
    numbers.sort();
    numbers.dedup();
    numbers
}

/// A run of the text of at most `longest` bytes, as offset and length.
fn run(rng: &mut Rng, text: usize, longest: usize) -> (u16, u8) {
    let longest = longest.min(text);
    let length = match rng.below(8) {
        0 => longest,
        _ => rng.within(longest.min(1)..=longest.min(6)),
    };
    let last = text - length;
    let offset = if rng.once_in(6) {
        last
    } else {
        rng.within(0..=last)
    };
    (offset as u16, length as u8)
}

pub fn name(rng: &mut Rng, text: usize) -> Name {
    let longest = if rng.once_in(6) { 0 } else { 255 };
    let (text_offset, length) = run(rng, text, longest);
    Name {
        text_offset,
        length,
    }
}

/// A field, shown by names if there are enough of them.
pub fn field(rng: &mut Rng, names: usize) -> Field {
    let source = u8::from(rng.once_in(4));
    let (width, order) = match source {
        Field::CONTEXT => (4, Field::LITTLE),
        _ => (rng.pick(&[1, 1, 2, 3, 4]), rng.byte_within(0..=1)),
    };
    let high = rng.byte_within(0..=8 * width - 1);
    let mut field = Field {
        source,
        width,
        order,
        low: rng.byte_within(0..=high),
        high,
        look: rng.byte_within(0..=4),
        first_name: 0,
    };
    if field.look == Field::NAMES {
        show_by_names(rng, &mut field, names);
    }
    field
}

fn show_by_names(rng: &mut Rng, field: &mut Field, names: usize) {
    if names < 2 {
        field.look = rng.byte_within(0..=3);
        return;
    }
    let most = names.ilog2().min(8).min(u32::from(field.high) + 1);
    let bits = if rng.once_in(4) {
        most
    } else {
        rng.within(1..=most as usize) as u32
    };
    field.low = field.high + 1 - bits as u8;
    let last = names - (1 << bits);
    field.first_name = if rng.once_in(4) {
        last
    } else {
        rng.within(0..=last)
    } as u16;
}

fn constructor(
    rng: &mut Rng,
    d: &mut Description,
    table: u8,
    lower_tables: &[u8],
    pattern: Pattern,
) -> Constructor {
    let (first_operand, operand_count) = operand_range(rng, d, lower_tables);
    let (first_piece, piece_count) = piece_range(rng, d, operand_count);
    Constructor {
        table,
        minimum_length: minimum_length(rng, &pattern),
        pattern,
        operand_count,
        first_operand,
        piece_count,
        first_piece,
    }
}

fn minimum_length(rng: &mut Rng, pattern: &Pattern) -> u8 {
    let least = pattern.masked_length() as u8;
    match rng.below(10) {
        0 => 16,
        1 => rng.byte_within(least..=16),
        2..=4 => least,
        _ => least.max(1),
    }
}

/// New operands, or records that others use too.
fn operand_range(rng: &mut Rng, d: &mut Description, lower_tables: &[u8]) -> (u16, u8) {
    if rng.once_in(4) {
        if let Some(range) = shared_operands(rng, d, lower_tables) {
            return range;
        }
    }
    if rng.once_in(5) {
        add_unused_operand(rng, d);
    }
    let first = d.operands.len();
    let most = if rng.once_in(4) { 8 } else { 3 };
    for position in 0..rng.within(0..=most) {
        let fresh = used_operand(rng, &d.fields, lower_tables, position);
        d.operands.extend(fresh);
    }
    keep_limit(&mut d.operands, first, LIMITS[3])
}

/// Records that others may use too; nothing if these don't fit here.
pub fn shared_operands(rng: &mut Rng, d: &Description, lower_tables: &[u8]) -> Option<(u16, u8)> {
    let (first, count) = some_range(rng, d.operands.len(), 8);
    let range = &d.operands[first..first + count];
    let fits = range.iter().enumerate().all(|(earlier, o)| {
        let table_fits = o.kind != Operand::TABLE || lower_tables.contains(&o.index);
        usize::from(o.anchor) <= earlier && table_fits
    });
    fits.then_some((first as u16, count as u8))
}

/// Takes back what is above the limit.
pub fn keep_limit<T>(records: &mut Vec<T>, first: usize, limit: usize) -> (u16, u8) {
    if records.len() > limit {
        records.truncate(first);
    }
    (first as u16, (records.len() - first) as u8)
}

fn some_range(rng: &mut Rng, records: usize, longest: usize) -> (usize, usize) {
    let count = rng.within(0..=longest.min(records));
    (rng.within(0..=records - count), count)
}

/// An operand for this position, counted from 0; nothing if there is no
/// field and no table for it.
pub fn used_operand(
    rng: &mut Rng,
    fields: &[Field],
    lower_tables: &[u8],
    position: usize,
) -> Option<Operand> {
    let anchor = if rng.once_in(2) {
        0
    } else {
        rng.within(0..=position) as u8
    };
    let offset = match rng.below(12) {
        0 => 15,
        1 => rng.byte_within(0..=15),
        2..=5 => rng.byte_within(0..=2),
        _ => 0,
    };
    if !lower_tables.is_empty() && (fields.is_empty() || rng.once_in(2)) {
        let table = rng.pick(lower_tables);
        return Some(operand(Operand::TABLE, table, anchor, offset));
    }
    let index = rng.index_where(fields.len(), |_| true)?;
    Some(match fields[index].is_context() {
        true => operand(Operand::FIELD, index as u8, 0, 0),
        false => operand(Operand::FIELD, index as u8, anchor, offset),
    })
}

/// What no user judges may be anything: an anchor, a table number.
pub fn add_unused_operand(rng: &mut Rng, d: &mut Description) {
    let (kind, index) = match rng.index_where(d.fields.len(), |i| !d.fields[i].is_context()) {
        Some(index) if rng.once_in(2) => (Operand::FIELD, index as u8),
        _ => (Operand::TABLE, rng.byte()),
    };
    if d.operands.len() < LIMITS[3] {
        let unused = operand(kind, index, rng.byte(), rng.byte_within(0..=15));
        d.operands.push(unused);
    }
}

/// New pieces, or records that others use too.
pub fn piece_range(rng: &mut Rng, d: &mut Description, operand_count: u8) -> (u16, u8) {
    if rng.once_in(4) {
        let (first, count) = some_range(rng, d.pieces.len(), 16);
        if shows_well(&d.pieces[first..first + count], operand_count) {
            return (first as u16, count as u8);
        }
    }
    if rng.once_in(5) && d.pieces.len() < LIMITS[4] {
        d.pieces.push(shown(rng.byte()));
    }
    let first = d.pieces.len();
    let mut operands: Vec<u8> = (1..=operand_count).collect();
    rng.shuffle(&mut operands);
    let most = if rng.once_in(6) { 16 } else { 5 };
    for _ in 0..rng.within(0..=most) {
        let operand = if rng.once_in(2) { operands.pop() } else { None };
        d.pieces.extend(
            operand
                .map(shown)
                .or_else(|| some_literal(rng, d.text.len())),
        );
    }
    keep_limit(&mut d.pieces, first, LIMITS[4])
}

fn some_literal(rng: &mut Rng, text: usize) -> Option<Piece> {
    if text == 0 {
        return None;
    }
    let (offset, length) = run(rng, text, 255);
    Some(literal(offset, length))
}

fn shows_well(pieces: &[Piece], operand_count: u8) -> bool {
    let mut numbers: Vec<u8> = pieces
        .iter()
        .filter(|piece| piece.kind == Piece::OPERAND)
        .map(|piece| piece.n)
        .collect();
    let count = numbers.len();
    numbers.sort();
    numbers.dedup();
    numbers.len() == count && numbers.iter().all(|n| (1..=operand_count).contains(n))
}

/// A range of no records may stand anywhere up to the section's very end.
pub fn place_empty_ranges(rng: &mut Rng, d: &mut Description) {
    for c in &mut d.constructors {
        if c.operand_count == 0 {
            c.first_operand = place(rng, d.operands.len());
        }
        if c.piece_count == 0 {
            c.first_piece = place(rng, d.pieces.len());
        }
    }
}

fn place(rng: &mut Rng, end: usize) -> u16 {
    match rng.below(3) {
        0 => end as u16,
        _ => rng.within(0..=end) as u16,
    }
}
