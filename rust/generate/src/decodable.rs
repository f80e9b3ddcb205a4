//! Descriptions made to be decoded: loose patterns, and operands that name
//! lower tables, so that a walk goes deep before it ends.

use reference::{Constructor, Description, Field, Operand, Pattern};

use crate::example::operand;
use crate::expressions::compute_some;
use crate::meeting::Bits;
use crate::well_formed::{
    add_unused_operand, field, keep_limit, name, piece_range, place_empty_ranges, shared_operands,
    table_numbers, Size,
};
use crate::write::{bytes, LIMITS};
use crate::Rng;

/// What walks often come to.
#[derive(Clone, Copy, Debug, PartialEq, Eq)]
pub enum Leaning {
    /// Rows.
    Done,
    /// Positions about 16.
    Far,
    /// No length.
    Empty,
    /// Tables that can't decide.
    Ambiguous,
}

impl Leaning {
    pub const ALL: [Leaning; 4] = [
        Leaning::Done,
        Leaning::Far,
        Leaning::Empty,
        Leaning::Ambiguous,
    ];
}

/// A description of up to this size, which the reference accepts.
pub fn decodable(rng: &mut Rng, size: Size, leaning: Leaning) -> Description {
    let mut d = Description {
        text: (0..size.text).map(|_| rng.byte_within(32..=126)).collect(),
        ..Description::default()
    };
    d.names = (0..rng.within(size.names / 2..=size.names))
        .map(|_| name(rng, d.text.len()))
        .collect();
    d.fields = (0..rng.within(1..=size.fields))
        .map(|_| some_field(rng, leaning, d.names.len()))
        .collect();
    let tables = table_numbers(rng, size.tables);
    for (i, &table) in tables.iter().enumerate() {
        for pattern in loose_patterns(rng, leaning, size.table_constructors) {
            let constructor = constructor(rng, &mut d, leaning, &tables[..i], pattern);
            d.constructors.push(Constructor {
                table,
                ..constructor
            });
        }
    }
    place_empty_ranges(rng, &mut d);
    if rng.once_in(2) {
        compute_some(rng, &mut d);
    }
    assert!(
        reference::check(&bytes(&d)).is_ok(),
        "not well formed: {d:?}"
    );
    d
}

/// A field of any bits, and often of one or of all.
fn some_field(rng: &mut Rng, leaning: Leaning, names: usize) -> Field {
    let mut field = field(rng, names);
    if leaning == Leaning::Empty && !rng.once_in(8) {
        field.source = Field::CONTEXT;
        field.width = 4;
        field.order = Field::LITTLE;
    }
    match rng.below(12) {
        0..=1 => field.low = field.high,
        2 if field.look != Field::NAMES => {
            field.low = 0;
            field.high = 8 * field.width - 1;
        }
        _ => {}
    }
    field
}

/// Up to `most` patterns of a few bits. Unless they shall be ambiguous, any
/// two are apart or one lies inside the other: both mask the first few of
/// the same bits. Mostly one of them matches everything.
fn loose_patterns(rng: &mut Rng, leaning: Leaning, most: usize) -> Vec<Pattern> {
    let places = places(rng, leaning);
    let mut found = Vec::new();
    let count = rng.within(1..=most);
    if !rng.once_in(6) {
        found.push(Bits::default());
    }
    while found.len() < count {
        let depth = rng.within(0..=places.len());
        let mut bits = Bits::default();
        for (i, &place) in places.iter().enumerate() {
            let masked = match leaning {
                Leaning::Ambiguous => rng.once_in(2),
                _ => i < depth,
            };
            if masked {
                bits = bits.with(1 << place, rng.once_in(2));
            }
        }
        if leaning != Leaning::Ambiguous && found.contains(&bits) {
            break;
        }
        found.push(bits);
    }
    rng.shuffle(&mut found);
    found.into_iter().map(Bits::pattern).collect()
}

/// Different bits of the bytes and, from 64 on, of the context.
fn places(rng: &mut Rng, leaning: Leaning) -> Vec<usize> {
    let mut places = Vec::new();
    for _ in 0..rng.within(1..=4) {
        let place = match rng.below(12) {
            _ if leaning == Leaning::Empty && !rng.once_in(8) => 64 + rng.below(32),
            0..=2 => 64 + rng.below(32),
            3 => rng.below(64),
            4..=5 => 8 + rng.below(8),
            _ => rng.below(8),
        };
        if !places.contains(&place) {
            places.push(place);
        }
    }
    places
}

/// A constructor of any table above these.
fn constructor(
    rng: &mut Rng,
    d: &mut Description,
    leaning: Leaning,
    lower_tables: &[u8],
    pattern: Pattern,
) -> Constructor {
    let (first_operand, operand_count) = operand_range(rng, d, leaning, lower_tables);
    let (first_piece, piece_count) = piece_range(rng, d, operand_count);
    Constructor {
        table: 0,
        minimum_length: minimum_length(rng, leaning, &pattern),
        pattern,
        operand_count,
        first_operand,
        piece_count,
        first_piece,
    }
}

fn minimum_length(rng: &mut Rng, leaning: Leaning, pattern: &Pattern) -> u8 {
    let least = pattern.masked_length() as u8;
    match (leaning, rng.below(12)) {
        (Leaning::Empty, _) => least,
        (Leaning::Far, 10) => 16,
        (Leaning::Far, 8..=9) | (_, 11) => rng.byte_within(least..=16),
        (_, 0..=5) => least.max(1),
        _ => least,
    }
}

/// New operands, or records that others use too.
fn operand_range(
    rng: &mut Rng,
    d: &mut Description,
    leaning: Leaning,
    lower_tables: &[u8],
) -> (u16, u8) {
    if rng.once_in(6) {
        if let Some(range) = shared_operands(rng, d, lower_tables) {
            return range;
        }
    }
    if rng.once_in(6) {
        add_unused_operand(rng, d);
    }
    let first = d.operands.len();
    let count = match rng.below(8) {
        0 => rng.within(5..=8),
        1 => 0,
        _ => rng.within(1..=4),
    };
    for position in 0..count {
        let fresh = used_operand(rng, &d.fields, leaning, lower_tables, position);
        d.operands.push(fresh);
    }
    keep_limit(&mut d.operands, first, LIMITS[3])
}

/// An operand for this position, counted from 0: a field, the next lower
/// table or any lower one, often where the operand before it ends.
fn used_operand(
    rng: &mut Rng,
    fields: &[Field],
    leaning: Leaning,
    lower_tables: &[u8],
    position: usize,
) -> Operand {
    let anchor = match rng.below(4) {
        0 => 0,
        1 => rng.within(0..=position),
        _ => position,
    } as u8;
    let offset = offset(rng, leaning);
    if let ([.., next], true) = (lower_tables, rng.once_in(2)) {
        let table = match rng.once_in(2) {
            true => *next,
            false => rng.pick(lower_tables),
        };
        return operand(Operand::TABLE, table, anchor, offset);
    }
    let index = rng.below(fields.len());
    match fields[index].is_context() {
        true => operand(Operand::FIELD, index as u8, 0, 0),
        false => operand(Operand::FIELD, index as u8, anchor, offset),
    }
}

fn offset(rng: &mut Rng, leaning: Leaning) -> u8 {
    match (leaning, rng.below(16)) {
        (Leaning::Far, 0..=3) => rng.byte_within(12..=15),
        (Leaning::Far, 4..=5) | (_, 0) => rng.byte_within(0..=15),
        (Leaning::Done | Leaning::Ambiguous, 1..=5) => rng.byte_within(1..=2),
        _ => 0,
    }
}
