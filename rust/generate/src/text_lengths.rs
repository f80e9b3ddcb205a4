//! Instructions whose text has an exact length.

use reference::{Constructor, Description, Field, Operand, Pattern, Piece, Step};

use crate::example::{computed, expression, field, literal, name, operand, shown, step};
use crate::row_counts::parts;
use crate::write::bytes;
use crate::Rng;

const ROWS: usize = 32;
const OPERANDS: usize = 8;
const PIECES: usize = 16;
const LITERAL: usize = 255;

/// The first byte of the code, and what the looks of numbers make of it.
const FIRST: u8 = 0x9c;
const NUMBERS: [&str; 4] = ["156", "-100", "0x9c", "-0x64"];

/// Computed values, and what is shown of them.
const COMPUTED: [(i64, &str); 4] = [
    (0, "0x0"),
    (-0x64, "-0x64"),
    (i64::MAX, "0x7fffffffffffffff"),
    (i64::MIN, "-0x8000000000000000"),
];

/// How many fields are shown by names.
const NAMED: usize = 4;

/// The longest text that an instruction can have: every row a constructor.
pub const LONGEST_TEXT: usize = most_shown(ROWS);

/// A description that decodes planted code to a text of so many bytes (up to
/// the longest), unless those are too many: each table has one constructor,
/// which shows literals, numbers, names and constructors in any order, in half
/// of them computed numbers too.
pub fn with_text(rng: &mut Rng, length: usize) -> Description {
    let text = rng.within(LITERAL..=2 * LITERAL);
    let mut d = Description {
        text: (0..text).map(|_| rng.byte_within(32..=126)).collect(),
        ..Description::default()
    };
    let mut lengths = Vec::new();
    for (look, number) in (0..).zip(NUMBERS) {
        d.fields.push(field(0, 1, 0, 0, 7, look));
        lengths.push(number.len());
    }
    for _ in 0..NAMED {
        lengths.push(add_names(rng, &mut d));
    }
    if rng.once_in(2) {
        for (value, shown) in COMPUTED {
            let constant = expression(&[step(Step::CONSTANT, value)]);
            d.expressions.push(constant);
            lengths.push(shown.len());
        }
    }
    let fewest = (1..ROWS)
        .find(|&count| most_shown(count) >= length)
        .unwrap_or(ROWS);
    let constructors = rng.within(fewest..=ROWS.min(fewest + 8));
    let widest = rng.pick(&[1, 2, 3, 8, 8]);
    let mut tower = Tower {
        rng,
        d,
        lengths,
        widest,
        rows_left: ROWS - constructors,
    };
    let root = tower.table(constructors, length);
    let mut d = tower.d;
    d.constructors[root].minimum_length = 1;
    d.constructors[root].pattern.byte_mask = 0xff;
    d.constructors[root].pattern.byte_value = FIRST.into();
    assert!(
        reference::check(&bytes(&d)).is_ok(),
        "not well formed: {d:?}"
    );
    d
}

/// The most that so many constructors show. All but the outermost are shown by
/// a piece of another.
const fn most_shown(constructors: usize) -> usize {
    LITERAL * (PIECES * constructors - (constructors - 1))
}

/// A field of one bit that is shown by two new names, and the length of the one
/// that the first byte chooses.
fn add_names(rng: &mut Rng, d: &mut Description) -> usize {
    let longest = rng.pick(&[3, 40, LITERAL]);
    let names = [(); 2].map(|()| {
        let length = rng.within(1..=longest);
        let offset = rng.within(0..=d.text.len() - length);
        name(offset as u16, length as u8)
    });
    d.fields.push(Field {
        first_name: d.names.len() as u16,
        ..field(0, 1, 0, 0, 0, Field::NAMES)
    });
    d.names.extend(names);
    names[usize::from(FIRST & 1)].length.into()
}

/// All constructors start at the first byte.
struct Tower<'a> {
    rng: &'a mut Rng,
    d: Description,
    /// How many bytes each field shows, and then each expression.
    lengths: Vec<usize>,
    /// The most constructors directly inside another.
    widest: usize,
    /// How many rows there may be for fields.
    rows_left: usize,
}

impl Tower<'_> {
    /// A new table, which with those inside has so many constructors and shows
    /// so many bytes.
    fn table(&mut self, constructors: usize, length: usize) -> usize {
        let inside = parts(self.rng, constructors - 1, self.widest);
        let mut most_inside: usize = inside.iter().map(|&part| most_shown(part)).sum();
        let mut pieces_left = PIECES - inside.len();
        let mut length_left = length;
        let mut operands = Vec::new();
        while inside.len() + operands.len() < OPERANDS && self.takes_row() {
            let index = self.rng.below(self.lengths.len());
            let length = self.lengths[index];
            let most = most_inside + LITERAL * (pieces_left - 1);
            let fits = (length..=length + most).contains(&length_left);
            let visible = fits && !self.rng.once_in(4);
            if visible {
                length_left -= length;
                pieces_left -= 1;
            }
            operands.push((self.number(index), visible));
        }
        for part in inside {
            most_inside -= most_shown(part);
            let most = most_inside + LITERAL * pieces_left;
            let share = share(self.rng, length_left, most_shown(part), most);
            length_left -= share;
            let table = self.table(part, share);
            operands.push((operand(Operand::TABLE, table as u8, 0, 0), true));
        }
        self.rng.shuffle(&mut operands);
        let mut pieces = self.literals(length_left, pieces_left);
        let visible = (1..).zip(&operands).filter(|(_, (_, visible))| *visible);
        pieces.extend(visible.map(|(n, _)| shown(n)));
        self.rng.shuffle(&mut pieces);
        self.constructor(operands.into_iter().map(|(operand, _)| operand), pieces)
    }

    /// The operand that shows one of the lengths.
    fn number(&self, index: usize) -> Operand {
        match index.checked_sub(self.d.fields.len()) {
            None => operand(Operand::FIELD, index as u8, 0, 0),
            Some(number) => computed(number as u8),
        }
    }

    fn takes_row(&mut self) -> bool {
        let takes = self.rows_left > 0 && !self.rng.once_in(3);
        self.rows_left -= usize::from(takes);
        takes
    }

    /// At most so many literals of this length together.
    fn literals(&mut self, length: usize, most: usize) -> Vec<Piece> {
        let fewest = length.div_ceil(LITERAL);
        let count = self.rng.within(fewest..=most.min(length));
        let mut length_left = length;
        let literal = |left: usize| {
            // Each of those left has a byte at least.
            let (most, most_left) = (LITERAL - 1, (LITERAL - 1) * left);
            let share = 1 + share(self.rng, length_left - left - 1, most, most_left);
            length_left -= share;
            let offset = self.rng.within(0..=self.d.text.len() - share);
            literal(offset as u16, share as u8)
        };
        (0..count).rev().map(literal).collect()
    }

    fn constructor(
        &mut self,
        operands: impl Iterator<Item = Operand>,
        pieces: Vec<Piece>,
    ) -> usize {
        let first_operand = self.d.operands.len();
        let first_piece = self.d.pieces.len();
        let constructors = self.d.constructors.len();
        self.d.operands.extend(operands);
        self.d.pieces.extend(pieces);
        self.d.constructors.push(Constructor {
            table: constructors as u8,
            minimum_length: 0,
            pattern: Pattern::default(),
            operand_count: (self.d.operands.len() - first_operand) as u8,
            first_operand: first_operand as u16,
            piece_count: (self.d.pieces.len() - first_piece) as u8,
            first_piece: first_piece as u16,
        });
        constructors
    }
}

/// A part of the length: at most this, and with at most that left.
fn share(rng: &mut Rng, length: usize, most: usize, most_left: usize) -> usize {
    rng.within(length.saturating_sub(most_left)..=length.min(most))
}
