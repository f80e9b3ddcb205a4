//! Decoding one instruction to rows.

use generate::Rng;
use reference::requests;

use crate::instructions::{column, Instructions, Request, ANSWERS};
use crate::lent::{agreed_with_lent, Given};
use crate::tally::{print_counts, Tally};

/// What rows may have.
const FEATURES: [&str; 11] = [
    "a context field",
    "three constructors",
    "nine constructors",
    "a name",
    "a value below 0",
    "length 16",
    "a start of 16",
    "32 rows",
    "a computed operand",
    "one below 0",
    "one inside, with others",
];

/// Refusals that name a place, from answer 2 on; the last is 13.
const PLACED: [&str; 6] = [
    "short",
    "no match",
    "ambiguous",
    "hole",
    "too far",
    "outside",
];

/// The fewest requests for each answer, each feature and each refusal at
/// another place than 0.
const LEAST: usize = 500;

const ROW_NUMBERS: usize = 4;

/// Compares decoding on every kind of description, code and lent numbers.
pub fn compare(rng: &mut Rng) {
    let mut instructions = Instructions {
        rng,
        request: Decoding {
            tally: Tally::new(&ANSWERS[..11]),
            features: [0; FEATURES.len()],
            inside: [0; PLACED.len()],
            past: 0,
        },
        kind: "",
    };
    instructions.all();
    let decoding = instructions.request;
    print!("{}", decoding.tally);
    decoding.tally.at_least(LEAST);
    print_counts("of those done, with", &FEATURES, &decoding.features, LEAST);
    print_counts("at another place than 0", &PLACED, &decoding.inside, LEAST);
    print_counts(
        "at a place past the code's end",
        &PLACED[..1],
        &[decoding.past],
        LEAST,
    );
}

struct Decoding {
    tally: Tally,
    /// How many of those done have each feature.
    features: [usize; FEATURES.len()],
    /// How many of each refusal name another place than 0.
    inside: [usize; PLACED.len()],
    /// How many are short at a place past the code's end, as at a context
    /// field there.
    past: usize,
}

impl Request for Decoding {
    const ENOUGH: usize = 128;

    fn one(&mut self, given: &Given, lent: usize) -> (u32, usize) {
        let (number, values, rows) =
            agreed_with_lent(given, lent, requests::rows, dookerand::decode);
        self.tally.count(given.kind, column(number));
        match number {
            0 => {
                let written = ROW_NUMBERS * values[0] as usize;
                self.count_features(given.description, &rows[..written]);
                return (0, written);
            }
            2..=6 => self.inside[number as usize - 2] += usize::from(values[0] > 0),
            13 => self.inside[PLACED.len() - 1] += usize::from(values[0] > 0),
            _ => {}
        }
        self.past += usize::from(number == 2 && values[0] > given.code.len() as u64);
        (number, 0)
    }
}

impl Decoding {
    fn count_features(&mut self, description: &[u8], rows: &[i64]) {
        let rows: Vec<&[i64]> = rows.chunks(ROW_NUMBERS).collect();
        let any = |test: &dyn Fn(&[i64]) -> bool| rows.iter().any(|row| test(row));
        let of_kind = |kind: i64| rows.iter().filter(|row| row[0] == kind).count();
        let (constructors, computed) = (of_kind(0), of_kind(3));
        let features = [
            // A field's source is its record's first byte.
            any(&|row| matches!(row[0], 1 | 2) && description[2 + 8 * row[1] as usize] == 1),
            constructors >= 3,
            constructors >= 9,
            any(&|row| row[0] == 2),
            any(&|row| row[0] == 1 && row[3] < 0),
            rows[0][3] == 16,
            any(&|row| row[2] == 16),
            rows.len() == 32,
            any(&|row| row[0] == 3),
            any(&|row| row[0] == 3 && row[3] < 0),
            computed >= 2 && any(&|row| row[0] == 3 && row[2] > 0),
        ];
        for (count, has) in self.features.iter_mut().zip(features) {
            *count += usize::from(has);
        }
    }
}
