//! The value of a field of every source, width, order and range.

use generate::{all_fields, bytes, field_table, Rng, FIELD_INSTRUCTION, TABLE_FIELDS};
use reference::{requests, Field};

use crate::lent::{agreed_with_lent, Given};
use crate::tally::Tally;

const COLUMNS: &[&str] = &["done", "short"];

/// The kinds: tokens by order and width, then the context.
const KINDS: [&str; 9] = [
    "1 byte, little",
    "2 bytes, little",
    "3 bytes, little",
    "4 bytes, little",
    "1 byte, big",
    "2 bytes, big",
    "3 bytes, big",
    "4 bytes, big",
    "context",
];

/// Codes and contexts at random for each instruction.
const RANDOM: usize = 200;

/// Numbers for the most rows.
const ROWS: usize = 128;

/// Decodes with each of them, over code of each single bit, of all bits and of
/// none, over random code, and over code that ends early.
pub fn compare(rng: &mut Rng) {
    let mut tally = Tally::new(COLUMNS);
    let fields: Vec<Field> = all_fields().collect();
    for some in fields.chunk_by(|a, b| kind(a) == kind(b)) {
        for some in some.chunks(TABLE_FIELDS) {
            table(rng, &mut tally, some);
        }
    }
    print!("{tally}");
}

fn kind(field: &Field) -> &'static str {
    match field.is_context() {
        true => KINDS[8],
        false => KINDS[4 * usize::from(field.order) + usize::from(field.width) - 1],
    }
}

fn table(rng: &mut Rng, tally: &mut Tally, fields: &[Field]) {
    let d = field_table(fields);
    let description = bytes(&d);
    for instruction in 0..d.constructors.len() {
        let single = (0..32).map(|bit| 1 << bit);
        let random: Vec<u32> = (0..RANDOM).map(|_| rng.word() as u32).collect();
        for bits in single.chain([0, u32::MAX]).chain(random) {
            let mut code = [instruction as u8, 0, 0, 0, 0];
            code[1..].copy_from_slice(&bits.to_be_bytes());
            let shortest = match rng.once_in(8) {
                true => 0,
                false => FIELD_INSTRUCTION,
            };
            for length in shortest..=FIELD_INSTRUCTION {
                let code = &code[..length];
                let given = Given::somewhere(rng, kind(&fields[0]), &description, bits, code);
                let (number, ..) =
                    agreed_with_lent(&given, ROWS, requests::rows, dookerand::decode);
                let column = match number {
                    0 => 0,
                    2 => 1,
                    _ => panic!("{number}: these instructions decode or are short"),
                };
                tally.count(given.kind, column);
            }
        }
    }
}
