//! Decoding one instruction to text.

use generate::{bytes, change_records, planted, with_text, Rng, LONGEST_TEXT};
use reference::{
    check, decode_instruction, decode_text, requests, Decoded, Description, Field, Part, Piece,
    Refusal,
};

use crate::instructions::{column, Instructions, Request, ANSWERS, CODE};
use crate::lent::{agreed_with_lent, Given};
use crate::tally::{print_counts, Tally};

/// What texts may have.
const FEATURES: [&str; 15] = [
    "unsigned decimal",
    "signed decimal",
    "decimal below 0",
    "unsigned hex",
    "signed hex",
    "hex below 0",
    "a name",
    "a computed value",
    "one below 0",
    "an inner constructor",
    "another order",
    "an invisible operand",
    "no bytes",
    "255 bytes",
    "256 bytes",
];

/// The fewest requests for each answer and each feature.
const LEAST: usize = 500;

/// The longest text that is written.
const LIMIT: usize = 256;

/// Stands for the look of a computed operand.
const COMPUTED: u8 = 255;

/// Compares decoding to text on what decoding to rows is compared on, and on
/// texts about as long as may be.
pub fn compare(rng: &mut Rng) {
    let mut instructions = Instructions {
        rng,
        request: Text {
            tally: Tally::new(ANSWERS),
            features: [0; FEATURES.len()],
        },
        kind: "",
    };
    instructions.all();
    lengths(&mut instructions);
    let text = instructions.request;
    print!("{}", text.tally);
    text.tally.at_least(LEAST);
    print_counts("of those done, with", &FEATURES, &text.features, LEAST);
}

/// Texts as long as may be, one byte longer, and others; then with records
/// changed.
fn lengths(instructions: &mut Instructions<Text>) {
    for i in 0..6_000 {
        let rng = &mut *instructions.rng;
        let about = rng.within(LIMIT - 20..=LIMIT + 20);
        let any = rng.within(0..=3 * LIMIT);
        let length = [LIMIT - 1, LIMIT, LIMIT + 1, about, any, far_longer(rng)][i % 6];
        let d = with_text(rng, length);
        let changed = change_records(&d, rng);
        let (code, context) = planted(rng, &d, CODE);
        let known = match length > LIMIT {
            true => Err(Refusal::TextTooLong),
            false => Ok(length),
        };
        let decoded = decode_text(&d, context, 0, &code);
        assert_eq!(decoded.map(|text| text.len()), known, "the reference");
        instructions.kind = "texts up to the limit";
        for _ in 0..3 {
            instructions.lent(&bytes(&d), context, &code);
        }
        instructions.kind = "the same, changed";
        instructions.lent(&changed, context, &code);
    }
}

/// Also such lengths as look small in one byte or two.
fn far_longer(rng: &mut Rng) -> usize {
    let any = rng.within(LIMIT..=LONGEST_TEXT);
    let few = rng.within(0..=LIMIT);
    rng.pick(&[2 * LIMIT, 16 * LIMIT + few, 65_536, 65_536 + few, any])
}

struct Text {
    tally: Tally,
    /// How many of those done have each feature.
    features: [usize; FEATURES.len()],
}

impl Request for Text {
    const ENOUGH: usize = LIMIT;

    fn one(&mut self, given: &Given, lent: usize) -> (u32, usize) {
        let (number, values, _) = agreed_with_lent(given, lent, requests::text, dookerand::text);
        self.tally.count(given.kind, column(number));
        let written = values[0] as usize;
        match number {
            0 => {
                self.count_features(given, written);
                (0, written)
            }
            _ => (number, 0),
        }
    }
}

impl Text {
    fn count_features(&mut self, given: &Given, written: usize) {
        let d = check(given.description).expect("a text is shown");
        let address = given.address.into();
        let decoded = decode_instruction(&d, given.context, address, given.code);
        let decoded = decoded.expect("a text is shown");
        let mut shown = Shown::default();
        shown.add(&d, &decoded);
        let any = |look: u8, below_0: bool| {
            let mut values = shown.values.iter();
            values.any(|&(shown, value)| shown == look && (value < 0) == below_0)
        };
        let features = [
            any(Field::UNSIGNED_DECIMAL, false),
            any(Field::SIGNED_DECIMAL, false),
            any(Field::SIGNED_DECIMAL, true),
            any(Field::UNSIGNED_HEX, false),
            any(Field::SIGNED_HEX, false),
            any(Field::SIGNED_HEX, true),
            any(Field::NAMES, false),
            any(COMPUTED, false),
            any(COMPUTED, true),
            shown.inner,
            shown.another_order,
            shown.invisible,
            written == 0,
            written == LIMIT - 1,
            written == LIMIT,
        ];
        for (count, has) in self.features.iter_mut().zip(features) {
            *count += usize::from(has);
        }
    }
}

/// What a text shows.
#[derive(Default)]
struct Shown {
    /// Looks and values of fields and computed operands.
    values: Vec<(u8, i64)>,
    /// A constructor inside another.
    inner: bool,
    /// Operands of a constructor are shown in another order than they have.
    another_order: bool,
    /// An operand of a shown constructor is not shown.
    invisible: bool,
}

impl Shown {
    fn add(&mut self, d: &Description, decoded: &Decoded) {
        let pieces = d.pieces_of(&d.constructors[decoded.constructor]).iter();
        let operands = pieces.filter(|piece| piece.kind == Piece::OPERAND);
        let numbers: Vec<u8> = operands.map(|piece| piece.n).collect();
        self.another_order |= !numbers.is_sorted();
        self.invisible |= numbers.len() < decoded.operands.len();
        for n in numbers {
            match &decoded.operands[usize::from(n) - 1] {
                &Part::Field { field, value, .. } => {
                    self.values.push((d.fields[field].look, value));
                }
                &Part::Computed { value, .. } => self.values.push((COMPUTED, value)),
                Part::Constructor(inner) => {
                    self.inner = true;
                    self.add(d, inner);
                }
            }
        }
    }
}
