//! Descriptions with code, for the requests that decode one instruction.

use generate::example::{description_s, full_featured, target};
use generate::{
    bytes, change_bytes, change_records, code, compute_some, context, decodable, insert_or_remove,
    longest, longest_of_all, planted, rules, some_expression, well_formed, with_rows, Leaning, Rng,
    Size, EDGE_ADDRESSES,
};
use reference::{Description, Operand, Refusal, STEP_LIMIT};

use crate::lent::Given;

/// The answers to these requests; the last is for text alone.
pub const ANSWERS: &[&str] = &[
    "done",
    "malformed",
    "short",
    "no match",
    "ambiguous",
    "hole",
    "too far",
    "33 rows",
    "length 0",
    "lent",
    "outside",
    "too long",
];

/// The answer's place among them.
pub fn column(number: u32) -> usize {
    match number {
        13 => 10,
        10 => 11,
        _ => number as usize,
    }
}

/// The longest code.
pub const CODE: usize = 20;

/// At most so many numbers or bytes are lent beyond those that always suffice.
const MORE: usize = 12;

pub const SMALL: Size = Size {
    tables: 5,
    table_constructors: 3,
    fields: 6,
    names: 12,
    text: 8,
};
pub const MIDDLE: Size = Size {
    tables: 10,
    table_constructors: 6,
    fields: 30,
    names: 300,
    text: 300,
};

/// A request that decodes one instruction into numbers or bytes.
pub trait Request {
    /// How many always suffice.
    const ENOUGH: usize;

    /// Compares one request with so many lent. Gives the answer's number and
    /// how many were written.
    fn one(&mut self, given: &Given, lent: usize) -> (u32, usize);
}

/// Makes a request about instructions of every kind.
pub struct Instructions<'a, R> {
    pub rng: &'a mut Rng,
    pub request: R,
    pub kind: &'static str,
}

impl<R: Request> Instructions<'_, R> {
    pub fn all(&mut self) {
        self.fixed();
        self.leaning("leaning to rows", 6_000, Leaning::Done);
        self.leaning("leaning far", 2_500, Leaning::Far);
        self.leaning("leaning to no length", 1_500, Leaning::Empty);
        self.leaning("leaning to ambiguous", 1_500, Leaning::Ambiguous);
        self.larger();
        self.row_counts();
        self.expressions();
        self.well_formed();
        self.broken_rules();
        self.changed("records changed", change_records);
        self.changed("bytes changed", change_bytes);
        self.changed("inserted or removed", insert_or_remove);
    }

    /// What a request is made about, at some address.
    fn given<'b>(&mut self, description: &'b [u8], context: u32, code: &'b [u8]) -> Given<'b> {
        Given::somewhere(self.rng, self.kind, description, context, code)
    }

    /// Decodes with enough lent, then with about as much as needed.
    pub fn lent(&mut self, description: &[u8], context: u32, code: &[u8]) {
        let given = self.given(description, context, code);
        self.lent_at(&given);
    }

    fn lent_at(&mut self, given: &Given) {
        let enough = self.rng.within(R::ENOUGH..=R::ENOUGH + MORE);
        let (number, needed) = self.request.one(given, enough);
        let any = self.rng.within(0..=R::ENOUGH + MORE);
        if number == 0 {
            let one_less = needed.saturating_sub(1);
            let lent = self
                .rng
                .pick(&[needed, needed, one_less, needed + 1, 0, any]);
            self.request.one(given, lent);
        } else if self.rng.once_in(8) {
            let lent = self.rng.pick(&[0, 1, 3, 4, any]);
            self.request.one(given, lent);
        }
    }

    /// Decodes the code cut to each length, and one that goes on.
    pub fn cuts(&mut self, description: &[u8], context: u32, code: &[u8]) {
        for length in 0..=code.len() {
            self.lent(description, context, &code[..length]);
        }
        if self.rng.once_in(8) {
            let longer = code.repeat(self.rng.within(2..=40));
            self.lent(description, context, &longer);
        }
    }

    /// Code of up to the most bytes that matches some constructors, and a
    /// context.
    fn some_code(&mut self, d: &Description) -> (Vec<u8>, u32) {
        let (mut bytes, context) = match self.rng.once_in(4) {
            true => (code(self.rng, d, CODE), context(self.rng, d)),
            false => planted(self.rng, d, CODE),
        };
        if !bytes.is_empty() && self.rng.once_in(4) {
            let at = self.rng.below(bytes.len());
            bytes[at] = self.rng.byte();
        }
        (bytes, context)
    }

    /// Every code of one and of two bytes for S, and some code for others.
    fn fixed(&mut self) {
        self.kind = "fixed descriptions";
        let s = bytes(&description_s());
        self.lent(&s, 0, &[]);
        for first in 0..=255 {
            self.lent(&s, 0, &[first]);
            for second in 0..=255 {
                let code = [first, second];
                let given = self.given(&s, 0, &code);
                self.request.one(&given, 16);
            }
        }
        self.targets();
        let full_featured = full_featured();
        for _ in 0..200 {
            let (code, context) = self.some_code(&full_featured);
            self.cuts(&bytes(&full_featured), context, &code);
        }
        for longest in [longest(), longest_of_all()] {
            let description = bytes(&longest);
            for _ in 0..100 {
                let (code, context) = self.some_code(&longest);
                self.lent(&description, context, &code);
            }
        }
    }

    /// Every displacement at every address where something may change.
    fn targets(&mut self) {
        let description = bytes(&target());
        for address in EDGE_ADDRESSES {
            for displacement in 0..=255 {
                let code = [0x25, displacement];
                let given = Given {
                    address,
                    ..self.given(&description, 0, &code)
                };
                self.lent_at(&given);
            }
        }
    }

    fn leaning(&mut self, kind: &'static str, descriptions: usize, leaning: Leaning) {
        self.kind = kind;
        for _ in 0..descriptions {
            let d = decodable(self.rng, SMALL, leaning);
            let description = bytes(&d);
            for _ in 0..2 {
                let (code, context) = self.some_code(&d);
                self.cuts(&description, context, &code);
            }
        }
    }

    fn larger(&mut self) {
        self.kind = "larger descriptions";
        for (descriptions, size) in [(600, MIDDLE), (60, Size::LARGE)] {
            for _ in 0..descriptions {
                let leaning = self.rng.pick(&Leaning::ALL);
                let d = decodable(self.rng, size, leaning);
                let description = bytes(&d);
                for _ in 0..12 {
                    let (code, context) = self.some_code(&d);
                    self.lent(&description, context, &code);
                }
            }
        }
    }

    /// As many rows as there may be, one more, and others; then with some
    /// operands elsewhere.
    fn row_counts(&mut self) {
        for i in 0..2_000 {
            self.kind = "rows up to the limit";
            let rows = [32, 33, self.rng.within(28..=36), self.rng.within(1..=63)][i % 4];
            let mut d = with_rows(self.rng, rows);
            let description = bytes(&d);
            let (code, context) = planted(self.rng, &d, CODE);
            let known = match rows > 32 {
                true => Err(Refusal::TooManyRows),
                false => Ok(rows),
            };
            let decoded = reference::decode(&d, context, 0, &code);
            assert_eq!(decoded.map(|rows| rows.len()), known, "the reference");
            self.lent(&description, context, &code);
            self.cuts(&description, context, &code);
            self.kind = "the same, computed";
            let mut computed = d.clone();
            compute_some(self.rng, &mut computed);
            self.lent(&bytes(&computed), context, &code);
            self.kind = "the same, moved";
            self.move_operands(&mut d);
            self.cuts(&bytes(&d), context, &code);
        }
    }

    /// Expressions of every length, at addresses where something may change.
    fn expressions(&mut self) {
        self.kind = "expressions";
        for i in 0..4_000 {
            let some = some_expression(self.rng, &[1], 1 + i % STEP_LIMIT);
            let mut d = target();
            d.expressions = vec![some];
            let any = self.rng.byte();
            let displacement = self.rng.pick(&[0, 1, 0x7f, 0x80, 0xff, any]);
            self.lent(&bytes(&d), 0, &[0x25, displacement]);
        }
    }

    fn move_operands(&mut self, d: &mut Description) {
        for operand in &mut d.operands {
            let moves = match operand.kind {
                Operand::TABLE => true,
                Operand::FIELD => !d.fields[usize::from(operand.index)].is_context(),
                _ => false,
            };
            if moves && self.rng.once_in(8) {
                operand.offset = self.rng.byte_within(0..=15);
            }
        }
    }

    fn well_formed(&mut self) {
        self.kind = "random descriptions";
        for i in 0..2_000 {
            let size = [Size::SMALL, Size::SMALL, Size::SMALL, Size::MIDDLE][i % 4];
            let d = well_formed(self.rng, size);
            let description = bytes(&d);
            let (code, context) = self.some_code(&d);
            self.cuts(&description, context, &code);
        }
    }

    /// The description's fault comes before all else.
    fn broken_rules(&mut self) {
        self.kind = "one rule broken";
        for (d, broken) in broken(self.rng, 100) {
            self.changed_description(&d, &broken);
        }
    }

    fn changed(&mut self, kind: &'static str, change: fn(&Description, &mut Rng) -> Vec<u8>) {
        self.kind = kind;
        for _ in 0..6_000 {
            let d = base(self.rng);
            for _ in 0..5 {
                let changed = change(&d, self.rng);
                self.changed_description(&d, &changed);
            }
        }
    }

    /// Code for the description before the change.
    fn changed_description(&mut self, before: &Description, changed: &[u8]) {
        let (code, context) = self.some_code(before);
        self.lent(changed, context, &code);
    }
}

/// A small description that decodes some code.
pub fn base(rng: &mut Rng) -> Description {
    let leaning = rng.pick(&Leaning::ALL);
    decodable(rng, SMALL, leaning)
}

/// Small descriptions, each with the bytes of one that breaks a rule, so many
/// for each rule.
pub fn broken(rng: &mut Rng, each: usize) -> Vec<(Description, Vec<u8>)> {
    let mut pairs = Vec::new();
    for (_, break_rule) in rules() {
        for _ in 0..each {
            let d = base(rng);
            let mut broken = d.clone();
            break_rule(&mut broken, rng);
            pairs.push((d, bytes(&broken)));
        }
    }
    pairs
}
