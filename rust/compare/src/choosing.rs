//! Asking a table, and the clash check.

use generate::example::{description_s, full_featured};
use generate::{
    bytes, change_records, code, context, input, longest, meeting_tables, rules, table_ranges,
    well_formed, Input, Rng, Size,
};
use reference::{requests, Description, Pattern};

use crate::agreed::{agreed, hex};
use crate::tally::Tally;

const ASKED: &[&str] = &[
    "taken",
    "malformed",
    "short",
    "no match",
    "ambiguous",
    "no table",
];
const CLASHED: &[&str] = &["clear", "clash", "malformed", "no table"];

/// Compares both on every kind of table.
pub fn compare(rng: &mut Rng) {
    let mut choosing = Choosing {
        rng,
        asked: Tally::new(ASKED),
        clashed: Tally::new(CLASHED),
        kind: "",
    };
    choosing.fixed();
    choosing.meeting("tables of up to 3", 8_000, 3, 4);
    choosing.meeting("tables of up to 8", 8_000, 8, 6);
    choosing.meeting("tables of up to 40", 1_000, 40, 12);
    choosing.meeting("tables of up to 512", 80, 512, 60);
    choosing.well_formed();
    choosing.malformed();
    print!("ask:\n{}clash:\n{}", choosing.asked, choosing.clashed);
}

struct Choosing<'a> {
    rng: &'a mut Rng,
    asked: Tally,
    clashed: Tally,
    kind: &'static str,
}

impl Choosing<'_> {
    fn ask(&mut self, description: &[u8], table: u32, context: u32, code: &[u8]) {
        let expected = requests::ask(description, table, context, code);
        let answer = dookerand::ask(description, table, context, code);
        let request = || format!("table {table}, context {context:#x}, code {}", hex(code));
        let (number, _) = agreed(self.kind, request, description, &expected, answer);
        self.asked.count(self.kind, number.min(5) as usize);
    }

    fn clash(&mut self, description: &[u8], table: u32) {
        let expected = requests::clash(description, table);
        let answer = dookerand::clash(description, table);
        let request = || format!("clash of table {table}");
        let (number, values) = agreed(self.kind, request, description, &expected, answer);
        let column = match number {
            0 => values[0] as usize,
            1 => 2,
            _ => 3,
        };
        self.clashed.count(self.kind, column);
    }

    /// Asks with the input cut to each length, and with one that goes on.
    fn cuts(&mut self, description: &[u8], table: u32, input: &Input) {
        for length in 0..=input.code.len() {
            self.ask(description, table, input.context, &input.code[..length]);
        }
        if self.rng.once_in(8) {
            let longer = input.code.repeat(self.rng.within(2..=40));
            self.ask(description, table, input.context, &longer);
        }
    }

    /// Every table of a description, with so many inputs each, and numbers
    /// that no constructor has.
    fn tables(&mut self, d: &Description, inputs: usize) {
        let description = bytes(d);
        for range in table_ranges(d) {
            let table = d.constructors[range.start].table.into();
            let records = &d.constructors[range];
            let patterns: Vec<Pattern> = records.iter().map(|c| c.pattern).collect();
            self.clash(&description, table);
            for _ in 0..inputs {
                let input = input(self.rng, &patterns);
                self.cuts(&description, table, &input);
            }
        }
        self.absent(d, &description);
    }

    fn absent(&mut self, d: &Description, description: &[u8]) {
        let root = d.root();
        let any = self.rng.below(64) as u32;
        let numbers = [
            any,
            root + 1,
            64,
            255,
            256,
            256 + root,
            65_535,
            65_536 + root,
            u32::MAX,
        ];
        for table in numbers {
            if d.table(table).is_none() {
                let (code, context) = (code(self.rng, d, 9), context(self.rng, d));
                self.ask(description, table, context, &code);
                self.clash(description, table);
            }
        }
    }

    fn fixed(&mut self) {
        self.kind = "fixed descriptions";
        let s = bytes(&description_s());
        for byte in 0..=255 {
            for table in 0..=2 {
                for code in [&[byte][..], &[byte, 0xfe], &[byte; 9]] {
                    self.ask(&s, table, u32::from(byte), code);
                }
            }
        }
        for d in [description_s(), full_featured(), longest()] {
            self.tables(&d, 20);
        }
    }

    fn meeting(&mut self, kind: &'static str, descriptions: usize, most: usize, inputs: usize) {
        self.kind = kind;
        for _ in 0..descriptions {
            let d = meeting_tables(self.rng, most);
            self.tables(&d, inputs);
        }
    }

    fn well_formed(&mut self) {
        self.kind = "random descriptions";
        for i in 0..2_000 {
            let size = [Size::SMALL, Size::SMALL, Size::SMALL, Size::MIDDLE][i % 4];
            let d = well_formed(self.rng, size);
            self.tables(&d, 3);
        }
    }

    /// The description's fault comes before all else, an absent table too.
    fn malformed(&mut self) {
        self.kind = "one rule broken";
        for (_, break_rule) in rules() {
            for _ in 0..100 {
                let d = meeting_tables(self.rng, 3);
                let mut broken = d.clone();
                break_rule(&mut broken, self.rng);
                self.any_table(&d, &bytes(&broken));
            }
        }
        self.kind = "records changed";
        for _ in 0..20_000 {
            let d = meeting_tables(self.rng, 3);
            let changed = change_records(&d, self.rng);
            self.any_table(&d, &changed);
        }
    }

    /// Asks a table that the description had before it was changed, and one
    /// of any number.
    fn any_table(&mut self, before: &Description, description: &[u8]) {
        let (code, context) = (code(self.rng, before, 9), context(self.rng, before));
        let present = self.rng.pick(&before.constructors).table;
        let any = self.rng.below(300) as u32;
        for table in [present.into(), any] {
            self.ask(description, table, context, &code);
            self.clash(description, table);
        }
    }
}
