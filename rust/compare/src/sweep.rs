//! Sweeping a code buffer.

use generate::example::{description_s, full_featured, target};
use generate::{
    bytes, change_bytes, change_records, code, context, decodable, insert_or_remove, longest,
    longest_of_all, planted_stream, well_formed, with_rows, with_text, Leaning, Rng, Size,
    ALIGNMENTS,
};
use reference::Description;

use crate::gaps::{is_multiple, Gaps};
use crate::instructions::{base, broken, MIDDLE, SMALL};
use crate::lent::{agreed_sweep, Given};
use crate::tally::{print_counts, Tally};

const COLUMNS: &[&str] = &["used", "full", "short", "malformed", "no alignment"];
const USED: u64 = 0;
const FULL: u64 = 1;
const MALFORMED: usize = 3;
const NO_ALIGNMENT: usize = 4;

/// The answers that rows have: done, 3 to 8, 13 and 14.
const ROWS: [&str; 9] = [
    "done",
    "no match",
    "ambiguous",
    "hole",
    "too far",
    "33 rows",
    "length 0",
    "outside",
    "no multiple",
];
/// The first of the last two.
const OUTSIDE: i64 = 13;

/// Where two of them meet, the first is given.
const MEETING: [&str; 4] = [
    "used and full",
    "full and short",
    "used and no multiple",
    "full and no multiple",
];
const NO_MULTIPLE: usize = 2;

/// The fewest sweeps for each end and refusal, and for two that meet; the fewest
/// rows for each answer, and gaps of each length.
const LEAST: usize = 500;

const ROW_NUMBERS: usize = 4;

/// Compares sweeps on every kind of description, code and room.
pub fn compare(rng: &mut Rng) {
    let mut sweeping = Sweeping {
        rng,
        tally: Tally::new(COLUMNS),
        rows: [0; ROWS.len()],
        gaps: Gaps::default(),
        meeting: [0; MEETING.len()],
        kind: "",
    };
    sweeping.fixed();
    sweeping.leaning("leaning to rows", 3_000, Leaning::Done);
    sweeping.leaning("leaning far", 1_200, Leaning::Far);
    sweeping.leaning("leaning to no length", 800, Leaning::Empty);
    sweeping.leaning("leaning to ambiguous", 800, Leaning::Ambiguous);
    sweeping.larger();
    sweeping.limits();
    sweeping.well_formed();
    sweeping.broken_rules();
    sweeping.changed("records changed", change_records);
    sweeping.changed("bytes changed", change_bytes);
    sweeping.changed("inserted or removed", insert_or_remove);
    print!("{}", sweeping.tally);
    sweeping.tally.at_least(LEAST);
    print_counts("rows", &ROWS, &sweeping.rows, LEAST);
    sweeping.gaps.print(LEAST);
    print_counts("ends that meet", &MEETING, &sweeping.meeting, LEAST);
}

struct Sweeping<'a> {
    rng: &'a mut Rng,
    tally: Tally,
    /// How many rows have each answer.
    rows: [usize; ROWS.len()],
    gaps: Gaps,
    meeting: [usize; MEETING.len()],
    kind: &'static str,
}

impl Sweeping<'_> {
    /// Compares one sweep with room for so many rows and at times a rest. Gives
    /// the end and the rows written, if it is not refused.
    fn one(&mut self, given: &Given, room: usize) -> Option<[u64; 2]> {
        let lent = ROW_NUMBERS * room + self.rng.below(ROW_NUMBERS);
        let (number, [end, written, next, _], rows) = agreed_sweep(given, lent);
        if number != 0 {
            let column = if number == 1 { MALFORMED } else { NO_ALIGNMENT };
            self.tally.count(self.kind, column);
            return None;
        }
        self.tally.count(self.kind, end as usize);
        if end <= FULL && !is_multiple(given, next) {
            self.meeting[NO_MULTIPLE + end as usize] += 1;
        }
        let (rows, _) = rows[..ROW_NUMBERS * written as usize].as_chunks();
        rows.iter().for_each(|row| self.count_row(given, row));
        Some([end, written])
    }

    fn count_row(&mut self, given: &Given, &[start, length, answer, _]: &[i64; ROW_NUMBERS]) {
        let place = match answer {
            OUTSIDE.. => ROWS.len() - 2 + (answer - OUTSIDE) as usize,
            _ => (answer as usize).saturating_sub(2),
        };
        self.rows[place] += 1;
        if answer != 0 {
            let end = (start + length) as u64;
            self.gaps.count(given, length as u64, end);
        }
    }

    /// Sweeps with room for a row at each byte, then with about as much as
    /// needed.
    fn rooms(&mut self, given: &Given) {
        let enough = given.code.len() + self.rng.below(2);
        let Some([end, rows]) = self.one(given, enough) else {
            self.one(given, 0);
            return;
        };
        let rows = rows as usize;
        let tight = self.one(given, rows);
        let expected = if end == USED { USED } else { FULL };
        assert_eq!(tight, Some([expected, rows as u64]), "the reference");
        self.meeting[usize::from(end != USED)] += 1;
        let less = self.rng.within(0..=rows);
        let room = self
            .rng
            .pick(&[rows.saturating_sub(1), rows + 1, less, less]);
        self.one(given, room);
    }

    /// The same at some address, with some alignment.
    fn aligned(&mut self, description: &[u8], context: u32, code: &[u8]) {
        let given = Given::aligned(self.rng, self.kind, description, context, code);
        self.rooms(&given);
    }

    /// Code that matches some constructors, and a context.
    fn some_code(&mut self, d: &Description) -> (Vec<u8>, u32) {
        let most = self.rng.pick(&[4, 20, 60, 300]);
        let length = self.rng.within(0..=most);
        match self.rng.below(6) {
            0 => {
                let any = (0..length).map(|_| self.rng.byte()).collect();
                (any, self.rng.word() as u32)
            }
            1 => (code(self.rng, d, length), context(self.rng, d)),
            _ => planted_stream(self.rng, d, length),
        }
    }

    fn sweep(&mut self, d: &Description, times: usize) {
        let description = bytes(d);
        for _ in 0..times {
            let (code, context) = self.some_code(d);
            self.aligned(&description, context, &code);
        }
    }

    /// Some code, and for S also more than two bytes count.
    fn fixed(&mut self) {
        self.kind = "fixed descriptions";
        self.sweep(&full_featured(), 300);
        self.sweep(&longest(), 10);
        self.sweep(&longest_of_all(), 10);
        self.sweep(&target(), 100);
        let s = description_s();
        self.sweep(&s, 1_000);
        let (code, context) = planted_stream(self.rng, &s, 80_000);
        let description = bytes(&s);
        let given = Given::aligned(self.rng, self.kind, &description, context, &code);
        for alignment in ALIGNMENTS {
            self.rooms(&Given { alignment, ..given });
        }
    }

    fn leaning(&mut self, kind: &'static str, descriptions: usize, leaning: Leaning) {
        self.kind = kind;
        for _ in 0..descriptions {
            let d = decodable(self.rng, SMALL, leaning);
            self.sweep(&d, 2);
        }
    }

    fn larger(&mut self) {
        self.kind = "larger descriptions";
        for (descriptions, size) in [(200, MIDDLE), (20, Size::LARGE)] {
            for _ in 0..descriptions {
                let leaning = self.rng.pick(&Leaning::ALL);
                let d = decodable(self.rng, size, leaning);
                self.sweep(&d, 5);
            }
        }
    }

    /// Instructions of about as many rows as there may be, and such as have no
    /// text because it would be too long.
    fn limits(&mut self) {
        for _ in 0..400 {
            self.kind = "rows up to the limit";
            let rows = self.rng.within(28..=36);
            let d = with_rows(self.rng, rows);
            self.sweep(&d, 1);
            self.kind = "texts up to the limit";
            let length = self.rng.within(0..=600);
            let d = with_text(self.rng, length);
            self.sweep(&d, 1);
        }
    }

    fn well_formed(&mut self) {
        self.kind = "random descriptions";
        for i in 0..1_000 {
            let size = [Size::SMALL, Size::SMALL, Size::SMALL, Size::MIDDLE][i % 4];
            let d = well_formed(self.rng, size);
            self.sweep(&d, 1);
        }
    }

    /// The description's fault comes before all else.
    fn broken_rules(&mut self) {
        self.kind = "one rule broken";
        for (d, broken) in broken(self.rng, 40) {
            self.changed_description(&d, &broken);
        }
    }

    fn changed(&mut self, kind: &'static str, change: fn(&Description, &mut Rng) -> Vec<u8>) {
        self.kind = kind;
        for _ in 0..3_000 {
            let d = base(self.rng);
            let changed = change(&d, self.rng);
            self.changed_description(&d, &changed);
        }
    }

    /// Code for the description before the change.
    fn changed_description(&mut self, before: &Description, changed: &[u8]) {
        let (code, context) = self.some_code(before);
        self.aligned(changed, context, &code);
    }
}
