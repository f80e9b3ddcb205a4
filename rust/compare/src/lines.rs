//! Listing code from a place on as lines of text, in one part or several.

use dookerand::{Listing, LINE};
use generate::example::{description_s, full_featured, target};
use generate::{
    bytes, change_bytes, change_records, code, context, decodable, insert_or_remove, longest,
    longest_of_all, planted_stream, well_formed, with_rows, with_text, Leaning, Rng, Size,
};
use reference::Description;

use crate::agreed::{differ, hex};
use crate::gaps::Gaps;
use crate::instructions::{base, broken, MIDDLE, SMALL};
use crate::lent::{agreed_list, Given};
use crate::listing::{gap_of_line, sort_of_line, LINES};
use crate::tally::{print_counts, Tally};

const COLUMNS: &[&str] = &["ended", "full", "no line fits", "malformed", "no alignment"];
const ENDED: usize = 0;
const FULL: usize = 1;
const NO_LINE: usize = 2;
const MALFORMED: usize = 3;
const NO_ALIGNMENT: usize = 4;

/// With what room listings are made, and from where.
const SORTS: [&str; 4] = [
    "every room",
    "in parts of one size",
    "in parts of any size",
    "from past the end",
];
const EVERY_ROOM: usize = 0;
const ONE_SIZE: usize = 1;
const ANY_SIZE: usize = 2;
const PAST: usize = 3;

/// The fewest listings of each column and sort, and lines of each sort; the
/// fewest gaps of each length.
const LEAST: usize = 500;
const LEAST_GAPS: usize = 100;

/// A listing of up to so many bytes is made with every room, and at most so
/// much more room than it needs.
const SMALL_LISTING: usize = 240;
const MORE: usize = 3;

/// Compares listings on every kind of description, code, place and room.
pub fn compare(rng: &mut Rng) {
    let mut lists = Lists {
        rng,
        tally: Tally::new(COLUMNS),
        sorts: [0; SORTS.len()],
        lines: [0; LINES.len()],
        gaps: Gaps::default(),
        kind: "",
    };
    lists.fixed();
    lists.leaning("leaning to rows", 1_500, Leaning::Done);
    lists.leaning("leaning far", 600, Leaning::Far);
    lists.leaning("leaning to no length", 400, Leaning::Empty);
    lists.leaning("leaning to ambiguous", 400, Leaning::Ambiguous);
    lists.larger();
    lists.limits();
    lists.well_formed();
    lists.much_code();
    lists.broken_rules();
    lists.changed("records changed", change_records);
    lists.changed("bytes changed", change_bytes);
    lists.changed("inserted or removed", insert_or_remove);
    print!("{}", lists.tally);
    lists.tally.at_least(LEAST);
    print_counts("listings", &SORTS, &lists.sorts, LEAST);
    print_counts("lines", &LINES, &lists.lines, LEAST);
    lists.gaps.print(LEAST_GAPS);
}

struct Lists<'a> {
    rng: &'a mut Rng,
    tally: Tally,
    sorts: [usize; SORTS.len()],
    /// How many lines of whole listings show each.
    lines: [usize; LINES.len()],
    /// Those of whole listings.
    gaps: Gaps,
    kind: &'static str,
}

/// A part of a listing that both gave.
struct Part {
    text: Vec<u8>,
    next: u64,
    full: bool,
}

impl Lists<'_> {
    /// Compares one call, and gives what it gave if it is not refused.
    fn one(&mut self, given: &Given, from: u64, lent: usize) -> Option<Part> {
        let (number, values, mut text) = agreed_list(&Given { from, ..*given }, lent);
        let listing = Listing::from(dookerand::Answer { number, values });
        let column = match listing {
            Listing::Listed { full: false, .. } => ENDED,
            Listing::Listed { lines: 0, .. } => NO_LINE,
            Listing::Listed { .. } => FULL,
            Listing::Malformed { .. } => MALFORMED,
            Listing::NoAlignment { .. } => NO_ALIGNMENT,
        };
        self.tally.count(self.kind, column);
        let Listing::Listed {
            bytes, next, full, ..
        } = listing
        else {
            return None;
        };
        text.truncate(bytes);
        Some(Part { text, next, full })
    }

    /// Lists with more than enough room, with other rooms, from other places
    /// and in parts.
    fn all(&mut self, given: &Given) {
        let length = given.code.len();
        let lent = LINE * length + self.rng.below(MORE);
        let Some(whole) = self.one(given, 0, lent) else {
            for lent in [0, 1, LINE] {
                let from = self.rng.below(length + 2) as u64;
                self.one(given, from, lent);
            }
            return;
        };
        assert!(!whole.full, "the reference");
        for line in String::from_utf8_lossy(&whole.text).lines() {
            self.lines[sort_of_line(line)] += 1;
            if let Some((address, length)) = gap_of_line(line) {
                let end = address - u64::from(given.address) + length;
                self.gaps.count(given, length, end);
            }
        }
        self.rooms(given, 0, &whole.text);
        self.in_parts(given, &whole.text);
        self.other_places(given);
    }

    /// The same at some address, with some alignment.
    fn aligned(&mut self, description: &[u8], context: u32, code: &[u8]) {
        let given = Given::aligned(self.rng, self.kind, description, context, code);
        self.all(&given);
    }

    /// Every room for a small listing, and about as much as whole lines need for
    /// another.
    fn rooms(&mut self, given: &Given, from: u64, whole: &[u8]) {
        if whole.len() <= SMALL_LISTING {
            self.sorts[EVERY_ROOM] += 1;
            for lent in 0..=whole.len() + MORE {
                self.one(given, from, lent);
            }
            return;
        }
        let ends: Vec<usize> = (1..=whole.len())
            .filter(|&end| whole[end - 1] == b'\n')
            .collect();
        let end = self.rng.pick(&ends);
        let any = self.rng.below(whole.len());
        for lent in [0, end - 1, end, end + 1, any, whole.len() - 1, whole.len()] {
            self.one(given, from, lent);
        }
    }

    /// Lists from the start to the end, with as much room each time or with
    /// another. The parts joined are the whole.
    fn in_parts(&mut self, given: &Given, whole: &[u8]) {
        let size = self.rng.pick(&[LINE, LINE + 1, 2 * LINE, 4096]);
        self.sorts[ONE_SIZE] += 1;
        self.joined(given, whole, |_| size);
        self.sorts[ANY_SIZE] += 1;
        self.joined(given, whole, |rng| rng.within(0..=3 * LINE));
    }

    fn joined(&mut self, given: &Given, whole: &[u8], room: impl Fn(&mut Rng) -> usize) {
        let (mut text, mut next, mut full) = (Vec::new(), 0, true);
        while full {
            let lent = room(self.rng);
            let part = self.one(given, next, lent).expect("it is not refused");
            text.extend(part.text);
            (next, full) = (part.next, part.full);
        }
        if text != whole || next != given.code.len() as u64 {
            let request = format!("in parts, code {}", hex(given.code));
            let [expected, found] = [whole, &text].map(|text| format!("{text:?}"));
            differ(given.kind, &request, given.description, &expected, &found);
        }
    }

    /// From inside the code, where an instruction starts or not, and from past
    /// its end.
    fn other_places(&mut self, given: &Given) {
        let length = given.code.len();
        if length > 0 {
            let from = self.rng.below(length) as u64;
            let enough = LINE * length;
            let rest = self.one(given, from, enough).expect("it is not refused");
            self.rooms(given, from, &rest.text);
        }
        let far = self.rng.word();
        let length = length as u64;
        for from in [length, length + 1, 1 << 32, u64::MAX, far.max(length)] {
            self.sorts[PAST] += 1;
            let lent = self.rng.pick(&[0, 1, LINE]);
            let part = self.one(given, from, lent).expect("it is not refused");
            assert_eq!((part.text.len(), part.next, part.full), (0, from, false));
        }
    }

    /// Code that matches some constructors, and a context.
    fn some_code(&mut self, d: &Description) -> (Vec<u8>, u32) {
        let most = self.rng.pick(&[4, 8, 16, 60]);
        let length = self.rng.within(0..=most);
        match self.rng.below(6) {
            0 => (self.any_bytes(length), self.rng.word() as u32),
            1 => (code(self.rng, d, length), context(self.rng, d)),
            _ => planted_stream(self.rng, d, length),
        }
    }

    fn any_bytes(&mut self, length: usize) -> Vec<u8> {
        (0..length).map(|_| self.rng.byte()).collect()
    }

    fn list(&mut self, d: &Description, times: usize) {
        let description = bytes(d);
        for _ in 0..times {
            let (code, context) = self.some_code(d);
            self.aligned(&description, context, &code);
        }
    }

    fn fixed(&mut self) {
        self.kind = "fixed descriptions";
        self.list(&description_s(), 300);
        self.list(&full_featured(), 100);
        self.list(&longest(), 3);
        self.list(&longest_of_all(), 3);
        self.list(&target(), 60);
    }

    fn leaning(&mut self, kind: &'static str, descriptions: usize, leaning: Leaning) {
        self.kind = kind;
        for _ in 0..descriptions {
            let d = decodable(self.rng, SMALL, leaning);
            self.list(&d, 2);
        }
    }

    fn larger(&mut self) {
        self.kind = "larger descriptions";
        for (descriptions, size) in [(60, MIDDLE), (5, Size::LARGE)] {
            for _ in 0..descriptions {
                let leaning = self.rng.pick(&Leaning::ALL);
                let d = decodable(self.rng, size, leaning);
                self.list(&d, 2);
            }
        }
    }

    /// Texts of about 256 bytes and more, and instructions of about 32 rows.
    fn limits(&mut self) {
        for i in 0..600 {
            self.kind = "texts up to the limit";
            let any = self.rng.within(0..=600);
            let length = [0, 255, 256, 257, any, 5_000][i % 6];
            let d = with_text(self.rng, length);
            self.list(&d, 1);
            self.kind = "rows up to the limit";
            let rows = self.rng.within(30..=34);
            let d = with_rows(self.rng, rows);
            self.list(&d, 1);
        }
    }

    fn well_formed(&mut self) {
        self.kind = "random descriptions";
        for i in 0..400 {
            let size = [Size::SMALL, Size::SMALL, Size::SMALL, Size::MIDDLE][i % 4];
            let d = well_formed(self.rng, size);
            self.list(&d, 1);
        }
    }

    /// More than the listing program takes, and more than two bytes count.
    fn much_code(&mut self) {
        self.kind = "much code";
        let s = description_s();
        let description = bytes(&s);
        for (length, alignment) in [(4_095, 8), (4_096, 4), (4_097, 2), (5_000, 1), (70_000, 1)] {
            let (code, context) = planted_stream(self.rng, &s, length);
            let given = Given::aligned(self.rng, self.kind, &description, context, &code);
            self.all(&Given { alignment, ..given });
        }
        let (avr, code) = (avr::description(), self.any_bytes(20_000));
        for alignment in [1, 2] {
            let given = Given::new(self.kind, &avr, 0, 0, &code);
            self.all(&Given { alignment, ..given });
        }
    }

    /// The description's fault comes before all else.
    fn broken_rules(&mut self) {
        self.kind = "one rule broken";
        for (d, broken) in broken(self.rng, 20) {
            self.changed_description(&d, &broken);
        }
    }

    fn changed(&mut self, kind: &'static str, change: fn(&Description, &mut Rng) -> Vec<u8>) {
        self.kind = kind;
        for _ in 0..1_000 {
            let d = base(self.rng);
            let changed = change(&d, self.rng);
            self.changed_description(&d, &changed);
        }
    }

    /// Code for the description before the change.
    fn changed_description(&mut self, before: &Description, changed: &[u8]) {
        let (code, context) = self.some_code(before);
        self.aligned(changed, context, &code);
    }
}
