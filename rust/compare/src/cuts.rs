//! Sweeps and listings at each alignment and remainder of the address, over code
//! that is cut at each place.

use dookerand::LINE;
use generate::example::{description_s, full_featured, target};
use generate::{bytes, decodable, planted_stream, Leaning, Rng, ALIGNMENTS, NO_ALIGNMENTS};
use reference::{decode_instruction, Description, Refusal};

use crate::gaps::Gaps;
use crate::instructions::SMALL;
use crate::lent::{agreed_list, agreed_sweep, Given};
use crate::tally::{print_counts, Tally};

const SWEEPS: &[&str] = &["used", "full", "short", "no alignment"];
const LISTINGS: &[&str] = &["ended", "full", "no alignment"];

/// Rows with answer 14.
const ROWS: [&str; 2] = ["no multiple", "that would be short"];
const NO_MULTIPLE: i64 = 14;

/// The fewest of each column, of these rows, and of gaps of each length.
const LEAST: usize = 500;

/// The longest code that is swept, and the longest that is listed.
const SWEPT: usize = 40;
const LISTED: usize = 16;

/// Of every alignment. The last is just below 2^32.
const MULTIPLES: [u32; 4] = [0, 8, 1 << 31, u32::MAX - 7];
const REMAINDERS: u32 = 8;

const ROW_NUMBERS: usize = 4;

pub fn compare(rng: &mut Rng) {
    let mut cuts = Cuts {
        rng,
        sweeps: Tally::new(SWEEPS),
        listings: Tally::new(LISTINGS),
        rows: [0; ROWS.len()],
        gaps: Gaps::default(),
    };
    cuts.each("S", 6, |_| description_s());
    cuts.each("full-featured", 4, |_| full_featured());
    cuts.each("branch target", 4, |_| target());
    for (kind, leaning) in [
        ("leaning to rows", Leaning::Done),
        ("leaning far", Leaning::Far),
        ("leaning to no length", Leaning::Empty),
        ("leaning to ambiguous", Leaning::Ambiguous),
    ] {
        cuts.each(kind, 8, |rng| decodable(rng, SMALL, leaning));
    }
    print!("sweeps\n{}", cuts.sweeps);
    cuts.sweeps.at_least(LEAST);
    print!("listings\n{}", cuts.listings);
    cuts.listings.at_least(LEAST);
    print_counts("rows", &ROWS, &cuts.rows, LEAST);
    cuts.gaps.print(LEAST);
}

struct Cuts<'a> {
    rng: &'a mut Rng,
    sweeps: Tally,
    listings: Tally,
    rows: [usize; ROWS.len()],
    gaps: Gaps,
}

impl Cuts<'_> {
    /// So many descriptions, with code for each.
    fn each(&mut self, kind: &'static str, count: usize, d: impl Fn(&mut Rng) -> Description) {
        for _ in 0..count {
            let d = d(self.rng);
            let (code, context) = planted_stream(self.rng, &d, SWEPT);
            let description = bytes(&d);
            for end in 0..=SWEPT {
                let given = Given::new(kind, &description, context, 0, &code[..end]);
                self.cut(&given, &short_places(&d, &given));
            }
        }
    }

    fn cut(&mut self, given: &Given, short: &[bool]) {
        self.refused(given);
        for alignment in ALIGNMENTS {
            for remainder in 0..REMAINDERS {
                let given = Given {
                    address: self.rng.pick(&MULTIPLES) + remainder,
                    alignment,
                    ..*given
                };
                self.sweeps(&given, short);
                if given.code.len() <= LISTED {
                    self.listings(&given);
                }
            }
        }
    }

    /// Whatever the code, the place and the room are.
    fn refused(&mut self, given: &Given) {
        let alignment = self.rng.pick(&NO_ALIGNMENTS);
        let from = self.rng.below(given.code.len() + 2) as u64;
        let given = Given {
            alignment,
            from,
            ..*given
        };
        for room in [0, given.code.len()] {
            self.sweep(&given, &[], room);
            self.list(&given, LINE * room);
        }
    }

    /// With enough room, with just as much, with a row less, and with none.
    fn sweeps(&mut self, given: &Given, short: &[bool]) {
        let rows = self.sweep(given, short, given.code.len());
        for room in [rows, rows.saturating_sub(1), 0] {
            self.sweep(given, short, room);
        }
    }

    /// Compares one sweep, and gives the rows written.
    fn sweep(&mut self, given: &Given, short: &[bool], room: usize) -> usize {
        let (number, values, rows) = agreed_sweep(given, ROW_NUMBERS * room);
        let (column, written) = match number {
            0 => (values[0] as usize, values[1] as usize),
            _ => (SWEEPS.len() - 1, 0),
        };
        self.sweeps.count(given.kind, column);
        for row in rows.chunks(ROW_NUMBERS).take(written) {
            if row[2] != 0 {
                self.gaps
                    .count(given, row[1] as u64, (row[0] + row[1]) as u64);
            }
            if row[2] == NO_MULTIPLE {
                self.rows[0] += 1;
                self.rows[1] += usize::from(short[row[0] as usize]);
            }
        }
        written
    }

    /// From each place and from past the end, with enough room, and with just as
    /// much, a byte less or none.
    fn listings(&mut self, given: &Given) {
        let length = given.code.len();
        for from in 0..=length as u64 + 1 {
            let given = Given { from, ..*given };
            let bytes = self.list(&given, LINE * length);
            let room = self.rng.pick(&[bytes, bytes.saturating_sub(1), 0]);
            self.list(&given, room);
        }
    }

    /// Compares one listing, and gives the bytes written.
    fn list(&mut self, given: &Given, room: usize) -> usize {
        let (number, values, _) = agreed_list(given, room);
        let (column, written) = match number {
            0 => (values[3] as usize, values[0] as usize),
            _ => (LISTINGS.len() - 1, 0),
        };
        self.listings.count(given.kind, column);
        written
    }
}

/// For each place, whether an instruction there is short.
fn short_places(d: &Description, given: &Given) -> Vec<bool> {
    let is_short = |place| {
        let rest = &given.code[place..];
        let decoded = decode_instruction(d, given.context, 0, rest);
        matches!(decoded, Err(Refusal::Short { .. }))
    };
    (0..given.code.len()).map(is_short).collect()
}
