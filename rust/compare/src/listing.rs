//! The listing program, a process for each input.

use std::io::{Result, Write};
use std::path::{Path, PathBuf};
use std::process::{exit, Command, Output, Stdio};
use std::thread;

use generate::example::{description_s, full_featured, target};
use generate::{
    bytes, change_records, count_faults, decodable, longest, longest_of_all, planted_stream, rules,
    well_formed, with_rows, with_text, Leaning, Rng, Size,
};
use reference::{listing, Description};

use crate::agreed::print_bytes;
use crate::instructions::{MIDDLE, SMALL};
use crate::tally::{print_counts, Tally};

/// Says where the program is, if elsewhere.
const VARIABLE: &str = "DOOKERAND_LISTING";
/// From this crate's directory on.
const PROGRAM: &str = "../../target/bin/listing";
const EXAMPLES: &str = "../../examples";

const COLUMNS: &[&str] = &["listed", "short", "no lines", "malformed"];
const LISTED: usize = 0;
const SHORT: usize = 1;
const NO_LINES: usize = 2;
const MALFORMED: usize = 3;

/// What lines may show.
pub const LINES: [&str; 4] = ["an instruction", ".byte", ".long", ".short"];
const GAP_LINE: usize = 1;
const SHORT_LINE: usize = 3;

/// The fewest runs of each column and for faults of each section; the fewest
/// lines of each sort.
const LEAST: usize = 10;

const SECTIONS: [&str; 7] = [
    "section 1",
    "section 2",
    "section 3",
    "section 4",
    "section 5",
    "section 6",
    "section 7",
];

/// The most code that is listed, and the most bytes that the program reads.
const CODE: usize = 4096;
const INPUT: usize = 2 + 65_535 + CODE;

/// The example of the rules, and what is printed for it.
const EXAMPLE: [u8; 4] = [0x13, 0x30, 0x1f, 0x25];
const EXAMPLE_LISTED: &str = "\
00000000: inc r3
00000001: .byte 0x30
00000002: halt
00000003: .short
";

/// Where the program is. Stops if it is not there.
pub fn program() -> PathBuf {
    // An absolute path takes the place of the directory it is joined to.
    let chosen = std::env::var_os(VARIABLE).unwrap_or(PROGRAM.into());
    let program = Path::new(env!("CARGO_MANIFEST_DIR")).join(chosen);
    if !program.is_file() {
        eprintln!("{}: no such program", program.display());
        eprintln!("tools/build builds it; {VARIABLE} may say where else it is");
        exit(2);
    }
    program
}

/// Compares what the program prints with the reference on every kind of input.
pub fn compare(rng: &mut Rng, program: &Path) {
    let mut runs = Runs {
        rng,
        program,
        tally: Tally::new(COLUMNS),
        lines: [0; LINES.len()],
        faults: [0; SECTIONS.len()],
        kind: "",
    };
    runs.example();
    runs.cuts();
    runs.other_lengths();
    runs.malformed();
    runs.much_code();
    runs.gaps();
    runs.limits();
    runs.targets();
    runs.generated();
    runs.larger();
    runs.avr();
    print!("{}", runs.tally);
    runs.tally.at_least(LEAST);
    print_counts("lines", &LINES, &runs.lines, LEAST);
    print_counts("malformed", &SECTIONS, &runs.faults, LEAST);
}

struct Runs<'a> {
    rng: &'a mut Rng,
    program: &'a Path,
    tally: Tally,
    /// How many lines show each.
    lines: [usize; LINES.len()],
    /// How many descriptions have their fault in each section.
    faults: [usize; SECTIONS.len()],
    kind: &'static str,
}

impl Runs<'_> {
    /// Compares one run.
    fn one(&mut self, input: &[u8]) {
        let expected = listing(input);
        let most = self.rng.pick(&[7, 1000, 4096, INPUT]);
        // Few parts of a long input.
        let part = most.max(input.len() / 64);
        let found = printed(self.program, input, part);
        if found != expected {
            differ(self.kind, input, &expected, &found);
        }
        let column = self.count(&expected);
        self.tally.count(self.kind, column);
    }

    /// Counts the lines, and gives the run's column.
    fn count(&mut self, listed: &[u8]) -> usize {
        let listed = String::from_utf8_lossy(listed);
        if let Some(fault) = listed.strip_prefix("malformed ") {
            let section = fault.split(' ').next().and_then(|n| n.parse().ok());
            let section: usize = section.expect("a section's number");
            self.faults[section - 1] += 1;
            return MALFORMED;
        }
        let mut column = NO_LINES;
        for line in listed.lines() {
            let sort = sort_of_line(line);
            self.lines[sort] += 1;
            column = if sort == SHORT_LINE { SHORT } else { LISTED };
        }
        column
    }

    /// A description with its length before it and code behind it.
    fn listed(&mut self, description: &[u8], code: &[u8]) {
        self.one(&input(description, code));
    }

    /// Code for a description, made for whatever context; the program's is 0.
    fn code(&mut self, d: &Description, longest: usize) -> Vec<u8> {
        let length = self.rng.within(0..=longest);
        match self.rng.below(6) {
            0 => self.any_bytes(length),
            _ => planted_stream(self.rng, d, length).0,
        }
    }

    fn any_bytes(&mut self, length: usize) -> Vec<u8> {
        (0..length).map(|_| self.rng.byte()).collect()
    }

    /// What the rules say of S, by the program and by the script that puts its
    /// input together from two files.
    fn example(&mut self) {
        self.kind = "the example";
        let input = input(&bytes(&description_s()), &EXAMPLE);
        assert_eq!(listing(&input), EXAMPLE_LISTED.as_bytes(), "the reference");
        for part in [1, 2, 3, input.len()] {
            let found = printed(self.program, &input, part);
            if found != EXAMPLE_LISTED.as_bytes() {
                differ(self.kind, &input, EXAMPLE_LISTED.as_bytes(), &found);
            }
        }
        self.one(&input);
        let examples = Path::new(env!("CARGO_MANIFEST_DIR")).join(EXAMPLES);
        let files = ["s.description", "s.code"].map(|name| examples.join(name));
        let script = examples.join("list");
        let found = written(&script, Command::new(&script).args(files).output());
        if found != EXAMPLE_LISTED.as_bytes() {
            differ("examples/list", &input, EXAMPLE_LISTED.as_bytes(), &found);
        }
    }

    /// Input that ends anywhere: no whole length, inside the description, at
    /// its end, inside the code.
    fn cuts(&mut self) {
        self.kind = "input cut";
        let whole = input(&bytes(&description_s()), &EXAMPLE);
        for end in 0..=whole.len() {
            self.one(&whole[..end]);
        }
    }

    /// Lengths other than the description's.
    fn other_lengths(&mut self) {
        self.kind = "another length";
        let s = bytes(&description_s());
        let right = s.len() as u16;
        let some = [0, 1, 2, 255, 256, 65_535];
        let near = (right - 6..=right + 6).chain(some);
        let any: Vec<u16> = (0..20).map(|_| self.rng.word() as u16).collect();
        for length in near.chain(any) {
            for code in [&EXAMPLE[..], &[]] {
                let mut input = input(&s, code);
                input[..2].copy_from_slice(&length.to_le_bytes());
                self.one(&input);
            }
        }
    }

    /// One line, whatever the code is.
    fn malformed(&mut self) {
        self.kind = "counts wrong";
        let bases = [description_s(), full_featured()];
        for d in bases {
            for (malformed, _) in count_faults(&d, self.rng) {
                let code = self.code(&d, 20);
                self.listed(&malformed, &code);
            }
        }
        self.kind = "one rule broken";
        for (_, break_rule) in rules() {
            for leaning in [Leaning::Done, Leaning::Far] {
                let d = decodable(self.rng, SMALL, leaning);
                let mut broken = d.clone();
                break_rule(&mut broken, self.rng);
                let code = self.code(&d, 20);
                self.listed(&bytes(&broken), &code);
            }
        }
        self.kind = "records changed";
        for _ in 0..60 {
            let d = well_formed(self.rng, Size::SMALL);
            let changed = change_records(&d, self.rng);
            let code = self.code(&d, 20);
            self.listed(&changed, &code);
        }
    }

    /// About as much code as is listed, far more, and inputs that are longer
    /// than the program reads.
    fn much_code(&mut self) {
        self.kind = "much code";
        let s = description_s();
        let description = bytes(&s);
        for length in [CODE - 1, CODE, CODE + 1, CODE + 2, 5_000, 70_000] {
            let planted = planted_stream(self.rng, &s, length).0;
            // Of two bytes each, so that the last one listed may be cut.
            let adds = vec![0x25; length];
            let after_one = [&[0x1f], &adds[1..]].concat();
            for code in [planted, adds, after_one] {
                self.listed(&description, &code);
            }
        }
        self.kind = "longest input";
        for length in [INPUT - 1, INPUT, INPUT + 1, 70_000, 200_000] {
            let mut long = self.any_bytes(length);
            long[..2].copy_from_slice(&[0xff; 2]);
            self.one(&long);
            // The description ends where the length says, or does not; the longest
            // has no length that says so.
            for end in [longest(), longest_of_all(), s.clone()] {
                let mut long = bytes(&end);
                let length_field = (long.len() as u16).to_le_bytes();
                long.splice(..0, length_field);
                long.resize(length, 0x25);
                self.one(&long);
                long[..2].copy_from_slice(&[0xff; 2]);
                self.one(&long);
            }
        }
    }

    fn gaps(&mut self) {
        self.kind = "gaps alone";
        let s = bytes(&description_s());
        let gaps: Vec<u8> = (0..=255)
            .filter(|byte| !matches!(byte, 0x10..=0x2f))
            .collect();
        self.listed(&s, &gaps);
        for length in [1, 2, 300, CODE, CODE + 1] {
            let code: Vec<u8> = (0..length).map(|_| self.rng.pick(&gaps)).collect();
            self.listed(&s, &code);
        }
        self.kind = "no code";
        let larger = decodable(self.rng, Size::LARGE, Leaning::Done);
        for d in [description_s(), full_featured(), longest(), larger] {
            self.listed(&bytes(&d), &[]);
        }
        self.listed(&avr::description(), &[]);
    }

    /// Texts of about 256 bytes and more, and instructions of about 32 rows.
    fn limits(&mut self) {
        self.kind = "texts up to the limit";
        for i in 0..60 {
            let length = [0, 255, 256, 257, 300, 5_000][i % 6];
            let d = with_text(self.rng, length);
            let code = self.code(&d, 60);
            self.listed(&bytes(&d), &code);
        }
        self.kind = "rows up to the limit";
        for i in 0..20 {
            let d = with_rows(self.rng, 30 + i % 5);
            let code = self.code(&d, 60);
            self.listed(&bytes(&d), &code);
        }
    }

    /// From address 0 on, so that the first ones back are below zero.
    fn targets(&mut self) {
        self.kind = "branch targets";
        for _ in 0..20 {
            let code = self.code(&target(), 300);
            self.listed(&bytes(&target()), &code);
        }
    }

    fn generated(&mut self) {
        self.kind = "generated descriptions";
        for leaning in Leaning::ALL {
            for _ in 0..50 {
                let d = decodable(self.rng, SMALL, leaning);
                let most = self.rng.pick(&[20, 300]);
                let code = self.code(&d, most);
                self.listed(&bytes(&d), &code);
            }
        }
    }

    fn larger(&mut self) {
        self.kind = "larger descriptions";
        for i in 0..40 {
            let size = [MIDDLE, MIDDLE, MIDDLE, Size::LARGE][i % 4];
            let leaning = self.rng.pick(&Leaning::ALL);
            let d = decodable(self.rng, size, leaning);
            let code = self.code(&d, 2_000);
            self.listed(&bytes(&d), &code);
        }
        let longest = longest();
        for _ in 0..5 {
            let code = self.code(&longest, CODE);
            self.listed(&bytes(&longest), &code);
        }
    }

    fn avr(&mut self) {
        self.kind = "AVR";
        let description = avr::description();
        for _ in 0..60 {
            let most = self.rng.pick(&[10, 500, CODE + 100]);
            let length = self.rng.within(0..=most);
            let code = self.any_bytes(length);
            self.listed(&description, &code);
        }
    }
}

/// Which of [`LINES`] a line is.
pub fn sort_of_line(line: &str) -> usize {
    let (_, shown) = line.split_once(": ").expect("a place");
    match shown {
        ".short" => SHORT_LINE,
        ".long" => 2,
        _ if shown.starts_with(".byte 0x") => GAP_LINE,
        _ => 0,
    }
}

/// The address and the length of a gap.
pub fn gap_of_line(line: &str) -> Option<(u64, u64)> {
    let (address, shown) = line.split_once(": ")?;
    let address = u64::from_str_radix(address, 16).ok()?;
    let is_gap = sort_of_line(line) == GAP_LINE;
    is_gap.then(|| (address, shown.split(", ").count() as u64))
}

/// A description with its length before it and code behind it.
fn input(description: &[u8], code: &[u8]) -> Vec<u8> {
    let length = u16::try_from(description.len()).expect("a longer one can't be listed");
    [&length.to_le_bytes(), description, code].concat()
}

/// What the program prints for an input that comes in parts of so many bytes.
fn printed(program: &Path, input: &[u8], part: usize) -> Vec<u8> {
    let mut command = Command::new(program);
    let started = command.stdin(Stdio::piped()).stdout(Stdio::piped()).spawn();
    let output = started.and_then(|mut child| {
        let mut stdin = child.stdin.take().expect("it is piped");
        thread::scope(|scope| {
            // The program may end before it has read what it ignores.
            scope.spawn(move || {
                input
                    .chunks(part)
                    .try_for_each(|part| stdin.write_all(part))
            });
            child.wait_with_output()
        })
    });
    written(program, output)
}

/// What a program writes. Stops if it fails.
fn written(program: &Path, output: Result<Output>) -> Vec<u8> {
    let why = match output {
        Ok(output) if output.status.success() => return output.stdout,
        Ok(output) => output.status.to_string(),
        Err(error) => error.to_string(),
    };
    println!("{}: {why}", program.display());
    exit(1);
}

/// Stops with what the reference prints and what the program did.
fn differ(kind: &str, input: &[u8], expected: &[u8], found: &[u8]) -> ! {
    println!("difference at \"{kind}\"");
    println!("reference:\n{}", String::from_utf8_lossy(expected));
    println!("program:\n{}", String::from_utf8_lossy(found));
    print_bytes("input", input);
    exit(1);
}
