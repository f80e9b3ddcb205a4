//! Checking a description.

use generate::example::{description_s, full_featured};
use generate::{
    bytes, change_bytes, change_counts, change_records, count_faults, insert_or_remove, limits,
    longest, longest_of_all, random_records, rules, section_starts, well_formed, Rng, Size,
    CHANGES, SECTIONS,
};
use reference::{Description, Fault, WHOLE_SECTION};

use crate::agreed::agreed;
use crate::tally::Tally;

const COLUMNS: &[&str] = &[
    "well", "counts", "rec 1", "rec 2", "rec 3", "rec 4", "rec 5", "rec 6", "rec 7",
];

/// Compares the check on every kind of description.
pub fn compare(rng: &mut Rng) {
    let mut check = Check {
        rng,
        tally: Tally::new(COLUMNS),
        whole: [0; SECTIONS],
        kind: "",
    };
    check.cuts_of_s();
    check.broken_rules();
    check.allowed_changes();
    check.empty_section();
    check.wrong_counts();
    check.limits();
    check.longest(&longest(), "longest of six, changed");
    check.longest(&longest_of_all(), "longest, changed");
    check.well_formed();
    check.two_broken_rules();
    check.changed("records changed", 40_000, change_records);
    check.changed("bytes changed", 10_000, change_bytes);
    check.changed("inserted or removed", 10_000, insert_or_remove);
    check.changed("counts changed", 5_000, change_counts);
    check.random_bytes();
    print!("{}", check.tally);
    println!("faults of counts, by section: {:?}", check.whole);
}

/// Changes that are tried on one base.
const CHANGES_EACH: usize = 5;

struct Check<'a> {
    rng: &'a mut Rng,
    tally: Tally,
    /// For each section, faults of its count or length.
    whole: [usize; SECTIONS],
    kind: &'static str,
}

impl Check<'_> {
    /// Compares one description.
    fn one(&mut self, description: &[u8]) -> Option<Fault> {
        let expected = reference::requests::check(description);
        let answer = dookerand::check(description);
        let request = || "check".to_string();
        let (number, values) = agreed(self.kind, request, description, &expected, answer);
        let fault = (number == 1).then_some(Fault {
            section: values[0] as u16,
            record: values[1] as u16,
        });
        self.count(fault);
        fault
    }

    fn count(&mut self, fault: Option<Fault>) {
        let column = match fault {
            None => 0,
            Some(Fault { section, record }) if record == WHOLE_SECTION => {
                self.whole[usize::from(section) - 1] += 1;
                1
            }
            Some(Fault { section, .. }) => 1 + usize::from(section),
        };
        self.tally.count(self.kind, column);
    }

    /// Compares one description of which the fault is known.
    fn known(&mut self, description: &[u8], fault: Option<Fault>, name: &str) {
        let found = self.one(description);
        assert_eq!(found, fault, "the reference on \"{name}\"");
    }

    /// S, one that uses every feature, or a random one.
    fn base(&mut self) -> Description {
        match self.rng.below(16) {
            0 => description_s(),
            1 => full_featured(),
            2..=4 => well_formed(self.rng, Size::MIDDLE),
            _ => well_formed(self.rng, Size::SMALL),
        }
    }

    fn cuts_of_s(&mut self) {
        self.kind = "S, its cuts and longer";
        let mut s = bytes(&description_s());
        for cut in 0..=s.len() {
            self.one(&s[..cut]);
        }
        for _ in 0..300 {
            s.push(b' ');
            self.one(&s);
        }
    }

    fn broken_rules(&mut self) {
        self.kind = "one rule broken";
        for (name, break_rule) in rules() {
            for _ in 0..500 {
                let mut d = self.base();
                if let Some(fault) = break_rule(&mut d, self.rng) {
                    self.known(&bytes(&d), Some(fault), name);
                }
            }
        }
    }

    fn allowed_changes(&mut self) {
        self.kind = "rule used to its limit";
        for (name, change) in CHANGES {
            for _ in 0..500 {
                let mut d = self.base();
                if change(&mut d, self.rng).is_some() {
                    self.known(&bytes(&d), None, name);
                }
            }
        }
    }

    /// The last section may be there and have no records.
    fn empty_section(&mut self) {
        self.kind = "section 7 empty";
        for _ in 0..500 {
            let d = self.base();
            if d.expressions.is_empty() {
                let empty = [&bytes(&d)[..], &[0, 0]].concat();
                self.known(&empty, None, self.kind);
            }
        }
    }

    fn wrong_counts(&mut self) {
        self.kind = "count or length wrong";
        let rules: Vec<_> = rules().collect();
        for i in 0..400 {
            let mut base = self.base();
            // Counts come before records, faulty ones too.
            if i % 2 == 1 {
                let (_, break_rule) = self.rng.pick(&rules);
                break_rule(&mut base, self.rng);
            }
            for (description, fault) in count_faults(&base, self.rng) {
                self.known(&description, Some(fault), self.kind);
            }
        }
    }

    fn limits(&mut self) {
        self.kind = "section full or past it";
        for case in limits() {
            self.known(&case.bytes, case.fault, &case.name);
        }
    }

    fn longest(&mut self, longest: &Description, kind: &'static str) {
        self.kind = kind;
        let mut whole = bytes(longest);
        self.known(&whole, None, "longest");
        for start in section_starts(longest) {
            for cut in start.saturating_sub(40)..(start + 40).min(whole.len()) {
                self.one(&whole[..cut]);
            }
        }
        for (_, break_rule) in rules() {
            for _ in 0..5 {
                let mut d = longest.clone();
                break_rule(&mut d, self.rng);
                self.one(&bytes(&d));
            }
        }
        for _ in 0..500 {
            let cut = self.rng.below(whole.len());
            self.one(&whole[..cut]);
            let changed = change_records(longest, self.rng);
            self.one(&changed);
        }
        whole.push(b' ');
        self.one(&whole);
    }

    fn well_formed(&mut self) {
        let sizes = [
            ("well formed, small", Size::SMALL, 80_000),
            ("well formed, middle", Size::MIDDLE, 5_000),
            ("well formed, large", Size::LARGE, 200),
        ];
        for (kind, size, count) in sizes {
            self.kind = kind;
            for _ in 0..count {
                let d = well_formed(self.rng, size);
                self.known(&bytes(&d), None, kind);
            }
        }
    }

    /// The first of two faults is named.
    fn two_broken_rules(&mut self) {
        self.kind = "two rules broken";
        let rules: Vec<_> = rules().collect();
        for _ in 0..40_000 {
            let mut d = self.base();
            for _ in 0..2 {
                let (_, break_rule) = self.rng.pick(&rules);
                break_rule(&mut d, self.rng);
            }
            self.one(&bytes(&d));
        }
    }

    fn changed(
        &mut self,
        kind: &'static str,
        bases: usize,
        change: fn(&Description, &mut Rng) -> Vec<u8>,
    ) {
        self.kind = kind;
        for _ in 0..bases {
            let base = self.base();
            for _ in 0..CHANGES_EACH {
                let changed = change(&base, self.rng);
                self.one(&changed);
            }
        }
    }

    fn random_bytes(&mut self) {
        self.kind = "random records";
        for _ in 0..40_000 {
            let description = random_records(self.rng);
            self.one(&description);
        }
        self.kind = "random bytes";
        self.one(&[]);
        for _ in 0..10_000 {
            let length = self.rng.within(0..=400);
            let description: Vec<u8> = (0..length).map(|_| self.rng.byte()).collect();
            self.one(&description);
        }
    }
}
