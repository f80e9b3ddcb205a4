//! Sections at their limits, and one past them.

use reference::{Constructor, Description, Fault, Pattern, Step, WHOLE_SECTION};

use crate::example::{description_s, expression, field, full_featured, name, operand, shown};
use crate::longest::{longest, longest_of_all};
use crate::write::{bytes, counts, LIMITS, SECTIONS};

/// A description with what the check must say of it.
pub struct Case {
    pub name: String,
    pub bytes: Vec<u8>,
    pub fault: Option<Fault>,
}

pub fn limits() -> Vec<Case> {
    let bases = [
        ("least", least()),
        ("S", description_s()),
        ("full-featured", full_featured()),
        ("longest of six", longest()),
        ("longest", longest_of_all()),
    ];
    let mut cases = Vec::new();
    for (name, base) in &bases {
        cases.push(case(name.to_string(), base, None));
        for section in 1..=SECTIONS {
            let limit = LIMITS[section - 1];
            let fault = Fault {
                section: section as u16,
                record: WHOLE_SECTION,
            };
            let full = filled(base, section, limit);
            cases.push(case(format!("{name}, section {section} full"), &full, None));
            let past = filled(base, section, limit + 1);
            cases.push(case(
                format!("{name}, section {section} past"),
                &past,
                Some(fault),
            ));
        }
        let mut none = base.clone();
        none.constructors.clear();
        let fault = Fault {
            section: 3,
            record: WHOLE_SECTION,
        };
        cases.push(case(format!("{name}, no constructors"), &none, Some(fault)));
    }
    cases
}

fn case(name: String, d: &Description, fault: Option<Fault>) -> Case {
    Case {
        name,
        bytes: bytes(d),
        fault,
    }
}

/// One constructor and nothing else.
fn least() -> Description {
    Description {
        constructors: vec![Constructor {
            table: 0,
            minimum_length: 0,
            pattern: Pattern::default(),
            operand_count: 0,
            first_operand: 0,
            piece_count: 0,
            first_piece: 0,
        }],
        ..Description::default()
    }
}

/// So many records in the section, by adding good ones.
fn filled(base: &Description, section: usize, count: usize) -> Description {
    let mut d = base.clone();
    while counts(&d)[section - 1] < count {
        match section {
            1 => d.fields.push(field(0, 1, 0, 0, 7, 0)),
            2 => d.names.push(name(0, 0)),
            3 => d.constructors.extend(base.constructors.last().copied()),
            4 => d.operands.push(operand(1, 0, 0, 0)),
            5 => d.pieces.push(shown(0)),
            6 => d.text.push(b' '),
            _ => d.expressions.push(expression(&[Step::default()])),
        }
    }
    d
}
