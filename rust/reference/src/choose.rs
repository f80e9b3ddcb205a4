//! Choosing a constructor of a table.

use std::ops::Range;

use crate::answer::Refusal;
use crate::description::{Description, Pattern};

/// The constructor that an asked table takes.
#[derive(Clone, Copy, Debug, PartialEq, Eq)]
pub struct Taken {
    pub constructor: usize,
    pub weight: u32,
}

#[derive(Clone, Copy, Debug, PartialEq, Eq)]
pub enum Choice {
    Taken(usize),
    Short,
    NoMatch,
    Ambiguous,
}

/// Asks one table, without walking operands.
pub fn ask(
    description: &Description,
    table: u32,
    context: u32,
    code: &[u8],
) -> Result<Taken, Refusal> {
    let records = description.table(table).ok_or(Refusal::NoTable { table })?;
    match choose(description, records, context, code) {
        Choice::Taken(constructor) => Ok(Taken {
            constructor,
            weight: description.constructors[constructor].pattern.weight(),
        }),
        Choice::Short => Err(Refusal::Short { place: 0 }),
        Choice::NoMatch => Err(Refusal::NoMatch { place: 0, table }),
        Choice::Ambiguous => Err(Refusal::Ambiguous { place: 0, table }),
    }
}

/// What a pattern can see: eight bytes, which of them are present, and the
/// context.
struct View {
    bytes: u64,
    present: u64,
    context: u32,
}

impl View {
    fn of(code: &[u8], context: u32) -> View {
        let (bytes, present) = match code.first_chunk() {
            Some(bytes) => (u64::from_le_bytes(*bytes), u64::MAX),
            None => first_bytes(code),
        };
        View {
            bytes,
            present,
            context,
        }
    }

    /// The pattern's bits in the context and in the bytes present have
    /// their values.
    fn agrees(&self, pattern: &Pattern) -> bool {
        let bytes = (self.bytes ^ pattern.byte_value) & pattern.byte_mask & self.present;
        let context = (self.context ^ pattern.context_value) & pattern.context_mask;
        bytes == 0 && context == 0
    }

    fn lacks_bytes_of(&self, pattern: &Pattern) -> bool {
        pattern.byte_mask & !self.present != 0
    }
}

/// Fewer than eight bytes, and a mask of those.
fn first_bytes(code: &[u8]) -> (u64, u64) {
    let bytes = code.iter().rev();
    let joined = bytes.fold(0, |joined, &byte| joined << 8 | u64::from(byte));
    (joined, (1 << (8 * code.len())) - 1)
}

/// Chooses among the constructors of a table.
pub fn choose(
    description: &Description,
    records: Range<usize>,
    context: u32,
    code: &[u8],
) -> Choice {
    let view = View::of(code, context);
    let mut matching = Matching::default();
    let constructors = &description.constructors[records.clone()];
    for (record, constructor) in records.zip(constructors) {
        let pattern = &constructor.pattern;
        if view.agrees(pattern) {
            if view.lacks_bytes_of(pattern) {
                return Choice::Short;
            }
            matching.add(record, pattern);
        }
    }
    matching.choice()
}

/// The matching constructors met so far. Their values agree, so masks
/// decide: the one inside all others masks every bit that any of them does.
#[derive(Default)]
struct Matching {
    byte_mask: u64,
    context_mask: u32,
    any: bool,
    /// How many mask all of these bits, and the last of them.
    smallest: usize,
    taken: usize,
}

impl Matching {
    fn add(&mut self, record: usize, pattern: &Pattern) {
        let before = (self.byte_mask, self.context_mask);
        self.any = true;
        self.byte_mask |= pattern.byte_mask;
        self.context_mask |= pattern.context_mask;
        let now = (self.byte_mask, self.context_mask);
        if now != before {
            self.smallest = 0;
        }
        if now == (pattern.byte_mask, pattern.context_mask) {
            self.smallest += 1;
            self.taken = record;
        }
    }

    fn choice(&self) -> Choice {
        match self.smallest {
            _ if !self.any => Choice::NoMatch,
            1 => Choice::Taken(self.taken),
            _ => Choice::Ambiguous,
        }
    }
}
