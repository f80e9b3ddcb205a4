//! The choice in a table: a scan over all of its patterns.

use std::ops::Range;

use reference::{Description, Pattern};

pub enum Choice {
    Taken(usize),
    Short,
    NoMatch,
    Ambiguous,
}

/// The constructors' patterns as words, each sort apart: a scan reads little
/// else than masks and values of bytes. No value has a bit outside its mask.
pub struct Patterns {
    masks: Vec<u64>,
    values: Vec<u64>,
    contexts: Vec<[u32; 2]>,
}

/// What patterns are set against: eight bytes, which of them are present, and
/// the context. Bytes that are not are 0.
#[derive(Clone, Copy)]
struct View {
    bytes: u64,
    present: u64,
    context: u32,
}

impl Patterns {
    pub fn new(d: &Description) -> Patterns {
        let patterns = || d.constructors.iter().map(|c| &c.pattern);
        let contexts = |pattern: &Pattern| [pattern.context_mask, pattern.context_value];
        Patterns {
            masks: patterns().map(|pattern| pattern.byte_mask).collect(),
            values: patterns().map(|pattern| pattern.byte_value).collect(),
            contexts: patterns().map(contexts).collect(),
        }
    }

    /// Chooses among the constructors of a table, so many at a time.
    #[inline(always)]
    pub fn choose<const GROUP: usize>(
        &self,
        records: Range<usize>,
        context: u32,
        code: &[u8],
    ) -> Choice {
        // With all eight bytes the compiler leaves out what asks for missing ones.
        match code.first_chunk() {
            Some(bytes) => self.scan::<GROUP>(
                records,
                View {
                    bytes: u64::from_le_bytes(*bytes),
                    present: u64::MAX,
                    context,
                },
            ),
            None => self.scan::<GROUP>(records, few_bytes(code, context)),
        }
    }

    #[inline(always)]
    fn scan<const GROUP: usize>(&self, records: Range<usize>, view: View) -> Choice {
        let (masks, rest) = self.masks[records.clone()].as_chunks::<GROUP>();
        let (values, _) = self.values[records.clone()].as_chunks::<GROUP>();
        let mut matching = Matching::default();
        let mut first = records.start;
        for (masks, values) in masks.iter().zip(values) {
            // Mostly none of them agrees.
            if view.any_agrees(masks, values) && matching.add_all(self, first, GROUP, view) {
                return Choice::Short;
            }
            first += GROUP;
        }
        if matching.add_all(self, first, rest.len(), view) {
            return Choice::Short;
        }
        matching.choice()
    }
}

/// Fewer than eight bytes.
fn few_bytes(code: &[u8], context: u32) -> View {
    let mut bytes = [0; 8];
    bytes[..code.len()].copy_from_slice(code);
    View {
        bytes: u64::from_le_bytes(bytes),
        present: (1 << (8 * code.len())) - 1,
        context,
    }
}

impl View {
    /// Every masked bit of the bytes present has its value.
    #[inline(always)]
    fn agrees(&self, mask: u64, value: u64) -> bool {
        self.bytes & mask == value & self.present
    }

    #[inline(always)]
    fn any_agrees<const GROUP: usize>(&self, masks: &[u64; GROUP], values: &[u64; GROUP]) -> bool {
        // Without a branch for each.
        (0..GROUP).fold(false, |any, i| any | self.agrees(masks[i], values[i]))
    }
}

/// The matching patterns met so far. Their values agree, so the one inside all
/// others masks every bit that any of them does.
#[derive(Default)]
struct Matching {
    byte_mask: u64,
    context_mask: u32,
    any: bool,
    /// How many mask all of these bits, and the last of them.
    innermost: usize,
    taken: usize,
}

impl Matching {
    /// Adds those of so many patterns that match, unless one is short; tells
    /// whether one is. Few come here, and apart from it the scan is a tight loop.
    #[inline(never)]
    fn add_all(&mut self, patterns: &Patterns, first: usize, count: usize, view: View) -> bool {
        for record in first..first + count {
            let (mask, value) = (patterns.masks[record], patterns.values[record]);
            let [context_mask, context_value] = patterns.contexts[record];
            if view.agrees(mask, value) && view.context & context_mask == context_value {
                if mask & !view.present != 0 {
                    return true;
                }
                self.add(record, mask, context_mask);
            }
        }
        false
    }

    #[inline(always)]
    fn add(&mut self, record: usize, byte_mask: u64, context_mask: u32) {
        let bytes = self.byte_mask | byte_mask;
        let context = self.context_mask | context_mask;
        if bytes != self.byte_mask || context != self.context_mask {
            self.innermost = 0;
        }
        if bytes == byte_mask && context == context_mask {
            self.innermost += 1;
            self.taken = record;
        }
        self.byte_mask = bytes;
        self.context_mask = context;
        self.any = true;
    }

    fn choice(&self) -> Choice {
        match self.innermost {
            1 => Choice::Taken(self.taken),
            _ if self.any => Choice::Ambiguous,
            _ => Choice::NoMatch,
        }
    }
}
