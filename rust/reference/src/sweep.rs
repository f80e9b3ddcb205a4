//! Sweeping a code buffer.

use crate::alignment::Alignment;
use crate::answer::Refusal;
use crate::decode::Row;
use crate::description::Description;

/// Why a sweep ended.
#[derive(Clone, Copy, Debug, PartialEq, Eq)]
pub enum End {
    Used,
    Full,
    Short,
}

/// Rows of start, length, answer and root constructor; the next byte; why
/// it ended.
#[derive(Clone, Debug, PartialEq, Eq)]
pub struct Sweep {
    pub rows: Vec<Row>,
    pub next: usize,
    pub end: End,
}

const NO_CONSTRUCTOR: i64 = 65_535;

/// Decodes the code from byte 0 on, which has this address, one row for each
/// instruction or gap, with room for so many rows. Instructions start at
/// multiples of the alignment.
pub fn sweep(
    description: &Description,
    context: u32,
    address: u32,
    alignment: Alignment,
    code: &[u8],
    room: usize,
) -> Sweep {
    let mut rows = Vec::new();
    let mut next = 0;
    let end = loop {
        if next == code.len() {
            break End::Used;
        }
        if rows.len() == room {
            break End::Full;
        }
        let address = u64::from(address) + next as u64;
        let rest = &code[next..];
        let decoded = alignment.decode(description, context, address, rest);
        let (length, answer, constructor) = match decoded {
            Err(Refusal::Short { .. }) => break End::Short,
            Ok(root) => (root.length, 0, root.constructor as i64),
            Err(refusal) => {
                let (number, _) = refusal.number_and_values();
                let gap = alignment.gap(address, rest);
                (gap.len(), number.into(), NO_CONSTRUCTOR)
            }
        };
        rows.push([next as i64, length as i64, answer, constructor]);
        next += length;
    };
    Sweep { rows, next, end }
}
