//! Listing code as lines of text.

use crate::{answer, Answer};

mod c {
    extern "C" {
        pub fn dookerand_list(
            description: *const u8,
            description_len: usize,
            context: u32,
            address: u32,
            alignment: u32,
            code: *const u8,
            code_len: usize,
            from: u64,
            text: *mut u8,
            text_len: usize,
            values: *mut u64,
        ) -> u32;
    }
}

/// Bytes that always suffice for a line: an address, a colon and a blank, the
/// longest text, a line feed. Most addresses have eight digits, but none wraps.
pub const LINE: usize = 16 + 2 + 256 + 1;

/// What [`list`] did.
#[derive(Clone, Copy, Debug, PartialEq, Eq)]
pub enum Listing {
    Listed {
        /// How many bytes are written from the first lent byte on, and how many
        /// lines they are.
        bytes: usize,
        lines: usize,
        /// Where the listing goes on: at the line that did not fit, if the text
        /// is full; else at the code's end, or where it began if that is not
        /// before it.
        next: u64,
        full: bool,
    },
    /// The description's first fault.
    Malformed { section: u16, record: u16 },
    /// The number is not 1, 2, 4 or 8.
    NoAlignment { number: u32 },
}

impl From<Answer> for Listing {
    /// Of an answer of [`list_answer`].
    fn from(answer: Answer) -> Listing {
        let [first, second, next, end] = answer.values;
        match answer.number {
            0 => Listing::Listed {
                bytes: first as usize,
                lines: second as usize,
                next,
                full: end == 1,
            },
            12 => Listing::NoAlignment {
                number: first as u32,
            },
            _ => Listing::Malformed {
                section: first as u16,
                record: second as u16,
            },
        }
    }
}

/// Lists the code, whose first byte has this address, from a place on, a line
/// for each instruction and for each gap that a sweep with this alignment would
/// have, as many whole lines as fit into the lent bytes. Those behind the lines
/// stay as they were, and so do all if the description is malformed or the
/// alignment is none. [`LINE`] bytes are enough to get on.
pub fn list(
    description: &[u8],
    context: u32,
    address: u32,
    alignment: u32,
    code: &[u8],
    from: u64,
    text: &mut [u8],
) -> Listing {
    list_answer(description, context, address, alignment, code, from, text).into()
}

/// The same with its numbers: 0 with the bytes and lines written, the next
/// place, and 1 if the text is full, else 0; or the refusal 1 or 12.
pub fn list_answer(
    description: &[u8],
    context: u32,
    address: u32,
    alignment: u32,
    code: &[u8],
    from: u64,
    text: &mut [u8],
) -> Answer {
    answer(|values| {
        // SAFETY: slices give readable ranges and, empty too, no null pointers;
        // a mutable slice overlaps no other. The call writes bytes of `text`
        // and the four values alone.
        unsafe {
            c::dookerand_list(
                description.as_ptr(),
                description.len(),
                context,
                address,
                alignment,
                code.as_ptr(),
                code.len(),
                from,
                text.as_mut_ptr(),
                text.len(),
                values,
            )
        }
    })
}
