//! Asking one table, and the clash check of a table.

use crate::{answer, Answer};

mod c {
    extern "C" {
        pub fn dookerand_ask(
            description: *const u8,
            description_len: usize,
            table: u32,
            context: u32,
            code: *const u8,
            code_len: usize,
            values: *mut u64,
        ) -> u32;

        pub fn dookerand_clash(
            description: *const u8,
            description_len: usize,
            table: u32,
            values: *mut u64,
        ) -> u32;
    }
}

/// Asks one table about the instruction at the code's start: 0 with the
/// constructor taken and its weight, or a refusal: 1, 12, 2, 3 or 4.
pub fn ask(description: &[u8], table: u32, context: u32, code: &[u8]) -> Answer {
    answer(|values| {
        // SAFETY: slices give readable ranges and, empty too, no null
        // pointers; the call writes the four values alone.
        unsafe {
            c::dookerand_ask(
                description.as_ptr(),
                description.len(),
                table,
                context,
                code.as_ptr(),
                code.len(),
                values,
            )
        }
    })
}

/// Checks a table for a clash: 0 with 0 if it is clear, or with 1 and the
/// first two records that clash, or a refusal: 1 or 12.
pub fn clash(description: &[u8], table: u32) -> Answer {
    answer(|values| {
        // SAFETY: as for `ask`.
        unsafe { c::dookerand_clash(description.as_ptr(), description.len(), table, values) }
    })
}
