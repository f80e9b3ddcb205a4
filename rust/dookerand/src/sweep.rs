//! Sweeping a code buffer.

use crate::{answer, Answer};

mod c {
    extern "C" {
        pub fn dookerand_sweep(
            description: *const u8,
            description_len: usize,
            context: u32,
            address: u32,
            alignment: u32,
            code: *const u8,
            code_len: usize,
            rows: *mut i64,
            rows_len: usize,
            values: *mut u64,
        ) -> u32;
    }
}

/// Sweeps the code from its first byte on, which has this address: 0 with the
/// end (0 used, 1 full, 2 short), the number of rows written from the first lent
/// number on and the next byte; or a refusal: 1, or 12 for an alignment that is
/// not 1, 2, 4 or 8. A row is four numbers: start, length, answer and root
/// constructor. Instructions start at multiples of the alignment; what lies
/// between is gaps. Whatever the end, lent numbers behind the rows stay as they
/// were.
pub fn sweep(
    description: &[u8],
    context: u32,
    address: u32,
    alignment: u32,
    code: &[u8],
    rows: &mut [i64],
) -> Answer {
    answer(|values| {
        // SAFETY: slices give readable ranges and, empty too, no null pointers;
        // a mutable slice overlaps no other. The call writes numbers of `rows`
        // and the four values alone.
        unsafe {
            c::dookerand_sweep(
                description.as_ptr(),
                description.len(),
                context,
                address,
                alignment,
                code.as_ptr(),
                code.len(),
                rows.as_mut_ptr(),
                rows.len(),
                values,
            )
        }
    })
}
