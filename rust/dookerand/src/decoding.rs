//! Decoding one instruction to rows.

use crate::{lend, Answer};

mod c {
    extern "C" {
        pub fn dookerand_decode(
            description: *const u8,
            description_len: usize,
            context: u32,
            address: u32,
            code: *const u8,
            code_len: usize,
            rows: *mut i64,
            rows_len: usize,
            values: *mut u64,
        ) -> u32;
    }
}

/// Decodes the instruction at the code's start, which has this address: 0 with
/// the number of rows written from the first lent number on, four numbers each,
/// or a refusal: 1 to 9 or 13. A refusal leaves the lent numbers as they were,
/// and so does 0 those behind its rows.
pub fn decode(
    description: &[u8],
    context: u32,
    address: u32,
    code: &[u8],
    rows: &mut [i64],
) -> Answer {
    let call = c::dookerand_decode;
    // SAFETY: the call writes numbers of `rows` and the four values alone.
    unsafe { lend(call, description, context, address, code, rows) }
}
