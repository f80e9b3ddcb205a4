//! Decoding one instruction to text.

use crate::{lend, Answer};

mod c {
    extern "C" {
        pub fn dookerand_text(
            description: *const u8,
            description_len: usize,
            context: u32,
            address: u32,
            code: *const u8,
            code_len: usize,
            text: *mut u8,
            text_len: usize,
            values: *mut u64,
        ) -> u32;
    }
}

/// Decodes the instruction at the code's start, which has this address: 0 with
/// the number of bytes written from the first lent byte on, or a refusal: 1 to
/// 10 or 13. 256 bytes always suffice. A refusal leaves the lent bytes as they
/// were, and so does 0 those behind its text.
pub fn text(
    description: &[u8],
    context: u32,
    address: u32,
    code: &[u8],
    text: &mut [u8],
) -> Answer {
    let call = c::dookerand_text;
    // SAFETY: the call writes bytes of `text` and the four values alone.
    unsafe { lend(call, description, context, address, code, text) }
}
