//! The proved decoder, made safe to call.

mod choosing;
mod decoding;
mod listing;
mod sweep;
mod text;
mod trees;

pub use choosing::{ask, clash};
pub use decoding::decode;
pub use listing::{list, list_answer, Listing, LINE};
pub use sweep::sweep;
pub use text::text;
pub use trees::{build, tree, TREE};

mod c {
    extern "C" {
        pub fn dookerand_check(
            description: *const u8,
            description_len: usize,
            values: *mut u64,
        ) -> u32;
    }
}

/// An answer's number and its values; unused values are 0.
#[derive(Clone, Copy, Debug, PartialEq, Eq)]
pub struct Answer {
    pub number: u32,
    pub values: [u64; 4],
}

/// Checks a description: 0 if it is well formed, 1 with the section and the
/// record at fault.
pub fn check(description: &[u8]) -> Answer {
    answer(|values| {
        // SAFETY: a slice gives a readable range and, empty too, no null
        // pointer; the call writes the four values alone.
        unsafe { c::dookerand_check(description.as_ptr(), description.len(), values) }
    })
}

/// Calls with room for the values. Each call sets all four; one left out
/// would stand out.
fn answer(call: impl FnOnce(*mut u64) -> u32) -> Answer {
    let mut values = [u64::MAX; 4];
    let number = call(values.as_mut_ptr());
    Answer { number, values }
}

/// A function of the C face that decodes one instruction into lent numbers or
/// bytes.
type Decoding<T> = unsafe extern "C" fn(
    description: *const u8,
    description_len: usize,
    context: u32,
    address: u32,
    code: *const u8,
    code_len: usize,
    lent: *mut T,
    lent_len: usize,
    values: *mut u64,
) -> u32;

/// Calls with a lent part.
///
/// # Safety
///
/// The call reads the description and the code alone, and writes the lent part
/// and the four values alone.
unsafe fn lend<T>(
    call: Decoding<T>,
    description: &[u8],
    context: u32,
    address: u32,
    code: &[u8],
    lent: &mut [T],
) -> Answer {
    answer(|values| {
        // SAFETY: slices give readable ranges and, empty too, no null
        // pointers; a mutable slice overlaps no other.
        unsafe {
            call(
                description.as_ptr(),
                description.len(),
                context,
                address,
                code.as_ptr(),
                code.len(),
                lent.as_mut_ptr(),
                lent.len(),
                values,
            )
        }
    })
}
