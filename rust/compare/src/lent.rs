//! Requests on code that write into what they are lent.

use std::fmt::Debug;

use generate::{address, alignment, Rng};
use reference::requests;

use crate::agreed::{agreed, differ, hex};

/// Elements on both sides of the lent ones.
const MARGIN: usize = 4;

/// What a request is made about.
#[derive(Clone, Copy)]
pub struct Given<'a> {
    pub kind: &'static str,
    pub description: &'a [u8],
    pub context: u32,
    pub address: u32,
    /// Of sweeps and listings.
    pub alignment: u32,
    pub code: &'a [u8],
    /// Of listings.
    pub from: u64,
}

impl<'a> Given<'a> {
    /// With alignment 1, from the code's start on.
    pub fn new(
        kind: &'static str,
        description: &'a [u8],
        context: u32,
        address: u32,
        code: &'a [u8],
    ) -> Given<'a> {
        Given {
            kind,
            description,
            context,
            address,
            alignment: 1,
            code,
            from: 0,
        }
    }

    /// At some address.
    pub fn somewhere(
        rng: &mut Rng,
        kind: &'static str,
        description: &'a [u8],
        context: u32,
        code: &'a [u8],
    ) -> Given<'a> {
        Given::new(kind, description, context, address(rng), code)
    }

    /// At some address of any remainder, with some alignment.
    pub fn aligned(
        rng: &mut Rng,
        kind: &'static str,
        description: &'a [u8],
        context: u32,
        code: &'a [u8],
    ) -> Given<'a> {
        let given = Given::somewhere(rng, kind, description, context, code);
        let before = match rng.once_in(2) {
            true => 0,
            false => rng.below(8) as u32,
        };
        Given {
            address: given.address.wrapping_sub(before),
            alignment: alignment(rng),
            ..given
        }
    }
}

/// What may be lent.
pub trait Element: Copy + Debug + PartialEq {
    /// What an element is before a call: neighbours differ, and no request
    /// writes it.
    fn untouched(index: usize) -> Self;
}

impl Element for i64 {
    fn untouched(index: usize) -> i64 {
        i64::MAX - index as i64
    }
}

impl Element for u8 {
    fn untouched(index: usize) -> u8 {
        0x80 | index as u8
    }
}

/// The number and values that both gave, with the lent elements. The requests
/// take a description, a context, an address, code and what is lent.
pub fn agreed_with_lent<T: Element>(
    given: &Given,
    lent: usize,
    reference: impl Fn(&[u8], u32, u32, &[u8], &mut [T]) -> reference::Answer,
    library: impl Fn(&[u8], u32, u32, &[u8], &mut [T]) -> dookerand::Answer,
) -> (u32, [u64; 4], Vec<T>) {
    let &Given {
        kind,
        description,
        context,
        address,
        alignment,
        code,
        from,
    } = given;
    let request = || {
        let at = format!("address {address:#x}, alignment {alignment}, from {from}");
        format!(
            "context {context:#x}, {at}, {lent} lent, code {}",
            hex(code)
        )
    };
    agreed_on_lent(
        kind,
        request,
        description,
        (lent, T::untouched),
        |lent| reference(description, context, address, code, lent),
        |lent| library(description, context, address, code, lent),
    )
}

/// The same for any request on a description. So many elements are lent, and
/// each is told by its place what it is before the call. Compares all elements
/// afterwards: those written, the lent ones behind them, and those around that
/// are not lent.
pub fn agreed_on_lent<T: Copy + Debug + PartialEq>(
    kind: &str,
    request: impl Fn() -> String,
    description: &[u8],
    (lent, before): (usize, impl Fn(usize) -> T),
    reference: impl FnOnce(&mut [T]) -> reference::Answer,
    library: impl FnOnce(&mut [T]) -> dookerand::Answer,
) -> (u32, [u64; 4], Vec<T>) {
    let mut elements: Vec<T> = (0..MARGIN + lent + MARGIN).map(before).collect();
    let mut expected_elements = elements.clone();
    let of_lent = MARGIN..MARGIN + lent;
    let expected = reference(&mut expected_elements[of_lent.clone()]);
    let answer = library(&mut elements[of_lent.clone()]);
    let (number, values) = agreed(kind, &request, description, &expected, answer);
    if elements != expected_elements {
        let [expected, found] = [&expected_elements, &elements].map(|all| format!("{all:?}"));
        differ(kind, &request(), description, &expected, &found);
    }
    elements.truncate(of_lent.end);
    elements.drain(..of_lent.start);
    (number, values, elements)
}

/// The same for a sweep.
pub fn agreed_sweep(given: &Given, lent: usize) -> (u32, [u64; 4], Vec<i64>) {
    let alignment = given.alignment;
    agreed_with_lent(
        given,
        lent,
        |description, context, address, code, rows| {
            requests::sweep(description, context, address, alignment, code, rows)
        },
        |description, context, address, code, rows| {
            dookerand::sweep(description, context, address, alignment, code, rows)
        },
    )
}

/// The same for a listing.
pub fn agreed_list(given: &Given, lent: usize) -> (u32, [u64; 4], Vec<u8>) {
    let &Given {
        alignment, from, ..
    } = given;
    agreed_with_lent(
        given,
        lent,
        |description, context, address, code, text| {
            requests::list(description, context, address, alignment, code, from, text)
        },
        |description, context, address, code, text| {
            dookerand::list_answer(description, context, address, alignment, code, from, text)
        },
    )
}
