//! Decoding instructions one by one to text.

use std::cell::RefCell;
use std::hint::black_box;

use dookerand::Answer;

use crate::decoding::{set, ADDRESS, CONTEXT};
use crate::timing::MANY;

/// Bytes for the longest text.
const LENT: usize = 256;

pub fn all() {
    let set = set(1000);
    let lent = RefCell::new([0; LENT]);
    let proved = |call| {
        let text = &mut *black_box(lent.borrow_mut());
        let bytes = black_box(&set.bytes);
        let answer = dookerand::text(bytes, CONTEXT, ADDRESS, set.code(call), text);
        assert_eq!(black_box(answer).number, 0);
    };
    let whole = |call| {
        let text = &mut *black_box(lent.borrow_mut());
        let bytes = black_box(&set.bytes);
        let answer = reference::requests::text(bytes, CONTEXT, ADDRESS, set.code(call), text);
        assert_eq!(black_box(answer.number_and_values()).0, 0);
    };
    let alone = |call| {
        let description = black_box(&set.description);
        let text = reference::decode_text(description, CONTEXT, ADDRESS, set.code(call));
        assert!(black_box(text).is_ok());
    };
    set.compare("text", (MANY, 100), [&proved, &whole, &alone]);
}

pub fn one_text() -> Answer {
    let mut text = [0; LENT];
    let set = set(1);
    let bytes = black_box(&set.bytes);
    dookerand::text(bytes, CONTEXT, ADDRESS, set.code(0), &mut text)
}
