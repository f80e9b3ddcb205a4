//! The fixed descriptions.

use generate::example::{description_s, full_featured};
use generate::{bytes, counts, longest, longest_of_all, LIMITS};

/// Description S as the rules write it down.
const S: &str = "
    02 00
    00 01 00 00 03 00 00 00
    00 01 00 00 07 03 00 00
    00 00
    04 00
    00 01 00 00 00 00 00 00 00 00 00 00 00 00 00 00 00 00 00 00 00 00 00 00 00 00 01 00 00 01 00 00
    01 01 f0 00 00 00 00 00 00 00 10 00 00 00 00 00 00 00 00 00 00 00 00 00 00 00 01 01 00 02 01 00
    01 01 f0 00 00 00 00 00 00 00 20 00 00 00 00 00 00 00 00 00 00 00 00 00 00 00 02 01 00 04 03 00
    01 01 ff 00 00 00 00 00 00 00 1f 00 00 00 00 00 00 00 00 00 00 00 00 00 00 00 00 00 00 01 07 00
    03 00
    00 01 00 00  00 00 00 00  01 00 00 01
    08 00
    01 01 00 00  00 05 00 00  01 01 00 00  00 05 05 00
    01 01 00 00  00 02 0a 00  01 02 00 00  00 04 0c 00
    10 00
    69 6e 63 20 72 61 64 64 20 72 2c 20 68 61 6c 74
";

fn hex(text: &str) -> Vec<u8> {
    text.split_whitespace()
        .map(|digits| u8::from_str_radix(digits, 16).unwrap())
        .collect()
}

#[test]
fn s_is_as_written() {
    let s = bytes(&description_s());
    assert_eq!(s.len(), 216);
    assert_eq!(s, hex(S));
}

#[test]
fn the_example_file_is_s() {
    let path = concat!(env!("CARGO_MANIFEST_DIR"), "/../../examples/s.description");
    assert_eq!(std::fs::read(path).unwrap(), bytes(&description_s()));
}

#[test]
fn the_longest_is_full_and_well_formed() {
    let all = longest_of_all();
    assert_eq!(counts(&all), LIMITS);
    assert_eq!(bytes(&all).len(), 91_406);
    assert!(reference::check(&bytes(&all)).is_ok());
    let longest = longest();
    assert_eq!(counts(&longest)[..6], LIMITS[..6]);
    assert_eq!(bytes(&longest).len(), 54_284);
    assert!(reference::check(&bytes(&longest)).is_ok());
}

#[test]
fn reading_undoes_writing() {
    for d in [
        description_s(),
        full_featured(),
        longest(),
        longest_of_all(),
    ] {
        assert_eq!(reference::check(&bytes(&d)), Ok(d));
    }
}
