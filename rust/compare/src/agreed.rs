//! One answer of the library beside the reference's.

use dookerand::Answer;

/// The number and values that both gave. Stops with all that is needed to
/// try again if they differ.
pub fn agreed(
    kind: &str,
    request: impl FnOnce() -> String,
    description: &[u8],
    expected: &reference::Answer,
    answer: Answer,
) -> (u32, [u64; 4]) {
    let (number, values) = expected.number_and_values();
    if (answer.number, answer.values) != (number, values) {
        let expected = format!("{number} {values:?}");
        let found = format!("{} {:?}", answer.number, answer.values);
        differ(kind, &request(), description, &expected, &found);
    }
    (number, values)
}

/// Stops with what the reference gave and what the library did.
pub fn differ(kind: &str, request: &str, description: &[u8], expected: &str, found: &str) -> ! {
    println!("difference at \"{kind}\": {request}");
    println!("reference {expected}");
    println!("library   {found}");
    print_bytes("description", description);
    std::process::exit(1);
}

/// Prints bytes in lines of 32.
pub fn print_bytes(name: &str, bytes: &[u8]) {
    println!("{name}, {} bytes:", bytes.len());
    for line in bytes.chunks(32) {
        println!("{}", hex(line));
    }
}

pub fn hex(bytes: &[u8]) -> String {
    let digits: Vec<String> = bytes.iter().map(|byte| format!("{byte:02x}")).collect();
    digits.join(" ")
}
