//! Writes description S to the standard output.

use std::io::Write;

fn main() -> std::io::Result<()> {
    let s = generate::example::description_s();
    std::io::stdout().write_all(&generate::bytes(&s))
}
