//! The AVR instruction set as a description. Names of fields and tables follow
//! the letters of the instruction set manual. The texts are those of GNU
//! objdump as far as the description's language goes; `docs/AVR.md` says how far.

mod fields;
mod instructions;
mod tables;

use builder::{Builder, Constructor};

const ROOT: &str = "instruction";

/// The bytes of the description.
pub fn description() -> Vec<u8> {
    let mut avr = Builder::new();
    fields::add(&mut avr);
    tables::add(&mut avr);
    instructions::add(&mut avr);
    match avr.build(ROOT) {
        Ok(bytes) => bytes,
        Err(refusal) => panic!("{refusal}"),
    }
}

/// A constructor over one or more words of 16 bits, with `|` between them.
fn words(bits: &str, shows: &str) -> Constructor {
    bits.split('|')
        .fold(Constructor::new(shows), Constructor::little)
}
