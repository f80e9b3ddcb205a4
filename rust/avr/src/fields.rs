//! The fields.

use builder::{Builder, Field};

/// Bits of an instruction's first word.
fn word(low: u8, high: u8) -> Field {
    Field::little(2).bits(low, high)
}

/// Bits of both words: those of the second are 16 to 31.
fn two_words(low: u8, high: u8) -> Field {
    Field::little(4).bits(low, high)
}

fn registers(numbers: impl Iterator<Item = u32>) -> Vec<String> {
    numbers.map(|number| format!("r{number}")).collect()
}

/// Digits of hexadecimal numbers, for numbers that are shown with leading zeros.
const DIGITS: [&str; 16] = [
    "0", "1", "2", "3", "4", "5", "6", "7", "8", "9", "a", "b", "c", "d", "e", "f",
];
const UPPER_DIGITS: [&str; 16] = [
    "0", "1", "2", "3", "4", "5", "6", "7", "8", "9", "A", "B", "C", "D", "E", "F",
];

pub fn add(avr: &mut Builder) {
    add_registers(avr);
    add_digits(avr);
    add_numbers(avr);
}

fn add_registers(avr: &mut Builder) {
    avr.field("d", word(4, 8).names(registers(0..32)));
    avr.field("r lower", word(0, 3).names(registers(0..16)));
    avr.field("r upper", word(0, 3).names(registers(16..32)));
    avr.field("d upper", word(4, 7).names(registers(16..32)));
    avr.field("d to r23", word(4, 6).names(registers(16..24)));
    avr.field("r to r23", word(0, 2).names(registers(16..24)));
    let even = || (0..32).step_by(2);
    avr.field("d even", word(4, 7).names(registers(even())));
    avr.field("r even", word(0, 3).names(registers(even())));
    avr.field("d from r24", word(4, 5).names(registers(even().skip(12))));
}

fn add_digits(avr: &mut Builder) {
    avr.field("K8 high", word(8, 11).names(UPPER_DIGITS));
    avr.field("K8 low", word(0, 3).names(UPPER_DIGITS));
    avr.field("K6 high", word(6, 7));
    avr.field("A6 high", word(9, 10));
    avr.field("low digit", word(0, 3).names(DIGITS));
    avr.field("A5 high", word(7, 7));
    avr.field("A5 low", word(3, 6).names(DIGITS));
    for digit in 0..4 {
        let low = 4 * digit;
        let field = word(low, low + 3).names(UPPER_DIGITS);
        avr.field(&format!("k16 digit {digit}"), field);
    }
}

fn add_numbers(avr: &mut Builder) {
    avr.field("K4", word(4, 7));
    avr.field("b", word(0, 2));
    for first in (0..64).step_by(8) {
        let numbers = (first..first + 8).map(|number: u32| number.to_string());
        avr.field(&format!("q from {first}"), word(0, 2).names(numbers));
    }
    // Displacements count words, and objdump shows bytes: seven bits by names.
    avr.field("k12 words", word(0, 11).signed());
    avr.field("k7 words", word(3, 9).signed());
    let bytes = (0..64).chain(-64..0).map(|words| 2 * words);
    let displacements = bytes.map(|bytes: i32| format!(".{bytes:+}"));
    avr.field("k7 bytes", word(3, 9).names(displacements));
    avr.field("k22 upper", word(4, 8));
    avr.field("k22 bit 16", word(0, 0));
    avr.field("k22 lower", two_words(16, 31));
    avr.field("k16 word", word(0, 15));
    let flags = ["c", "z", "n", "v", "s", "h", "t", "i"];
    avr.field("s", word(4, 6).names(flags));
    let set = ["cs", "eq", "mi", "vs", "lt", "hs", "ts", "ie"];
    avr.field("if set", word(0, 2).names(set));
    let clear = ["cc", "ne", "pl", "vc", "ge", "hc", "tc", "id"];
    avr.field("if clear", word(0, 2).names(clear));
}
