//! The inner tables: numbers and registers of which the bits stand apart, and
//! where jumps lead.

use builder::{Builder, Expression, Operand};

use crate::words;

const ANY_WORD: &str = "................";

pub fn add(avr: &mut Builder) {
    // A register's upper bit stands apart and picks the names.
    avr.constructor("r", words("......0. ....rrrr", "{r lower}"));
    avr.constructor("r", words("......1. ....rrrr", "{r upper}"));
    avr.constructor("K8", words("....KKKK ....KKKK", "0x{K8 high}{K8 low}"));
    avr.constructor("K6", words("........ KK..KKKK", "0x{K6 high}{low digit}"));
    avr.constructor("A6", words(".....AA. ....AAAA", "0x{A6 high}{low digit}"));
    avr.constructor("A5", words("........ AAAAA...", "0x{A5 high}{A5 low}"));
    let k16 = "0x{k16 digit 3}{k16 digit 2}{k16 digit 1}{k16 digit 0}";
    avr.constructor("k16", words(ANY_WORD, k16));
    add_displacement(avr);
    add_relative_jumps(avr);
    add_address(avr);
}

/// Six bits in three places, in decimal: the upper three pick the names.
fn add_displacement(avr: &mut Builder) {
    for upper in 0..8 {
        let bits = format!("{upper:03b}");
        let (bit_5, bits_4_3) = bits.split_at(1);
        let bits = format!("..{bit_5}.{bits_4_3}.. .....qqq");
        avr.constructor("q", words(&bits, &format!("{{q from {}}}", 8 * upper)));
    }
}

/// The displacement in bytes and, as objdump's comment, the target. A computed
/// number has no plus sign, so one stands before it where the sign bit is 0.
fn add_relative_jumps(avr: &mut Builder) {
    let k12 = |bits, shows| {
        words(bits, shows)
            .operand(Operand::computed("bytes", in_bytes("k12 words")))
            .operand(target("k12 words"))
    };
    avr.constructor("k12", k12("....0kkk kkkkkkkk", ".+{bytes} ; {target}"));
    avr.constructor("k12", k12("....1kkk kkkkkkkk", ".{bytes} ; {target}"));
    let k7 = words("......kk kkkkk...", "{k7 bytes} ; {target}");
    avr.constructor("k7", k7.operand(target("k7 words")));
}

fn in_bytes(words: &str) -> Expression {
    Expression::field(words) * 2
}

/// Where a relative jump leads: 32 bits of it, as objdump has it.
fn target(words: &str) -> Operand {
    let target = (Expression::next() + in_bytes(words)) & 0xffff_ffff;
    Operand::computed("target", target)
}

/// Three runs of bits count words and are shown in bytes, again as the comment;
/// objdump has 0 without 0x.
fn add_address(avr: &mut Builder) {
    let field = Expression::field;
    let joined = field("k22 upper") << 17 | field("k22 bit 16") << 16 | field("k22 lower");
    let bytes = |name| Operand::computed(name, joined.clone() * 2);
    let shows = "{bytes} ; {target}";
    let any = words(&format!("{ANY_WORD} | {ANY_WORD}"), shows).operand(bytes("bytes"));
    avr.constructor("k22", any.operand(bytes("target")));
    let zero = words(".......0 0000...0 | 00000000 00000000", "0 ; {target}");
    avr.constructor("k22", zero.operand(bytes("target")));
}
