//! The instructions.

use builder::{Builder, Expression, Operand};

use crate::{words, ROOT};

/// The bits as the manual has them, and what is shown.
const INSTRUCTIONS: &[(&str, &str)] = &[
    ("0000 0000 0000 0000", "nop"),
    ("0000 0001 dddd rrrr", "movw {d even}, {r even}"),
    ("0000 0010 dddd rrrr", "muls {d upper}, {r upper}"),
    ("0000 0011 0ddd 0rrr", "mulsu {d to r23}, {r to r23}"),
    ("0000 0011 0ddd 1rrr", "fmul {d to r23}, {r to r23}"),
    ("0000 0011 1ddd 0rrr", "fmuls {d to r23}, {r to r23}"),
    ("0000 0011 1ddd 1rrr", "fmulsu {d to r23}, {r to r23}"),
    ("0000 01rd dddd rrrr", "cpc {d}, {r}"),
    ("0000 10rd dddd rrrr", "sbc {d}, {r}"),
    ("0000 11rd dddd rrrr", "add {d}, {r}"),
    ("0001 00rd dddd rrrr", "cpse {d}, {r}"),
    ("0001 01rd dddd rrrr", "cp {d}, {r}"),
    ("0001 10rd dddd rrrr", "sub {d}, {r}"),
    ("0001 11rd dddd rrrr", "adc {d}, {r}"),
    ("0010 00rd dddd rrrr", "and {d}, {r}"),
    ("0010 01rd dddd rrrr", "eor {d}, {r}"),
    ("0010 10rd dddd rrrr", "or {d}, {r}"),
    ("0010 11rd dddd rrrr", "mov {d}, {r}"),
    ("0011 KKKK dddd KKKK", "cpi {d upper}, {K8}"),
    ("0100 KKKK dddd KKKK", "sbci {d upper}, {K8}"),
    ("0101 KKKK dddd KKKK", "subi {d upper}, {K8}"),
    ("0110 KKKK dddd KKKK", "ori {d upper}, {K8}"),
    ("0111 KKKK dddd KKKK", "andi {d upper}, {K8}"),
    ("10q0 qq0d dddd 0qqq", "ldd {d}, Z+{q}"),
    ("10q0 qq0d dddd 1qqq", "ldd {d}, Y+{q}"),
    ("10q0 qq1d dddd 0qqq", "std Z+{q}, {d}"),
    ("10q0 qq1d dddd 1qqq", "std Y+{q}, {d}"),
    // Displacement 0 is another instruction: these lie inside the four above.
    ("1000 000d dddd 0000", "ld {d}, Z"),
    ("1000 000d dddd 1000", "ld {d}, Y"),
    ("1000 001d dddd 0000", "st Z, {d}"),
    ("1000 001d dddd 1000", "st Y, {d}"),
    ("1001 000d dddd 0001", "ld {d}, Z+"),
    ("1001 000d dddd 0010", "ld {d}, -Z"),
    ("1001 000d dddd 0100", "lpm {d}, Z"),
    ("1001 000d dddd 0101", "lpm {d}, Z+"),
    ("1001 000d dddd 0110", "elpm {d}, Z"),
    ("1001 000d dddd 0111", "elpm {d}, Z+"),
    ("1001 000d dddd 1001", "ld {d}, Y+"),
    ("1001 000d dddd 1010", "ld {d}, -Y"),
    ("1001 000d dddd 1100", "ld {d}, X"),
    ("1001 000d dddd 1101", "ld {d}, X+"),
    ("1001 000d dddd 1110", "ld {d}, -X"),
    ("1001 000d dddd 1111", "pop {d}"),
    ("1001 001d dddd 0001", "st Z+, {d}"),
    ("1001 001d dddd 0010", "st -Z, {d}"),
    ("1001 001d dddd 0100", "xch Z, {d}"),
    ("1001 001d dddd 0101", "las Z, {d}"),
    ("1001 001d dddd 0110", "lac Z, {d}"),
    ("1001 001d dddd 0111", "lat Z, {d}"),
    ("1001 001d dddd 1001", "st Y+, {d}"),
    ("1001 001d dddd 1010", "st -Y, {d}"),
    ("1001 001d dddd 1100", "st X, {d}"),
    ("1001 001d dddd 1101", "st X+, {d}"),
    ("1001 001d dddd 1110", "st -X, {d}"),
    ("1001 001d dddd 1111", "push {d}"),
    ("1001 010d dddd 0000", "com {d}"),
    ("1001 010d dddd 0001", "neg {d}"),
    ("1001 010d dddd 0010", "swap {d}"),
    ("1001 010d dddd 0011", "inc {d}"),
    ("1001 010d dddd 0101", "asr {d}"),
    ("1001 010d dddd 0110", "lsr {d}"),
    ("1001 010d dddd 0111", "ror {d}"),
    ("1001 010d dddd 1010", "dec {d}"),
    ("1001 0100 0sss 1000", "se{s}"),
    ("1001 0100 1sss 1000", "cl{s}"),
    ("1001 0100 0000 1001", "ijmp"),
    ("1001 0100 0001 1001", "eijmp"),
    ("1001 0100 KKKK 1011", "des {K4}"),
    ("1001 0101 0000 1000", "ret"),
    ("1001 0101 0000 1001", "icall"),
    ("1001 0101 0001 1000", "reti"),
    ("1001 0101 0001 1001", "eicall"),
    ("1001 0101 1000 1000", "sleep"),
    ("1001 0101 1001 1000", "break"),
    ("1001 0101 1010 1000", "wdr"),
    ("1001 0101 1100 1000", "lpm"),
    ("1001 0101 1101 1000", "elpm"),
    ("1001 0101 1110 1000", "spm"),
    ("1001 0101 1111 1000", "spm Z+"),
    ("1001 010k kkkk 110k", "jmp {k22}"),
    ("1001 010k kkkk 111k", "call {k22}"),
    ("1001 0110 KKdd KKKK", "adiw {d from r24}, {K6}"),
    ("1001 0111 KKdd KKKK", "sbiw {d from r24}, {K6}"),
    ("1001 1000 AAAA Abbb", "cbi {A5}, {b}"),
    ("1001 1001 AAAA Abbb", "sbic {A5}, {b}"),
    ("1001 1010 AAAA Abbb", "sbi {A5}, {b}"),
    ("1001 1011 AAAA Abbb", "sbis {A5}, {b}"),
    ("1001 11rd dddd rrrr", "mul {d}, {r}"),
    ("1011 0AAd dddd AAAA", "in {d}, {A6}"),
    ("1011 1AAd dddd AAAA", "out {A6}, {d}"),
    ("1100 kkkk kkkk kkkk", "rjmp {k12}"),
    ("1101 kkkk kkkk kkkk", "rcall {k12}"),
    ("1110 KKKK dddd KKKK", "ldi {d upper}, {K8}"),
    ("1111 00kk kkkk ksss", "br{if set} {k7}"),
    ("1111 01kk kkkk ksss", "br{if clear} {k7}"),
    ("1111 100d dddd 0bbb", "bld {d}, {b}"),
    ("1111 101d dddd 0bbb", "bst {d}, {b}"),
    ("1111 110d dddd 0bbb", "sbrc {d}, {b}"),
    ("1111 111d dddd 0bbb", "sbrs {d}, {b}"),
];

/// With an address of data in the second word.
const DIRECT: [(&str, &str); 2] = [
    ("1001 000d dddd 0000", "lds {d}, {k16} ; {address}"),
    ("1001 001d dddd 0000", "sts {k16}, {d} ; {address}"),
];

/// Where objdump has the addresses of data begin.
const DATA: i64 = 0x80_0000;

pub fn add(avr: &mut Builder) {
    for (bits, shows) in INSTRUCTIONS {
        avr.constructor(ROOT, words(bits, shows));
    }
    for (bits, shows) in DIRECT {
        let address = Expression::field("k16 word") + DATA;
        let constructor = words(bits, shows)
            .operand(Operand::new("d"))
            .operand(Operand::new("k16").offset(2))
            .operand(Operand::new("k16 word").offset(2))
            .operand(Operand::computed("address", address));
        avr.constructor(ROOT, constructor);
    }
}
