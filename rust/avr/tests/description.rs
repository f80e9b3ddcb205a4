//! The description by itself, and what it says of some and of all opcodes.

use std::collections::BTreeMap;

use reference::{
    check, clash, decode, decode_text, list, listing, Alignment, Clash, Description, Refusal,
};

fn description() -> Description {
    check(&avr::description()).unwrap()
}

fn code(words: &[u16]) -> Vec<u8> {
    words.iter().flat_map(|word| word.to_le_bytes()).collect()
}

fn shown(d: &Description, address: u32, words: &[u16]) -> String {
    let text = decode_text(d, 0, address, &code(words)).unwrap();
    String::from_utf8(text).unwrap()
}

#[test]
fn no_table_clashes() {
    let d = description();
    for table in 0..=d.root() {
        assert_eq!(clash(&d, table), Ok(Clash::Clear), "table {table}");
    }
}

#[test]
fn texts() {
    let d = description();
    let expected: [(&[u16], &str); 36] = [
        (&[0x0000], "nop"),
        (&[0x01ff], "movw r30, r30"),
        (&[0x02f0], "muls r31, r16"),
        (&[0x0377], "mulsu r23, r23"),
        (&[0x0c0f], "add r0, r15"),
        (&[0x0e00], "add r0, r16"),
        (&[0x0dff], "add r31, r15"),
        (&[0x0fff], "add r31, r31"),
        (&[0xe0a5], "ldi r26, 0x05"),
        (&[0xeffa], "ldi r31, 0xFA"),
        (&[0x8010], "ld r1, Z"),
        (&[0x8011], "ldd r1, Z+1"),
        (&[0x8410], "ldd r1, Z+8"),
        (&[0xac1f], "ldd r1, Y+63"),
        (&[0x8218], "st Y, r1"),
        (&[0xa219], "std Y+33, r1"),
        (&[0x91ad], "ld r26, X+"),
        (&[0x9000, 0x00ab], "lds r0, 0x00AB ; 0x8000ab"),
        (&[0x93f0, 0xc0de], "sts 0xC0DE, r31 ; 0x80c0de"),
        (&[0x940c, 0x0000], "jmp 0 ; 0x0"),
        (&[0x940c, 0x0007], "jmp 0xe ; 0xe"),
        (&[0x940c, 0x0008], "jmp 0x10 ; 0x10"),
        (&[0x940c, 0x8000], "jmp 0x10000 ; 0x10000"),
        (&[0x940f, 0x0000], "call 0x20000 ; 0x20000"),
        (&[0x95ff, 0xffff], "call 0x7ffffe ; 0x7ffffe"),
        (&[0x9478], "sei"),
        (&[0x94f8], "cli"),
        (&[0x94fb], "des 15"),
        (&[0x97d1], "sbiw r26, 0x31"),
        (&[0x98ff], "cbi 0x1f, 7"),
        (&[0xb7ef], "in r30, 0x3f"),
        (&[0xbe0f], "out 0x3f, r0"),
        (&[0xc800], "rjmp .-0x1000 ; 0x2"),
        (&[0xd7ff], "rcall .+0xffe ; 0x2000"),
        (&[0xf3f9], "breq .-2 ; 0x1000"),
        (&[0xf5f9], "brne .+126 ; 0x1080"),
    ];
    for (words, text) in expected {
        assert_eq!(shown(&d, 0x1000, words), text);
    }
}

/// Targets have 32 bits, as objdump shows them.
#[test]
fn targets_past_the_ends() {
    let d = description();
    let jump = |address, words| shown(&d, address, &[words]);
    assert_eq!(jump(0, 0xc000), "rjmp .+0x0 ; 0x2");
    assert_eq!(jump(0, 0xcffe), "rjmp .-0x4 ; 0xfffffffe");
    assert_eq!(jump(0x10, 0xf201), "breq .-128 ; 0xffffff92");
    assert_eq!(jump(0xffff_fff8, 0xd7ff), "rcall .+0xffe ; 0xff8");
    assert_eq!(jump(0xffff_fffe, 0xc000), "rjmp .+0x0 ; 0x0");
}

/// An address has one row with its value.
#[test]
fn rows_of_addresses() {
    let d = description();
    let values = |address, words: &[u16]| -> Vec<i64> {
        let rows = decode(&d, 0, address, &code(words)).unwrap();
        let computed = rows.iter().filter(|row| row[0] == 3);
        computed.map(|row| row[3]).collect()
    };
    assert_eq!(values(0x1000, &[0xcfff]), [-2, 0x1000]);
    assert_eq!(values(0x1000, &[0xf3f9]), [0x1000]);
    assert_eq!(values(0, &[0x95ff, 0x1234]), [0x7e_2468, 0x7e_2468]);
    assert_eq!(values(0, &[0x940c, 0]), [0]);
    assert_eq!(values(0, &[0x9000, 0x00ab]), [0x80_00ab]);
}

#[test]
fn the_second_word_is_missing() {
    let d = description();
    let short = |words: &[u16], place| {
        assert_eq!(
            decode(&d, 0, 0, &code(words)),
            Err(Refusal::Short { place })
        );
    };
    short(&[], 0);
    short(&[0x9000], 2);
    short(&[0x940c], 0);
}

/// How many opcodes have each mnemonic; "" stands for those without one.
#[test]
fn mnemonics_of_all_opcodes() {
    let d = description();
    let mut counts: BTreeMap<String, usize> = BTreeMap::new();
    for opcode in 0..=u16::MAX {
        let mnemonic = match decode_text(&d, 0, 0, &code(&[opcode, 0x1234])) {
            Ok(text) => {
                let text = String::from_utf8(text).unwrap();
                text.split(' ').next().unwrap().to_string()
            }
            Err(refusal) => {
                let table = d.root();
                assert_eq!(refusal, Refusal::NoMatch { place: 0, table });
                String::new()
            }
        };
        *counts.entry(mnemonic).or_default() += 1;
    }
    let words = EXPECTED.split_whitespace();
    let mut expected: BTreeMap<String, usize> = BTreeMap::new();
    let mut count = 0;
    for word in words {
        match word.parse() {
            Ok(number) => count = number,
            Err(_) => assert_eq!(expected.insert(word.to_string(), count), None),
        }
    }
    expected.insert(String::new(), 1554);
    assert_eq!(counts, expected);
}

/// A number of opcodes, and the mnemonics that have so many each.
const EXPECTED: &str = "
    1 nop sec sez sen sev ses seh set sei clc clz cln clv cls clh clt cli
    1 ijmp eijmp ret icall reti eicall sleep break wdr
    2 spm
    16 des
    32 lds sts pop push xch las lac lat com neg swap inc asr lsr ror dec
    64 mulsu fmul fmuls fmulsu jmp call
    65 lpm elpm
    128 brcs breq brmi brvs brlt brhs brts brie brcc brne brpl brvc brge brhc brtc brid
    256 movw muls adiw sbiw cbi sbic sbi sbis bld bst sbrc sbrs
    288 ld st
    1024 cpc sbc add cpse cp sub adc and eor or mov mul
    2048 in out
    4032 ldd std
    4096 cpi sbci subi ori andi ldi rjmp rcall
";

#[test]
fn a_listing() {
    let description = avr::description();
    let mut input = (description.len() as u16).to_le_bytes().to_vec();
    input.extend(description);
    input.extend(code(&[
        0xe005, 0x9300, 0x0100, 0x950a, 0xf7e1, 0x940e, 0x0040, 0xcfff,
    ]));
    let expected = "\
00000000: ldi r16, 0x05
00000002: sts 0x0100, r16 ; 0x800100
00000006: dec r16
00000008: brne .-8 ; 0x2
0000000a: call 0x80 ; 0x80
0000000e: rjmp .-0x2 ; 0xe
";
    assert_eq!(String::from_utf8_lossy(&listing(&input)), expected);
}

/// By words, what is no instruction is one gap. By bytes, its second byte and
/// the next word's first are read as an instruction, and those behind are lost.
#[test]
fn listings_by_words_and_by_bytes() {
    let code = code(&[0x0c01, 0x0001, 0x9300, 0x0100, 0x950a, 0x940e]);
    let lines = |alignment| {
        let listed = list(&description(), 0, 0x100, alignment, &code, 0, usize::MAX);
        String::from_utf8(listed.text).unwrap()
    };
    let by_words = "\
00000100: add r0, r1
00000102: .byte 0x01, 0x00
00000104: sts 0x0100, r16 ; 0x800100
00000108: dec r16
0000010a: .short
";
    assert_eq!(lines(Alignment::Two), by_words);
    let by_bytes = "\
00000100: add r0, r1
00000102: .byte 0x01
00000103: nop
00000105: .byte 0x93
00000106: movw r0, r0
00000108: dec r16
0000010a: .short
";
    assert_eq!(lines(Alignment::One), by_bytes);
}
