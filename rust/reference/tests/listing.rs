//! The listing program's output, and listings in parts.

use generate::bytes;
use generate::example::{constructor, description_s, literal, CODE, LINES};
use reference::Alignment::One;
use reference::{list, listing, requests, Description, Listed};

fn input(d: &Description, code: &[u8]) -> Vec<u8> {
    let description = bytes(d);
    let mut input = (description.len() as u16).to_le_bytes().to_vec();
    input.extend(description);
    input.extend(code);
    input
}

fn printed(input: &[u8]) -> String {
    String::from_utf8(listing(input)).unwrap()
}

#[test]
fn s_with_code() {
    let expected = "00000000: inc r3\n\
                    00000001: .byte 0x30\n\
                    00000002: halt\n\
                    00000003: .short\n";
    assert_eq!(
        printed(&input(&description_s(), &[0x13, 0x30, 0x1f, 0x25])),
        expected
    );
}

#[test]
fn bad_descriptions() {
    assert_eq!(printed(&[]), "malformed 1 65535\n");
    assert_eq!(printed(&[216]), "malformed 1 65535\n");
    let mut early = input(&description_s(), &[]);
    early.pop();
    assert_eq!(printed(&early), "malformed 6 65535\n");
    let mut record = description_s();
    record.text[3] = 31;
    assert_eq!(printed(&input(&record, &[0x13])), "malformed 6 3\n");
}

#[test]
fn no_code() {
    assert_eq!(printed(&input(&description_s(), &[])), "");
    // The length says more than there is, but what is there is well formed.
    let mut early = input(&description_s(), &[]);
    early[0] = 255;
    assert_eq!(printed(&early), "");
}

#[test]
fn small_bytes_have_two_digits() {
    assert_eq!(
        printed(&input(&description_s(), &[0x05])),
        "00000000: .byte 0x05\n"
    );
}

#[test]
fn code_past_4096_bytes_is_ignored() {
    let halts = printed(&input(&description_s(), &[0x1f; 5000]));
    assert_eq!(halts.lines().count(), 4096);
    assert_eq!(halts.lines().last(), Some("00000fff: halt"));
    // The cut makes the last add short.
    let adds = printed(&input(
        &description_s(),
        &[&[0x1f], &[0x25; 4999][..]].concat(),
    ));
    assert_eq!(adds.lines().last(), Some("00000fff: .short"));
}

/// One constructor of one byte that shows these numbers of the same byte.
fn shows(lengths: &[u8]) -> Description {
    let pieces = lengths.iter().map(|&n| literal(0, n)).collect();
    Description {
        constructors: vec![constructor(0, 1, (0, 0), (0, 0), (0, lengths.len() as u8))],
        pieces,
        text: vec![b'x'; 255],
        ..Description::default()
    }
}

#[test]
fn long_and_empty_texts() {
    let lines = |lengths: &[u8]| printed(&input(&shows(lengths), &[1, 2]));
    let x = "x".repeat(256);
    assert_eq!(lines(&[255, 1]), format!("00000000: {x}\n00000001: {x}\n"));
    assert_eq!(lines(&[255, 2]), "00000000: .long\n00000001: .long\n");
    assert_eq!(lines(&[]), "00000000: \n00000001: \n");
}

fn listed(text: &str, lines: usize, next: u64, full: bool) -> Listed {
    Listed {
        text: text.as_bytes().to_vec(),
        lines,
        next,
        full,
    }
}

/// Whole lines alone, and "full" as long as one is left.
#[test]
fn every_room() {
    let whole = LINES.concat();
    for room in 0..whole.len() + 5 {
        let mut fitting = 0;
        while fitting < 4 && LINES[..=fitting].concat().len() <= room {
            fitting += 1;
        }
        let text = LINES[..fitting].concat();
        let expected = listed(&text, fitting, fitting as u64, fitting < 4);
        assert_eq!(list(&description_s(), 0, 0, One, &CODE, 0, room), expected);
    }
}

#[test]
fn every_place() {
    for from in 0..4 {
        let expected = listed(&LINES[from..].concat(), 4 - from, 4, false);
        assert_eq!(
            list(&description_s(), 0, 0, One, &CODE, from as u64, 100),
            expected
        );
    }
    for from in [4, 5, 1 << 32, u64::MAX] {
        for room in [0, 100] {
            let expected = listed("", 0, from, false);
            assert_eq!(
                list(&description_s(), 0, 0, One, &CODE, from, room),
                expected
            );
        }
    }
}

/// The place behind a short instruction is the code's end, however long it is.
#[test]
fn behind_a_short_one() {
    let mut d = description_s();
    d.constructors[3].minimum_length = 9;
    let short = listed("00000001: .short\n", 1, 6, false);
    let code = [0x13, 0x1f, 0x13, 0x13, 0x13, 0x13];
    assert_eq!(list(&d, 0, 0, One, &code, 1, 17), short);
    assert_eq!(list(&d, 0, 0, One, &code, 1, 16), listed("", 0, 1, true));
}

#[test]
fn code_past_4096_bytes_is_listed() {
    let code = [0x1f; 70_000];
    let last = list(&description_s(), 0, 0, One, &code, 69_999, 15);
    assert_eq!(last, listed("0001116f: halt\n", 1, 70_000, false));
}

#[test]
fn the_longest_line() {
    let d = shows(&[255, 1]);
    let line = format!("00000000: {}\n", "x".repeat(256));
    assert_eq!(line.len(), 267);
    assert_eq!(
        list(&d, 0, 0, One, &[0], 0, 267),
        listed(&line, 1, 1, false)
    );
    assert_eq!(list(&d, 0, 0, One, &[0], 0, 266), listed("", 0, 0, true));
}

#[test]
fn the_context() {
    let mut d = description_s();
    d.constructors[3].pattern.context_mask = 2;
    d.constructors[3].pattern.context_value = 2;
    let shown = |context| list(&d, context, 0, One, &[0x1f], 0, 100).text;
    assert_eq!(shown(2), b"00000000: halt\n");
    assert_eq!(shown(0), b"00000000: inc r15\n");
}

/// The numbers of the answer, and nothing behind the lines.
#[test]
fn lent_bytes() {
    let s = bytes(&description_s());
    let mut lent = [b'~'; 40];
    let answer = requests::list(&s, 0, 0, 1, &CODE, 0, &mut lent);
    assert_eq!(answer.number_and_values(), (0, [38, 2, 2, 1]));
    assert_eq!(&lent, b"00000000: inc r3\n00000001: .byte 0x30\n~~");
    let mut lent = [b'~'; 40];
    let answer = requests::list(&s[..215], 0, 0, 1, &CODE, 0, &mut lent);
    assert_eq!(answer.number_and_values(), (1, [6, 65_535, 0, 0]));
    assert_eq!(lent, [b'~'; 40]);
}
