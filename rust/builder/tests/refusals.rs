//! Everything that the builder refuses, in its words.

use std::ops::Range;

use builder::{Builder, Constructor, Expression, Field, Operand};

/// A sound description for the fault to be put in.
fn sound() -> Builder {
    let mut set = Builder::new();
    set.field("byte", Field::little(1));
    set.field("mode", Field::context().bits(0, 1));
    set.constructor("inner", Constructor::new("{byte}").bytes("........"));
    set.constructor("root", Constructor::new("go {byte}").bytes("1......."));
    set
}

fn refused(set: &Builder, words: &str) {
    assert!(sound().build("root").is_ok());
    match set.build("root") {
        Ok(_) => panic!("not refused: {words}"),
        Err(refusal) => assert_eq!(refusal.to_string(), words),
    }
}

fn field(field: Field, words: &str) {
    let mut set = sound();
    set.field("f", field);
    refused(&set, &format!("field f: {words}"));
}

fn constructor(constructor: Constructor, shows: &str, words: &str) {
    let mut set = sound();
    set.constructor("root", constructor);
    let words = format!("constructor {shows:?} of table root: {words}");
    refused(&set, &words);
}

/// A constructor that shows "x" and has a pattern of one byte.
fn x() -> Constructor {
    Constructor::new("x").bytes("0000 0000")
}

#[test]
fn field_ranges() {
    field(Field::little(0), "a token has 1 to 4 bytes, not 0");
    field(Field::big(5), "a token has 1 to 4 bytes, not 5");
    field(
        Field::little(255).bits(0, 0),
        "a token has 1 to 4 bytes, not 255",
    );
    field(
        Field::little(1).bits(7, 0),
        "the low bit 7 is above the high bit 0",
    );
    field(
        Field::little(2).bits(0, 16),
        "bit 16 is above the highest, 15",
    );
    field(
        Field::context().bits(3, 32),
        "bit 32 is above the highest, 31",
    );
}

#[test]
fn field_names() {
    let bits = |high| Field::little(2).bits(0, high);
    field(
        bits(8).names(vec!["n"; 512]),
        "names are for at most 8 bits, not 9",
    );
    field(
        bits(1).names(["a", "b", "c"]),
        "3 names, and the field has 4 values",
    );
    field(
        bits(0).names(["a", "b", "c"]),
        "3 names, and the field has 2 values",
    );
    field(
        bits(0).names(["a", ""]),
        "the name of 1 is empty; a hole is None",
    );
    field(
        bits(0).names(["a\t", "b"]),
        "the name of 0: '\\t' in \"a\\t\" is not in 32 to 126",
    );
    field(
        bits(0).names(["a".to_string(), "b".repeat(256)]),
        "the name of 1: a text of 256 characters, and at most 255 are allowed",
    );
}

#[test]
fn two_of_a_name() {
    let mut set = sound();
    set.field("byte", Field::little(1));
    refused(&set, "there are two fields byte");
    let mut set = sound();
    set.field("inner", Field::little(1));
    refused(&set, "inner is the name of a field and of a table");
}

#[test]
fn patterns() {
    constructor(
        x().bytes("0000"),
        "x",
        "4 bits in \"0000\" are no whole bytes",
    );
    constructor(
        x().little("0000 000"),
        "x",
        "7 bits in \"0000 000\" are no whole bytes",
    );
    constructor(x().bytes("0000 2000"), "x", "'2' in the bits \"0000 2000\"");
    constructor(
        x().masked(1, 0xf0, 0x11),
        "x",
        "byte 1 has value 0x11 outside its mask 0xf0",
    );
    constructor(
        x().masked(0, 0x01, 0x01),
        "x",
        "a bit of byte 0 of the pattern is given twice",
    );
    constructor(
        x().masked(8, 0x01, 0x01),
        "x",
        "a pattern has 8 bytes, and byte 8 is not among them",
    );
    constructor(
        x().context(0x01, 0x03),
        "x",
        "the context has value 0x3 outside its mask 0x1",
    );
    constructor(
        x().context(0x03, 0x01).context(0x02, 0x00),
        "x",
        "a bit of the context is given twice",
    );
}

#[test]
fn minimum_lengths() {
    constructor(
        x().minimum(0),
        "x",
        "a minimum length of 0, and the pattern has bits of byte 0",
    );
    constructor(
        x().masked(4, 0x80, 0).minimum(4),
        "x",
        "a minimum length of 4, and the pattern has bits of byte 4",
    );
    constructor(
        x().minimum(17),
        "x",
        "a minimum length of 17, and 16 is the most",
    );
    constructor(
        x().bytes(&"........".repeat(16)),
        "x",
        "a minimum length of 17, and 16 is the most",
    );
    constructor(
        x().masked(usize::MAX, 0, 0),
        "x",
        "a minimum length of 255, and 16 is the most",
    );
}

#[test]
fn operands() {
    let operand = |operand| x().operand(operand);
    constructor(
        operand(Operand::new("bite")),
        "x",
        "operand bite: bite is no field and no table that has a constructor",
    );
    constructor(
        operand(Operand::new("byte").offset(16)),
        "x",
        "operand byte: an offset of 16, and 15 is the most",
    );
    constructor(
        operand(Operand::new("byte").after("inner")).operand(Operand::new("inner")),
        "x",
        "operand byte: inner is no earlier operand",
    );
    constructor(
        operand(Operand::new("byte").after("byte")),
        "x",
        "operand byte: byte is no earlier operand",
    );
    constructor(
        operand(Operand::new("byte")).operand(Operand::new("byte").offset(1)),
        "x",
        "operand byte: two operands have this name",
    );
    constructor(
        operand(Operand::new("mode").offset(1)),
        "x",
        "operand mode: a context field has no place in the instruction",
    );
    constructor(
        operand(Operand::new("byte")).operand(Operand::new("mode").after("byte")),
        "x",
        "operand mode: a context field has no place in the instruction",
    );
    let nine = (0..9).fold(x(), |constructor, i| {
        constructor.operand(Operand::new("byte").named(&i.to_string()))
    });
    constructor(nine, "x", "9 operands, and 8 is the most");
}

#[test]
fn computed_operands() {
    let byte = || Expression::field("byte");
    let computed = |expression| x().operand(Operand::computed("c", expression));
    let refused = |expression, words: &str| {
        constructor(computed(expression), "x", &format!("operand c: {words}"));
    };
    refused(byte() << 64, "a shift by 64, and 63 is the most");
    refused(byte() >> 255, "a shift by 255, and 63 is the most");
    let sum = (0..8).fold(byte(), |sum, _| sum + 1);
    refused(sum, "an expression of 17 steps, and 16 is the most");
    refused(Expression::field("bite"), "bite is no field operand");
    refused(Expression::field("inner"), "inner is no field operand");
    refused(Expression::field("c"), "c is no field operand");
    let place = "operand c: a computed operand has no place in the instruction";
    let operand = || Operand::computed("c", byte());
    constructor(x().operand(operand().offset(1)), "x", place);
    let after = x().operand(Operand::new("byte"));
    constructor(after.operand(operand().after("byte")), "x", place);
    let words = "operand c: two operands have this name";
    constructor(x().operand(operand()).operand(operand()), "x", words);
    // The name is a computed operand's, though a field has it too.
    let words = "operand byte: byte is no field operand";
    let same = x().operand(Operand::computed("byte", byte() + 1));
    constructor(same, "x", words);
    let seven = (0..7).fold(computed(byte()), |constructor, i| {
        constructor.operand(Operand::new("mode").named(&i.to_string()))
    });
    constructor(seven, "x", "9 operands, and 8 is the most");
}

#[test]
fn a_limit_of_expressions() {
    let mut set = sound();
    for first in (0..256).step_by(4) {
        add_expressions(&mut set, first..first + 4);
    }
    assert!(set.build("root").is_ok());
    add_expressions(&mut set, 0..4);
    assert!(set.build("root").is_ok());
    add_expressions(&mut set, 256..257);
    refused(&set, "257 expressions, and 256 is the most");
}

/// Adds a constructor with a constant for each number.
fn add_expressions(set: &mut Builder, numbers: Range<i64>) {
    let operand = |i: i64| Operand::computed(&i.to_string(), Expression::from(i));
    set.constructor("root", numbers.map(operand).fold(x(), Constructor::operand));
}

#[test]
fn what_is_shown() {
    let shown = |shows: &str, words: &str| {
        constructor(Constructor::new(shows).bytes("00000000"), shows, words);
    };
    shown(
        "{bite}",
        "operand bite: bite is no field and no table that has a constructor",
    );
    shown("{byte}, {byte}", "operand byte is shown twice");
    shown("a\n", "'\\n' in \"a\\n\" is not in 32 to 126");
    shown("\u{7f}", "'\\u{7f}' in \"\\u{7f}\" is not in 32 to 126");
    shown("r\u{e9}", "'\u{e9}' in \"r\u{e9}\" is not in 32 to 126");
    shown("{byte", "a { without its }");
    shown("byte}", "a } without its {");
    let long = "a".repeat(256);
    shown(
        &long,
        "a text of 256 characters, and at most 255 are allowed",
    );
    let shows = "{0},{1},{2},{3},{4},{5},{6},{7},{8}";
    constructor(
        Constructor::new(shows),
        shows,
        "17 pieces, and 16 is the most",
    );
}

#[test]
fn tables() {
    let refused_with = |more: &[(&str, &str)], words: &str| {
        let mut set = sound();
        for (table, shows) in more {
            set.constructor(table, Constructor::new(shows).bytes("00000000"));
        }
        refused(&set, words);
    };
    refused_with(
        &[("root", "{a}"), ("a", "{b}"), ("b", "{a}")],
        "tables name each other: a, b, a",
    );
    refused_with(
        &[("inner", "{inner}")],
        "tables name each other: inner, inner",
    );
    refused_with(&[("a", "{root}")], "the root root is an operand in table a");
    refused_with(
        &[("inner", "{root}"), ("root", "{inner}")],
        "tables name each other: inner, root, inner",
    );
    let words = "the root main is no table that has a constructor";
    assert_eq!(sound().build("main").unwrap_err().to_string(), words);
    let words = "the root root is no table that has a constructor";
    assert_eq!(Builder::new().build("root").unwrap_err().to_string(), words);
}

#[test]
fn a_limit_of_tables() {
    let mut set = sound();
    for i in 2..64 {
        set.constructor(&i.to_string(), x());
    }
    assert!(set.build("root").is_ok());
    set.constructor("64", x());
    refused(&set, "65 tables, and 64 is the most");
}

#[test]
fn a_limit_of_fields() {
    let mut set = sound();
    for i in 2..256 {
        set.field(&i.to_string(), Field::little(1));
    }
    assert!(set.build("root").is_ok());
    set.field("256", Field::little(1));
    refused(&set, "257 fields, and 256 is the most");
}

#[test]
fn a_limit_of_constructors() {
    let mut set = sound();
    for _ in 2..512 {
        set.constructor("root", x());
    }
    assert!(set.build("root").is_ok());
    set.constructor("root", x());
    refused(&set, "513 constructors, and 512 is the most");
}

#[test]
fn a_limit_of_names() {
    let mut set = sound();
    let names = |first: usize| (first..first + 256).map(|i| i.to_string());
    for i in 0..4 {
        let field = Field::little(1).names(names(256 * i));
        set.field(&i.to_string(), field);
    }
    assert!(set.build("root").is_ok());
    set.field("4", Field::little(1).bits(0, 0).names(["x", "y"]));
    refused(&set, "1026 names, and 1024 is the most");
}

/// Adds a constructor with so many operands that no other has.
fn add_operands(set: &mut Builder, first: usize, count: usize) {
    let operand = |i: usize| {
        let field = Operand::new(&(i / 15).to_string());
        field.named(&i.to_string()).offset(1 + (i % 15) as u8)
    };
    let operands = (first..first + count).map(operand);
    set.constructor("root", operands.fold(x(), Constructor::operand));
}

#[test]
fn a_limit_of_operands() {
    let mut set = sound();
    for i in 0..=2048 / 15 {
        set.field(&i.to_string(), Field::little(1));
    }
    // One is there already.
    for i in 0..255 {
        add_operands(&mut set, 8 * i, 8);
    }
    add_operands(&mut set, 2040, 7);
    assert!(set.build("root").is_ok());
    add_operands(&mut set, 2047, 1);
    refused(&set, "2049 operands, and 2048 is the most");
}

/// Adds a constructor with so many pieces that no other has.
fn add_pieces(set: &mut Builder, first: usize, count: usize) {
    let mut constructor = Vec::new();
    for i in 0..count {
        constructor.push(match i % 2 {
            0 => text_of_two((first + i) / 2),
            _ => format!("{{{i}}}"),
        });
    }
    let operands = (1..count).step_by(2);
    let operands = operands.map(|i| Operand::new("byte").named(&i.to_string()));
    let shows = Constructor::new(&constructor.concat());
    set.constructor("root", operands.fold(shows, Constructor::operand));
}

fn text_of_two(i: usize) -> String {
    let letter = |i: usize| char::from(b'0' + i as u8);
    [letter(i / 64), letter(i % 64)].iter().collect()
}

#[test]
fn a_limit_of_pieces() {
    let mut set = sound();
    // Three are there already.
    for i in 0..255 {
        add_pieces(&mut set, 16 * i, 16);
    }
    add_pieces(&mut set, 4080, 13);
    assert!(set.build("root").is_ok());
    add_pieces(&mut set, 4094, 1);
    refused(&set, "4097 pieces, and 4096 is the most");
}

#[test]
fn a_limit_of_text() {
    let mut set = sound();
    // Three characters are there already. No text holds the end of another.
    let mut add = |length: usize, letter: u8| {
        let text = char::from(letter).to_string().repeat(length);
        set.constructor("root", Constructor::new(&text).bytes("00000000"));
        set.build("root").map_err(|refusal| refusal.to_string())
    };
    for letter in 0..32 {
        assert!(add(255, b'A' + letter).is_ok());
    }
    assert!(add(29, b'h').is_ok());
    let words = "8193 characters of text, and 8192 is the most";
    assert_eq!(add(1, b'i'), Err(words.to_string()));
}
