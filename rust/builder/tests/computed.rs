//! Computed operands: the bytes of section 7, and what the operands come to.

use builder::{Builder, Constructor, Expression, Field, Operand};
use reference::{check, decode, decode_text, Description, Refusal};

/// A jump by a signed number of half bytes, counted from the next instruction.
fn relative_jump() -> Builder {
    let mut set = Builder::new();
    set.field("k", Field::little(1).bits(0, 3).signed());
    let target = Expression::next() + Expression::field("k") * 2;
    set.constructor(
        "root",
        Constructor::new("jr {target}")
            .bytes("0001 kkkk")
            .operand(Operand::computed("target", target)),
    );
    set
}

/// A step with its value in one byte.
fn step(kind: u8, value: u8) -> [u8; 9] {
    [kind, value, 0, 0, 0, 0, 0, 0, 0]
}

/// A record of these steps.
fn record(steps: &[[u8; 9]]) -> Vec<u8> {
    let mut record = vec![steps.len() as u8];
    record.extend(steps.as_flattened());
    record.resize(145, 0);
    record
}

#[test]
fn the_bytes_of_a_relative_jump() {
    let mut expected = vec![1, 0, 0, 1, 0, 0, 3, 1, 0, 0];
    expected.extend([0, 0]);
    expected.extend([1, 0, 0, 1]);
    expected.extend([0xf0, 0, 0, 0, 0, 0, 0, 0, 0x10, 0, 0, 0, 0, 0, 0, 0]);
    expected.extend([0; 8]);
    expected.extend([2, 0, 0, 2, 0, 0]);
    // The expression introduces the field, which nothing shows.
    expected.extend([2, 0, 2, 0, 0, 0, 0, 0, 0, 0]);
    expected.extend([2, 0, 0, 3, 0, 0, 1, 1, 0, 0]);
    expected.extend(b"\x03\0jr ");
    expected.extend([1, 0]);
    let steps = [step(3, 0), step(1, 2), step(0, 2), step(6, 0), step(4, 0)];
    expected.extend(record(&steps));
    assert_eq!(relative_jump().build("root"), Ok(expected));
}

/// The example of docs/FORMAT.md, which has the field as operand 1.
#[test]
fn the_record_in_the_format() {
    let page = include_str!("../../../docs/FORMAT.md");
    let chapter = page
        .split("\n## ")
        .find(|part| part.starts_with("7 Expression"));
    let lines = chapter.unwrap().lines().filter_map(|line| {
        let (place, rest) = line.split_once(':')?;
        let bytes = rest.split_once(';')?.0.split_whitespace();
        Some((place.trim().parse().ok()?, bytes))
    });
    let mut listed = Vec::new();
    for (place, bytes) in lines {
        assert_eq!(listed.len(), place);
        listed.extend(bytes.map(|byte| u8::from_str_radix(byte, 16).unwrap()));
    }
    listed.resize(145, 0);
    let target = Expression::next() + Expression::field("a") * 2;
    assert_eq!(section_7([target])[2..], listed);
}

/// Section 7 of a constructor with the fields a and b and these operands.
fn section_7(expressions: impl IntoIterator<Item = Expression>) -> Vec<u8> {
    let build = |operands: Vec<Operand>| {
        let mut set = Builder::new();
        set.field("a", Field::little(1));
        set.field("b", Field::little(1));
        let fields = [Operand::new("a"), Operand::new("b")];
        let all = fields.into_iter().chain(operands);
        let constructor = all.fold(Constructor::new("x"), Constructor::operand);
        set.constructor("root", constructor);
        set.build("root").unwrap()
    };
    let operands: Vec<Operand> = expressions
        .into_iter()
        .enumerate()
        .map(|(i, expression)| Operand::computed(&i.to_string(), expression))
        .collect();
    let before = build(Vec::new()).len() + 4 * operands.len();
    build(operands).split_off(before)
}

#[test]
fn terms_and_operators() {
    let (a, b) = (|| Expression::field("a"), || Expression::field("b"));
    let steps = |expression: Expression, expected: &[(u8, u8)]| {
        let expected: Vec<[u8; 9]> = expected.iter().map(|s| step(s.0, s.1)).collect();
        assert_eq!(section_7([expression])[2..], record(&expected));
    };
    steps(a(), &[(1, 1)]);
    steps(Expression::address(), &[(2, 0)]);
    steps(Expression::next(), &[(3, 0)]);
    steps(a() + b(), &[(1, 1), (1, 2), (4, 0)]);
    steps(b() - a(), &[(1, 2), (1, 1), (5, 0)]);
    steps(a() * 7, &[(1, 1), (0, 7), (6, 0)]);
    steps(7 & a(), &[(0, 7), (1, 1), (7, 0)]);
    steps(a() | b(), &[(1, 1), (1, 2), (8, 0)]);
    steps(a() ^ b(), &[(1, 1), (1, 2), (9, 0)]);
    steps(a() << 63, &[(1, 1), (10, 63)]);
    steps(a() >> 0, &[(1, 1), (11, 0)]);
    // The operators bind as Rust's do.
    steps(a() << 4 | b(), &[(1, 1), (10, 4), (1, 2), (8, 0)]);
    let product = [(1, 1), (1, 2), (0, 3), (6, 0), (4, 0)];
    steps(a() + b() * 3, &product);
    let left = [(1, 1), (1, 2), (5, 0), (0, 3), (5, 0)];
    steps(a() - b() - 3, &left);
    let right = [(1, 1), (1, 2), (0, 3), (5, 0), (5, 0)];
    steps(a() - (b() - 3), &right);
}

#[test]
fn constants_have_a_sign_and_64_bits() {
    for value in [0, -1, 256, i64::MIN, i64::MAX] {
        let mut constant = [0; 9];
        constant[1..].copy_from_slice(&value.to_le_bytes());
        let section = section_7([Expression::from(value)]);
        assert_eq!(section[2..], record(&[constant]));
    }
}

#[test]
fn equal_expressions_are_one_record() {
    let a = || Expression::field("a");
    let section = section_7([a() + 1, a() + 2, a() + 1]);
    assert_eq!(section[..2], [2, 0]);
    assert_eq!(section.len(), 2 + 2 * 145);
    assert!(section_7([]).is_empty());
}

#[test]
fn sixteen_steps() {
    let a = || Expression::field("a");
    let sum = (0..14).fold(a(), |sum, _| sum << 1) << 2;
    let section = section_7([sum]);
    assert_eq!(section[2], 16);
    assert_eq!(section[2 + 1 + 9 * 15..], step(10, 2));
}

fn built(builder: &Builder) -> Description {
    check(&builder.build("root").unwrap()).unwrap()
}

fn text(d: &Description, address: u32, code: &[u8]) -> String {
    String::from_utf8(decode_text(d, 0, address, code).unwrap()).unwrap()
}

#[test]
fn the_target_of_a_relative_jump() {
    let d = built(&relative_jump());
    assert_eq!(text(&d, 0x1000, &[0x1f]), "jr 0xfff");
    assert_eq!(text(&d, 0, &[0x18]), "jr -0xf");
    assert_eq!(text(&d, u32::MAX, &[0x17]), "jr 0x10000000e");
    let rows = decode(&d, 0, 0x1000, &[0x1f]);
    let expected = [[0, 0, 0, 1], [3, 0, 0, 0xfff], [1, 0, 0, -1]];
    assert_eq!(rows.unwrap(), expected);
}

/// Two runs of bits as one number, and one more run that is named.
#[test]
fn operands_by_name() {
    let mut set = Builder::new();
    set.field("byte", Field::little(1));
    set.field(
        "register",
        Field::little(1).bits(0, 1).names(["a", "b", "c", "d"]),
    );
    let field = Expression::field;
    // The second comes later, and the third is introduced by being shown.
    let joined = field("high") << 8 | field("low") | field("register") << 16;
    set.constructor(
        "root",
        Constructor::new("{register} {joined}")
            .bytes("000000rr")
            .operand(Operand::new("byte").named("high").offset(1))
            .operand(Operand::computed("joined", joined))
            .operand(Operand::new("byte").named("low").offset(2)),
    );
    let d = built(&set);
    assert_eq!(text(&d, 0, &[2, 0x12, 0x34]), "c 0x21234");
}

/// Inside, the address after the instruction is still the whole one's.
#[test]
fn an_inner_table_and_an_anchor() {
    let mut set = Builder::new();
    set.field("byte", Field::little(1));
    let after = || Operand::computed("after", Expression::next());
    set.constructor("inner", Constructor::new("{after}").operand(after()));
    set.constructor(
        "root",
        Constructor::new("{inner} {size} {byte}")
            .bytes("11111111 ........ ........")
            .operand(Operand::new("inner").offset(1))
            .operand(Operand::computed(
                "size",
                Expression::next() - Expression::address(),
            ))
            .operand(Operand::new("byte").after("size").offset(1)),
    );
    let d = built(&set);
    assert_eq!(text(&d, 0x20, &[0xff, 7, 0]), "0x23 0x3 7");
}

#[test]
fn a_number_that_does_not_fit() {
    let mut set = Builder::new();
    set.field("byte", Field::little(1));
    let shifted = Expression::field("byte") << 63;
    let constructor = Constructor::new("{shifted}").operand(Operand::computed("shifted", shifted));
    set.constructor("root", constructor);
    let d = built(&set);
    assert_eq!(text(&d, 0, &[0]), "0x0");
    assert_eq!(decode(&d, 0, 0, &[1]), Err(Refusal::Outside { place: 0 }));
}
