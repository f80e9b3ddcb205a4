//! Section 7: which descriptions and records are well formed.

use generate::bytes;
use generate::example::{
    computed, constructor, description_s, expression, field, literal, operand, shown, step,
};
use reference::{check, Description, Expression, Fault, Operand, Step};

fn fault(section: u16, record: u16) -> Option<Fault> {
    Some(Fault { section, record })
}

/// What is wrong with S with more bytes behind it.
fn longer(more: &[u8]) -> Option<Fault> {
    check(&[&bytes(&description_s()), more].concat()).err()
}

/// A section of so many constants, without its last bytes.
fn constants(count: u16, missing: usize) -> Vec<u8> {
    let mut section = count.to_le_bytes().to_vec();
    for _ in 0..count {
        section.push(1);
        section.extend([0; 144]);
    }
    section.truncate(section.len() - missing);
    section
}

#[test]
fn counts_and_lengths() {
    let whole = fault(7, 65_535);
    assert_eq!(longer(&[0, 0]), None);
    assert_eq!(longer(&constants(1, 0)), None);
    assert_eq!(longer(&constants(256, 0)), None);
    for byte in [0, 1, 255] {
        assert_eq!(longer(&[byte]), whole);
    }
    assert_eq!(longer(&[0, 0, 0]), whole);
    assert_eq!(longer(&constants(1, 1)), whole);
    assert_eq!(longer(&constants(1, 145)), whole);
    assert_eq!(longer(&constants(257, 0)), whole);
    assert_eq!(longer(&[&constants(2, 0)[..], &[0]].concat()), whole);
}

#[test]
fn counts_come_before_records() {
    let mut s = description_s();
    s.fields[0].look = 9;
    let bad_field = bytes(&s);
    assert_eq!(check(&bad_field).err(), fault(1, 0));
    let missing = [&bad_field[..], &constants(1, 1)].concat();
    assert_eq!(check(&missing).err(), fault(7, 65_535));
}

#[test]
fn absent_or_empty_is_the_same() {
    let s = bytes(&description_s());
    assert_eq!(check(&[&s[..], &[0, 0]].concat()), check(&s));
}

/// S with these expressions, which nobody uses.
fn with(expressions: &[Expression]) -> Option<Fault> {
    let mut d = description_s();
    d.expressions = expressions.to_vec();
    check(&bytes(&d)).err()
}

fn writes(steps: &[Step]) -> bool {
    let good = expression(&[Step::default()]);
    match with(&[good, expression(steps), good]) {
        None => true,
        found => {
            assert_eq!(found, fault(7, 1));
            false
        }
    }
}

#[test]
fn values_of_steps() {
    let zero = Step::default();
    for value in [0, 1, -1, i64::MIN, i64::MAX] {
        assert!(writes(&[step(0, value)]));
    }
    for value in [0, 1, 9, 255] {
        assert!(writes(&[step(1, value)]));
    }
    for value in [-1, 256, 257, 1 << 56] {
        assert!(!writes(&[step(1, value)]));
    }
    for kind in 2..=3 {
        assert!(writes(&[step(kind, 0)]));
        assert!(!writes(&[step(kind, 1)]));
        assert!(!writes(&[step(kind, 1 << 56)]));
    }
    for kind in 4..=9 {
        assert!(writes(&[zero, zero, step(kind, 0)]));
        assert!(!writes(&[zero, zero, step(kind, 1)]));
    }
    for kind in 10..=11 {
        for places in [0, 1, 63] {
            assert!(writes(&[zero, step(kind, places)]));
        }
        for places in [64, 255, 256, -1] {
            assert!(!writes(&[zero, step(kind, places)]));
        }
    }
    for kind in [12, 13, 255] {
        assert!(!writes(&[step(kind, 0)]));
        assert!(!writes(&[zero, zero, step(kind, 0)]));
    }
}

#[test]
fn counts_of_steps() {
    let (zero, plus, shift) = (Step::default(), step(4, 0), step(10, 1));
    assert!(!writes(&[]));
    assert!(!writes(&[zero, zero]));
    assert!(!writes(&[plus]));
    assert!(!writes(&[shift]));
    assert!(!writes(&[zero, plus]));
    assert!(!writes(&[zero, plus, zero]));
    assert!(!writes(&[zero, zero, zero, plus]));
    assert!(writes(&[zero, zero, plus, shift]));
    assert!(writes(&[zero, zero, zero, plus, plus]));
    let mut sixteen = [zero; 16];
    sixteen[8..15].fill(plus);
    sixteen[15] = shift;
    assert!(writes(&sixteen));
    sixteen[15] = plus;
    assert!(!writes(&sixteen));
    let mut seventeen = expression(&[zero]);
    seventeen.step_count = 17;
    assert_eq!(with(&[seventeen]), fault(7, 0));
}

#[test]
fn steps_past_the_count() {
    for at in [1, 2, 15] {
        for past in [step(4, 0), step(0, 1), step(0, 1 << 56)] {
            let mut record = expression(&[Step::default()]);
            record.steps[at] = past;
            assert_eq!(with(&[record]), fault(7, 0));
        }
    }
}

#[test]
fn faults_in_file_order() {
    let mut d = description_s();
    d.expressions = vec![expression(&[]); 3];
    assert_eq!(check(&bytes(&d)).err(), fault(7, 0));
    d.text[5] = 31;
    assert_eq!(check(&bytes(&d)).err(), fault(6, 5));
    d.pieces[7] = literal(0, 0);
    assert_eq!(check(&bytes(&d)).err(), fault(5, 7));
}

/// Table 0 has one constructor, table 1 one with these operands.
fn used(operands: &[Operand], expressions: &[Expression]) -> Option<Fault> {
    let count = operands.len() as u8;
    let d = Description {
        fields: vec![field(0, 1, 0, 0, 7, 0), field(1, 4, 0, 0, 31, 0)],
        constructors: vec![
            constructor(0, 1, (0, 0), (0, 0), (0, 0)),
            constructor(1, 1, (0, 0), (0, count), (0, 1)),
        ],
        operands: operands.to_vec(),
        pieces: vec![shown(1)],
        expressions: expressions.to_vec(),
        ..Description::default()
    };
    check(&bytes(&d)).err()
}

fn names(number: i64) -> Expression {
    expression(&[step(Step::OPERAND, number)])
}

#[test]
fn operands_of_a_user() {
    let (byte, context) = (operand(0, 0, 0, 0), operand(0, 1, 0, 0));
    let (table, unknown) = (operand(1, 0, 0, 0), operand(3, 0, 0, 0));
    let operands = [computed(0), byte, table, context, computed(0)];
    for (number, fits) in [
        (0, false),
        (1, false),
        (2, true),
        (3, false),
        (4, true),
        (5, false),
        (6, false),
        (255, false),
    ] {
        let found = used(&operands, &[names(number)]);
        assert_eq!(found, if fits { None } else { fault(3, 1) }, "{number}");
    }
    // Operands past the user's are not its own.
    let mut d = description_s();
    d.operands.insert(1, computed(0));
    d.operands[1].index = 0;
    d.expressions = vec![names(2)];
    d.constructors[1].first_operand = 1;
    assert_eq!(check(&bytes(&d)).err(), fault(3, 1));
    d.constructors[1].operand_count = 2;
    d.constructors[2].first_operand = 2;
    assert_eq!(check(&bytes(&d)).err(), None);
    // An unknown kind is no field: the constructor's fault before the operand's.
    assert_eq!(used(&[computed(0), unknown], &[names(2)]), fault(3, 1));
    assert_eq!(used(&[computed(0), unknown], &[names(0)]), fault(3, 1));
    // A field operand with a bad index is one all the same.
    let bad_field = operand(0, 2, 0, 0);
    assert_eq!(used(&[computed(0), bad_field], &[names(2)]), fault(4, 1));
    // Any step counts.
    let last = [step(0, 0), step(1, 2), step(1, 1), step(4, 0), step(4, 0)];
    assert_eq!(
        used(&[computed(0), byte], &[expression(&last)]),
        fault(3, 1)
    );
}

#[test]
fn what_is_no_expression_names_nothing() {
    let two = expression(&[step(1, 0), step(1, 9)]);
    assert_eq!(used(&[computed(0)], &[two]), fault(7, 0));
    let far = expression(&[step(1, 0), step(10, 64)]);
    assert_eq!(used(&[computed(0)], &[far]), fault(7, 0));
    let over = expression(&[step(1, 256)]);
    assert_eq!(used(&[computed(0)], &[over]), fault(7, 0));
}

#[test]
fn nobody_judges_what_nobody_uses() {
    let mut d = description_s();
    d.operands.push(computed(0));
    for number in [0, 1, 9, 255] {
        d.expressions = vec![names(number)];
        assert_eq!(check(&bytes(&d)).err(), None);
    }
}

#[test]
fn the_operand_itself() {
    let byte = operand(0, 0, 0, 0);
    let constant = [expression(&[Step::default()])];
    assert_eq!(used(&[byte, computed(0)], &constant), None);
    let past = computed(1);
    assert_eq!(used(&[byte, past], &constant), fault(4, 1));
    assert_eq!(used(&[byte, computed(0)], &[]), fault(4, 1));
    assert_eq!(used(&[byte, operand(2, 0, 1, 0)], &constant), fault(4, 1));
    assert_eq!(used(&[byte, operand(2, 0, 0, 1)], &constant), fault(4, 1));
    // An anchor that is not earlier is the user's fault, as for all operands.
    assert_eq!(used(&[byte, operand(2, 0, 2, 0)], &constant), fault(3, 1));
    // Unused ones.
    for bad in [past, operand(2, 0, 1, 0), operand(2, 0, 0, 1)] {
        let mut d = description_s();
        d.expressions = constant.to_vec();
        d.operands.push(bad);
        assert_eq!(check(&bytes(&d)).err(), fault(4, 3));
    }
}
