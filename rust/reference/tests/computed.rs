//! Computed operands: values, their order among the refusals, and addresses.

use generate::bytes;
use generate::example::{
    branch, computed, constructor, description_s, expression, field, literal, name, operand, shown,
    step, target,
};
use reference::Alignment::One;
use reference::{
    check, decode, decode_text, list, listing, requests, sweep, Description, Expression, Field,
    Operand, Refusal, Row, Step,
};

const CONSTANT: u8 = Step::CONSTANT;
const OPERAND: u8 = Step::OPERAND;

fn text(d: &Description, address: u32, code: &[u8]) -> Result<String, Refusal> {
    decode_text(d, 0, address, code).map(|text| String::from_utf8(text).unwrap())
}

#[test]
fn a_branch_target() {
    let d = target();
    let rows = [[0, 0, 0, 2], [1, 0, 1, -2], [3, 0, 0, 0xfe]];
    assert_eq!(decode(&d, 0, 0x100, &[0x25, 0xfe]).unwrap(), rows);
    assert_eq!(text(&d, 0x100, &[0x25, 0xfe]).unwrap(), "0xfe");
    assert_eq!(text(&d, 0x100, &[0x25, 0x7f]).unwrap(), "0x200");
    assert_eq!(text(&d, 0, &[0x25, 0xfe]).unwrap(), "-0x2");
    assert_eq!(text(&d, 0, &[0x25, 0xff]).unwrap(), "0x0");
    // No address wraps.
    assert_eq!(text(&d, u32::MAX, &[0x25, 0x00]).unwrap(), "0x100000001");
    assert_eq!(text(&d, u32::MAX, &[0x25, 0xff]).unwrap(), "0xffffffff");
}

/// What steps without operands come to at address 2^31; 2 bytes long.
fn value(steps: &[Step]) -> Option<i64> {
    match decode(&branch(steps), 0, 1 << 31, &[0x25, 5]) {
        Ok(rows) => Some(rows[2][3]),
        Err(refusal) => {
            assert_eq!(refusal, Refusal::Outside { place: 0 });
            None
        }
    }
}

fn operated(left: i64, kind: u8, right: i64) -> Option<i64> {
    value(&[step(CONSTANT, left), step(CONSTANT, right), step(kind, 0)])
}

fn shifted(left: i64, kind: u8, places: i64) -> Option<i64> {
    value(&[step(CONSTANT, left), step(kind, places)])
}

const MIN: i64 = i64::MIN;
const MAX: i64 = i64::MAX;

#[test]
fn plus_minus_times() {
    assert_eq!(operated(MAX, Step::PLUS, 0), Some(MAX));
    assert_eq!(operated(MAX, Step::PLUS, 1), None);
    assert_eq!(operated(MIN, Step::PLUS, -1), None);
    assert_eq!(operated(MIN, Step::PLUS, MAX), Some(-1));
    assert_eq!(operated(7, Step::MINUS, 9), Some(-2));
    assert_eq!(operated(0, Step::MINUS, MIN), None);
    assert_eq!(operated(-1, Step::MINUS, MIN), Some(MAX));
    assert_eq!(operated(MIN, Step::MINUS, 1), None);
    assert_eq!(operated(MIN, Step::TIMES, 1), Some(MIN));
    assert_eq!(operated(MIN, Step::TIMES, -1), None);
    assert_eq!(operated(-1, Step::TIMES, MIN), None);
    assert_eq!(operated(1 << 31, Step::TIMES, -(1 << 32)), Some(MIN));
    assert_eq!(operated(1 << 31, Step::TIMES, 1 << 32), None);
    assert_eq!(operated(MIN, Step::TIMES, MIN), None);
    assert_eq!(operated(3, Step::TIMES, -5), Some(-15));
}

#[test]
fn bit_operators() {
    assert_eq!(operated(-1, Step::AND, 0xff), Some(0xff));
    assert_eq!(operated(-2, Step::AND, -4), Some(-4));
    assert_eq!(operated(MIN, Step::AND, MAX), Some(0));
    assert_eq!(operated(MIN, Step::OR, MAX), Some(-1));
    assert_eq!(operated(0x0f, Step::OR, 0xf1), Some(0xff));
    assert_eq!(operated(-16, Step::OR, 3), Some(-13));
    assert_eq!(operated(MIN, Step::EXCLUSIVE_OR, -1), Some(MAX));
    assert_eq!(operated(5, Step::EXCLUSIVE_OR, -1), Some(-6));
    assert_eq!(operated(-5, Step::EXCLUSIVE_OR, -1), Some(4));
}

#[test]
fn shifts() {
    assert_eq!(shifted(1, Step::SHIFT_LEFT, 62), Some(1 << 62));
    assert_eq!(shifted(1, Step::SHIFT_LEFT, 63), None);
    assert_eq!(shifted(-1, Step::SHIFT_LEFT, 63), Some(MIN));
    assert_eq!(shifted(-2, Step::SHIFT_LEFT, 63), None);
    assert_eq!(shifted(0, Step::SHIFT_LEFT, 63), Some(0));
    assert_eq!(shifted(MIN, Step::SHIFT_LEFT, 0), Some(MIN));
    assert_eq!(shifted(MIN, Step::SHIFT_LEFT, 1), None);
    assert_eq!(shifted(-3, Step::SHIFT_RIGHT, 1), Some(-2));
    assert_eq!(shifted(3, Step::SHIFT_RIGHT, 1), Some(1));
    assert_eq!(shifted(-1, Step::SHIFT_RIGHT, 63), Some(-1));
    assert_eq!(shifted(MIN, Step::SHIFT_RIGHT, 63), Some(-1));
    assert_eq!(shifted(MAX, Step::SHIFT_RIGHT, 63), Some(0));
    assert_eq!(shifted(MIN, Step::SHIFT_RIGHT, 0), Some(MIN));
    // Left and back right.
    let there = [step(CONSTANT, 1), step(Step::SHIFT_LEFT, 63)];
    let and_back = [&there[..], &[step(Step::SHIFT_RIGHT, 63)]].concat();
    assert_eq!(value(&and_back), None);
}

/// The left one is pushed first, and each result is tested.
#[test]
fn the_stack() {
    let c = |value| step(CONSTANT, value);
    let (plus, minus) = (step(Step::PLUS, 0), step(Step::MINUS, 0));
    assert_eq!(value(&[c(1), c(2), c(3), minus, minus]), Some(2));
    assert_eq!(value(&[c(1), c(2), minus, c(3), minus]), Some(-4));
    assert_eq!(value(&[c(MAX), c(1), plus, c(1), minus]), None);
    assert_eq!(value(&[c(MAX), c(1), c(1), minus, plus]), Some(MAX));
    // Five of the operand, 2^31 and two bytes more.
    let (of, after) = (step(Step::ADDRESS, 0), step(Step::ADDRESS_AFTER, 0));
    assert_eq!(value(&[of]), Some(1 << 31));
    assert_eq!(value(&[after]), Some((1 << 31) + 2));
    assert_eq!(value(&[after, of, minus]), Some(2));
    assert_eq!(value(&[step(OPERAND, 1), of, minus]), Some(5 - (1 << 31)));
}

#[test]
fn shown_as_signed_hex() {
    let shown = |value| text(&branch(&[step(CONSTANT, value)]), 0, &[0x25, 0]).unwrap();
    assert_eq!(shown(0), "0x0");
    assert_eq!(shown(-1), "-0x1");
    assert_eq!(shown(0x1234_5678_9abc), "0x123456789abc");
    assert_eq!(shown(MAX), "0x7fffffffffffffff");
    assert_eq!(shown(MIN), "-0x8000000000000000");
}

/// Table 0 with these operands and minimum, inside table 1, at this offset.
fn inner(operands: &[Operand], minimum: u8, offset: u8, steps: &[Step]) -> Description {
    let count = operands.len() as u8;
    let d = Description {
        fields: vec![
            field(0, 1, 0, 0, 7, Field::UNSIGNED_DECIMAL),
            field(1, 4, 0, 0, 31, Field::SIGNED_DECIMAL),
        ],
        constructors: vec![
            constructor(0, minimum, (0, 0), (1, count), (1, count)),
            constructor(1, 1, (0, 0), (0, 1), (0, 1)),
        ],
        operands: [&[operand(1, 0, 0, offset)], operands].concat(),
        pieces: [vec![shown(1)], (1..=count).map(shown).collect()].concat(),
        expressions: vec![expression(steps)],
        ..Description::default()
    };
    check(&bytes(&d)).unwrap()
}

/// The address after is behind the root, wherever the operand is.
#[test]
fn the_address_after_an_inner_constructor() {
    let after = [step(Step::ADDRESS_AFTER, 0)];
    let mut d = inner(&[computed(0)], 1, 2, &after);
    let rows: [Row; 3] = [[0, 1, 0, 3], [0, 0, 2, 1], [3, 0, 2, 0x13]];
    assert_eq!(decode(&d, 0, 0x10, &[0; 5]).unwrap(), rows);
    d.constructors[1].minimum_length = 5;
    assert_eq!(decode(&d, 0, 0x10, &[0; 5]).unwrap()[2], [3, 0, 2, 0x15]);
}

/// Start and end are the constructor's start, and it adds no length.
#[test]
fn no_bytes() {
    let byte = operand(0, 0, 1, 1);
    let d = inner(&[computed(0), byte], 0, 1, &[step(CONSTANT, 9)]);
    let rows = [[0, 1, 0, 3], [0, 0, 1, 2], [3, 0, 1, 9], [1, 0, 2, 7]];
    assert_eq!(decode(&d, 0, 0, &[5, 6, 7]).unwrap(), rows);
    // Behind a field it is still at the start, and so is what it anchors.
    let byte = operand(0, 0, 0, 2);
    let after = operand(0, 0, 2, 1);
    let d = inner(&[byte, computed(0), after], 0, 0, &[step(CONSTANT, 9)]);
    let rows = [
        [0, 1, 0, 3],
        [0, 0, 0, 3],
        [1, 0, 2, 7],
        [3, 0, 0, 9],
        [1, 0, 1, 6],
    ];
    assert_eq!(decode(&d, 0, 0, &[5, 6, 7]).unwrap(), rows);
    // Nothing but computed operands has no length, whatever they come to.
    let outside = [step(CONSTANT, 1), step(Step::SHIFT_LEFT, 63)];
    let mut d = inner(&[computed(0)], 0, 0, &outside);
    assert_eq!(decode(&d, 0, 0, &[1]), Err(Refusal::Outside { place: 0 }));
    d.constructors[1].minimum_length = 0;
    assert_eq!(decode(&d, 0, 0, &[1]), Err(Refusal::RootLengthZero));
}

/// Short in a constructor past the input's end, and nowhere else.
#[test]
fn past_the_end_of_the_input() {
    let d = inner(&[computed(0)], 0, 5, &[step(CONSTANT, 9)]);
    assert_eq!(decode(&d, 0, 0, &[1; 4]), Err(Refusal::Short { place: 5 }));
    let rows = [[0, 1, 0, 5], [0, 0, 5, 0], [3, 0, 5, 9]];
    assert_eq!(decode(&d, 0, 0, &[1; 5]).unwrap(), rows);
}

#[test]
fn a_row_like_others() {
    // Each table but the first has the one before and seven computed operands.
    let tower = |last: u8| Description {
        constructors: vec![
            constructor(0, 1, (0, 0), (0, 8), (0, 0)),
            constructor(1, 1, (0, 0), (8, 8), (0, 0)),
            constructor(2, 1, (0, 0), (16, 8), (0, 0)),
            constructor(3, 1, (0, 0), (24, last), (0, 0)),
        ],
        operands: (0..32)
            .map(|i: u8| match i {
                8 | 16 | 24 => operand(1, i / 8 - 1, 0, 0),
                _ => computed(0),
            })
            .collect(),
        expressions: vec![expression(&[step(CONSTANT, 1), step(Step::SHIFT_LEFT, 63)])],
        ..Description::default()
    };
    // 9, 8 and 8 rows of tables 0 to 2, and 7 of the root.
    let mut seven = tower(7);
    assert_eq!(
        decode(&seven, 0, 0, &[1]),
        Err(Refusal::Outside { place: 0 })
    );
    seven.expressions = vec![expression(&[step(CONSTANT, 1)])];
    assert_eq!(decode(&seven, 0, 0, &[1]).unwrap().len(), 32);
    assert_eq!(decode(&tower(8), 0, 0, &[1]), Err(Refusal::TooManyRows));
}

#[test]
fn operands_by_number() {
    // Later ones, and the context.
    let (byte, context) = (operand(0, 0, 0, 0), operand(0, 1, 0, 0));
    let difference = [step(OPERAND, 3), step(OPERAND, 2), step(Step::MINUS, 0)];
    let d = inner(&[computed(0), byte, context], 0, 0, &difference);
    let computed = |context| decode(&d, context, 0, &[200]).unwrap()[2];
    assert_eq!(computed(7), [3, 0, 0, 7 - 200]);
    // The context's look is signed here, the byte's is not.
    assert_eq!(computed(u32::MAX), [3, 0, 0, -201]);
}

#[test]
fn a_name_field_counts_its_bits() {
    let mut d = inner(
        &[operand(0, 0, 0, 0), computed(0)],
        0,
        0,
        &[step(OPERAND, 1)],
    );
    d.fields[0] = field(0, 1, 0, 4, 5, Field::NAMES);
    d.fields[0].first_name = 3;
    d.names = vec![name(0, 1); 7];
    d.text = b"x".to_vec();
    let rows = decode(&d, 0, 0, &[0x20]).unwrap();
    assert_eq!(rows[2..], [[2, 0, 0, 5], [3, 0, 0, 2]]);
    assert_eq!(text(&d, 0, &[0x20]).unwrap(), "x0x2");
    d.names[5].length = 0;
    assert_eq!(decode(&d, 0, 0, &[0x20]), Err(Refusal::Hole { place: 0 }));
}

const OUTSIDE: [Step; 2] = [
    Step {
        kind: CONSTANT,
        value: 1,
    },
    Step {
        kind: Step::SHIFT_LEFT,
        value: 63,
    },
];

/// Every refusal of the walk comes first, also one that is met later.
#[test]
fn after_the_walk() {
    let byte = operand(0, 0, 0, 3);
    let d = inner(&[computed(0), byte], 0, 1, &OUTSIDE);
    assert_eq!(decode(&d, 0, 0, &[1; 4]), Err(Refusal::Short { place: 4 }));
    let outside = Refusal::Outside { place: 1 };
    assert_eq!(decode(&d, 0, 0, &[1; 5]), Err(outside));
    assert_eq!(outside.number_and_values(), (13, [1, 0, 0, 0]));
    // Not shown, too.
    let mut hidden = d.clone();
    hidden.constructors[0].piece_count = 0;
    assert_eq!(text(&hidden, 0, &[1; 5]), Err(outside));
    assert_eq!(decode(&hidden, 0, 0, &[1; 5]), Err(outside));
}

/// Before too long a text, and before too little room.
#[test]
fn before_the_limits_of_writing() {
    let mut d = inner(&[computed(0)], 1, 1, &OUTSIDE);
    d.text = vec![b'x'; 255];
    d.pieces = vec![shown(1), literal(0, 255), literal(0, 255)];
    d.constructors[0].piece_count = 2;
    let outside = (13, [1, 0, 0, 0]);
    let given = |d: &Description| bytes(d);
    let answer = requests::text(&given(&d), 0, 0, &[1, 2], &mut []);
    assert_eq!(answer.number_and_values(), outside);
    let answer = requests::rows(&given(&d), 0, 0, &[1, 2], &mut []);
    assert_eq!(answer.number_and_values(), outside);
    d.expressions = vec![expression(&[Step::default()])];
    let answer = requests::text(&given(&d), 0, 0, &[1, 2], &mut []);
    assert_eq!(answer.number_and_values(), (10, [0; 4]));
}

/// The first in row order has its place told.
#[test]
fn the_first_of_several() {
    let table = |offset| operand(1, 0, 0, offset);
    let d = |operands: [Operand; 3], expressions: [Expression; 2]| {
        let d = Description {
            constructors: vec![
                constructor(0, 1, (0, 0), (3, 1), (0, 0)),
                constructor(1, 1, (0, 0), (0, 3), (0, 0)),
            ],
            operands: [&operands[..], &[computed(0)]].concat(),
            expressions: expressions.to_vec(),
            ..Description::default()
        };
        decode(&check(&bytes(&d)).unwrap(), 0, 0, &[0; 9])
    };
    let (bad, good) = (expression(&OUTSIDE), expression(&[Step::default()]));
    let own = computed(1);
    let outside = |place| Err(Refusal::Outside { place });
    assert_eq!(d([table(3), own, table(5)], [bad, bad]), outside(3));
    assert_eq!(d([own, table(3), table(5)], [bad, bad]), outside(0));
    assert_eq!(d([own, table(3), table(5)], [bad, good]), outside(3));
    assert_eq!(d([table(5), table(3), own], [bad, good]), outside(5));
    assert_eq!(d([table(5), table(3), own], [good, bad]), outside(0));
}

#[test]
fn a_sweep_counts_addresses_on() {
    let d = target();
    let code = [0x25, 0x00, 0x25, 0xff, 0x30, 0x25];
    let rows = [[0, 2, 0, 0], [2, 2, 0, 0], [4, 1, 3, 65_535]];
    assert_eq!(sweep(&d, 0, u32::MAX, One, &code, 9).rows, rows);
    let lines = |address: u32, from: u64| {
        let listed = list(&d, 0, address, One, &code, from, 1000);
        String::from_utf8(listed.text).unwrap()
    };
    let all = "\
        00001000: 0x1002\n\
        00001002: 0x1002\n\
        00001004: .byte 0x30\n\
        00001005: .short\n";
    assert_eq!(lines(0x1000, 0), all);
    assert_eq!(lines(0x1000, 2), all[17..]);
    let far = "\
        fffffffe: 0x100000000\n\
        100000000: 0x100000000\n\
        100000002: .byte 0x30\n\
        100000003: .short\n";
    assert_eq!(lines(u32::MAX - 1, 0), far);
}

/// 13 is a gap, here from the address 2^31 on.
#[test]
fn gaps() {
    let d = branch(&[step(Step::ADDRESS, 0), step(Step::SHIFT_LEFT, 32)]);
    let code = [0x25, 0x25, 0x25, 0x25];
    let swept = sweep(&d, 0, (1 << 31) - 2, One, &code, 9);
    let rows = [[0, 2, 0, 0], [2, 1, 13, 65_535]];
    assert_eq!(swept.rows[..2], rows);
    let listed = list(&d, 0, (1 << 31) - 2, One, &code[..3], 0, 1000);
    let lines = "7ffffffe: 0x7ffffffe00000000\n80000000: .short\n";
    assert_eq!(listed.text, lines.as_bytes());
    let listed = list(&d, 0, 1 << 31, One, &code[..2], 0, 1000);
    let lines = "80000000: .byte 0x25\n80000001: .short\n";
    assert_eq!(listed.text, lines.as_bytes());
}

#[test]
fn the_program_begins_at_address_0() {
    let description = bytes(&target());
    let length = (description.len() as u16).to_le_bytes();
    let code = [0x25, 0x00, 0x25, 0x80];
    let printed = listing(&[&length[..], &description, &code].concat());
    assert_eq!(printed, b"00000000: 0x2\n00000002: -0xfc\n");
}

/// Without expressions the address changes nothing.
#[test]
fn s_at_any_address() {
    let s = description_s();
    for address in [0, 1, u32::MAX] {
        let code = [0x25, 0xfe];
        assert_eq!(text(&s, address, &code).unwrap(), "add r5, -0x2");
    }
}
