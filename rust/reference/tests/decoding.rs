//! Places, limits and the order of refusals in a walk.

use generate::example::{constructor, field, full_featured, literal, name, operand, shown};
use generate::{code, context, well_formed, Rng, Size};
use reference::requests;
use reference::Alignment::One;
use reference::{decode, decode_text, sweep, Description, End, Field, Operand, Refusal, Row};

/// A constructor in table 1 with these operands, and one of one byte with a
/// field in table 0.
fn walk(operands: Vec<Operand>) -> Description {
    let count = operands.len() as u8;
    let first_piece = 1;
    Description {
        fields: vec![field(0, 1, 0, 0, 7, 0), field(1, 4, 0, 0, 31, 0)],
        constructors: vec![
            constructor(0, 1, (0, 0), (0, 1), (0, 1)),
            constructor(1, 0, (0, 0), (1, count), (first_piece, count)),
        ],
        operands: [vec![operand(0, 0, 0, 0)], operands].concat(),
        pieces: [vec![shown(1)], (1..=count).map(shown).collect()].concat(),
        ..Description::default()
    }
}

fn answers(d: &Description, code: &[u8]) -> Result<Vec<Row>, Refusal> {
    let checked = reference::check(&generate::bytes(d));
    decode(&checked.unwrap(), 7, 0, code)
}

#[test]
fn a_context_field_starts_and_ends_with_its_constructor() {
    let d = walk(vec![operand(0, 1, 0, 0), operand(0, 0, 1, 2)]);
    let rows = [[0, 1, 0, 3], [1, 1, 0, 7], [1, 0, 2, 9]];
    assert_eq!(answers(&d, &[0, 0, 9]).unwrap(), rows);
}

#[test]
fn anchors_follow_operand_ends() {
    let d = walk(vec![
        operand(1, 0, 0, 1),
        operand(0, 0, 1, 1),
        operand(0, 0, 0, 0),
    ]);
    let rows = [
        [0, 1, 0, 4],
        [0, 0, 1, 1],
        [1, 0, 1, 6],
        [1, 0, 3, 8],
        [1, 0, 0, 5],
    ];
    assert_eq!(answers(&d, &[5, 6, 7, 8]).unwrap(), rows);
}

#[test]
fn past_the_end_of_the_input() {
    // The inner table's field is the first thing that is short.
    let inner = walk(vec![operand(1, 0, 0, 5)]);
    assert_eq!(answers(&inner, &[1]), Err(Refusal::Short { place: 5 }));
    // A context field past the end is short too.
    let mut context = walk(vec![operand(1, 0, 0, 5)]);
    context.operands[0] = operand(0, 1, 0, 0);
    assert_eq!(answers(&context, &[1]), Err(Refusal::Short { place: 5 }));
    // Nothing there but the constructor's own end, past the whole input.
    let mut empty = walk(vec![operand(1, 0, 0, 5)]);
    empty.constructors[0] = constructor(0, 0, (0, 0), (0, 0), (0, 0));
    assert_eq!(answers(&empty, &[1]), Err(Refusal::Short { place: 5 }));
    assert_eq!(
        answers(&empty, &[1; 5]).unwrap(),
        [[0, 1, 0, 5], [0, 0, 5, 0]]
    );
}

#[test]
fn positions_above_16() {
    let at_16 = walk(vec![operand(0, 0, 0, 15)]);
    assert!(answers(&at_16, &[1; 16]).is_ok());
    let field_end = walk(vec![operand(0, 0, 0, 14), operand(0, 0, 1, 1)]);
    assert_eq!(
        answers(&field_end, &[1; 40]),
        Err(Refusal::TooFar { place: 16 })
    );
    let table_start = walk(vec![operand(0, 0, 0, 14), operand(1, 0, 1, 15)]);
    assert_eq!(
        answers(&table_start, &[1; 40]),
        Err(Refusal::TooFar { place: 30 })
    );
    let mut constructor_end = walk(vec![operand(1, 0, 0, 2)]);
    constructor_end.constructors[0] = constructor(0, 15, (0, 0), (0, 0), (0, 0));
    assert_eq!(
        answers(&constructor_end, &[1; 40]),
        Err(Refusal::TooFar { place: 2 })
    );
}

/// Of several faults at one place the table's order decides, and of faults at
/// several places the walk's.
#[test]
fn the_order_of_refusals() {
    // Far and short: a field, a constructor's start, a constructor's end.
    let field = walk(vec![operand(0, 0, 0, 14), operand(0, 0, 1, 1)]);
    assert_eq!(
        answers(&field, &[1; 15]),
        Err(Refusal::TooFar { place: 16 })
    );
    let mut start = walk(vec![operand(0, 0, 0, 14), operand(1, 0, 1, 15)]);
    start.constructors[0] = constructor(0, 1, (0xff, 0x02), (0, 1), (0, 1));
    assert_eq!(
        answers(&start, &[1; 15]),
        Err(Refusal::TooFar { place: 30 })
    );
    let mut end = walk(vec![operand(1, 0, 0, 2)]);
    end.constructors[0] = constructor(0, 15, (0, 0), (0, 1), (0, 1));
    assert_eq!(answers(&end, &[1; 3]), Err(Refusal::TooFar { place: 2 }));
    // A refusal inside comes before the outer constructor's own.
    end.constructors[0] = constructor(0, 1, (0xff, 0x02), (0, 1), (0, 1));
    end.constructors[1].minimum_length = 16;
    let no_match = Refusal::NoMatch { place: 2, table: 0 };
    assert_eq!(answers(&end, &[1; 3]), Err(no_match));
    assert_eq!(answers(&end, &[2; 3]), Err(Refusal::Short { place: 0 }));
    // Past the input's end choosing still comes before the end's test.
    let mut past = walk(vec![operand(1, 0, 0, 5)]);
    past.constructors[0] = constructor(0, 0, (0, 0), (0, 0), (0, 0));
    past.constructors[0].pattern.context_mask = 8;
    past.constructors[0].pattern.context_value = 8;
    let no_match = Refusal::NoMatch { place: 5, table: 0 };
    assert_eq!(answers(&past, &[1]), Err(no_match));
}

#[test]
fn rows_up_to_32() {
    // Tables 1 to 4 each walk two operands of the table before.
    let tower = |fields: u8| Description {
        fields: vec![field(0, 1, 0, 0, 7, 0)],
        constructors: (0..5)
            .map(|table| match table {
                0 => constructor(0, 1, (0, 0), (0, 0), (0, 0)),
                _ => constructor(table, 0, (0, 0), (2 * u16::from(table) - 2, 2), (0, 0)),
            })
            .chain([constructor(5, 1, (0, 0), (8, fields), (0, 0))])
            .collect(),
        operands: (0..4)
            .flat_map(|table| [operand(1, table, 0, 0); 2])
            .chain([operand(1, 4, 0, 0); 1])
            .chain([operand(0, 0, 0, 0); 7])
            .collect(),
        ..Description::default()
    };
    // 31 rows of table 4 and one of the root.
    assert_eq!(answers(&tower(1), &[1]).unwrap().len(), 32);
    assert_eq!(answers(&tower(2), &[1]), Err(Refusal::TooManyRows));
    // Whatever else is wrong with the 33rd.
    let mut far = tower(2);
    far.operands[9].offset = 15;
    far.fields[0].width = 4;
    assert_eq!(answers(&far, &[1]), Err(Refusal::TooManyRows));
    let swept = sweep(&tower(2), 0, 0, One, &[1], 1);
    assert_eq!(swept.rows, [[0, 1, 7, 65_535]]);
}

#[test]
fn no_length() {
    let d = walk(vec![]);
    assert_eq!(answers(&d, &[]), Err(Refusal::RootLengthZero));
    let swept = sweep(&d, 0, 0, One, &[1], 9);
    assert_eq!(swept.rows, [[0, 1, 8, 65_535]]);
    assert_eq!(swept.end, End::Used);
}

#[test]
fn names_and_holes() {
    let mut d = walk(vec![operand(0, 0, 0, 0)]);
    d.fields[0] = field(0, 1, 0, 4, 5, Field::NAMES);
    d.fields[0].first_name = 1;
    d.names = vec![name(0, 1), name(0, 2), name(2, 0), name(1, 1), name(0, 3)];
    d.text = b"abc".to_vec();
    assert_eq!(answers(&d, &[0x20]).unwrap(), [[0, 1, 0, 1], [2, 0, 0, 3]]);
    assert_eq!(decode_text(&d, 0, 0, &[0x30]).unwrap(), b"abc");
    assert_eq!(answers(&d, &[0x10]), Err(Refusal::Hole { place: 0 }));
    // A hole refuses where it isn't shown, too.
    d.constructors[1].piece_count = 0;
    assert_eq!(answers(&d, &[0x10]), Err(Refusal::Hole { place: 0 }));
    assert_eq!(decode_text(&d, 0, 0, &[0x20]).unwrap(), b"");
}

#[test]
fn looks_orders_and_signs() {
    let shown_as = |field: Field, code: &[u8]| {
        let mut d = walk(vec![operand(0, 0, 0, 0)]);
        d.fields[0] = field;
        d.constructors[1].minimum_length = 1;
        String::from_utf8(decode_text(&d, 0x8000_0001, 0, code).unwrap()).unwrap()
    };
    assert_eq!(shown_as(field(0, 2, 0, 0, 15, 2), &[1, 2]), "0x201");
    assert_eq!(shown_as(field(0, 2, 1, 0, 15, 2), &[1, 2]), "0x102");
    assert_eq!(shown_as(field(0, 3, 1, 8, 23, 2), &[1, 2, 3]), "0x102");
    assert_eq!(shown_as(field(0, 4, 0, 0, 31, 1), &[0xff; 4]), "-1");
    assert_eq!(shown_as(field(0, 4, 0, 0, 31, 0), &[0xff; 4]), "4294967295");
    assert_eq!(
        shown_as(field(0, 4, 0, 0, 31, 3), &[0, 0, 0, 0x80]),
        "-0x80000000"
    );
    assert_eq!(shown_as(field(0, 1, 0, 3, 3, 1), &[8]), "-1");
    assert_eq!(shown_as(field(1, 4, 0, 31, 31, 3), &[0]), "-0x1");
    assert_eq!(shown_as(field(1, 4, 0, 0, 30, 0), &[0]), "1");
}

/// Pieces decide what is shown and in which order, and nothing else.
#[test]
fn shown_operands() {
    let mut d = walk(vec![
        operand(0, 0, 0, 0),
        operand(1, 0, 1, 0),
        operand(0, 1, 0, 0),
    ]);
    d.text = b"; ".to_vec();
    d.pieces
        .extend([shown(3), literal(0, 2), shown(2), literal(0, 1)]);
    let shows = |first_piece, piece_count| {
        let mut d = d.clone();
        d.constructors[1].first_piece = first_piece;
        d.constructors[1].piece_count = piece_count;
        assert_eq!(answers(&d, &[5, 6]).unwrap().len(), 5);
        assert_eq!(answers(&d, &[5]), Err(Refusal::Short { place: 1 }));
        String::from_utf8(decode_text(&d, 7, 0, &[5, 6]).unwrap()).unwrap()
    };
    assert_eq!(shows(1, 3), "567");
    assert_eq!(shows(4, 4), "7; 6;");
    assert_eq!(shows(4, 2), "7; ");
    assert_eq!(shows(4, 0), "");
}

#[test]
fn lent_buffers() {
    let s = generate::bytes(&generate::example::description_s());
    let code = [0x25, 0xfe];
    let mut rows = [77; 17];
    let answer = requests::rows(&s, 0, 0, &code, &mut rows[..15]);
    assert_eq!(answer.number_and_values(), (9, [0; 4]));
    assert_eq!(rows, [77; 17]);
    let answer = requests::rows(&s, 0, 0, &code, &mut rows);
    assert_eq!(answer.number_and_values(), (0, [4, 0, 0, 0]));
    assert_eq!(rows[12..], [1, 1, 1, -2, 77]);
    let mut text = [b'-'; 13];
    let answer = requests::text(&s, 0, 0, &code, &mut text[..11]);
    assert_eq!(answer.number_and_values(), (9, [0; 4]));
    let answer = requests::text(&s, 0, 0, &code, &mut text);
    assert_eq!(answer.number_and_values(), (0, [12, 0, 0, 0]));
    assert_eq!(&text, b"add r5, -0x2-");
    let mut rows = [77; 7];
    let answer = requests::sweep(&s, 0, 0, 1, &[0x13, 0x1f], &mut rows);
    assert_eq!(answer.number_and_values(), (0, [1, 1, 1, 0]));
    assert_eq!(rows, [0, 1, 0, 1, 77, 77, 77]);
}

#[test]
fn too_long_a_text_comes_before_too_little_room() {
    let mut d = walk(vec![operand(0, 0, 0, 0)]);
    d.text = vec![b'x'; 256];
    d.pieces.extend([literal(0, 255), literal(0, 2)]);
    d.constructors[1].piece_count = 2;
    d.constructors[1].first_piece = 2;
    let answer = requests::text(&generate::bytes(&d), 0, 0, &[1], &mut []);
    assert_eq!(answer.number_and_values(), (10, [0; 4]));
    d.pieces[3].n = 1;
    let answer = requests::text(&generate::bytes(&d), 0, 0, &[1], &mut []);
    assert_eq!(answer.number_and_values(), (9, [0; 4]));
}

/// Random instructions meet every refusal of the walk.
#[test]
fn random_instructions() {
    let rng = &mut Rng::new(6);
    let mut answers = [0; 14];
    for _ in 0..10_000 {
        let d = match rng.once_in(50) {
            true => full_featured(),
            false => well_formed(rng, Size::MIDDLE),
        };
        let (code, context) = (code(rng, &d, 20), context(rng, &d));
        let decoded = decode(&d, context, 0, &code);
        let number = match &decoded {
            Ok(rows) => {
                assert!(rows.len() <= 32 && rows[0][3] as usize <= code.len().min(16));
                0
            }
            Err(refusal) => refusal.number_and_values().0,
        };
        answers[number as usize] += 1;
    }
    let met = answers.iter().filter(|&&count| count > 0).count();
    assert_eq!(met, 9, "{answers:?}");
}
