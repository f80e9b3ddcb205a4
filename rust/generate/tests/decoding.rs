//! Descriptions and code for decoding.

use generate::{
    bytes, decodable, instruction_stream, nested_instruction_set, planted, planted_stream,
    table_ranges, with_rows, with_text, Leaning, Rng, Size, LONGEST_TEXT,
};
use reference::Alignment::One;
use reference::{check, clash, decode, decode_text, sweep, Clash, Refusal, Row};

const CODE: usize = 20;

/// How often each answer's number comes up.
fn answers(rng: &mut Rng, leaning: Leaning) -> [usize; 14] {
    let mut answers = [0; 14];
    for _ in 0..1000 {
        let d = decodable(rng, Size::SMALL, leaning);
        let (code, context) = planted(rng, &d, CODE);
        let number = match decode(&d, context, 0, &code) {
            Ok(_) => 0,
            Err(refusal) => refusal.number_and_values().0,
        };
        answers[number as usize] += 1;
    }
    answers
}

#[test]
fn leanings() {
    let rng = &mut Rng::new(13);
    let expected = [
        (Leaning::Done, 0, 700),
        (Leaning::Far, 6, 150),
        (Leaning::Empty, 8, 400),
        (Leaning::Ambiguous, 4, 100),
    ];
    for (leaning, number, least) in expected {
        let answers = answers(rng, leaning);
        assert!(answers[number] >= least, "{leaning:?}: {answers:?}");
    }
}

fn constructors(rows: &[Row]) -> usize {
    rows.iter().filter(|row| row[0] == 0).count()
}

#[test]
fn exact_row_counts() {
    let rng = &mut Rng::new(14);
    let mut most_constructors = 0;
    for i in 0..2000 {
        let count = 1 + i % 40;
        let d = with_rows(rng, count);
        let code: Vec<u8> = (0..16).map(|_| rng.byte()).collect();
        match decode(&d, rng.word() as u32, 0, &code) {
            Ok(rows) => {
                assert_eq!(rows.len(), count);
                most_constructors = most_constructors.max(constructors(&rows));
            }
            Err(refusal) => {
                assert_eq!(refusal, Refusal::TooManyRows);
                assert!(count > 32);
            }
        }
    }
    assert_eq!(most_constructors, 32);
}

#[test]
fn exact_text_lengths() {
    let rng = &mut Rng::new(17);
    for i in 0..3000 {
        let length = i % 300;
        let d = with_text(rng, length);
        let (code, context) = planted(rng, &d, CODE);
        match decode_text(&d, context, 0, &code) {
            Ok(text) => assert_eq!(text.len(), length),
            Err(refusal) => {
                assert_eq!(refusal, Refusal::TextTooLong);
                assert!(length > 256);
            }
        }
    }
}

/// Far longer texts than may be written come from instructions of few enough
/// rows.
#[test]
fn long_texts() {
    let rng = &mut Rng::new(18);
    let mut most_constructors = 0;
    for length in [257, 4_080, 65_536, 65_792, 100_000, LONGEST_TEXT] {
        let d = with_text(rng, length);
        let (code, context) = planted(rng, &d, CODE);
        let rows = decode(&d, context, 0, &code).unwrap();
        most_constructors = most_constructors.max(constructors(&rows));
        let too_long = Err(Refusal::TextTooLong);
        assert_eq!(decode_text(&d, context, 0, &code), too_long);
    }
    assert_eq!(most_constructors, 32);
}

#[test]
fn a_nested_instruction_set_is_clear() {
    for constructors in [8, 200, 512] {
        let d = nested_instruction_set(constructors);
        assert_eq!(check(&bytes(&d)), Ok(d.clone()));
        assert_eq!(d.constructors.len(), constructors);
        for range in table_ranges(&d) {
            let table = d.constructors[range.start].table.into();
            assert_eq!(clash(&d, table), Ok(Clash::Clear));
        }
    }
}

#[test]
fn planted_code_decodes() {
    let rng = &mut Rng::new(15);
    let d = nested_instruction_set(200);
    for _ in 0..5000 {
        let (code, context) = planted(rng, &d, CODE);
        assert!(decode(&d, context, 0, &code).is_ok());
    }
}

/// Each instruction ends where the next one starts, and all tables are met.
#[test]
fn a_stream_of_instructions() {
    let d = nested_instruction_set(200);
    for context in [0, 1] {
        let (code, starts) = instruction_stream(&mut Rng::new(16), &d, context, 5000);
        let mut taken = vec![0; d.constructors.len()];
        let mut end = 0;
        for start in starts {
            assert_eq!(start, end);
            let rows = decode(&d, context, 0, &code[start..]).unwrap();
            for row in rows.iter().filter(|row| row[0] == 0) {
                taken[row[1] as usize] += 1;
            }
            end += rows[0][3] as usize;
        }
        let met = taken.iter().filter(|&&count| count > 0).count();
        assert!(met > 180, "{met} constructors");
        assert!(taken[..6].iter().all(|&count| count > 100), "{taken:?}");
    }
}

/// A planted stream has gaps, but more instructions.
#[test]
fn planted_streams() {
    let rng = &mut Rng::new(19);
    let (mut done, mut gaps) = (0, 0);
    for _ in 0..300 {
        let d = decodable(rng, Size::SMALL, Leaning::Done);
        let length = rng.within(0..=200);
        let (code, context) = planted_stream(rng, &d, length);
        assert_eq!(code.len(), length);
        for row in sweep(&d, context, 0, One, &code, length).rows {
            match row[2] {
                0 => done += 1,
                _ => gaps += 1,
            }
        }
    }
    assert!(done > gaps && gaps > 500, "{done} {gaps}");
}
