//! The examples of docs/ANSWERS.md.

use generate::bytes;
use generate::example::description_s;
use reference::{requests, Answer};

const ANSWERS: &str = include_str!("../../../docs/ANSWERS.md");

const TABLE: u32 = 1;
const CONTEXT: u32 = 0;

/// The cells of the last chapter's table, without its head.
fn examples() -> Vec<Vec<&'static str>> {
    let (_, chapter) = ANSWERS.split_once("## Examples").unwrap();
    let rows = chapter.lines().filter(|line| line.starts_with('|'));
    let cells = |line: &'static str| line.trim_matches('|').split('|').map(str::trim).collect();
    rows.skip(2).map(cells).collect()
}

/// The request, with the alignment and so many lent if it says so.
fn answer(request: &str, code: &[u8]) -> Answer {
    let s = bytes(&description_s());
    let mut said = request.split(", ");
    let request = said.next().unwrap();
    let (mut alignment, mut lent) = (1, 1000);
    for said in said {
        match said.strip_prefix("alignment ") {
            Some(number) => alignment = number.parse().unwrap(),
            None => lent = said.split(' ').next().unwrap().parse().unwrap(),
        }
    }
    let (mut rows, mut text) = (vec![0; lent], vec![0; lent]);
    match request {
        "check" => requests::check(&s),
        "ask" => requests::ask(&s, TABLE, CONTEXT, code),
        "clash" => requests::clash(&s, TABLE),
        "build" => requests::build(&s, TABLE, &mut text),
        "decode" => requests::rows(&s, CONTEXT, 0, code, &mut rows),
        "text" => requests::text(&s, CONTEXT, 0, code, &mut text),
        "sweep" => requests::sweep(&s, CONTEXT, 0, alignment, code, &mut rows),
        "list" => requests::list(&s, CONTEXT, 0, alignment, code, 0, &mut text),
        _ => panic!("unknown request {request}"),
    }
}

#[test]
fn as_written() {
    let examples = examples();
    assert!(examples.len() > 15);
    for row in examples {
        let byte = |digits| u8::from_str_radix(digits, 16).unwrap();
        let code: Vec<u8> = row[1].split_whitespace().map(byte).collect();
        let mut values = [0; 4];
        let written = row[3].split(", ").filter(|value| !value.is_empty());
        for (value, written) in values.iter_mut().zip(written) {
            *value = written.parse().unwrap();
        }
        let expected = (row[2].parse().unwrap(), values);
        assert_eq!(
            answer(row[0], &code).number_and_values(),
            expected,
            "{row:?}"
        );
    }
}
