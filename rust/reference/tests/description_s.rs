//! Description S and its answers.

use generate::bytes;
use generate::example::description_s;
use reference::Alignment::One;
use reference::{
    ask, check, decode, decode_text, requests, sweep, Description, End, Fault, Refusal, Row, Taken,
};

fn s() -> Description {
    check(&bytes(&description_s())).unwrap()
}

fn rows(code: &[u8]) -> Result<Vec<Row>, Refusal> {
    decode(&s(), 0, 0, code)
}

fn text(code: &[u8]) -> String {
    String::from_utf8(decode_text(&s(), 0, 0, code).unwrap()).unwrap()
}

fn refusal(code: &[u8]) -> Refusal {
    let refusal = rows(code).unwrap_err();
    assert_eq!(decode_text(&s(), 0, 0, code), Err(refusal));
    refusal
}

#[test]
fn inc() {
    assert_eq!(rows(&[0x13]).unwrap(), [[0, 1, 0, 1], [1, 0, 0, 3]]);
    assert_eq!(text(&[0x13]), "inc r3");
}

#[test]
fn halt() {
    assert_eq!(rows(&[0x1f]).unwrap(), [[0, 3, 0, 1]]);
    assert_eq!(text(&[0x1f]), "halt");
    let taken = Taken {
        constructor: 3,
        weight: 8,
    };
    assert_eq!(ask(&s(), 1, 0, &[0x1f]), Ok(taken));
}

#[test]
fn add() {
    let add = [[0, 2, 0, 2], [1, 0, 0, 5], [0, 0, 1, 1], [1, 1, 1, -2]];
    assert_eq!(rows(&[0x25, 0xfe]).unwrap(), add);
    assert_eq!(text(&[0x25, 0xfe]), "add r5, -0x2");
    assert_eq!(text(&[0x25, 0x80]), "add r5, -0x80");
    assert_eq!(text(&[0x25, 0x7f]), "add r5, 0x7f");
    assert_eq!(text(&[0x25, 0x00]), "add r5, 0x0");
}

#[test]
fn refusals() {
    assert_eq!(refusal(&[0x25]), Refusal::Short { place: 1 });
    assert_eq!(refusal(&[]), Refusal::Short { place: 0 });
    let no_match = Refusal::NoMatch { place: 0, table: 1 };
    assert_eq!(refusal(&[0x30]), no_match);
}

#[test]
fn faults() {
    let fault = |section, record| Err(Fault { section, record });
    let s = bytes(&description_s());
    assert_eq!(s.len(), 216);
    assert_eq!(check(&s[..215]), fault(6, 65_535));
    assert_eq!(check(&[&s[..], b"x"].concat()), fault(7, 65_535));
    assert_eq!(check(&[]), fault(1, 65_535));
}

#[test]
fn every_cut_is_a_fault_of_its_section() {
    let s = bytes(&description_s());
    let ends = [18, 20, 150, 164, 198, 216];
    for cut in 0..s.len() {
        let section = 1 + ends.iter().filter(|&&end| end <= cut).count() as u16;
        let fault = Fault {
            section,
            record: 65_535,
        };
        assert_eq!(check(&s[..cut]), Err(fault), "cut to {cut}");
    }
}

#[test]
fn asked_tables() {
    let taken = |constructor, weight| {
        Ok(Taken {
            constructor,
            weight,
        })
    };
    assert_eq!(ask(&s(), 0, 0, &[]), taken(0, 0));
    assert_eq!(ask(&s(), 1, 0, &[0x13]), taken(1, 4));
    assert_eq!(ask(&s(), 1, 0, &[0x25]), taken(2, 4));
    assert_eq!(ask(&s(), 1, 0, &[]), Err(Refusal::Short { place: 0 }));
    for table in [2, 64, 256, u32::MAX] {
        assert_eq!(ask(&s(), table, 0, &[]), Err(Refusal::NoTable { table }));
    }
}

#[test]
fn swept_code() {
    let code = [0x13, 0x30, 0x1f, 0x25];
    let swept = sweep(&s(), 0, 0, One, &code, 10);
    let rows = [[0, 1, 0, 1], [1, 1, 3, 65_535], [2, 1, 0, 3]];
    assert_eq!(swept.rows, rows);
    assert_eq!((swept.next, swept.end), (3, End::Short));

    let full = sweep(&s(), 0, 0, One, &code, 3);
    assert_eq!((full.rows.len(), full.next, full.end), (3, 3, End::Full));
    let used = sweep(&s(), 0, 0, One, &[0x25, 0x01], 1);
    assert_eq!(used.rows, [[0, 2, 0, 2]]);
    assert_eq!((used.next, used.end), (2, End::Used));
    let empty = sweep(&s(), 0, 0, One, &[], 0);
    assert_eq!((empty.next, empty.end), (0, End::Used));
}

#[test]
fn swept_values() {
    let s = bytes(&description_s());
    let code = [0x13, 0x30, 0x1f, 0x25];
    let values = |code: &[u8], room: usize| {
        let mut lent = vec![0; 4 * room];
        requests::sweep(&s, 0, 0, 1, code, &mut lent).number_and_values()
    };
    assert_eq!(values(&code[..2], 10), (0, [0, 2, 2, 0]));
    assert_eq!(values(&[0x25, 0x01, 0x1f], 1), (0, [1, 1, 2, 0]));
    assert_eq!(values(&code, 10), (0, [2, 3, 3, 0]));
}
