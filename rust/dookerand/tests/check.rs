//! The check through the C face, on description S.

use std::path::{Path, PathBuf};
use std::process::Command;

use dookerand::{check, Answer};

fn s_path() -> PathBuf {
    Path::new(env!("CARGO_MANIFEST_DIR")).join("../../examples/s.description")
}

fn s() -> Vec<u8> {
    std::fs::read(s_path()).unwrap()
}

fn malformed(section: u64, record: u64) -> Answer {
    Answer {
        number: 1,
        values: [section, record, 0, 0],
    }
}

#[test]
fn s_is_well_formed() {
    let well_formed = Answer {
        number: 0,
        values: [0; 4],
    };
    assert_eq!(check(&s()), well_formed);
}

#[test]
fn cut_or_longer() {
    let mut s = s();
    assert_eq!(check(&s[..215]), malformed(6, 65_535));
    s.push(b' ');
    assert_eq!(check(&s), malformed(7, 65_535));
    assert_eq!(check(&[]), malformed(1, 65_535));
}

#[test]
fn a_faulty_record() {
    let mut s = s();
    s[203] = 127;
    assert_eq!(check(&s), malformed(6, 3));
}

#[test]
fn the_program() {
    let printed = |path: PathBuf| {
        let program = env!("CARGO_BIN_EXE_dookerand-check");
        let output = Command::new(program).arg(path).output().unwrap();
        String::from_utf8(output.stdout).unwrap()
    };
    assert_eq!(printed(s_path()), "well formed, 216 bytes\n");
    let manifest = Path::new(env!("CARGO_MANIFEST_DIR")).join("Cargo.toml");
    assert_eq!(printed(manifest), "malformed 1 65535\n");
}
