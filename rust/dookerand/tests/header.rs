//! The header for C: a program that calls each of its functions is compiled
//! with it, linked with the library, run on description S and on a branch with
//! its target, and has the answers that the wrapper has.

use std::fmt::Write;
use std::path::{Path, PathBuf};
use std::process::Command;

use dookerand::Answer;
use generate::bytes;
use generate::example::target;

const CODE: [u8; 2] = [0x25, 0xfe];
const ADDRESS: u32 = 0x1000;
const ALIGNMENT: u32 = 2;
/// One leaf, constructor 0.
const TREE: [u8; 6] = [1, 0, 0, 0, 0, 0];

fn root() -> PathBuf {
    Path::new(env!("CARGO_MANIFEST_DIR")).join("../..")
}

/// The constants, as docs/ANSWERS.md has them.
const CONSTANTS: &str = "\
answers 0 1 2 3 4 5 6 7 8 9 10 11 12 13 14 15 16
rows 0 1 2 3
ends 0 1 2
room 4 4 128 256 275 16382
none 65535
";

fn run(command: &mut Command) -> String {
    let done = command.output().unwrap();
    let said = String::from_utf8_lossy(&done.stderr);
    assert!(done.status.success(), "{command:?}: {said}");
    String::from_utf8(done.stdout).unwrap()
}

#[test]
fn every_function_in_c() {
    let program = Path::new(env!("CARGO_TARGET_TMPDIR")).join("header");
    run(Command::new("cc")
        .args(["-std=c99", "-Wall", "-Wextra", "-Wpedantic", "-Werror"])
        .arg("-I")
        .arg(root().join("include"))
        .arg(root().join("rust/dookerand/tests/header.c"))
        .arg(env!("DOOKERAND_LIBRARY"))
        .arg("-o")
        .arg(&program));
    let s = root().join("examples/s.description");
    let branch = Path::new(env!("CARGO_TARGET_TMPDIR")).join("branch.description");
    std::fs::write(&branch, bytes(&target())).unwrap();
    let printed = run(Command::new(program).args([&s, &branch]));
    let mut expected = CONSTANTS.to_string();
    answers(&mut expected, &std::fs::read(s).unwrap());
    answers(&mut expected, &bytes(&target()));
    assert_eq!(printed, expected);
    assert!(
        printed.contains("build 0 318 0 0 0\n79 0 1 0 "),
        "{printed}"
    );
    assert!(printed.contains("add r5, -0x2....\n"), "{printed}");
    assert!(printed.contains("00001000: add r5, -0x2\n.\n"), "{printed}");
    assert!(printed.contains("00001000: 0xffe\n"), "{printed}");
}

#[test]
fn the_header_is_c_plus_plus_too() {
    run(Command::new("c++")
        .args(["-x", "c++", "-Wall", "-Wextra", "-Werror", "-fsyntax-only"])
        .arg(root().join("include/dookerand.h")));
}

/// What each function answers.
fn answers(out: &mut String, description: &[u8]) {
    let mut built = [0; 320];
    let mut rows = [0; 20];
    let mut text = [b'.'; 16];
    let mut lines = [b'.'; 24];
    line(out, "check", dookerand::check(description));
    line(out, "ask", dookerand::ask(description, 1, 0, &CODE));
    line(out, "clash", dookerand::clash(description, 1));
    line(out, "tree", dookerand::tree(description, 0, &TREE));
    line(out, "build", dookerand::build(description, 1, &mut built));
    numbers(out, &built);
    let decoded = dookerand::decode(description, 0, ADDRESS, &CODE, &mut rows);
    line(out, "decode", decoded);
    numbers(out, &rows);
    let shown = dookerand::text(description, 0, ADDRESS, &CODE, &mut text);
    line(out, "text", shown);
    writeln!(out, "{}", std::str::from_utf8(&text).unwrap()).unwrap();
    let swept = dookerand::sweep(description, 0, ADDRESS, ALIGNMENT, &CODE, &mut rows);
    line(out, "sweep", swept);
    numbers(out, &rows);
    let listed = dookerand::list_answer(description, 0, ADDRESS, ALIGNMENT, &CODE, 0, &mut lines);
    line(out, "list", listed);
    writeln!(out, "{}", std::str::from_utf8(&lines).unwrap()).unwrap();
}

fn line(out: &mut String, request: &str, answer: Answer) {
    let [a, b, c, d] = answer.values;
    writeln!(out, "{request} {} {a} {b} {c} {d}", answer.number).unwrap();
}

fn numbers<T: ToString>(out: &mut String, numbers: &[T]) {
    let numbers: Vec<String> = numbers.iter().map(T::to_string).collect();
    writeln!(out, "{}", numbers.join(" ")).unwrap();
}
