//! Times the proved library: every request beside the reference, sweeps and
//! decodings beside the simplest fast scan, expressions beside a plain
//! evaluation, the field read beside the one that it replaced and a plain one,
//! and AVR code beside other disassemblers. `bench details` says more about some
//! requests, in processor time; `bench fields` times the field read alone, `bench
//! build` the building of trees.
//!
//! `bench one` makes exactly one proved check of the longest description,
//! for counting instructions; `bench one-ask` one question to a table of 512
//! constructors, `bench one-clash` its clash check, `bench one-tree` the check
//! of a tree of 4,095 nodes for it, and `bench one-check` the check of the
//! description that those three begin with; `bench one-decode` decodes one
//! instruction of a set of 200 constructors to rows, `bench one-text` to text,
//! `bench one-sweep` sweeps 64 KiB of them, and `bench one-decode-check` is the
//! check that these three begin with; `bench one-avr-sweep` sweeps 64 KiB of
//! AVR code; `bench one-build` builds a tree of 4,095 nodes, and `bench
//! one-build-check` is the check that it begins with.

mod against_scan;
mod building;
mod choosing;
mod clock;
mod decoding;
mod expressions;
mod field_reads;
mod processes;
mod scan;
mod speed;
mod subjects;
mod sweep;
mod table;
mod text;
mod timing;
mod trees;

use std::hint::black_box;

use dookerand::Answer;
use generate::example::description_s;
use generate::{bytes, longest};

use clock::median;
use timing::{print, rounds, MANY};

/// Requests that are made once.
const ONES: [&str; 12] = [
    "one",
    "one-ask",
    "one-clash",
    "one-check",
    "one-tree",
    "one-decode",
    "one-text",
    "one-sweep",
    "one-decode-check",
    "one-avr-sweep",
    "one-build",
    "one-build-check",
];

fn main() {
    match std::env::args().nth(1).as_deref() {
        None => overview(),
        Some("details") => details(),
        Some("fields") => field_reads::print(),
        Some("build") => building::print(),
        Some("one") => print_answer(dookerand::check(black_box(&bytes(&longest())))),
        Some("one-ask") => print_answer(choosing::one_ask()),
        Some("one-clash") => print_answer(choosing::one_clash()),
        Some("one-check") => print_answer(choosing::one_check()),
        Some("one-tree") => print_answer(trees::one_tree()),
        Some("one-decode") => print_answer(decoding::one_decode()),
        Some("one-text") => print_answer(text::one_text()),
        Some("one-sweep") => print_answer(sweep::one_sweep()),
        Some("one-avr-sweep") => print_answer(sweep::one_avr_sweep()),
        Some("one-decode-check") => print_answer(decoding::one_check()),
        Some("one-build") => print_answer(building::one_build()),
        Some("one-build-check") => print_answer(building::one_check()),
        Some(_) => {
            let ones = ONES.join(" | ");
            eprintln!("usage: bench [details | fields | build | {ones}]");
            std::process::exit(2);
        }
    }
}

fn overview() {
    table::print();
    building::print();
    against_scan::print();
    expressions::print();
    field_reads::print();
    speed::print();
    let cores = std::thread::available_parallelism().map_or(1, usize::from);
    println!("{cores} cores; every time is the median of rounds in which the jobs take turns. CPU is the");
    println!(
        "time that the processor worked, and ratios are of it; wall is the time that went by."
    );
}

fn details() {
    check("longest", &bytes(&longest()), 10);
    check("S", &bytes(&description_s()), 5_000);
    choosing::all();
    trees::all();
    building::all();
    decoding::all();
    text::all();
    sweep::all();
}

fn print_answer(answer: Answer) {
    println!("{} {:?}", answer.number, answer.values);
}

fn check(name: &str, description: &[u8], calls: usize) {
    let proved = |_| proved_check(description);
    let reference = |_| reference_check(description);
    let [proved, reference] = rounds(MANY, calls, [&proved, &reference]);
    let name = format!("check of {name}, {} bytes", description.len());
    print(&name, median(&proved), median(&reference));
}

fn proved_check(description: &[u8]) {
    let answer = dookerand::check(black_box(description));
    assert_eq!(black_box(answer).number, 0);
}

fn reference_check(description: &[u8]) {
    let checked = reference::check(black_box(description));
    assert!(black_box(checked).is_ok());
}
