//! AVR code: bytes a second, beside other disassemblers on the same code.

use std::cell::RefCell;
use std::hint::black_box;

use dookerand::Listing;
use generate::bytes;
use reference::Alignment;

use crate::clock::{median, Time};
use crate::processes::{cstool, listing, objdump};
use crate::scan::Scan;
use crate::subjects::{any_instructions, avr_description};
use crate::sweep::ALIGNMENT;
use crate::timing::{rounds_of, Job};

/// Bytes of code.
const CODE: usize = 1024 * 1024;

/// For runs of a second or more.
const ROUNDS: usize = 5;

/// Of the checks that texts begin with, one in so many is timed.
const CHECKS: usize = 16;

const CONTEXT: u32 = 0;
const ADDRESS: u32 = 0;

const ROW_NUMBERS: usize = 4;
const TEXT: usize = 256;
/// Bytes that are lent to the listing.
const LINES: usize = 64 * 1024;

pub fn print() {
    let d = avr_description();
    let description = bytes(&d);
    let (code, starts) = any_instructions(&d, CODE);
    let (size, instructions) = (code.len(), starts.len());
    let lent = RefCell::new(vec![0; ROW_NUMBERS * instructions]);
    let sweep = |_| {
        let rows = &mut *black_box(lent.borrow_mut());
        let (bytes, code) = (black_box(&description), black_box(&code));
        let answer = dookerand::sweep(bytes, CONTEXT, ADDRESS, ALIGNMENT, code, rows);
        let all = [0, instructions as u64, size as u64, 0];
        assert_eq!((black_box(answer).number, answer.values), (0, all));
    };
    let reference_sweep = |_| {
        let (d, code) = (black_box(&d), black_box(&code));
        let swept = reference::sweep(d, CONTEXT, ADDRESS, Alignment::One, code, instructions);
        assert_eq!(black_box(swept).rows.len(), instructions);
    };
    let scan = Scan::<4>::new(&d);
    let scan_lent = RefCell::new(vec![0; ROW_NUMBERS * instructions]);
    let scan_sweep = |_| {
        let rows = &mut *black_box(scan_lent.borrow_mut());
        let (scan, code) = (black_box(&scan), black_box(&code));
        let (_, written, _) = scan.sweep(CONTEXT, ADDRESS, ALIGNMENT, code, rows);
        assert_eq!(black_box(written), instructions);
    };
    let texts = |call| {
        sweep(call);
        let mut text = [0; TEXT];
        for row in lent.borrow().chunks(ROW_NUMBERS) {
            let rest = &code[row[0] as usize..];
            let bytes = black_box(&description);
            let answer = dookerand::text(bytes, CONTEXT, ADDRESS, rest, &mut text);
            assert_eq!(black_box(answer).number, 0);
            black_box(&text);
        }
    };
    let lines = |_| {
        let mut text = [0; LINES];
        let (mut next, mut full, mut listed) = (0, true, 0);
        while full {
            let bytes = black_box(&description);
            let code = black_box(&code);
            let part = dookerand::list(bytes, CONTEXT, ADDRESS, ALIGNMENT, code, next, &mut text);
            let Listing::Listed {
                lines,
                next: behind,
                full: more,
                ..
            } = black_box(part)
            else {
                panic!("it is not refused");
            };
            black_box(&text);
            (next, full, listed) = (behind, more, listed + lines);
        }
        assert_eq!(listed, instructions);
    };
    let checks = |_| {
        for _ in 0..instructions / CHECKS {
            let answer = dookerand::check(black_box(&description));
            assert_eq!(black_box(answer).number, 0);
        }
    };
    let others = [
        listing(&description, &code, &starts),
        objdump(&code),
        cstool(size),
    ];
    let found = || others.iter().flatten();
    let run: Vec<_> = found().map(|program| |_| program.run()).collect();
    let mut jobs: Vec<Job> = vec![
        &sweep,
        &reference_sweep,
        &scan_sweep,
        &lines,
        &texts,
        &checks,
    ];
    jobs.extend(run.iter().map(|run| run as Job));
    let times = rounds_of(ROUNDS, 1, &jobs);
    let times: Vec<Time> = times.iter().map(|times| median(times)).collect();
    let line = |name: &str, time: Time, writes: &str| {
        let speed = size as f64 / time.cpu;
        let [cpu, wall] = [time.cpu / 1e3, time.wall / 1e3];
        println!("{name:24}{cpu:>10.1}{wall:>10.1}{speed:>10.2}  {writes}");
    };
    println!("AVR, {size} bytes of any opcodes that decode, {instructions} instructions");
    println!("                           CPU, ms  wall, ms  MB/s CPU  writes");
    line("proved sweep", times[0], "rows");
    line("reference sweep", times[1], "rows");
    line("scan sweep, by fours", times[2], "rows");
    let by_parts = format!("lines, in parts of up to {LINES} bytes");
    line("proved list", times[3], &by_parts);
    let by_calls = "rows, then each text by a call, which checks the description";
    line("proved sweep and texts", times[4], by_calls);
    let without_checks = times[4] - times[5].times(CHECKS);
    line("  without those checks", without_checks, "the same");
    for (program, &time) in found().zip(&times[6..]) {
        line(program.name, time, &program.writes);
    }
    for why in others.iter().filter_map(|other| other.as_ref().err()) {
        println!("{why}");
    }
    println!("Programs are timed from start to end; what they write is thrown away.");
}
