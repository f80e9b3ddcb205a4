//! One table: every request on every description.

use std::cell::RefCell;
use std::hint::black_box;

use reference::requests;

use crate::subjects::Subject;
use crate::sweep::{ALIGNMENT, CODE};
use crate::timing::medians_of;

/// Numbers for the most rows of an instruction, and bytes for its longest text.
const ROWS: usize = 128;
const TEXT: usize = 256;

const ROW_NUMBERS: usize = 4;

const ADDRESS: u32 = 0;

/// Makes the request of the proved library, and of the reference.
type Jobs<'a> = [Box<dyn Fn(usize) + 'a>; 2];

type Request = fn(&Subject) -> Jobs<'_>;

const REQUESTS: [(&str, Request); 7] = [
    ("check", check),
    ("ask", ask),
    ("clash", clash),
    ("tree check", tree),
    ("decode", decode),
    ("text", text),
    ("sweep", sweep),
];

pub fn print() {
    let subjects = Subject::all(CODE);
    let (mut names, mut jobs) = (Vec::new(), Vec::new());
    for (request, of) in REQUESTS {
        for subject in &subjects {
            names.push((request, subject.name));
            jobs.push(of(subject));
        }
    }
    println!("                             CPU, us                        wall, us");
    println!("request     description       proved   reference   ratio      proved   reference");
    for ((request, name), [proved, reference]) in names.into_iter().zip(medians_of(&jobs)) {
        let ratio = proved.cpu / reference.cpu;
        println!(
            "{request:12}{name:12}{:>12.3}{:>12.3}{ratio:>8.2}{:>12.3}{:>12.3}",
            proved.cpu, reference.cpu, proved.wall, reference.wall,
        );
    }
    for subject in &subjects {
        subject.print();
    }
    println!("Times are of a whole call, which checks its description first. Ask, decode and text");
    println!("take another instruction at each call; a sweep takes {CODE} bytes.");
}

fn done(answer: dookerand::Answer) {
    assert_eq!(black_box(answer).number, 0);
}

fn reference_done(answer: reference::Answer) {
    assert_eq!(black_box(answer.number_and_values()).0, 0);
}

impl Subject {
    fn bytes(&self) -> &[u8] {
        black_box(&self.set.bytes)
    }

    /// An instruction, another one at each call.
    fn code(&self, call: usize) -> &[u8] {
        self.set.code(call)
    }
}

fn check(s: &Subject) -> Jobs<'_> {
    [
        Box::new(|_| done(dookerand::check(s.bytes()))),
        Box::new(|_| reference_done(requests::check(s.bytes()))),
    ]
}

fn ask(s: &Subject) -> Jobs<'_> {
    [
        Box::new(|call| done(dookerand::ask(s.bytes(), s.table, s.context, s.code(call)))),
        Box::new(|call| {
            let answer = requests::ask(s.bytes(), s.table, s.context, s.code(call));
            reference_done(answer);
        }),
    ]
}

fn clash(s: &Subject) -> Jobs<'_> {
    [
        Box::new(|_| done(dookerand::clash(s.bytes(), s.table))),
        Box::new(|_| reference_done(requests::clash(s.bytes(), s.table))),
    ]
}

fn tree(s: &Subject) -> Jobs<'_> {
    [
        Box::new(|_| done(dookerand::tree(s.bytes(), s.table, black_box(&s.tree)))),
        Box::new(|_| reference_done(requests::tree(s.bytes(), s.table, black_box(&s.tree)))),
    ]
}

fn decode(s: &Subject) -> Jobs<'_> {
    let [lent, reference_lent] = [(); 2].map(|()| RefCell::new([0; ROWS]));
    [
        Box::new(move |call| {
            let rows = &mut *black_box(lent.borrow_mut());
            let answer = dookerand::decode(s.bytes(), s.context, ADDRESS, s.code(call), rows);
            done(answer);
        }),
        Box::new(move |call| {
            let rows = &mut *black_box(reference_lent.borrow_mut());
            let answer = requests::rows(s.bytes(), s.context, ADDRESS, s.code(call), rows);
            reference_done(answer);
        }),
    ]
}

fn text(s: &Subject) -> Jobs<'_> {
    let [lent, reference_lent] = [(); 2].map(|()| RefCell::new([0; TEXT]));
    [
        Box::new(move |call| {
            let text = &mut *black_box(lent.borrow_mut());
            let answer = dookerand::text(s.bytes(), s.context, ADDRESS, s.code(call), text);
            done(answer);
        }),
        Box::new(move |call| {
            let text = &mut *black_box(reference_lent.borrow_mut());
            let answer = requests::text(s.bytes(), s.context, ADDRESS, s.code(call), text);
            reference_done(answer);
        }),
    ]
}

fn sweep(s: &Subject) -> Jobs<'_> {
    let [lent, reference_lent] = [(); 2].map(|()| RefCell::new(vec![0; ROW_NUMBERS * CODE]));
    let code = &s.code(0)[..CODE];
    [
        Box::new(move |_| {
            let rows = &mut *black_box(lent.borrow_mut());
            let code = black_box(code);
            let answer = dookerand::sweep(s.bytes(), s.context, ADDRESS, ALIGNMENT, code, rows);
            done(answer);
        }),
        Box::new(move |_| {
            let rows = &mut *black_box(reference_lent.borrow_mut());
            let code = black_box(code);
            let answer = requests::sweep(s.bytes(), s.context, ADDRESS, ALIGNMENT, code, rows);
            reference_done(answer);
        }),
    ]
}
