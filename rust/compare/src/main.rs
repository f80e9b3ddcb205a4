//! Compares the proved library and the listing program with the reference on
//! generated input, which depends on the seed alone. It stops at the first
//! difference.

mod agreed;
mod avr;
mod building;
mod check;
mod choosing;
mod computed;
mod cuts;
mod decoding;
mod fields;
mod gaps;
mod instructions;
mod lent;
mod lines;
mod listing;
mod sweep;
mod tally;
mod text;
mod trees;
mod wrong_leaf;

use std::time::Instant;

use generate::Rng;

const SEED: u64 = 1;

fn main() {
    let seed = match std::env::args().nth(1).map(|argument| argument.parse()) {
        None => SEED,
        Some(Ok(seed)) => seed,
        Some(Err(_)) => {
            eprintln!("usage: compare [SEED]");
            std::process::exit(2);
        }
    };
    let program = listing::program();
    println!("seed {seed}");
    timed("check", || check::compare(&mut Rng::new(seed)));
    timed("ask and clash", || choosing::compare(&mut Rng::new(seed)));
    timed("tree check", || trees::compare(&mut Rng::new(seed)));
    timed("build", || building::compare(&mut Rng::new(seed)));
    timed("decode", || decoding::compare(&mut Rng::new(seed)));
    timed("fields", || fields::compare(&mut Rng::new(seed)));
    timed("text", || text::compare(&mut Rng::new(seed)));
    timed("sweep", || sweep::compare(&mut Rng::new(seed)));
    timed("list", || lines::compare(&mut Rng::new(seed)));
    timed("cuts", || cuts::compare(&mut Rng::new(seed)));
    timed("operators", || computed::compare(&mut Rng::new(seed)));
    timed("AVR", avr::compare);
    timed("listing", || {
        listing::compare(&mut Rng::new(seed), &program)
    });
}

fn timed(name: &str, compare: impl FnOnce()) {
    let started = Instant::now();
    compare();
    let seconds = started.elapsed().as_secs_f64();
    println!("{name}: no difference, {seconds:.1} s");
}
