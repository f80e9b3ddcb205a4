//! Times of calls that take turns.

use crate::clock::{median, time, Time};

/// Many short rounds, so that neighbours meet about the same disturbances.
pub const MANY: usize = 401;

/// For calls that take long.
pub const FEW: usize = 41;

/// About how many microseconds a round takes, unless one call takes longer.
const ROUND: f64 = 500.0;

/// Something to time; it is given the number of the call.
pub type Job<'a> = &'a dyn Fn(usize);

/// Time of a call of each job, round by round; jobs take turns.
pub fn rounds<const N: usize>(count: usize, calls: usize, jobs: [Job; N]) -> [Vec<Time>; N] {
    let times = rounds_of(count, calls, &jobs);
    times.try_into().expect("each job has its times")
}

/// The same for any number of jobs.
pub fn rounds_of(count: usize, calls: usize, jobs: &[Job]) -> Vec<Vec<Time>> {
    let mut times = vec![Vec::new(); jobs.len()];
    for round in 0..count {
        for (job, times) in jobs.iter().zip(&mut times) {
            times.push(a_call(round * calls, calls, job));
        }
    }
    times
}

/// Median time of a call of each job. All of them take turns, so that each is
/// timed over the whole run; those that take long in fewer rounds.
pub fn medians_of<J: Fn(usize), const N: usize>(groups: &[[J; N]]) -> Vec<[Time; N]> {
    let jobs = groups.as_flattened();
    let fitting: Vec<_> = jobs.iter().map(|job| fitting(job)).collect();
    let mut times = vec![Vec::new(); jobs.len()];
    for round in 0..MANY {
        for ((job, times), &(every, calls)) in jobs.iter().zip(&mut times).zip(&fitting) {
            if round % every == 0 {
                times.push(a_call(round * calls, calls, job));
            }
        }
    }
    let medians: Vec<Time> = times.iter().map(|times| median(times)).collect();
    medians.as_chunks().0.to_vec()
}

/// A job is timed once in so many rounds, with so many calls.
fn fitting(job: Job) -> (usize, usize) {
    let one = a_call(0, 1, job).wall.min(a_call(1, 1, job).wall);
    match one > ROUND {
        true => (MANY / FEW, 1),
        false => (1, (ROUND / one) as usize),
    }
}

/// Time of one of so many calls, numbered from the first on.
fn a_call(first: usize, calls: usize, job: Job) -> Time {
    let all = time(|| (first..first + calls).for_each(job));
    all.of_each(calls)
}

/// Prints both processor times and their ratio.
pub fn print(name: &str, proved: Time, reference: Time) {
    let [proved, reference] = [proved.cpu, reference.cpu];
    let ratio = proved / reference;
    println!("{name}: proved {proved:.3} us, reference {reference:.3} us, ratio {ratio:.2}");
}

/// Prints both processor times of one of so many things that a call does, and
/// their ratio.
pub fn print_each(name: &str, count: usize, times: [Time; 2]) {
    let [proved, reference] = times.map(|time| 1e3 * time.of_each(count).cpu);
    let ratio = proved / reference;
    println!("{name}: proved {proved:.2} ns, reference {reference:.2} ns, ratio {ratio:.2}");
}

/// Prints how many of these things are done in a second of processor time.
pub fn print_speed(name: &str, count: usize, times: [Time; 2]) {
    let [proved, reference] = times.map(|time| 1e6 * count as f64 / time.cpu);
    println!("{name}: proved {proved:.0}, reference {reference:.0}");
}

/// Prints which part of a proved call's time something takes.
pub fn print_part(name: &str, part: f64) {
    println!("{name}: proved {:.1} %", 100.0 * part);
}
