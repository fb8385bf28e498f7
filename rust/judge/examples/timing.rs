//! Times the generated cases by plain loops and by the direct functions, and
//! compares them on the way.
//!
//! `cargo run --release --example timing [cases] [seed]`

use judge::generate::case;
use judge::run::{Answers, By, Direct, Paper, Plate, Trial, WORK};
use std::time::{Duration, Instant};

fn timed<T>(sum: &mut Duration, job: impl FnOnce() -> T) -> T {
    let begin = Instant::now();
    let answer = job();
    *sum += begin.elapsed();
    answer
}

/// All of a case by plain loops; none where its placard would take too long.
fn by_paper(trial: &Trial) -> Option<(Answers, Plate)> {
    let (paper, answers) = trial.run::<Paper>();
    (paper.work() <= WORK).then(|| (answers, trial.placard(&paper)))
}

/// All of a case by the direct functions.
fn by_direct(trial: &Trial) -> (Answers, Plate) {
    let (direct, answers) = trial.run::<By<Direct>>();
    (answers, trial.placard(&direct))
}

fn main() {
    let mut arguments = std::env::args().skip(1).map(|word| word.parse().unwrap());
    let cases: u64 = arguments.next().unwrap_or(200_000);
    let seed = arguments.next().unwrap_or(1);
    let [mut generate, mut loops, mut direct] = [Duration::ZERO; 3];
    let (mut left_out, mut differing) = (0, 0);
    for index in 0..cases {
        let case = timed(&mut generate, || case(seed, index));
        let trial = Trial::of(&case);
        let expected = timed(&mut loops, || by_paper(&trial));
        let given = timed(&mut direct, || by_direct(&trial));
        match expected {
            Some(expected) if expected != given => {
                differing += 1;
                println!("case {index} of seed {seed} ({}) differs", case.kind);
            }
            Some(_) => {}
            None => left_out += 1,
        }
    }
    println!("{cases} cases, {left_out} left to direct, {differing} differing");
    println!("made in {generate:.2?}, loops {loops:.2?}, direct {direct:.2?}");
}
