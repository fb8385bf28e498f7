//! Counts what the generated cases come to: how often each number of refusal is
//! given, how many placards, and what their rows are like.
//!
//! `cargo run --release --example spread [cases] [seed]`

use judge::generate::{case, Case};
use judge::run::{By, Direct, Paper, Trial};
use std::collections::BTreeMap;

#[derive(Default)]
struct Spread {
    /// Numbers of calls, of centres and of placards.
    calls: [u64; 15],
    centres: [u64; 15],
    placards: [u64; 15],
    /// Rows by kind of case: blank, whole range, in between, of one step only.
    rows: BTreeMap<&'static str, [u64; 4]>,
    /// Cases of a kind whose weighing and sheet stand in the end, and all.
    standing: BTreeMap<&'static str, [u64; 2]>,
    /// Cases whose placard takes more tests than plain loops should.
    heavy: u64,
}

/// The first step above 0 and the last of the sheet in force, as the placard
/// prints them.
fn whole_range(paper: &Paper) -> Option<(String, String)> {
    let sheet = paper.journal.as_ref()?.sheet()?;
    let first = sheet.front_least.div_ceil(sheet.front_step).max(1) * sheet.front_step;
    let last = sheet.front_most / sheet.front_step * sheet.front_step;
    let print = |grams: u64| format!("{:04}.{:03}", grams / 1000, grams % 1000);
    Some((print(first), print(last)))
}

impl Spread {
    fn add(&mut self, case: &Case) {
        let trial = Trial::of(case);
        let (direct, answers) = trial.run::<By<Direct>>();
        let plate = trial.placard(&direct);
        for number in &answers.numbers {
            self.calls[*number as usize] += 1;
        }
        self.centres[answers.centre.err().unwrap_or(0) as usize] += 1;
        self.placards[plate.answer.err().unwrap_or(0) as usize] += 1;
        let (paper, _) = trial.run::<Paper>();
        let standing = self.standing.entry(case.kind).or_default();
        standing[0] += u64::from(paper.work() > 0);
        standing[1] += 1;
        self.heavy += u64::from(paper.work() > 1_000_000);
        if let Ok(counts) = plate.answer {
            self.add_rows(case, &paper, &plate.bytes[..counts.bytes]);
        }
    }

    fn add_rows(&mut self, case: &Case, paper: &Paper, plate: &[u8]) {
        let Some((first, last)) = whole_range(paper) else {
            return;
        };
        let rows = self.rows.entry(case.kind).or_default();
        for line in plate.chunks(36) {
            let (low, high) = (&line[18..26], &line[27..35]);
            if low == b"--------" {
                rows[0] += 1;
            } else if low == first.as_bytes() && high == last.as_bytes() {
                rows[1] += 1;
            } else {
                rows[2] += 1;
                rows[3] += u64::from(low == high);
            }
        }
    }

    fn print(&self) {
        println!("number      calls    centres   placards");
        for number in 0..15 {
            let (calls, centres) = (self.calls[number], self.centres[number]);
            println!(
                "{number:6} {calls:10} {centres:10} {:10}",
                self.placards[number]
            );
        }
        println!("\nkind        standing   of cases      blank      whole    between   one step");
        let mut all = [0; 4];
        for (kind, [standing, cases]) in &self.standing {
            let rows = self.rows.get(kind).copied().unwrap_or_default();
            let [blank, whole, between, single] = rows;
            println!(
                "{kind:10} {standing:9} {cases:10} {blank:10} {whole:10} {between:10} {single:10}"
            );
            for (sum, count) in all.iter_mut().zip(rows) {
                *sum += count;
            }
        }
        println!(
            "all rows                        {:10} {:10} {:10} {:10}",
            all[0], all[1], all[2], all[3]
        );
        println!(
            "placards of over 1,000,000 tests by plain loops: {}",
            self.heavy
        );
    }
}

fn main() {
    let mut arguments = std::env::args().skip(1).map(|word| word.parse().unwrap());
    let cases = arguments.next().unwrap_or(20_000);
    let seed = arguments.next().unwrap_or(1);
    let mut spread = Spread::default();
    for index in 0..cases {
        spread.add(&case(seed, index));
    }
    spread.print();
}
