//! The paper, the direct functions and the fast ones side by side.

#![allow(dead_code)]

use judge::paper::{Call, Centre, Columns, Counts, Journal};
use judge::run::{By, Direct, Fast, Lent};

/// A journal and two lent buffers side by side: every answer is asked of all.
pub struct Sides {
    /// The paper's journal.
    pub journal: Journal,
    direct: By<Direct>,
    fast: By<Fast>,
}

impl Sides {
    /// Fresh, with room for every file.
    pub fn new() -> Sides {
        let buffer = [0xa5; 3_910];
        let mut sides = Sides {
            journal: Journal::new(),
            direct: By::found(&buffer),
            fast: By::found(&buffer),
        };
        assert_eq!(sides.direct.fresh(), 0);
        assert_eq!(sides.fast.fresh(), 0);
        sides
    }

    /// The lent buffer, which must be the same on both sides.
    pub fn buffer(&self) -> &[u8] {
        assert_eq!(self.fast.buffer(), self.direct.buffer());
        self.direct.buffer()
    }

    /// A call's number; the records must agree afterwards.
    pub fn call(&mut self, call: &Call) -> u64 {
        let number = self.journal.call(call);
        assert_eq!(self.direct.call(call), number);
        assert_eq!(self.fast.call(call), number);
        let file = self.journal.file();
        assert_eq!(self.buffer()[..file.len()], file);
        number
    }

    /// A call that has to be accepted.
    pub fn accept(&mut self, call: &Call) {
        assert_eq!(self.call(call), 0, "{call:?}");
    }

    /// The centre of gravity.
    pub fn centre(&self) -> Result<Centre, u64> {
        let centre = self.journal.centre();
        assert_eq!(self.direct.centre(), centre);
        assert_eq!(self.fast.centre(), centre);
        centre
    }

    /// The placard's counts in a buffer of so many bytes.
    pub fn placard(&self, bytes: usize) -> Result<Counts, u64> {
        let mut outs = [(); 3].map(|()| vec![7; bytes]);
        let [out, direct, fast] = &mut outs;
        let counts = self.journal.placard(out);
        assert_eq!(self.direct.placard(direct), counts);
        assert_eq!(self.fast.placard(fast), counts);
        assert!(out == direct && out == fast);
        counts
    }

    /// The equipment: an arm, its net weight and its net non-lifting weight, each in a
    /// line of its own.
    pub fn equipment(&self) -> Result<Vec<[i64; 3]>, u64> {
        self.equipment_into([70; 3])
            .map(|[arms, weights, nonlifting]| {
                let lines = arms.iter().zip(weights).zip(nonlifting);
                lines.map(|((a, w), n)| [*a, w, n]).collect()
            })
    }

    /// The columns of the equipment as far as they are filled in, lent with so many
    /// elements; what is behind stays, and where they are refused all of them.
    pub fn equipment_into(&self, lengths: [usize; 3]) -> Result<[Vec<i64>; 3], u64> {
        const STAYS: i64 = 7_777_777;
        let lent = [(); 3].map(|()| lengths.map(|length| vec![STAYS; length]));
        let [mut columns, mut direct, mut fast] = lent;
        let answer = self.journal.equipment(by_name(&mut columns));
        assert_eq!(self.direct.equipment(by_name(&mut direct)), answer);
        assert_eq!(self.fast.equipment(by_name(&mut fast)), answer);
        assert!(columns == direct && columns == fast);
        let count = answer.unwrap_or(0);
        for column in &mut columns {
            let stays = column.split_off(count);
            assert!(stays.iter().all(|element| *element == STAYS));
        }
        answer.map(|_| columns)
    }

    /// The placard's lines.
    pub fn placard_text(&self) -> String {
        let mut out = vec![0; 9_216];
        let counts = self.placard(out.len()).unwrap();
        self.journal.placard(&mut out).unwrap();
        out.truncate(counts.bytes);
        String::from_utf8(out).unwrap()
    }
}

fn by_name(columns: &mut [Vec<i64>; 3]) -> Columns<'_> {
    let [arms, weights, nonlifting] = columns;
    Columns {
        arms,
        weights,
        nonlifting,
    }
}
