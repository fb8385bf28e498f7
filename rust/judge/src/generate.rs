//! A seeded generator of cases.
//!
//! A case is a list of calls with the lengths of the two buffers they are run
//! on and of the columns for the equipment. Eight kinds take turns over the
//! indices, and any index alone reproduces its case. The gliders are made so
//! that most placards are worth looking at: the moment is chosen last, so that a
//! limit is met somewhere among the loads. In the end an indicator sends some of the
//! weighings, which come to the same.

use crate::paper::{Call, Change, Indicated, Journal, Sheet};
use edges::edge_call;
use files::{any_version, damaged};
use glider::{any_glider, lighten, seater, toy, worked_plate, Glider};
use indicator::{by_indicator, edge_indicated, indicator_case};
use random::Random;
use seats::beside_a_limit;
use stations::{columns, stations_case};

mod edges;
mod files;
mod glider;
mod indicator;
mod random;
mod seats;
mod stations;

/// Half grams in a gram.
const HALVES: i64 = 2;

/// Greatest weight, as a signed and as an unsigned number, greatest arm and
/// greatest load of a seat.
const WEIGHT: i64 = 2_000_000;
const TOP: u64 = 2_000_000;
const ARM: i64 = 2_000_000;
const LOAD: u64 = 500_000;

/// The longest file and the longest placard.
const LONGEST_FILE: usize = 3_910;
const LONGEST_PLACARD: usize = 9_216;

/// One case: calls on a fresh record, then a placard and the equipment.
#[derive(Clone, Debug, PartialEq, Eq)]
pub struct Case {
    /// The kind of case, for a report.
    pub kind: &'static str,
    /// Bytes of the record's buffer.
    pub room: usize,
    /// The calls in order, on a record that is fresh at first.
    pub calls: Vec<Call>,
    /// Bytes of the placard's buffer.
    pub plate: usize,
    /// The byte both buffers are filled with first.
    pub fill: u8,
    /// Elements of the equipment's columns: arms, weights, non-lifting weights.
    pub columns: [usize; 3],
}

impl Case {
    /// The bytes of the last reading back, where there is one: good or damaged,
    /// they can also be lent as all that a record's buffer holds.
    pub fn content(&self) -> Option<&[u8]> {
        self.calls.iter().rev().find_map(|call| match call {
            Call::Read(bytes) => Some(bytes.as_slice()),
            _ => None,
        })
    }
}

/// What makes the calls of one kind of case.
type Maker = fn(&mut Random) -> Vec<Call>;

const KINDS: [(&str, Maker); 8] = [
    ("realistic", realistic_case),
    ("edges", edges_case),
    ("arms", arms_case),
    ("datum", datum_case),
    ("changes", changes_case),
    ("files", files_case),
    ("lists", lists_case),
    ("rows", rows_case),
];

/// A weighing by an indicator, good or with something at an edge, the same for the same
/// seed and index.
pub fn indicated(seed: u64, index: u64) -> Indicated {
    let mut random = Random::new(seed, index);
    let glider = any_glider(&mut random);
    edge_indicated(&mut random, &glider)
}

/// The case of an index, the same for the same seed and index.
pub fn case(seed: u64, index: u64) -> Case {
    let mut random = Random::new(seed, index);
    let (kind, make) = KINDS[(index % KINDS.len() as u64) as usize];
    let mut calls = make(&mut random);
    by_indicator(&mut Random::new(!seed, index), &mut calls);
    let room = room(&mut random, &calls);
    let plate = plate(&mut random, &calls, room);
    let fill = random.draw() as u8;
    let columns = columns(&mut random, &calls, room);
    Case {
        kind,
        room,
        calls,
        plate,
        fill,
        columns,
    }
}

// ---- Kind 1: realistic gliders ----

/// Single- and two-seaters with and without water, weighed by all four methods,
/// with some changes behind and some with adjustable seats; among them the paper's
/// G, H and J and those near.
fn realistic_case(random: &mut Random) -> Vec<Call> {
    let glider = if random.one_in(4) {
        worked_plate(random)
    } else {
        seater(random)
    };
    let mut calls = glider.record(random);
    if random.one_in(8) {
        let (c, arm, flag) = (4_500, -100_000, 1);
        calls.push(Call::Change(Change { c, arm, flag }));
    }
    for _ in 0..random.pick(&[0, 0, 1, 1, 2, 4]) {
        calls.push(Call::Change(glider.part(random)));
    }
    if random.one_in(6) {
        calls.push(Call::Undo);
    }
    if random.one_in(12) {
        calls.push(glider.weighing_call(random));
    }
    if random.one_in(3) {
        calls.extend(glider.seat_calls(random));
    }
    calls
}

// ---- Kind 2: every range at its edges ----

/// Every range of the table at its edges and one beyond, one field at a time on
/// an otherwise good entry; sometimes on an empty journal, on one without a weighing
/// or without a sheet, or on a full one. One list in three is one of weighings by an
/// indicator.
fn edges_case(random: &mut Random) -> Vec<Call> {
    if random.one_in(3) {
        return indicator_case(random);
    }
    let glider = seater(random);
    let mut calls = match random.below(16) {
        0 => Vec::new(),
        1 => vec![Call::Install(glider.sheet)],
        2 => vec![glider.weighing_call(random)],
        _ => glider.record(random),
    };
    if random.one_in(12) {
        let full = random.pick(&[63, 64]);
        calls.resize(full, Call::Install(glider.sheet));
    }
    if random.one_in(6) {
        calls.push(Call::Seat(glider.any_seat(random)));
    }
    let mut journal = run(&calls);
    for _ in 0..random.amount(1, 5) {
        let call = edge_call(random, &glider, &journal);
        journal.call(&call);
        calls.push(call);
    }
    calls
}

// ---- Kind 3: arms on and beside the limits ----

/// Front, rear and water arms, and the ends of a seat, on and beside FWD, AFT and the
/// safe aft limit, so that coefficients are 0, 1 or −1 in their units; the moment
/// meets a limit exactly, or with one unit more or less.
fn arms_case(random: &mut Random) -> Vec<Call> {
    let mut glider = any_glider(random);
    let s = &mut glider.sheet;
    match random.below(4) {
        0 => s.aft = s.fwd + random.between(1, 45),
        // The safe aft limit is a whole unit.
        1 => s.aft = s.fwd + 20 * random.between(1, 900),
        _ => {}
    }
    if !random.one_in(4) {
        s.front_arm = beside_a_limit(random, s);
    }
    if random.one_in(3) {
        s.rear_arm = beside_a_limit(random, s);
    }
    if random.one_in(3) {
        s.water_arm = beside_a_limit(random, s);
    }
    glider.seat = match random.below(4) {
        0 => Some(glider.any_seat(random)),
        1 => Some(glider.seat_at_limits(random)),
        _ => None,
    };
    if random.one_in(3) {
        glider.meet_aft_closely(random);
    } else {
        glider.meet_somewhere(random, &[0, 0, 1, -1, 100_000]);
    }
    let mut calls = glider.record_exactly(random);
    if random.one_in(4) {
        // A gram on a limit's own arm: the rows should hardly move.
        let arm = beside_a_limit(random, &glider.sheet);
        let (c, flag) = (random.pick(&[1, -1]), 0);
        calls.push(Call::Change(Change { c, arm, flag }));
    }
    calls
}

// ---- Kind 4: the datum anywhere ----

/// The datum far ahead and far behind, so that moments and limits are negative
/// or of both signs.
fn datum_case(random: &mut Random) -> Vec<Call> {
    let mut glider = any_glider(random);
    if random.one_in(3) {
        glider.seat = Some(glider.any_seat(random));
    }
    if random.one_in(3) {
        glider.meet_somewhere(random, &[0, 1, -1]);
    }
    if random.one_in(5) {
        glider.halve_centre(random);
    }
    let (ahead, back) = glider.datum_range();
    let s = &glider.sheet;
    let by = match random.below(6) {
        0 => ahead,
        1 => back,
        2 => -random.between(s.fwd, s.aft),
        3 => -random.between(50_000, 200_000),
        _ => random.between(ahead, back),
    };
    glider.move_datum(by);
    let mut calls = if random.one_in(2) {
        glider.record_exactly(random)
    } else {
        glider.record(random)
    };
    for _ in 0..random.below(3) {
        calls.push(Call::Change(glider.part(random)));
    }
    calls
}

// ---- Kind 5: long runs of changes ----

/// The same part fitted and taken out in turn.
fn in_turn(part: Change, i: usize) -> Change {
    let c = part.c.abs();
    let c = if i.is_multiple_of(2) { c } else { -c };
    Change { c, ..part }
}

/// A heavy part fitted at one end and taken out at the other, so that the moment
/// grows as far as it can; after `half` changes it comes back the same way.
fn heave(part: Change, i: usize, half: usize) -> Change {
    let fitting = i.is_multiple_of(2);
    let out = i < half;
    Change {
        c: if fitting { part.c } else { -part.c },
        arm: if fitting == out { part.arm } else { -part.arm },
        ..part
    }
}

/// Changes up to the 64th and 65th entry: the same part in turn, small ones,
/// large ones, at times with a seat between them or behind; then taking back, some
/// of it or all and once more. One list in three is one of changes at few arms.
fn changes_case(random: &mut Random) -> Vec<Call> {
    if random.one_in(3) {
        return stations_case(random);
    }
    let glider = any_glider(random);
    let mut calls = glider.record(random);
    let some = random.amount(5, 60) as usize;
    let length = random.pick(&[some, some, 61, 62, 63, 64, 66]);
    let (light, heavy) = (glider.part(random), glider.heavy_part(random));
    let half = length / 4 * 2;
    let half = random.pick(&[half, half, half, length]);
    let style = random.below(4);
    let seat_at = random.below(2 * length as u64) as usize;
    for i in 0..length {
        if i == seat_at {
            calls.push(Call::Seat(glider.any_seat(random)));
        }
        let part = glider.part(random);
        calls.push(Call::Change(match style {
            0 => in_turn(light, i),
            1 => Change {
                c: part.c.signum(),
                ..part
            },
            2 if i < 2 * half => heave(heavy, i, half),
            _ => part,
        }));
    }
    if random.one_in(6) {
        calls.push(Call::Seat(glider.any_seat(random)));
    }
    take_back(random, &glider, &mut calls);
    calls
}

/// Takes some entries back, or all and once more, and then puts some again.
fn take_back(random: &mut Random, glider: &Glider, calls: &mut Vec<Call>) {
    let few = random.amount(1, 12) as usize;
    let all = calls.len() + 1;
    let undone = random.pick(&[0, 0, few, all]);
    calls.resize(calls.len() + undone, Call::Undo);
    if undone == all && !random.one_in(3) {
        calls.extend(glider.record(random));
    }
    for _ in 0..random.pick(&[0, 0, 1, 3]) {
        calls.push(Call::Change(glider.part(random)));
    }
}

// ---- Kind 6: files, good and damaged ----

/// A journal of accepted entries, short or long, at times with a seat behind them.
fn some_journal(random: &mut Random) -> Journal {
    let length = random.pick(&[0, 1, 2, 3, 5, 9, 20, 64]);
    let glider = any_glider(random);
    let mut calls = glider.record(random);
    while calls.len() < length {
        calls.push(match random.below(9) {
            0 => glider.weighing_call(random),
            1 => Call::Install(glider.sheet),
            2 | 3 => Call::Seat(glider.any_seat(random)),
            _ => Call::Change(glider.part(random)),
        });
    }
    calls.truncate(length);
    if random.one_in(3) {
        calls.push(Call::Seat(glider.any_seat(random)));
    }
    run(&calls)
}

/// Good and damaged files of either version read back, on a fresh record or over
/// another one, mostly as the last word.
fn files_case(random: &mut Random) -> Vec<Call> {
    let mut calls = Vec::new();
    if random.one_in(3) {
        calls = any_glider(random).record(random);
    }
    let journal = some_journal(random);
    calls.push(Call::Read(if random.one_in(3) {
        any_version(random, &journal)
    } else {
        damaged(random, &journal)
    }));
    if random.one_in(4) {
        calls.push(if random.one_in(2) {
            Call::Undo
        } else {
            Call::Change(any_glider(random).part(random))
        });
    }
    calls
}

// ---- Kind 7: random call lists ----

/// What a list is made from as it goes on.
struct List {
    gliders: [Glider; 3],
    /// Calls of a hundred that take back.
    undos: u64,
    journal: Journal,
    /// Files of the journal as it was.
    files: Vec<Vec<u8>>,
    calls: Vec<Call>,
}

impl List {
    /// The glider whose sheet is in force.
    fn in_force(&self) -> Option<Glider> {
        let sheet = self.journal.sheet()?;
        self.gliders
            .into_iter()
            .find(|glider| glider.sheet == sheet)
    }

    fn any_call(&self, random: &mut Random) -> Call {
        let glider = random.pick(&self.gliders);
        if random.below(100) < self.undos {
            return Call::Undo;
        }
        match random.below(23) {
            0..=2 => glider.weighing_call(random),
            3..=5 => Call::Install(glider.sheet),
            6..=8 => Call::Seat(self.in_force().unwrap_or(glider).any_seat(random)),
            9..=10 => edge_call(random, &glider, &self.journal),
            11 => {
                let at = random.below(self.files.len() as u64) as usize;
                Call::Read(self.files[at].clone())
            }
            12 => Call::Read(damaged(random, &self.journal)),
            _ => Call::Change(glider.part(random)),
        }
    }

    fn push(&mut self, random: &mut Random, call: Call) {
        self.journal.call(&call);
        self.calls.push(call);
        if random.one_in(4) {
            self.files.push(any_version(random, &self.journal));
        }
    }
}

/// Lists of 0 to 90 calls with taking back and reading back, of good files from
/// earlier in the list and of damaged ones, and refused calls in between.
fn lists_case(random: &mut Random) -> Vec<Call> {
    let mut list = List {
        gliders: [seater(random), seater(random), toy(random)],
        undos: random.pick(&[2, 10, 25, 45]),
        journal: Journal::new(),
        files: vec![Journal::new().file()],
        calls: Vec::new(),
    };
    let length = random.below(91) as usize;
    let weighed_first = !random.one_in(4);
    let weighed_last = random.one_in(2);
    while list.calls.len() < length {
        let left = length - list.calls.len();
        if (list.calls.is_empty() && weighed_first) || (left == 2 && weighed_last) {
            for call in list.gliders[0].record(random) {
                list.push(random, call);
            }
        } else {
            let call = list.any_call(random);
            list.push(random, call);
        }
    }
    list.calls.truncate(length);
    list.calls
}

// ---- Kind 8: placards of many rows ----

/// Rear loads and waters of 1 to 256 rows.
fn shape(random: &mut Random) -> (u64, u64) {
    let most = random.pick(&[4, 20, 60, 120, 255, 256]);
    let first = random.amount(1, most);
    let second = random.amount(1, most / first);
    let root = most.isqrt();
    random.pick(&[
        (first, second),
        (second, first),
        (1, most),
        (most, 1),
        (root, root),
    ])
}

/// Rows whose steps need not divide what they step through.
fn spread_rows(random: &mut Random, s: &mut Sheet) {
    let (rears, waters) = shape(random);
    let (rear, water) = random.pick(&[(110_000, 150_000), (60_000, 60_000), (300, 300)]);
    s.rear_step = random.amount(1, rear / rears + 1);
    s.rear_most = (rears - 1) * s.rear_step + random.below(s.rear_step);
    s.water_step = random.amount(1, water / waters + 1);
    s.capacity = (waters - 1) * s.water_step + random.below(s.water_step);
}

/// Odd front loads and tight weights: no step at all, least 0, no step but 0 or
/// but 0 and the greatest, DRY below G, the non-lifting limit tight.
fn odd_front(random: &mut Random, glider: &mut Glider) {
    let (g, n) = (glider.grams() as u64, glider.n as u64);
    let s = &mut glider.sheet;
    let room = s.front_most + s.rear_most / 2;
    match random.below(10) {
        0 => {
            s.front_least = random.amount(1, s.front_most);
            s.front_step = random.amount(s.front_most, LOAD);
        }
        1 => s.front_least = 0,
        2 => {
            s.front_least = 0;
            s.front_most = random.pick(&[0, s.front_step - 1, s.front_step]);
        }
        3 => s.front_least = s.front_most,
        4 => s.dry = random.amount(1, g),
        5 => s.nlp = 0,
        6 => s.nlp = n + random.amount(1, room),
        7 => s.nlp = random.amount(1, n),
        8 => s.dry = (g + random.below(room)).min(s.wet),
        _ => s.front_step = random.amount(1, s.front_most + 1),
    }
}

/// Placards of 1 to 256 rows: whole, blank in part, blank throughout.
fn rows_case(random: &mut Random) -> Vec<Call> {
    let mut glider = seater(random);
    let s = &mut glider.sheet;
    spread_rows(random, s);
    s.dry += random.pick(&[0, s.rear_most / 2]);
    s.wet = s.dry + random.pick(&[0, 20_000, s.capacity / 2, s.capacity]);
    if random.one_in(3) {
        s.water_arm = random.between(s.fwd - 60_000, s.aft + 60_000);
    }
    if random.one_in(2) {
        odd_front(random, &mut glider);
    }
    lighten(random, &mut glider.sheet);
    match random.below(7) {
        0 | 1 => glider.meet_somewhere(random, &[0, 1_000, 1_000_000]),
        2 => glider.leave_no_load(random),
        _ => {}
    }
    let mut calls = glider.record(random);
    if random.one_in(4) {
        calls.push(Call::Seat(glider.any_seat(random)));
    }
    calls
}

// ---- The buffers ----

/// The journal after the calls, with room for every file.
fn run(calls: &[Call]) -> Journal {
    let mut journal = Journal::new();
    for call in calls {
        journal.call(call);
    }
    journal
}

/// The journal after the calls on a buffer of `room` bytes, where a call whose
/// file would not fit is refused; none where not even a fresh record fits.
fn run_in(room: usize, calls: &[Call]) -> Option<Journal> {
    let mut journal = Journal::new();
    if journal.file().len() > room {
        return None;
    }
    for call in calls {
        let mut after = journal.clone();
        if after.call(call) == 0 && after.file().len() <= room {
            journal = after;
        }
    }
    Some(journal)
}

/// The longest file on the way through the calls.
fn longest_file(calls: &[Call]) -> usize {
    let mut journal = Journal::new();
    let mut longest = journal.file().len();
    for call in calls {
        journal.call(call);
        longest = longest.max(journal.file().len());
    }
    longest
}

/// Room for any file as a rule; else just enough, one byte too few, or little.
fn room(random: &mut Random, calls: &[Call]) -> usize {
    if !random.one_in(5) {
        return LONGEST_FILE + random.pick(&[0, 0, 1, 90]);
    }
    let longest = longest_file(calls);
    let any = random.below(longest as u64 + 1) as usize;
    let little = random.below(8) as usize;
    random.pick(&[longest, longest, longest - 1, longest - 1, any, little])
}

/// Room for the placard as a rule; else one byte too few, a part, or none.
fn plate(random: &mut Random, calls: &[Call], room: usize) -> usize {
    let bytes = run_in(room, calls).and_then(|journal| journal.placard_bytes());
    let Some(bytes) = bytes else {
        return random.below(200) as usize;
    };
    if random.one_in(7) {
        let part = random.below(bytes as u64) as usize;
        random.pick(&[0, part, bytes - 1])
    } else {
        let more = bytes + random.below(100) as usize;
        random.pick(&[bytes, bytes + 1, more, LONGEST_PLACARD])
    }
}

#[cfg(test)]
mod tests {
    use super::*;

    #[test]
    fn an_index_alone_reproduces_its_case() {
        let cases: Vec<Case> = (0..200).map(|index| case(7, index)).collect();
        for index in (0..200).rev() {
            assert_eq!(case(7, index), cases[index as usize]);
        }
        assert_ne!(case(7, 0), case(8, 0));
    }

    /// Moving the datum changes every arm and moment and no line of a placard.
    #[test]
    fn the_datum_does_not_matter() {
        let mut random = Random::new(3, 0);
        for _ in 0..400 {
            let mut glider = any_glider(&mut random);
            lighten(&mut random, &mut glider.sheet);
            if random.one_in(2) {
                glider.seat = Some(glider.any_seat(&mut random));
            }
            let here = run(&glider.record_exactly(&mut random));
            let (ahead, back) = glider.datum_range();
            glider.move_datum(random.between(ahead, back));
            let there = run(&glider.record_exactly(&mut random));
            let mut plates = [[0; LONGEST_PLACARD]; 2];
            let counts = here.placard(&mut plates[0]);
            assert!(counts.is_ok());
            assert_eq!(counts, there.placard(&mut plates[1]));
            assert_eq!(plates[0], plates[1]);
        }
    }
}
