//! Equipment by station: changes at few arms, and columns of every length.

use super::glider::{any_glider, Glider};
use super::random::Random;
use super::{run_in, take_back, ARM};
use crate::paper::{Call, Change};

/// The most arms that the equipment of a record has.
const MOST_ARMS: usize = 63;

/// Columns longer than that.
const LONG: usize = 70;

/// An arm of a part: anywhere near the glider, at the datum, or where arms end.
fn some_arm(random: &mut Random, glider: &Glider) -> i64 {
    let near = glider.part(random).arm;
    random.pick(&[near, near, near, 0, 1, -1, -ARM, 1 - ARM, ARM - 1, ARM])
}

/// As many arms as there can be, rising, falling or in any order.
fn most_arms(random: &mut Random, glider: &Glider) -> Vec<i64> {
    let step = random.amount(1, 9) as i64;
    let most = MOST_ARMS as i64;
    let first = some_arm(random, glider).min(ARM - (most - 1) * step);
    let mut arms: Vec<i64> = (0..most).map(|i| first + i * step).collect();
    match random.below(3) {
        0 => {}
        1 => arms.reverse(),
        _ => {
            for i in 0..arms.len() {
                arms.swap(i, random.below(i as u64 + 1) as usize);
            }
        }
    }
    arms
}

/// The arms that a list takes its changes' from: a few, or as many as there can be.
fn arms(random: &mut Random, glider: &Glider) -> Vec<i64> {
    if random.one_in(6) {
        return most_arms(random, glider);
    }
    let few = random.pick(&[1, 2, 3, 3, 8]);
    (0..few).map(|_| some_arm(random, glider)).collect()
}

/// A weighing, and behind it a part at each of as many arms as there can be; at times
/// one more, which is refused, or the last one taken back.
fn full_case(random: &mut Random, glider: &Glider) -> Vec<Call> {
    let mut calls = vec![glider.weighing_call(random)];
    for arm in most_arms(random, glider) {
        let Change { c, flag, .. } = glider.part(random);
        let c = c.abs();
        calls.push(Call::Change(Change { c, arm, flag }));
    }
    if random.one_in(4) {
        calls.push(Call::Change(glider.part(random)));
    }
    if random.one_in(4) {
        calls.push(Call::Undo);
    }
    calls
}

/// What takes the part out again, or nearly: all but a gram of it, all of it by the
/// other flag or at the arm beside it.
fn out_again(random: &mut Random, part: Change) -> Change {
    let Change { c, arm, flag } = part;
    let beside = (arm + 1).min(ARM);
    match random.below(8) {
        0 => Change { c: 1 - c, ..part },
        1 => Change {
            c: -c,
            flag: 1 - flag,
            ..part
        },
        2 => Change {
            c: -c,
            arm: beside,
            ..part
        },
        _ => Change { c: -c, ..part },
    }
}

/// What may stand between the changes: a sheet or a seat, which make no difference, or
/// a weighing, behind which the list begins anew.
fn between(random: &mut Random, glider: &Glider) -> Call {
    match random.below(5) {
        0 => glider.weighing_call(random),
        1 | 2 => Call::Install(glider.sheet),
        _ => Call::Seat(glider.any_seat(random)),
    }
}

/// Changes at few arms, or at as many as there can be, up to the 64th and 65th entry:
/// parts of both flags, many of them taken out again, and other entries between them;
/// then taking back, some of it or all and once more.
pub(super) fn stations_case(random: &mut Random) -> Vec<Call> {
    let glider = any_glider(random);
    if random.one_in(3) {
        return full_case(random, &glider);
    }
    let mut calls = glider.record(random);
    let arms = arms(random, &glider);
    let some = random.amount(3, 30) as usize;
    let length = random.pick(&[some, some, some, 63, 64, 66]);
    let (outs, betweens) = (random.pick(&[2, 3, 1_000]), random.pick(&[8, 20, 1_000]));
    let in_turn = arms.len() == MOST_ARMS || random.one_in(2);
    while calls.len() < length {
        if random.one_in(betweens) {
            calls.push(between(random, &glider));
        }
        let arm = if in_turn {
            arms[calls.len() % arms.len()]
        } else {
            random.pick(&arms)
        };
        let part = Change {
            arm,
            ..glider.part(random)
        };
        calls.push(Call::Change(part));
        if random.one_in(outs) {
            calls.push(Call::Change(out_again(random, part)));
        }
    }
    take_back(random, &glider, &mut calls);
    calls
}

/// Columns for the equipment after the calls on a buffer of `room` bytes: exact, one
/// element short in one of them, none at all, longer, or as long as may be.
pub(super) fn columns(random: &mut Random, calls: &[Call], room: usize) -> [usize; 3] {
    let Some(arms) = run_in(room, calls).and_then(|journal| journal.stations()) else {
        return [(); 3].map(|()| random.below(3) as usize);
    };
    let longer = |random: &mut Random| arms + random.below(4) as usize;
    match random.below(8) {
        0 => [0; 3],
        1 | 2 => [arms; 3],
        3 => [(); 3].map(|()| random.below(arms as u64 + 3) as usize),
        4 | 5 => {
            let mut columns = [longer(random), longer(random), longer(random)];
            if random.one_in(2) {
                columns = [arms; 3];
            }
            columns[random.below(3) as usize] = arms.saturating_sub(1);
            columns
        }
        6 => [longer(random), longer(random), longer(random)],
        _ => [(); 3].map(|()| random.pick(&[MOST_ARMS, MOST_ARMS + 1, LONG])),
    }
}
