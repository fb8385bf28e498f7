//! Entries with a field at the edge of its range, one beyond or far out.

use super::glider::{lighten, Glider};
use super::indicator::edge_indicated;
use super::random::Random;
use super::{ARM, HALVES, LOAD, TOP, WEIGHT};
use crate::paper::{Call, Change, Journal, Paired, Seat, Sheet, Weighing};

/// A value on an edge of a range, one beyond, or far out. `good` plus 2^32 looks
/// like `good` where it is cut to four bytes.
pub(super) fn edge(random: &mut Random, low: u64, high: u64, good: u64) -> u64 {
    let near = [
        low.wrapping_sub(1),
        low,
        low.wrapping_add(1),
        high.wrapping_sub(1),
        high,
        high.wrapping_add(1),
    ];
    let far = [
        0,
        (1 << 31) - 1,
        1 << 31,
        (1 << 32) - 1,
        1 << 32,
        good.wrapping_add(1 << 32),
        1 << 63,
        i64::MAX as u64,
        u64::MAX,
    ];
    if random.one_in(4) {
        random.pick(&far)
    } else {
        random.pick(&near)
    }
}

/// The same from −size to size.
pub(super) fn signed_edge(random: &mut Random, size: i64, good: i64) -> i64 {
    let near = [-size - 1, -size, 1 - size, 0, size - 1, size, size + 1];
    let far = [
        i64::MIN,
        i64::MIN + 1,
        i64::MAX,
        1 << 31,
        -(1 << 31),
        (1 << 31) - 1,
        1 << 32,
        -(1 << 32),
        good.wrapping_add(1 << 32),
        good.wrapping_sub(1 << 32),
    ];
    if random.one_in(4) {
        random.pick(&far)
    } else {
        random.pick(&near)
    }
}

/// What readings add up to by a method, where they add up to anything.
fn total(m: u64, (p, q): (u64, u64)) -> u64 {
    match m {
        1 | 2 => p,
        3 => p.saturating_add(q),
        _ => p.saturating_sub(q),
    }
}

/// The smaller and the greater total of a paired weighing.
fn totals(x: &Paired) -> (u64, u64) {
    let (first, second) = (total(x.m, (x.p, x.q)), total(x.m, (x.p2, x.q2)));
    (first.min(second), first.max(second))
}

/// One field of a weighing at an edge.
pub(super) fn edge_weighing(random: &mut Random, mut w: Weighing) -> Weighing {
    match random.below(7) {
        0 => w.m = edge(random, 1, 4, w.m),
        1 => w.p = edge(random, 0, TOP, w.p),
        2 => w.q = edge(random, 0, TOP, w.q),
        3 => w.a = signed_edge(random, ARM, w.a),
        4 => w.b = edge(random, 1, ARM as u64, w.b),
        _ => w.n = edge(random, 0, total(w.m, (w.p, w.q)), w.n),
    }
    w
}

/// One field of a paired weighing at an edge.
pub(super) fn edge_pair(random: &mut Random, mut x: Paired) -> Paired {
    match random.below(9) {
        0 => x.m = edge(random, 1, 4, x.m),
        1 => x.p = edge(random, 0, TOP, x.p),
        2 => x.q = edge(random, 0, TOP, x.q),
        3 => x.p2 = edge(random, 0, TOP, x.p2),
        4 => x.q2 = edge(random, 0, TOP, x.q2),
        5 => x.a = signed_edge(random, ARM, x.a),
        6 => x.b = edge(random, 1, ARM as u64, x.b),
        _ => x.n = edge(random, 0, totals(&x).0, x.n),
    }
    x
}

/// Readings of methods 1 and 2, where the second is part of the first.
const PART_OF_TOTAL: &[(u64, u64)] = &[
    (0, 0),
    (0, 1),
    (1, 0),
    (1, 1),
    (310_000, 310_000),
    (310_000, 310_001),
    (TOP, 0),
    (TOP, TOP),
    (TOP, TOP + 1),
    (TOP + 1, 0),
];

/// Readings of method 3, which add up to the total.
const TWO_SLINGS: &[(u64, u64)] = &[
    (0, 0),
    (0, 1),
    (1, 0),
    (TOP / 2, TOP / 2),
    (TOP / 2, TOP / 2 + 1),
    (TOP, 0),
    (0, TOP),
    (TOP, 1),
    (1, TOP),
    (TOP, TOP),
];

/// Readings of method 4, where the lift is taken from the first.
const HELD_DOWN: &[(u64, u64)] = &[
    (0, 0),
    (0, 1),
    (1, 0),
    (1, 1),
    (1, 2),
    (TOP, 0),
    (TOP, TOP - 1),
    (TOP, TOP),
    (TOP - 1, TOP),
    (TOP + 1, 1),
];

/// Readings at the edges that a method has for itself.
fn readings(random: &mut Random, m: u64) -> (u64, u64) {
    random.pick(match m {
        1 | 2 => PART_OF_TOTAL,
        3 => TWO_SLINGS,
        _ => HELD_DOWN,
    })
}

/// Such readings, with n on either side of what they add up to.
fn edge_readings(random: &mut Random, mut w: Weighing) -> Weighing {
    w.m = random.amount(1, 4);
    (w.p, w.q) = readings(random, w.m);
    let total = total(w.m, (w.p, w.q));
    w.n = random.pick(&[0, 0, total.saturating_sub(1), total, total + 1]);
    w
}

/// The same for one reading of a pair or for both, n beside the smaller total or
/// between the two.
fn edge_pair_readings(random: &mut Random, mut x: Paired) -> Paired {
    let sides = random.pick(&[(true, false), (false, true), (true, true)]);
    if sides.0 && sides.1 {
        x.m = random.amount(1, 4);
    }
    if sides.0 {
        (x.p, x.q) = readings(random, x.m);
    }
    if sides.1 {
        (x.p2, x.q2) = readings(random, x.m);
    }
    edge_share(random, x)
}

/// A paired weighing with n at the smaller total or one beside it, or at the
/// greater one.
fn edge_share(random: &mut Random, mut x: Paired) -> Paired {
    let (smaller, greater) = totals(&x);
    x.n = random.pick(&[0, smaller.saturating_sub(1), smaller, smaller + 1, greater]);
    x
}

/// One field of a sheet at an edge.
pub(super) fn edge_sheet(random: &mut Random, mut s: Sheet) -> Sheet {
    match random.below(15) {
        0 => s.fwd = signed_edge(random, ARM, s.fwd),
        1 => s.aft = signed_edge(random, ARM, s.aft),
        2 => s.dry = edge(random, 1, s.wet, s.dry),
        3 => s.wet = edge(random, s.dry, TOP, s.wet),
        4 => s.nlp = edge(random, 0, TOP, s.nlp),
        5 => s.front_arm = signed_edge(random, ARM, s.front_arm),
        6 => s.front_least = edge(random, 0, s.front_most, s.front_least),
        7 => s.front_most = edge(random, s.front_least, LOAD, s.front_most),
        8 => s.front_step = edge(random, 1, LOAD, s.front_step),
        9 => s.rear_arm = signed_edge(random, ARM, s.rear_arm),
        10 => s.rear_most = edge(random, 0, LOAD, s.rear_most),
        11 => s.rear_step = edge(random, 1, LOAD, s.rear_step),
        12 => s.water_arm = signed_edge(random, ARM, s.water_arm),
        13 => s.capacity = edge(random, 0, TOP, s.capacity),
        _ => s.water_step = edge(random, 1, TOP, s.water_step),
    }
    s
}

/// Two fields of a sheet against each other, or a load at its greatest with a
/// step that leaves few rows.
fn edge_sheet_pair(random: &mut Random, mut s: Sheet) -> Sheet {
    match random.below(6) {
        0 => s.aft = s.fwd + random.between(-1, 2),
        1 => s.wet = s.dry - 1 + random.below(3),
        2 => s.front_least = s.front_most - 1 + random.below(3),
        3 => (s.front_most, s.front_step) = (LOAD + random.below(2), 2_500),
        4 => (s.rear_most, s.rear_step) = (LOAD + random.below(2), LOAD),
        _ => (s.capacity, s.water_step) = (TOP + random.below(2), TOP),
    }
    s
}

/// Rows at 256 and around it, by both of their factors; the remainder of a
/// quotient makes no row.
fn edge_rows(random: &mut Random, mut s: Sheet) -> Sheet {
    let (rears, waters) = random.pick(&[
        (1, 256),
        (256, 1),
        (2, 128),
        (16, 16),
        (64, 4),
        (15, 17),
        (1, 257),
        (257, 1),
        (3, 86),
        (129, 2),
        (17, 16),
    ]);
    s.rear_step = random.amount(1, 900);
    s.rear_most = (rears - 1) * s.rear_step + random.pick(&[0, s.rear_step - 1]);
    s.water_step = random.amount(1, 900);
    s.capacity = (waters - 1) * s.water_step + random.pick(&[0, s.water_step - 1]);
    lighten(random, &mut s);
    s
}

/// One field of a change at an edge.
pub(super) fn edge_change(random: &mut Random, mut change: Change) -> Change {
    match random.below(3) {
        0 => change.c = signed_edge(random, WEIGHT, change.c),
        1 => change.arm = signed_edge(random, ARM, change.arm),
        _ => change.flag = edge(random, 0, 1, change.flag),
    }
    change
}

/// A change after which G is 2 or 4,000,000 half grams, or as near as whole grams
/// come to it and to one beyond, or n is 0, G or one beyond.
fn edge_after_change(random: &mut Random, journal: &Journal, change: Change) -> Change {
    let Some(sums) = journal.sums() else {
        return change;
    };
    let (g, n) = (sums.g as i64, sums.n as i64);
    let (most, grams) = (HALVES * WEIGHT, |halves: i64| halves.div_euclid(HALVES));
    let (c, flag) = match random.below(3) {
        0 => {
            let after = random.pick(&[-2, 0, 1, 2, 3, most - 1, most, most + 1, most + 2]);
            (grams(after - g), change.flag)
        }
        1 => (random.pick(&[-1, 0]) - grams(n), 1),
        _ => (grams(n - g) + random.between(-1, 1), 0),
    };
    Change { c, flag, ..change }
}

/// One end of a seat at an edge, or the ends against each other: reversed, equal or
/// one apart.
pub(super) fn edge_seat(random: &mut Random, mut seat: Seat) -> Seat {
    let Seat { lower, higher } = seat;
    match random.below(7) {
        0 | 1 => seat.lower = signed_edge(random, ARM, lower),
        2 | 3 => seat.higher = signed_edge(random, ARM, higher),
        4 => (seat.lower, seat.higher) = (higher, lower),
        5 => seat.lower = higher.wrapping_add(random.between(-1, 1)),
        _ => seat.higher = lower.wrapping_add(random.between(-1, 1)),
    }
    seat
}

fn edge_pair_call(random: &mut Random, glider: &Glider) -> Call {
    let x = glider.pair(random);
    Call::Pair(match random.below(5) {
        0 | 1 => edge_pair_readings(random, x),
        2 => edge_share(random, x),
        _ => edge_pair(random, x),
    })
}

fn edge_weigh_call(random: &mut Random, glider: &Glider) -> Call {
    let w = glider.weigh(random);
    Call::Weigh(match random.below(3) {
        0 => edge_readings(random, w),
        _ => edge_weighing(random, w),
    })
}

fn edge_install_call(random: &mut Random, glider: &Glider) -> Call {
    let s = glider.sheet;
    Call::Install(match random.below(5) {
        0 => edge_sheet_pair(random, s),
        1 => edge_rows(random, s),
        _ => edge_sheet(random, s),
    })
}

fn edge_change_call(random: &mut Random, glider: &Glider, journal: &Journal) -> Call {
    let change = glider.part(random);
    Call::Change(match random.below(3) {
        0 => edge_change(random, change),
        _ => edge_after_change(random, journal, change),
    })
}

fn edge_seat_call(random: &mut Random, glider: &Glider) -> Call {
    let seat = glider.any_seat(random);
    Call::Seat(edge_seat(random, seat))
}

/// Sets a second field to an edge, so that the order of the numbers shows.
fn second_edge(random: &mut Random, call: Call) -> Call {
    match call {
        Call::Weigh(w) => Call::Weigh(edge_weighing(random, w)),
        Call::Pair(x) => Call::Pair(edge_pair(random, x)),
        Call::Install(s) => Call::Install(edge_sheet(random, s)),
        Call::Change(c) => Call::Change(edge_change(random, c)),
        Call::Seat(s) => Call::Seat(edge_seat(random, s)),
        other => other,
    }
}

/// A call that is good but for one field at an edge, seldom for two.
pub(super) fn edge_call(random: &mut Random, glider: &Glider, journal: &Journal) -> Call {
    let call = match random.below(7) {
        0 => edge_weigh_call(random, glider),
        1 => edge_pair_call(random, glider),
        2 | 3 => edge_install_call(random, glider),
        4 => edge_seat_call(random, glider),
        5 => Call::Indicate(edge_indicated(random, glider)),
        _ => edge_change_call(random, glider, journal),
    };
    if random.one_in(5) {
        second_edge(random, call)
    } else {
        call
    }
}
