//! Seats whose back can be adjusted.

use super::glider::{Glider, WORK};
use super::random::Random;
use super::ARM;
use crate::paper::{seat_work, sheet_work, Call, Seat, Sheet, EVERY_ARM};

/// An arm on a limit or one unit beside it. The safe aft limit is seldom a whole
/// unit, so both of its neighbours are taken.
pub(super) fn beside_a_limit(random: &mut Random, s: &Sheet) -> i64 {
    let safe = (19 * s.aft + s.fwd).div_euclid(20);
    let limit = random.pick(&[s.fwd, s.aft, safe, safe + 1]);
    limit + random.pick(&[0, 0, 0, -1, 1])
}

/// A seat between two arms, whichever is the lower, that are in range.
fn between(one: i64, other: i64) -> Seat {
    let [one, other] = [one, other].map(|arm| arm.clamp(-ARM, ARM));
    Seat {
        lower: one.min(other),
        higher: one.max(other),
    }
}

/// A seat with an end as far out as arms go, or with both.
fn wide(random: &mut Random, arm: i64) -> Seat {
    let (one, other) = random.pick(&[
        (-ARM, ARM),
        (-ARM, arm),
        (arm, ARM),
        (1 - ARM, ARM - 1),
        (-ARM, -ARM),
        (ARM, ARM),
    ]);
    between(one, other)
}

/// The seat with no more arms than plain loops are quick about; one in fifty is left
/// as it is.
fn lightened(random: &mut Random, sheet: &Sheet, seat: Seat) -> Seat {
    let quick = (WORK / sheet_work(sheet)).max(2);
    if seat_work(&seat) <= quick || random.one_in(50) {
        return seat;
    }
    let higher = seat.lower + quick as i64 - 1;
    Seat { higher, ..seat }
}

impl Glider {
    /// An arm near the sheet's front arm: as far off as the back of a seat moves, or
    /// in a glider of some hundred grams a few units.
    fn arm_nearby(&self, random: &mut Random) -> i64 {
        let reach = if self.grams() > 1_000 {
            random.pick(&[500, 3_000, 15_000])
        } else {
            random.pick(&[2, 8, 40])
        };
        self.sheet.front_arm + random.between(-reach, reach)
    }

    /// A seat that is accepted behind the sheet: about its front arm, between limits
    /// or beside them, of few arms, of one, or as wide as can be.
    pub(super) fn any_seat(&self, random: &mut Random) -> Seat {
        let (arm, other) = (self.arm_nearby(random), self.arm_nearby(random));
        let seat = match random.below(12) {
            0..=4 => between(arm, other),
            5 => between(arm, self.sheet.front_arm),
            6 => random.pick(&[between(arm, arm), self.ends()]),
            7 => wide(random, arm),
            8 | 9 => between(arm, arm + random.between(0, EVERY_ARM as i64 + 1)),
            _ => return self.seat_at_limits(random),
        };
        lightened(random, &self.sheet, seat)
    }

    /// A seat with one end on a limit or one unit beside it, or with both.
    pub(super) fn seat_at_limits(&self, random: &mut Random) -> Seat {
        let end = beside_a_limit(random, &self.sheet);
        let seat = match random.below(8) {
            0..=2 => between(end, beside_a_limit(random, &self.sheet)),
            3 => between(end, end + random.between(1, 3)),
            4 => between(end, end),
            5 => wide(random, end),
            _ => between(end, self.arm_nearby(random)),
        };
        lightened(random, &self.sheet, seat)
    }

    /// A seat and what may come behind it: another one, the same sheet once more,
    /// which ends it, either of them taken back, or a weighing.
    pub(super) fn seat_calls(&self, random: &mut Random) -> Vec<Call> {
        let mut calls = vec![Call::Seat(self.any_seat(random))];
        match random.below(8) {
            0 => calls.push(Call::Seat(self.any_seat(random))),
            1 => calls.extend([Call::Seat(self.any_seat(random)), Call::Undo]),
            2 => calls.push(Call::Install(self.sheet)),
            3 => calls.extend([Call::Install(self.sheet), Call::Undo]),
            4 => calls.push(self.weighing_call(random)),
            5 => calls.push(Call::Undo),
            _ => {}
        }
        calls
    }
}
