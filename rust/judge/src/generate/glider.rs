//! Gliders whose limits are met somewhere among their loads.

use super::random::Random;
use super::{ARM, HALVES, LOAD, TOP, WEIGHT};
use crate::paper::{sheet_work, Call, Change, Paired, Seat, Sheet, Weighing};

/// Tests of the limits that plain loops may take for a placard; one sheet in
/// fifty is left as it is and may take more.
pub(super) const WORK: u64 = 200_000;

/// A glider before it is weighed. Where total and moment are odd it takes two
/// readings to weigh it exactly.
#[derive(Clone, Copy)]
pub(super) struct Glider {
    /// Total weight, in half grams.
    pub(super) g: i64,
    /// Moment, in half grams times units of arm.
    pub(super) moment: i64,
    /// Non-lifting weight, in grams.
    pub(super) n: i64,
    /// Data sheet.
    pub(super) sheet: Sheet,
    /// Seat, where its back can be adjusted.
    pub(super) seat: Option<Seat>,
}

/// Front load, rear load and water.
#[derive(Clone, Copy)]
struct Loads {
    p: i64,
    r: i64,
    v: i64,
}

impl Glider {
    /// Of g grams, or half a gram more.
    fn new(random: &mut Random, g: u64, n: u64, sheet: Sheet) -> Glider {
        Glider {
            g: HALVES * g as i64 + random.pick(&[0, 0, 1]),
            moment: 0,
            n: n as i64,
            sheet,
            seat: None,
        }
    }

    /// The total in whole grams.
    pub(super) fn grams(&self) -> i64 {
        self.g / HALVES
    }

    /// The ends of its seat, or the front arm of its sheet as both.
    pub(super) fn ends(&self) -> Seat {
        self.seat.unwrap_or(Seat {
            lower: self.sheet.front_arm,
            higher: self.sheet.front_arm,
        })
    }

    /// The weight with these loads, and the moment of the loads alone, both in
    /// half grams, with the front load at an arm.
    fn loaded(&self, arm: i64, loads: Loads) -> (i64, i64) {
        let Loads { p, r, v } = loads;
        let s = &self.sheet;
        let moment = p * arm + r * s.rear_arm + v * s.water_arm;
        (self.g + HALVES * (p + r + v), HALVES * moment)
    }

    /// Gives the glider the moment with which these loads stand `inside` units
    /// of moment inside the forward limit, at the lower end of its seat.
    fn meet_forward(&mut self, loads: Loads, inside: i64) {
        let (total, moment) = self.loaded(self.ends().lower, loads);
        self.moment = self.sheet.fwd * total - moment + inside;
    }

    /// The same for the safe aft limit, as near as whole moments come to it, at the
    /// higher end.
    fn meet_aft(&mut self, loads: Loads, inside: i64) {
        let (total, moment) = self.loaded(self.ends().higher, loads);
        let safe = 19 * self.sheet.aft + self.sheet.fwd;
        self.moment = (safe * total).div_euclid(20) - moment - inside;
    }

    /// Meets one of the limits with the loads of some row.
    pub(super) fn meet_somewhere(&mut self, random: &mut Random, insides: &[i64]) {
        let loads = some_loads(random, &self.sheet);
        let inside = random.pick(insides);
        if random.one_in(2) {
            self.meet_forward(loads, inside);
        } else {
            self.meet_aft(loads, inside);
        }
    }

    /// Meets the safe aft limit as closely as whole moments can: up to 19 half
    /// grams more of glider bring the limit to a whole moment or a twentieth
    /// beside one, and the moment stands on it, a twentieth inside or a
    /// twentieth behind.
    pub(super) fn meet_aft_closely(&mut self, random: &mut Random) {
        let loads = some_loads(random, &self.sheet);
        let safe = 19 * self.sheet.aft + self.sheet.fwd;
        let (twentieths, inside) = random.pick(&[(0, 0), (1, 0), (19, -1)]);
        for _ in 0..20 {
            let (total, _) = self.loaded(self.ends().higher, loads);
            if (safe * total).rem_euclid(20) == twentieths {
                break;
            }
            self.g += 1;
        }
        self.meet_aft(loads, inside);
    }

    /// Puts the centre of gravity halfway between two units, or a unit of moment
    /// beside that.
    pub(super) fn halve_centre(&mut self, random: &mut Random) {
        let whole = self.moment - self.moment.rem_euclid(self.g);
        self.moment = whole + self.g / 2 + random.pick(&[0, 0, 1, -1]);
    }

    /// Lets the greatest front load fall to 0 or just below it: the safe aft
    /// limit is met with an empty seat, and DRY leaves hardly anything.
    pub(super) fn leave_no_load(&mut self, random: &mut Random) {
        let s = &mut self.sheet;
        let step = s.front_step as i64;
        let half = s.rear_most as i64 / 2;
        let room = random.between(-step, 2 * step) + random.pick(&[0, half]);
        s.front_least = 0;
        s.dry = (self.g / HALVES + room).clamp(1, WEIGHT) as u64;
        s.wet = s.wet.max(s.dry);
        let inside = random.between(0, 1_000_000_000);
        self.meet_aft(Loads { p: 0, r: 0, v: 0 }, inside);
    }

    /// Moves the datum: every arm grows by the same amount, and the placard
    /// stays as it is.
    pub(super) fn move_datum(&mut self, by: i64) {
        let s = &mut self.sheet;
        s.fwd += by;
        s.aft += by;
        s.front_arm += by;
        s.rear_arm += by;
        s.water_arm += by;
        if let Some(seat) = &mut self.seat {
            seat.lower += by;
            seat.higher += by;
        }
        self.moment += self.g * by;
    }

    /// How far the datum can move ahead and back with all arms in range, those
    /// of a weighing among them.
    pub(super) fn datum_range(&self) -> (i64, i64) {
        let (s, seat) = (&self.sheet, self.ends());
        // A wide seat can ask for a centre that no weighing gives.
        let centre = self.moment.div_euclid(self.g).clamp(-ARM, ARM - 1);
        let (mut low, mut high) = (centre.min(seat.lower), seat.higher.max(centre + 1));
        for arm in [s.fwd, s.aft, s.front_arm, s.rear_arm, s.water_arm] {
            low = low.min(arm);
            high = high.max(arm);
        }
        (-ARM - low, ARM - high)
    }

    /// Its weighing, plain or paired, and its sheet, in either order, and its seat
    /// behind them.
    pub(super) fn record(&self, random: &mut Random) -> Vec<Call> {
        let weighing = if random.one_in(3) {
            self.weigh_exactly(random)
        } else {
            self.weighing_call(random)
        };
        self.with_sheet(random, weighing)
    }

    /// The same with not a unit of the moment lost.
    pub(super) fn record_exactly(&self, random: &mut Random) -> Vec<Call> {
        let weighing = self.weigh_exactly(random);
        self.with_sheet(random, weighing)
    }

    fn with_sheet(&self, random: &mut Random, weighing: Call) -> Vec<Call> {
        let mut calls = vec![weighing, Call::Install(self.sheet)];
        calls.rotate_left(random.below(2) as usize);
        calls.extend(self.seat.map(Call::Seat));
        calls
    }

    /// A weighing, one time in three a paired one.
    pub(super) fn weighing_call(&self, random: &mut Random) -> Call {
        if random.one_in(3) {
            Call::Pair(self.pair(random))
        } else {
            Call::Weigh(self.weigh(random))
        }
    }

    /// A weighing by any method that gives exactly this total and moment: a plain
    /// one where they are even, but for one time in four.
    fn weigh_exactly(&self, random: &mut Random) -> Call {
        let even = self.g % HALVES == 0 && self.moment % HALVES == 0;
        if even && !random.one_in(4) {
            Call::Weigh(self.plain_exactly(random))
        } else {
            Call::Pair(self.pair_exactly(random))
        }
    }

    /// A plain weighing that gives this moment, or half a unit less: the supports
    /// stand one unit apart, and the second reading makes up the remainder.
    fn plain_exactly(&self, random: &mut Random) -> Weighing {
        let (g, moment) = (self.grams(), self.moment.div_euclid(HALVES));
        let (arm, rest) = (moment.div_euclid(g), moment.rem_euclid(g));
        let m = self.any_method(random);
        let (p, q) = readings(m, g, rest);
        self.weighing(m, p, q, exact_arm(m, arm), 1)
    }

    /// A paired weighing that gives exactly this total and moment, in the same
    /// way: each reading makes up its part of the remainder.
    fn pair_exactly(&self, random: &mut Random) -> Paired {
        let Glider { g, moment, .. } = *self;
        let (arm, rest) = (moment.div_euclid(g), moment.rem_euclid(g));
        let m = self.any_method(random);
        let (first, second) = self.apart(random);
        let part = random.between((rest - second).max(0), rest.min(first));
        let parts = readings(m, first, part);
        let others = readings(m, second, rest - part);
        self.paired(m, parts, others, exact_arm(m, arm), 1)
    }

    /// A method whose readings are weights where the supports stand close: in
    /// method 4 they are up to twice the total.
    fn any_method(&self, random: &mut Random) -> u64 {
        let methods = if 2 * self.g <= HALVES * WEIGHT { 4 } else { 3 };
        random.amount(1, methods)
    }

    /// Two totals in grams whose sum is this one: equal or nearly so, or as far
    /// apart as weights and the non-lifting weight let them be.
    fn apart(&self, random: &mut Random) -> (i64, i64) {
        let half = self.grams();
        let far = (half - self.n.max(1)).min(WEIGHT - (self.g - half));
        let less = random.pick(&[0, 0, 1, 5, 40, 300, 2_000, far]).min(far);
        let totals = (half - less, self.g - half + less);
        if random.one_in(2) {
            totals
        } else {
            (totals.1, totals.0)
        }
    }

    /// A weighing by any method with the supports as far apart as they are in a
    /// glider; the moment comes out to within one unit of arm.
    pub(super) fn weigh(&self, random: &mut Random) -> Weighing {
        let (g, moment) = (self.grams(), self.moment.div_euclid(HALVES));
        let b = random.between(90_000, 600_000);
        let part = g * random.between(0, 40) / 100;
        let (m, p, q, a) = match random.amount(1, 4) {
            1 => (1, g, part, (moment - part * b).div_euclid(g)),
            2 => (2, g, g - part, (part * b - moment).div_euclid(g)),
            3 => (3, g - part, part, (part * b - moment).div_euclid(g)),
            _ => (4, g + part, part, (moment + part * b).div_euclid(g)),
        };
        if a.abs() > ARM || p > WEIGHT {
            return self.plain_exactly(random);
        }
        self.weighing(m, p, q, a, b)
    }

    /// The same with the scales read again: once more alike, or a few grams apart
    /// on either of them.
    pub(super) fn pair(&self, random: &mut Random) -> Paired {
        let w = self.weigh(random);
        let (more, behind) = (random.between(-30, 30), random.between(-9, 9));
        let (more, behind) = random.pick(&[(0, 0), (1, 0), (-1, 0), (0, 1), (more, behind)]);
        let again = |reading: u64, by: i64| reading.saturating_add_signed(by).min(TOP);
        Paired {
            m: w.m,
            p: w.p,
            q: w.q,
            p2: again(w.p, more),
            q2: again(w.q, behind),
            a: w.a,
            b: w.b,
            n: w.n,
        }
    }

    fn weighing(&self, m: u64, p: i64, q: i64, a: i64, b: i64) -> Weighing {
        Weighing {
            m,
            p: p as u64,
            q: q as u64,
            a,
            b: b as u64,
            n: self.n as u64,
        }
    }

    fn paired(&self, m: u64, first: (i64, i64), second: (i64, i64), a: i64, b: u64) -> Paired {
        Paired {
            m,
            p: first.0 as u64,
            q: first.1 as u64,
            p2: second.0 as u64,
            q2: second.1 as u64,
            a,
            b,
            n: self.n as u64,
        }
    }

    /// A part that comes or goes, of a weight and at a place that suit the
    /// glider: a battery, an instrument, a bar of ballast, a tail wheel.
    pub(super) fn part(&self, random: &mut Random) -> Change {
        let (most, reach) = if self.grams() > 1_000 {
            (8_000, 150_000 * random.pick(&[1, 1, 3]))
        } else {
            (4, 60)
        };
        let c = random.between(1, most);
        let arm = self.sheet.fwd + random.between(-reach, reach);
        Change {
            c: random.pick(&[c, c, -(c + 2) / 3]),
            arm: arm.clamp(-ARM, ARM),
            flag: random.below(2),
        }
    }

    /// The heaviest part that can be fitted, or half of it, at one end.
    pub(super) fn heavy_part(&self, random: &mut Random) -> Change {
        let most = WEIGHT - self.grams();
        Change {
            c: random.pick(&[most, most - 1, most / 2]),
            arm: random.pick(&[ARM, -ARM, 1_234_567, -7]),
            flag: random.below(2),
        }
    }
}

/// Readings of a total of g grams by a method, with `rest` of moment above the
/// arm's where the supports stand one unit apart; `rest` is 0 to g.
fn readings(m: u64, g: i64, rest: i64) -> (i64, i64) {
    match m {
        1 => (g, rest),
        2 => (g, g - rest),
        3 => (g - rest, rest),
        _ => (2 * g - rest, g - rest),
    }
}

/// The distance a with which such readings give the moment.
fn exact_arm(m: u64, arm: i64) -> i64 {
    match m {
        1 => arm,
        2 | 3 => -arm,
        _ => arm + 1,
    }
}

/// Loads of some row, the front load more often than not one of its steps.
fn some_loads(random: &mut Random, s: &Sheet) -> Loads {
    let p = random.amount(s.front_least, s.front_most);
    let step = p - p % s.front_step;
    let r = random.below(s.rear_most / s.rear_step + 1) * s.rear_step;
    let w = random.below(s.capacity / s.water_step + 1) * s.water_step;
    Loads {
        p: random.pick(&[step, step, p]) as i64,
        r: random.pick(&[0, r]) as i64,
        v: random.pick(&[0, w]) as i64,
    }
}

/// Makes the front step coarser until plain loops are quick about the placard.
pub(super) fn lighten(random: &mut Random, sheet: &mut Sheet) {
    if random.one_in(50) {
        return;
    }
    while sheet_work(sheet) > WORK && sheet.front_step < LOAD / 2 {
        sheet.front_step *= 2;
    }
}

/// A single-seater with or without water.
fn single_seater(random: &mut Random) -> Glider {
    let g = random.amount(180_000, 330_000);
    let n = g * random.amount(35, 60) / 100;
    let fwd = random.between(2_000, 30_000);
    let aft = fwd + random.between(8_000, 25_000);
    let dry = g + random.amount(85_000, 180_000);
    let non_lifting = n + random.amount(70_000, 160_000);
    let (low, high) = (random.below(70_000), random.amount(70_000, 89_000));
    let (capacity, water_step) = random.pick(&[
        (0, 1),
        (0, 20_000),
        (100_000, 50_000),
        (120_000, 20_000),
        (150_000, 25_000),
        (90_000, 7_000),
        (45_000, 5_000),
    ]);
    let sheet = Sheet {
        fwd,
        aft,
        dry,
        wet: dry + random.below(200_000),
        nlp: random.pick(&[0, non_lifting]),
        front_arm: -random.between(30_000, 120_000),
        front_least: random.pick(&[low, low, high]),
        front_most: random.amount(90_000, 125_000),
        front_step: random.pick(&[100, 150, 250, 500, 1_000, 1_000, 2_500, 5_000]),
        rear_arm: 0,
        rear_most: 0,
        rear_step: 1,
        water_arm: random.between(fwd - 15_000, aft + 15_000),
        capacity,
        water_step,
    };
    balance(random, g, n, sheet)
}

/// A two-seater, its rear seat near the centre of gravity.
fn two_seater(random: &mut Random) -> Glider {
    let Glider { n, sheet, .. } = single_seater(random);
    let n = n as u64;
    let g = random.amount(280_000, 450_000);
    let dry = g + random.amount(150_000, 280_000);
    let non_lifting = n + random.amount(90_000, 260_000);
    let (rear_most, rear_step) = random.pick(&[
        (110_000, 55_000),
        (110_000, 10_000),
        (100_000, 12_500),
        (115_000, 7_500),
        (90_000, 30_000),
        (70_000, 70_000),
    ]);
    let sheet = Sheet {
        dry,
        wet: dry + random.below(150_000),
        nlp: random.pick(&[0, non_lifting]),
        front_arm: -random.between(60_000, 140_000),
        rear_arm: random.between(-30_000, 20_000),
        rear_most,
        rear_step,
        ..sheet
    };
    balance(random, g, n, sheet)
}

/// Settles the moment: the safe aft limit is met with a load that a pilot may
/// have, so that lighter ones are too light.
fn balance(random: &mut Random, g: u64, n: u64, mut sheet: Sheet) -> Glider {
    lighten(random, &mut sheet);
    let mut glider = Glider::new(random, g, n, sheet);
    let p = random.between(15_000, 90_000);
    let half = sheet.rear_most as i64 / 2;
    let r = random.pick(&[0, 0, half]);
    let inside = random.between(0, 1_000_000);
    glider.meet_aft(Loads { p, r, v: 0 }, inside);
    glider
}

/// A single- or a two-seater.
pub(super) fn seater(random: &mut Random) -> Glider {
    if random.one_in(2) {
        single_seater(random)
    } else {
        two_seater(random)
    }
}

/// A glider of a few hundred grams, where every unit of moment tells and every
/// gram of water is tried.
pub(super) fn toy(random: &mut Random) -> Glider {
    let g = random.amount(1, 400);
    let n = random.below(g + 1);
    let fwd = random.between(-40, 40);
    let aft = fwd + random.between(1, 40);
    let dry = g + random.below(120);
    let least = random.below(20) * random.below(2);
    let mut sheet = Sheet {
        fwd,
        aft,
        dry,
        wet: dry + random.below(60),
        nlp: random.pick(&[0, 0, n + 20, n + 50]),
        front_arm: random.between(fwd - 90, aft + 60),
        front_least: least,
        front_most: least + random.below(70),
        front_step: random.amount(1, 5),
        rear_arm: random.between(-60, 60),
        rear_most: random.below(30),
        rear_step: random.amount(2, 12),
        water_arm: random.between(-80, 80),
        capacity: random.below(40),
        water_step: random.amount(2, 12),
    };
    lighten(random, &mut sheet);
    let mut glider = Glider::new(random, g, n, sheet);
    glider.meet_somewhere(random, &[0, 0, 1, 5, 50]);
    glider
}

/// A glider of any size.
pub(super) fn any_glider(random: &mut Random) -> Glider {
    if random.one_in(4) {
        toy(random)
    } else {
        seater(random)
    }
}

/// Case G of the paper: a single-seater with water.
const CASE_G: Glider = Glider {
    g: HALVES * 288_000,
    moment: HALVES * 288_000 * 63_334,
    n: 140_000,
    sheet: Sheet {
        fwd: 25_000,
        aft: 42_500,
        dry: 380_000,
        wet: 450_000,
        nlp: 240_000,
        front_arm: -47_500,
        front_least: 55_000,
        front_most: 110_000,
        front_step: 1_000,
        rear_arm: 0,
        rear_most: 0,
        rear_step: 1,
        water_arm: 30_000,
        capacity: 100_000,
        water_step: 50_000,
    },
    seat: None,
};

/// Case J of the paper: a two-seater.
const CASE_J: Glider = Glider {
    g: HALVES * 310_000,
    moment: HALVES * 19_390_000_000,
    n: 0,
    sheet: Sheet {
        fwd: 11_200,
        aft: 30_000,
        dry: 500_000,
        wet: 500_000,
        nlp: 0,
        front_arm: -123_200,
        front_least: 0,
        front_most: 110_000,
        front_step: 1_000,
        rear_arm: -11_200,
        rear_most: 110_000,
        rear_step: 55_000,
        water_arm: 0,
        capacity: 0,
        water_step: 1,
    },
    seat: None,
};

/// The paper's own gliders, or near to them.
pub(super) fn worked_plate(random: &mut Random) -> Glider {
    let mut glider = random.pick(&[CASE_G, CASE_J]);
    let s = &mut glider.sheet;
    for _ in 0..random.below(3) {
        match random.below(9) {
            0 => s.front_arm += random.between(-20_000, 20_000),
            1 => s.front_step = random.amount(300, 6_000),
            2 => s.dry -= random.below(30_000),
            3 => s.wet = (s.wet + random.below(60_000)).min(TOP),
            4 => s.nlp = glider.n as u64 + random.amount(60_000, 200_000),
            5 => s.water_arm = random.between(0, 60_000),
            6 => s.aft += random.between(-6_000, 6_000),
            7 => glider.moment += random.between(-6_000_000_000, 4_000_000_000),
            _ => s.front_least = random.below(90_000),
        }
    }
    glider
}
