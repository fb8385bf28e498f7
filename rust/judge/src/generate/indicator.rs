//! Weighings that an indicator sends: floats of every sort, readings beside each of
//! their bounds, messages of every state and length.
//!
//! Floats are made here by dividing, which is rounded to the nearest one, and by counting
//! on from there; what they come to is nothing that a case relies on, but for
//! [`kilograms`].

use super::edges::{edge, signed_edge};
use super::glider::{any_glider, Glider};
use super::random::Random;
use super::{ARM, TOP};
use crate::paper::{Call, Cell, Indicated, Message, Paired, Weighing};

/// Patterns of floats: the sign, an infinity, and 2000 kg.
const SIGN: u64 = 1 << 63;
const INFINITE: u64 = 0x7ff << 52;
const MOST_KILOGRAMS: u64 = 2_000.0_f64.to_bits();

// ---- Floats ----

/// The float nearest to so many half grams, in kilograms.
fn half_grams(halves: u64) -> u64 {
    (halves as f64 / 2_000.0).to_bits()
}

/// Kilograms that come to so many grams, at most 2,000,000: the float nearest to them,
/// or the first and the last one that is nearer to them than to a gram less or more.
fn kilograms(random: &mut Random, grams: u64) -> u64 {
    let nearest = half_grams(2 * grams);
    let first = match grams {
        0 => random.pick(&[0, SIGN, 1]),
        _ => half_grams(2 * grams - 1) + 1,
    };
    let last = (half_grams(2 * grams + 1) - 1).min(MOST_KILOGRAMS);
    random.pick(&[nearest, nearest, first, last])
}

/// A float beside which the grams change, or that is halfway: half a gram near so many
/// grams, or the odd sixteenth of a kilogram there, which is a true tie.
fn halfway(random: &mut Random, grams: u64) -> u64 {
    let sixteenth = (grams * 16 / 1_000) | 1;
    let tie = (sixteenth as f64 / 16.0).to_bits();
    random.pick(&[half_grams(2 * grams + 1), tie])
}

/// One float more or less, or the same.
fn beside(random: &mut Random, pattern: u64) -> u64 {
    random.pick(&[pattern, pattern.wrapping_add(1), pattern.wrapping_sub(1)])
}

/// A float of any exponent, sign and fraction.
fn any_exponent(random: &mut Random) -> u64 {
    let fraction = random.draw() >> 12;
    let fraction = random.pick(&[fraction, fraction, 0, 1, (1 << 52) - 1]);
    random.pick(&[0, 0, SIGN]) | random.below(2_048) << 52 | fraction
}

/// A float that is not finite: an infinity, or a NaN with something in its fraction.
fn not_finite(random: &mut Random) -> u64 {
    let fraction = random.draw() >> 12;
    let quiet = 1 << 51;
    let fraction = random.pick(&[0, 1, quiet, quiet | 1, fraction, (1 << 52) - 1]);
    random.pick(&[0, SIGN]) | INFINITE | fraction
}

/// A float near one that will do, at a bound or far from all.
fn any_float(random: &mut Random, good: u64) -> u64 {
    let grams = random.below(TOP + 1);
    match random.below(11) {
        0 => random.pick(&[0, SIGN, 1, SIGN | 1, (1 << 52) - 1, 1 << 52]),
        1 => random.draw() >> (12 + random.below(52)),
        2 | 3 => not_finite(random),
        4 => beside(random, MOST_KILOGRAMS),
        5 => good ^ SIGN,
        6 => {
            let half = halfway(random, grams);
            beside(random, half)
        }
        7 => beside(random, good),
        8 => kilograms(random, grams),
        9 => random.draw(),
        _ => any_exponent(random),
    }
}

// ---- What will do ----

/// What a cell may be rated for that shows so much: just that, a float more, or more.
fn rating(random: &mut Random, reading: u64) -> u64 {
    let enough = 2_500.0_f64.to_bits();
    let more = (reading & !SIGN) + 1;
    random.pick(&[reading, more, enough, enough, INFINITE - 1])
}

/// A message that comes to so many grams: its reading, its zero, or where it is turned
/// round its zero and its reading, are so far apart.
fn message(random: &mut Random, net: u64, turned: bool) -> Option<Message> {
    let room = TOP.checked_sub(net)?;
    let any = random.below(room + 1);
    let less = random
        .pick(&[0, 1, 750, 4_200, 63_000, any, room])
        .min(room);
    let (reading, zero) = if turned {
        (less, less + net)
    } else {
        (less + net, less)
    };
    let (reading, zero) = (kilograms(random, reading), kilograms(random, zero));
    let rated = rating(random, reading);
    Some(Message::stable(reading, Cell { rated, zero }))
}

/// A paired weighing as an indicator sends it; none where no cell shows its readings.
fn sent(random: &mut Random, x: &Paired) -> Option<Indicated> {
    let turned = x.m == 4;
    Some(Indicated {
        m: x.m,
        p: message(random, x.p, false)?,
        q: message(random, x.q, turned)?,
        p2: message(random, x.p2, false)?,
        q2: message(random, x.q2, turned)?,
        a: x.a,
        b: x.b,
        n: x.n,
    })
}

/// A weighing as a pair of equals.
fn alike(w: &Weighing) -> Paired {
    Paired {
        m: w.m,
        p: w.p,
        q: w.q,
        p2: w.p,
        q2: w.q,
        a: w.a,
        b: w.b,
        n: w.n,
    }
}

/// Has an indicator send some weighings of one case in seven.
pub(super) fn by_indicator(random: &mut Random, calls: &mut [Call]) {
    if !random.one_in(7) {
        return;
    }
    for call in calls {
        let paired = match call {
            Call::Weigh(w) => alike(w),
            Call::Pair(x) => *x,
            _ => continue,
        };
        if random.one_in(2) {
            if let Some(sent) = sent(random, &paired) {
                *call = Call::Indicate(sent);
            }
        }
    }
}

/// The glider's weighing by an indicator.
fn good(random: &mut Random, glider: &Glider) -> Indicated {
    loop {
        let paired = glider.pair(random);
        if let Some(sent) = sent(random, &paired) {
            return sent;
        }
    }
}

// ---- What will not do, or just so ----

/// One of the four messages.
fn any_message<'a>(random: &mut Random, x: &'a mut Indicated) -> &'a mut Message {
    match random.below(4) {
        0 => &mut x.p,
        1 => &mut x.q,
        2 => &mut x.p2,
        _ => &mut x.q2,
    }
}

/// The float that a message has, or 0 where it has none.
fn reading(message: &Message) -> u64 {
    let float = message.bytes.last_chunk().copied().unwrap_or_default();
    u64::from_be_bytes(float)
}

fn set_reading(message: &mut Message, pattern: u64) {
    *message = Message::stable(pattern, message.cell);
}

/// A message that may not be steady: another state, with any float behind it, or another
/// length.
fn unsteady(random: &mut Random, message: &mut Message) {
    if random.one_in(2) {
        let (good, any) = (reading(message), any_float(random, 0));
        set_reading(message, random.pick(&[good, any]));
        message.bytes[0] = random.pick(&[0, 2, 2, 3, 3, 4, 1, 255]);
        return;
    }
    let any = random.below(20) as usize;
    let length = random.pick(&[0, 1, 8, 8, 10, 10, any]);
    let last = random.draw() as u8;
    message.bytes.resize(length, last);
}

/// Zero and reading beside one another: a gram more of the one that is taken off, half a
/// gram of it, or a float.
fn nearly_alike(random: &mut Random, message: &mut Message) {
    let grams = random.pick(&[0, 1, 2, 1_000, 4_200, 300_000, TOP - 2]);
    let first = kilograms(random, grams);
    let half = halfway(random, grams);
    let (half, other) = (beside(random, half), kilograms(random, grams + 1));
    let second = random.pick(&[half, half, other, first, first ^ SIGN]);
    let (reading, zero) = random.pick(&[(first, second), (second, first)]);
    message.cell.zero = zero;
    set_reading(message, reading);
}

/// A message with one of its three floats, or two of them, at a bound or beyond.
fn bad_load(random: &mut Random, message: &mut Message) {
    let good = reading(message);
    match random.below(8) {
        0 | 1 => {
            let float = any_float(random, good);
            set_reading(message, float);
        }
        2 | 3 => message.cell.zero = any_float(random, message.cell.zero),
        4 => message.cell.rated = any_float(random, good),
        5 => message.cell.rated = beside(random, good),
        6 => {
            // The heaviest that is weighed, with a rating beside it.
            let most = beside(random, MOST_KILOGRAMS);
            message.cell.rated = beside(random, most);
            set_reading(message, most);
        }
        _ => nearly_alike(random, message),
    }
}

/// A reading halfway between two grams, or a float beside that, which a cell shows.
fn halved(random: &mut Random, message: &mut Message) {
    let grams = (f64::from_bits(reading(message)) * 1_000.0) as u64;
    let half = halfway(random, grams.min(TOP - 1));
    let float = beside(random, half);
    message.cell.rated = rating(random, float);
    set_reading(message, float);
}

/// One thing of a weighing at an edge.
fn edge_of(random: &mut Random, x: &mut Indicated) {
    let message = any_message(random, x);
    match random.below(12) {
        0..=2 => unsteady(random, message),
        3..=7 => bad_load(random, message),
        8 => {
            // 13 in the last of them, whatever is the matter with the first.
            bad_load(random, &mut x.p);
            unsteady(random, &mut x.q2);
        }
        9 => halved(random, message),
        10 => x.m = random.pick(&[0, 1, 2, 3, 4, 4, 5, u64::MAX]),
        _ => match random.below(3) {
            0 => x.a = signed_edge(random, ARM, x.a),
            1 => x.b = edge(random, 1, ARM as u64, x.b),
            _ => x.n = edge(random, 0, TOP, x.n),
        },
    }
}

/// A weighing by an indicator, good or with one thing or two at an edge.
pub(super) fn edge_indicated(random: &mut Random, glider: &Glider) -> Indicated {
    let mut x = good(random, glider);
    for _ in 0..random.pick(&[0, 1, 1, 1, 2]) {
        edge_of(random, &mut x);
    }
    x
}

/// Weighings by an indicator, good and bad, at times on a record that is full or nearly
/// so, and what comes behind a weighing.
pub(super) fn indicator_case(random: &mut Random) -> Vec<Call> {
    let glider = any_glider(random);
    let mut calls = match random.below(8) {
        0 => Vec::new(),
        1 => vec![Call::Install(glider.sheet)],
        _ => glider.record(random),
    };
    if random.one_in(8) {
        let full = random.pick(&[63, 64, 64]);
        calls.resize(full, Call::Install(glider.sheet));
    }
    for _ in 0..random.pick(&[1, 1, 2, 5]) {
        calls.push(Call::Indicate(edge_indicated(random, &glider)));
    }
    match random.below(6) {
        0 => calls.push(Call::Undo),
        1 => calls.push(Call::Install(glider.sheet)),
        2 => calls.push(Call::Change(glider.part(random))),
        3 => calls.push(Call::Seat(glider.any_seat(random))),
        _ => {}
    }
    calls
}

#[cfg(test)]
mod tests {
    use super::*;
    use crate::paper::weighed_by_indicator;

    #[test]
    fn kilograms_come_to_their_grams() {
        let mut random = Random::new(5, 0);
        for i in 0..60_000 {
            let net = match i % 3 {
                0 => i / 3 % 50,
                1 => TOP - i / 3 % 50,
                _ => random.below(TOP + 1),
            };
            let (p, q, n) = (net, 0, 0);
            let paired = alike(&Weighing {
                m: random.amount(1, 4),
                p,
                q,
                a: 0,
                b: 1,
                n,
            });
            let sent = sent(&mut random, &paired).unwrap();
            assert_eq!(weighed_by_indicator(&sent), Ok(paired), "{sent:?}");
        }
    }

    /// Gliders by all four methods, as they are weighed and as an indicator sends it.
    #[test]
    fn what_is_sent_is_what_was_weighed() {
        let mut random = Random::new(5, 1);
        let mut methods = [0; 4];
        for _ in 0..5_000 {
            let paired = any_glider(&mut random).pair(&mut random);
            if let Some(sent) = sent(&mut random, &paired) {
                assert_eq!(weighed_by_indicator(&sent), Ok(paired), "{sent:?}");
                methods[paired.m as usize - 1] += 1;
            }
        }
        assert!(methods.iter().all(|count| *count > 1_000), "{methods:?}");
    }
}
