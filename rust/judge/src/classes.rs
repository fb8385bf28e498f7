//! What sorts of messages an indicator sends, so that it can be counted how often each was
//! tried.

use crate::paper::{Indicated, Message};

/// A sort of messages: its name, and whether a message is of it.
pub type Class = (&'static str, fn(&Message) -> bool);

/// The sorts that are counted; a message may be of several.
pub const CLASSES: [Class; 20] = [
    ("not of nine bytes", |x| x.bytes.len() != 9),
    ("of no state", |x| !matches!(state(x), Some(1..=3))),
    ("moving", |x| state(x) == Some(2)),
    ("over", |x| state(x) == Some(3)),
    ("reading not finite", |x| reads(x, |r| !r.is_finite())),
    ("rating not finite", |x| !rated(x).is_finite()),
    ("zero not finite", |x| !zero(x).is_finite()),
    ("a NaN with a payload", |x| {
        [reading(x), Some(rated(x)), Some(zero(x))]
            .into_iter()
            .flatten()
            .any(has_payload)
    }),
    ("reading below nought", |x| reads(x, |r| r < 0.0)),
    ("rating below nought", |x| rated(x) < 0.0),
    ("zero below nought", |x| zero(x) < 0.0),
    ("minus nought", |x| {
        reads(x, is_minus_nought) || is_minus_nought(zero(x)) || is_minus_nought(rated(x))
    }),
    ("reading subnormal", |x| reads(x, f64::is_subnormal)),
    ("zero subnormal", |x| zero(x).is_subnormal()),
    ("reading 2000 kg or a float beside", |x| {
        reads(x, |r| beside(r, 2_000.0))
    }),
    ("zero 2000 kg or a float beside", |x| {
        beside(zero(x), 2_000.0)
    }),
    ("reading its rating", |x| reads(x, |r| r == rated(x))),
    ("reading a float above its rating", |x| {
        reads(x, |r| r == rated(x).next_up())
    }),
    ("reading halfway between grams", |x| {
        reads(x, |r| r % 0.125 == 0.0625)
    }),
    ("reading a float beside half a gram", |x| {
        reads(x, |r| beside(r, ((r * 1_000.0).floor() + 0.5) / 1_000.0))
    }),
];

/// The messages of a weighing.
pub fn messages(x: &Indicated) -> [&Message; 4] {
    [&x.p, &x.q, &x.p2, &x.q2]
}

fn state(x: &Message) -> Option<u8> {
    x.bytes.first().copied()
}

/// The float of a stable reading.
fn reading(x: &Message) -> Option<f64> {
    match *x.bytes {
        [1, ref float @ ..] => float.try_into().ok().map(f64::from_be_bytes),
        _ => None,
    }
}

/// Whether a stable reading is of a sort.
fn reads(x: &Message, sort: impl Fn(f64) -> bool) -> bool {
    reading(x).is_some_and(sort)
}

fn rated(x: &Message) -> f64 {
    f64::from_bits(x.cell.rated)
}

fn zero(x: &Message) -> f64 {
    f64::from_bits(x.cell.zero)
}

fn has_payload(x: f64) -> bool {
    x.is_nan() && x.to_bits() << 13 != 0
}

fn is_minus_nought(x: f64) -> bool {
    x == 0.0 && x.is_sign_negative()
}

/// Whether a float is another, the one before or the one behind it.
fn beside(x: f64, other: f64) -> bool {
    x >= other.next_down() && x <= other.next_up()
}
