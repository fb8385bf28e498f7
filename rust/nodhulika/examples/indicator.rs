//! A glider is weighed with a load-cell indicator, from the bytes that it sends: the total
//! on a cell in the crane, the rear reading on a cell under the tail (method 1). The first
//! time one of the readings still moves, so that the scales are read again; then what came
//! of the weighing is printed:
//!
//! ```text
//! cargo run --example indicator
//! ```

use nodhulika::{Cell, Indicated, Message, Record, Refusal, Weighing};

/// What an indicator sends for a reading: a state, and a float with its highest byte first.
type Sent = [u8; 9];

/// The cells, with what each shows without the glider.
const CRANE: Cell = Cell {
    rated: 500.0,
    zero: 0.25,
};
const TAIL: Cell = Cell {
    rated: 50.0,
    zero: 0.05,
};

/// 310.25 and 29.95 kg, and then 310.65 kg.
const P: Sent = [1, 0x40, 0x73, 0x64, 0x00, 0x00, 0x00, 0x00, 0x00];
const Q: Sent = [1, 0x40, 0x3d, 0xf3, 0x33, 0x33, 0x33, 0x33, 0x33];
const P2: Sent = [1, 0x40, 0x73, 0x6a, 0x66, 0x66, 0x66, 0x66, 0x66];

/// The tail while it still swings, and at rest at 29.75 kg.
const SWINGING: Sent = [2, 0x40, 0x3d, 0xa0, 0x00, 0x00, 0x00, 0x00, 0x00];
const STEADY: Sent = [1, 0x40, 0x3d, 0xc0, 0x00, 0x00, 0x00, 0x00, 0x00];

/// The weighing with the last reading as it came.
fn weighing(q2: &Sent) -> Indicated<'_> {
    Indicated {
        m: Weighing::WHEEL_AND_TAIL,
        p: Message::new(&P, CRANE),
        q: Message::new(&Q, TAIL),
        p2: Message::new(&P2, CRANE),
        q2: Message::new(q2, TAIL),
        a: 9_500,
        b: 550_000,
        n: 0,
    }
}

fn main() -> Result<(), Refusal> {
    let mut record = Record::new();
    match record.weigh_indicated(&weighing(&SWINGING)) {
        Err(Refusal::Unsteady) => {
            println!("not at rest: read again");
            record.weigh_indicated(&weighing(&STEADY))?;
        }
        answer => answer?,
    }
    let empty = record.centre_of_gravity()?;
    println!("total {} g", empty.total as f64 / 2.0);
    println!("moment {} g x 0.01 mm", empty.moment as f64 / 2.0);
    println!("centre of gravity {} x 0.01 mm", empty.centre);
    println!("the record's file has {} bytes", record.as_bytes().len());
    Ok(())
}
