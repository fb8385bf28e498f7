//! The proved library by its safe calls on lent buffers, for the programs that
//! compare and time it.

use judge::paper::{Call, Centre, Change, Columns, Counts, Indicated, Message};
use judge::paper::{Paired, Seat, Sheet, Weighing};
use judge::run::Calls;
use nodhulika::{lent, Cell, Refusal, Station};

/// The proved library.
pub struct Library;

impl Calls for Library {
    fn fresh(buffer: &mut [u8]) -> u64 {
        number(lent::fresh(buffer))
    }

    fn check(buffer: &[u8]) -> u64 {
        number(lent::check(buffer))
    }

    fn call(buffer: &mut [u8], call: &Call) -> u64 {
        number(match call {
            Call::Weigh(w) => lent::weigh(buffer, &weighing(w)),
            Call::Pair(x) => lent::weigh_paired(buffer, &paired(x)),
            Call::Indicate(x) => lent::weigh_indicated(buffer, &indicated(x)),
            Call::Install(s) => lent::sheet(buffer, &sheet(s)),
            Call::Change(c) => lent::change(buffer, &change(c)),
            Call::Seat(s) => lent::seat(buffer, &seat(s)),
            Call::Undo => lent::undo(buffer),
            Call::Read(file) => lent::read(buffer, file),
        })
    }

    fn centre(buffer: &[u8]) -> Result<Centre, u64> {
        let given = lent::centre(buffer).map_err(Refusal::number)?;
        Ok(Centre {
            total: given.total,
            moment: given.moment,
            centre: given.centre,
        })
    }

    fn placard(buffer: &[u8], out: &mut [u8]) -> Result<Counts, u64> {
        let given = lent::placard(buffer, out).map_err(Refusal::number)?;
        Ok(Counts {
            bytes: given.bytes,
            rows: given.rows,
            blank: given.blank,
        })
    }

    fn equipment(buffer: &[u8], columns: Columns) -> Result<usize, u64> {
        let Columns {
            arms,
            weights,
            nonlifting,
        } = columns;
        lent::equipment(buffer, arms, weights, nonlifting).map_err(Refusal::number)
    }
}

fn number(answer: Result<(), Refusal>) -> u64 {
    answer.err().map_or(0, Refusal::number)
}

fn weighing(w: &Weighing) -> nodhulika::Weighing {
    let Weighing { m, p, q, a, b, n } = *w;
    nodhulika::Weighing { m, p, q, a, b, n }
}

fn paired(x: &Paired) -> nodhulika::Paired {
    nodhulika::Paired {
        m: x.m,
        p: x.p,
        q: x.q,
        p2: x.p2,
        q2: x.q2,
        a: x.a,
        b: x.b,
        n: x.n,
    }
}

fn message(message: &Message) -> nodhulika::Message<'_> {
    let cell = Cell {
        rated: f64::from_bits(message.cell.rated),
        zero: f64::from_bits(message.cell.zero),
    };
    nodhulika::Message::new(&message.bytes, cell)
}

fn indicated(x: &Indicated) -> nodhulika::Indicated<'_> {
    nodhulika::Indicated {
        m: x.m,
        p: message(&x.p),
        q: message(&x.q),
        p2: message(&x.p2),
        q2: message(&x.q2),
        a: x.a,
        b: x.b,
        n: x.n,
    }
}

fn sheet(s: &Sheet) -> nodhulika::Sheet {
    let station = |arm, most, step| Station { arm, most, step };
    nodhulika::Sheet {
        fwd: s.fwd,
        aft: s.aft,
        dry: s.dry,
        wet: s.wet,
        nlp: s.nlp,
        front: station(s.front_arm, s.front_most, s.front_step),
        front_least: s.front_least,
        rear: station(s.rear_arm, s.rear_most, s.rear_step),
        water: station(s.water_arm, s.capacity, s.water_step),
    }
}

fn change(change: &Change) -> nodhulika::Change {
    let Change { c, arm, flag } = *change;
    nodhulika::Change { c, arm, flag }
}

fn seat(seat: &Seat) -> nodhulika::Seat {
    let Seat { lower, higher } = *seat;
    nodhulika::Seat { lower, higher }
}
