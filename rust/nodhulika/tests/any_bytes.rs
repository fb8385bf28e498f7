//! Buffers that no call made: bytes of a record's file, changed at random, and
//! bytes that never were one. Every call ends, a refusal changes no byte, and
//! what an accepted call leaves is a record.

mod common;

use common::{case_g, of_version_1, FREE, VERSION};
use common::{G_INDICATED, G_PAIRED, G_SEAT, G_SHEET, G_WEIGHING, H_CHANGE};
use nodhulika::{lent, Cell, Indicated, Message, Record, Refusal};

/// Numbers from a seed, the same in every run (xorshift).
struct Numbers(u64);

impl Numbers {
    fn next(&mut self) -> u64 {
        self.0 ^= self.0 << 13;
        self.0 ^= self.0 >> 7;
        self.0 ^= self.0 << 17;
        self.0
    }

    fn below(&mut self, bound: usize) -> usize {
        (self.next() % bound as u64) as usize
    }
}

/// A record's file of either version, with up to three bytes changed, cut or with
/// free bytes behind.
fn buffer_from(numbers: &mut Numbers) -> Vec<u8> {
    let mut record = case_g();
    if numbers.below(3) == 0 {
        assert_eq!(record.weigh_paired(&G_PAIRED), Ok(()));
    }
    if numbers.below(3) == 0 {
        assert_eq!(record.seat(&G_SEAT), Ok(()));
    }
    for _ in 0..numbers.below(4) {
        assert_eq!(record.change(&H_CHANGE), Ok(()));
    }
    let mut buffer = record.as_bytes().to_vec();
    if numbers.below(2) == 0 {
        buffer = of_version_1(&buffer);
    }
    for _ in 0..numbers.below(4) {
        let at = numbers.below(buffer.len());
        buffer[at] = numbers.below(256) as u8;
    }
    buffer.resize(numbers.below(200), FREE);
    buffer
}

/// Makes a call that writes to the buffer, and looks at what it leaves.
fn call_on(buffer: &[u8], call: impl Fn(&mut [u8]) -> Result<(), Refusal>) {
    let mut after = buffer.to_vec();
    match call(&mut after) {
        Err(_) => assert_eq!(after, buffer),
        Ok(()) => {
            let end = lent::file(&after).unwrap().len();
            assert_eq!(after[VERSION], 2);
            assert_eq!(after[end..], buffer[end..]);
            assert!(Record::from_file(&after[..end]).is_ok());
        }
    }
}

/// A float by its pattern: any, or one that a cell may well have.
fn float_from(numbers: &mut Numbers) -> f64 {
    let kilograms = numbers.below(2_100_000) as f64 / 1_000.0;
    match numbers.below(40) {
        0 => f64::from_bits(numbers.next()),
        1 => f64::from_bits(numbers.next() | 0x7ff << 52),
        2 => -kilograms,
        _ => kilograms,
    }
}

/// What an indicator may have sent: mostly nine bytes of a state and a float.
fn message_from(numbers: &mut Numbers) -> Vec<u8> {
    let state = [2, 3, 0, 4].get(numbers.below(40)).unwrap_or(&1);
    let mut bytes = vec![*state];
    bytes.extend(float_from(numbers).to_be_bytes());
    if numbers.below(40) == 0 {
        bytes.resize(numbers.below(20), FREE);
    }
    bytes
}

/// What is sent need not be what an indicator sends, nor a cell be one. A message may be a
/// part of another.
#[test]
fn any_messages_will_do() {
    let mut numbers = Numbers(0x2545_f491_4f6c_dd1d);
    let mut answers = [0; 4];
    for _ in 0..20_000 {
        let sent = [(); 3].map(|()| message_from(&mut numbers));
        let cells = [(); 4].map(|()| Cell {
            rated: float_from(&mut numbers) * 50.0,
            zero: float_from(&mut numbers) / 64.0,
        });
        let bytes = [&sent[0], &sent[1], &sent[2], &sent[numbers.below(3)]];
        let [p, q, p2, q2] = [0, 1, 2, 3].map(|i| Message::new(bytes[i], cells[i]));
        let m = numbers.below(6) as u64;
        let weighing = Indicated {
            m,
            p,
            q,
            p2,
            q2,
            n: 0,
            ..G_INDICATED
        };
        let mut buffer = case_g().as_bytes().to_vec();
        buffer.resize(buffer.len() + numbers.below(64), FREE);
        call_on(&buffer, |b| lent::weigh_indicated(b, &weighing));
        let answer = Record::new().weigh_indicated(&weighing);
        answers[match answer {
            Ok(()) => 0,
            Err(Refusal::Unsteady) => 1,
            Err(Refusal::Load) => 2,
            Err(refusal) => {
                assert_eq!(refusal, Refusal::Reading);
                3
            }
        }] += 1;
    }
    // Each of them often enough.
    assert!(answers.iter().all(|count| *count > 300), "{answers:?}");
}

/// Asks for the equipment, in columns that are at times too short.
fn equipment_of(buffer: &[u8]) {
    let [mut arms, mut weights, mut nonlifting] = [[i64::MIN; 5]; 3];
    let answer = lent::equipment(buffer, &mut arms, &mut weights, &mut nonlifting);
    assert_eq!(answer == Err(Refusal::File), lent::check(buffer).is_err());
    let written = answer.unwrap_or(0);
    assert!(arms[..written].is_sorted());
    for column in [arms, weights, nonlifting] {
        assert!(column[written..].iter().all(|&element| element == i64::MIN));
    }
}

#[test]
fn any_bytes_will_do() {
    let mut numbers = Numbers(0x9e37_79b9_7f4a_7c15);
    let mut held = 0;
    for _ in 0..5_000 {
        let buffer = buffer_from(&mut numbers);
        held += usize::from(lent::check(&buffer).is_ok());
        call_on(&buffer, lent::fresh);
        call_on(&buffer, |b| lent::weigh(b, &G_WEIGHING));
        call_on(&buffer, |b| lent::weigh_paired(b, &G_PAIRED));
        call_on(&buffer, |b| lent::weigh_indicated(b, &G_INDICATED));
        call_on(&buffer, |b| lent::sheet(b, &G_SHEET));
        call_on(&buffer, |b| lent::change(b, &H_CHANGE));
        call_on(&buffer, |b| lent::seat(b, &G_SEAT));
        call_on(&buffer, lent::undo);
        let file = buffer_from(&mut numbers);
        call_on(&buffer, |b| lent::read(b, &file));

        let mut out = [FREE; 400];
        let plate = lent::placard(&buffer, &mut out);
        let written = plate.map_or(0, |counts| counts.bytes);
        assert!(out[written..].iter().all(|&byte| byte == FREE));
        assert_eq!(
            lent::centre(&buffer) == Err(Refusal::File),
            lent::check(&buffer).is_err()
        );
        equipment_of(&buffer);
    }
    // Both kinds of buffer were tried.
    assert!(
        (500..4_500).contains(&held),
        "{held} of 5,000 held a record"
    );
}
