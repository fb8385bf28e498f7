//! The library's functions as C has them, and the only unsafe code of the crate.
//!
//! The library asks the same of every call. A slice is passed as a pointer that
//! is not null and is valid for the length, even where that is 0, and the length
//! is at most `isize::MAX` bytes: every Rust slice is so. A column of numbers is
//! a slice too, and its pointer is aligned for them. A slice that a call writes
//! overlaps no other slice of it: a `&mut` slice overlaps no other reference that is
//! alive. Those that it only reads may overlap one another where there are several of
//! them, which are the messages of an indicator. It asks nothing of the numbers, of
//! floats no more than of whole ones, nor of what the bytes hold: the functions are proved
//! for every argument to stay within their slices, to end and never to unwind. They keep no
//! pointer and no state.
//!
//! Each function here answers the library's number, 0 where it is accepted.

use crate::{Change, Indicated, Paired, Seat, Sheet, Weighing};

/// Bytes of an answer: three numbers of eight bytes each.
pub(crate) const ANSWER: usize = 24;

// Names, order and types are those of the library's source and of its header
// for C; tests/declarations.rs compares the three.
extern "C" {
    /// Sound with a `&mut` slice: writes six bytes at its front if it has them.
    fn nodhulika_fresh(buffer: *mut u8, buffer_length: usize) -> u64;

    /// Sound with a `&` slice: only reads, and only within the length.
    fn nodhulika_check(buffer: *const u8, buffer_length: usize) -> u64;

    /// Sound with a `&mut` slice and any numbers: a value out of range is
    /// refused, and so is a buffer without room for the entry.
    fn nodhulika_weigh(
        buffer: *mut u8,
        buffer_length: usize,
        m: u64,
        p: u64,
        q: u64,
        a: i64,
        b: u64,
        n: u64,
    ) -> u64;

    /// Sound with a `&mut` slice and any numbers, as `nodhulika_weigh`.
    fn nodhulika_weigh_paired(
        buffer: *mut u8,
        buffer_length: usize,
        m: u64,
        p: u64,
        q: u64,
        p2: u64,
        q2: u64,
        a: i64,
        b: u64,
        n: u64,
    ) -> u64;

    /// Sound with a `&mut` slice, four `&` slices, which it cannot overlap, and any
    /// numbers: only reads the four.
    fn nodhulika_weigh_indicated(
        buffer: *mut u8,
        buffer_length: usize,
        m: u64,
        p: *const u8,
        p_length: usize,
        p_rated: f64,
        p_zero: f64,
        q: *const u8,
        q_length: usize,
        q_rated: f64,
        q_zero: f64,
        p2: *const u8,
        p2_length: usize,
        p2_rated: f64,
        p2_zero: f64,
        q2: *const u8,
        q2_length: usize,
        q2_rated: f64,
        q2_zero: f64,
        a: i64,
        b: u64,
        n: u64,
    ) -> u64;

    /// Sound with a `&mut` slice and any numbers, as `nodhulika_weigh`.
    fn nodhulika_sheet(
        buffer: *mut u8,
        buffer_length: usize,
        fwd: i64,
        aft: i64,
        dry: u64,
        wet: u64,
        nlp: u64,
        front_arm: i64,
        front_least: u64,
        front_most: u64,
        front_step: u64,
        rear_arm: i64,
        rear_most: u64,
        rear_step: u64,
        water_arm: i64,
        water_most: u64,
        water_step: u64,
    ) -> u64;

    /// Sound with a `&mut` slice and any numbers, as `nodhulika_weigh`.
    fn nodhulika_change(buffer: *mut u8, buffer_length: usize, c: i64, arm: i64, flag: u64) -> u64;

    /// Sound with a `&mut` slice and any numbers, as `nodhulika_weigh`.
    fn nodhulika_seat(buffer: *mut u8, buffer_length: usize, lower: i64, higher: i64) -> u64;

    /// Sound with a `&mut` slice: writes only the header of a file that it has
    /// found whole within the length.
    fn nodhulika_undo(buffer: *mut u8, buffer_length: usize) -> u64;

    /// Sound with a `&mut` and a `&` slice, which cannot overlap: copies the
    /// second to the first, in version 2, if that is long enough.
    fn nodhulika_read(
        buffer: *mut u8,
        buffer_length: usize,
        file: *const u8,
        file_length: usize,
    ) -> u64;

    /// Sound with a `&` and a `&mut` slice, which cannot overlap: writes 24
    /// bytes to the second if it has them.
    fn nodhulika_centre(
        buffer: *const u8,
        buffer_length: usize,
        answer: *mut u8,
        answer_length: usize,
    ) -> u64;

    /// Sound with a `&` and two `&mut` slices, which cannot overlap: writes to
    /// the two only if each is long enough.
    fn nodhulika_placard(
        buffer: *const u8,
        buffer_length: usize,
        out: *mut u8,
        out_length: usize,
        answer: *mut u8,
        answer_length: usize,
    ) -> u64;

    /// Sound with a `&` slice, three `&mut` slices and a `&mut` number, which
    /// cannot overlap: writes to the columns only if each is long enough, and only
    /// then to the number.
    fn nodhulika_equipment(
        buffer: *const u8,
        buffer_length: usize,
        arms: *mut i64,
        arms_length: usize,
        weights: *mut i64,
        weights_length: usize,
        nonlifting: *mut i64,
        nonlifting_length: usize,
        count: *mut u64,
    ) -> u64;
}

pub(crate) fn fresh(buffer: &mut [u8]) -> u64 {
    // SAFETY: pointer and length are those of one exclusive slice.
    unsafe { nodhulika_fresh(buffer.as_mut_ptr(), buffer.len()) }
}

pub(crate) fn check(buffer: &[u8]) -> u64 {
    // SAFETY: pointer and length are those of one slice, which is only read.
    unsafe { nodhulika_check(buffer.as_ptr(), buffer.len()) }
}

pub(crate) fn weigh(buffer: &mut [u8], w: &Weighing) -> u64 {
    let (pointer, length) = (buffer.as_mut_ptr(), buffer.len());
    // SAFETY: pointer and length are those of one exclusive slice.
    unsafe { nodhulika_weigh(pointer, length, w.m, w.p, w.q, w.a, w.b, w.n) }
}

pub(crate) fn weigh_paired(buffer: &mut [u8], x: &Paired) -> u64 {
    // SAFETY: pointer and length are those of one exclusive slice.
    unsafe {
        nodhulika_weigh_paired(
            buffer.as_mut_ptr(),
            buffer.len(),
            x.m,
            x.p,
            x.q,
            x.p2,
            x.q2,
            x.a,
            x.b,
            x.n,
        )
    }
}

pub(crate) fn weigh_indicated(buffer: &mut [u8], x: &Indicated) -> u64 {
    // SAFETY: pointers and lengths are those of five slices; the one that is written is
    // exclusive, so it overlaps none of the four that are read.
    unsafe {
        nodhulika_weigh_indicated(
            buffer.as_mut_ptr(),
            buffer.len(),
            x.m,
            x.p.bytes.as_ptr(),
            x.p.bytes.len(),
            x.p.cell.rated,
            x.p.cell.zero,
            x.q.bytes.as_ptr(),
            x.q.bytes.len(),
            x.q.cell.rated,
            x.q.cell.zero,
            x.p2.bytes.as_ptr(),
            x.p2.bytes.len(),
            x.p2.cell.rated,
            x.p2.cell.zero,
            x.q2.bytes.as_ptr(),
            x.q2.bytes.len(),
            x.q2.cell.rated,
            x.q2.cell.zero,
            x.a,
            x.b,
            x.n,
        )
    }
}

pub(crate) fn sheet(buffer: &mut [u8], s: &Sheet) -> u64 {
    // SAFETY: pointer and length are those of one exclusive slice.
    unsafe {
        nodhulika_sheet(
            buffer.as_mut_ptr(),
            buffer.len(),
            s.fwd,
            s.aft,
            s.dry,
            s.wet,
            s.nlp,
            s.front.arm,
            s.front_least,
            s.front.most,
            s.front.step,
            s.rear.arm,
            s.rear.most,
            s.rear.step,
            s.water.arm,
            s.water.most,
            s.water.step,
        )
    }
}

pub(crate) fn change(buffer: &mut [u8], x: &Change) -> u64 {
    // SAFETY: pointer and length are those of one exclusive slice.
    unsafe { nodhulika_change(buffer.as_mut_ptr(), buffer.len(), x.c, x.arm, x.flag) }
}

pub(crate) fn seat(buffer: &mut [u8], s: &Seat) -> u64 {
    // SAFETY: pointer and length are those of one exclusive slice.
    unsafe { nodhulika_seat(buffer.as_mut_ptr(), buffer.len(), s.lower, s.higher) }
}

pub(crate) fn undo(buffer: &mut [u8]) -> u64 {
    // SAFETY: pointer and length are those of one exclusive slice.
    unsafe { nodhulika_undo(buffer.as_mut_ptr(), buffer.len()) }
}

pub(crate) fn read(buffer: &mut [u8], file: &[u8]) -> u64 {
    // SAFETY: pointers and lengths are those of two slices; the one that is
    // written is exclusive, so they do not overlap.
    unsafe { nodhulika_read(buffer.as_mut_ptr(), buffer.len(), file.as_ptr(), file.len()) }
}

pub(crate) fn centre(buffer: &[u8], answer: &mut [u8]) -> u64 {
    // SAFETY: pointers and lengths are those of two slices; the one that is
    // written is exclusive, so they do not overlap.
    unsafe {
        nodhulika_centre(
            buffer.as_ptr(),
            buffer.len(),
            answer.as_mut_ptr(),
            answer.len(),
        )
    }
}

pub(crate) fn placard(buffer: &[u8], out: &mut [u8], answer: &mut [u8]) -> u64 {
    // SAFETY: pointers and lengths are those of three slices; the two that are
    // written are exclusive, so none overlaps another.
    unsafe {
        nodhulika_placard(
            buffer.as_ptr(),
            buffer.len(),
            out.as_mut_ptr(),
            out.len(),
            answer.as_mut_ptr(),
            answer.len(),
        )
    }
}

pub(crate) fn equipment(
    buffer: &[u8],
    arms: &mut [i64],
    weights: &mut [i64],
    nonlifting: &mut [i64],
    count: &mut u64,
) -> u64 {
    // SAFETY: pointers and lengths are those of four slices and of a number; the
    // four that are written are exclusive, so none overlaps another.
    unsafe {
        nodhulika_equipment(
            buffer.as_ptr(),
            buffer.len(),
            arms.as_mut_ptr(),
            arms.len(),
            weights.as_mut_ptr(),
            weights.len(),
            nonlifting.as_mut_ptr(),
            nonlifting.len(),
            count,
        )
    }
}

/// The answers' buffer is always long enough in the safe calls, so what a
/// shorter one does is tried here; and that a refusal leaves the count, which
/// they keep to themselves.
#[cfg(test)]
mod tests {
    use super::*;
    use crate::Station;

    const SHORT: u64 = 11;

    fn station(arm: i64, most: u64, step: u64) -> Station {
        Station { arm, most, step }
    }

    fn weighed() -> [u8; 89] {
        let mut buffer = [0; 89];
        let weighing = Weighing {
            m: 1,
            p: 288_000,
            q: 0,
            a: 63_334,
            b: 500_000,
            n: 140_000,
        };
        assert_eq!(fresh(&mut buffer), 0);
        assert_eq!(weigh(&mut buffer, &weighing), 0);
        buffer
    }

    fn with_sheet() -> [u8; 89] {
        let mut buffer = weighed();
        let data = Sheet {
            fwd: 25_000,
            aft: 42_500,
            dry: 380_000,
            wet: 450_000,
            nlp: 240_000,
            front: station(-47_500, 110_000, 1_000),
            front_least: 55_000,
            rear: station(0, 0, 1),
            water: station(30_000, 100_000, 50_000),
        };
        assert_eq!(sheet(&mut buffer, &data), 0);
        buffer
    }

    #[test]
    fn a_short_answer_is_refused_and_left() {
        let buffer = with_sheet();
        for length in 0..ANSWER {
            let mut answer = vec![0x5a; length];
            assert_eq!(centre(&buffer, &mut answer), SHORT);
            assert_eq!(answer, vec![0x5a; length]);

            let mut out = [0x5a; 108];
            assert_eq!(placard(&buffer, &mut out, &mut answer), SHORT);
            assert_eq!(answer, vec![0x5a; length]);
            assert_eq!(out, [0x5a; 108]);
        }
    }

    #[test]
    fn bytes_behind_an_answer_stay() {
        let buffer = with_sheet();
        let mut answer = [0x5a; ANSWER + 8];
        assert_eq!(centre(&buffer, &mut answer), 0);
        assert_eq!(answer[ANSWER..], [0x5a; 8]);
        assert_eq!(placard(&buffer, &mut [0; 108], &mut answer), 0);
        assert_eq!(answer[ANSWER..], [0x5a; 8]);
    }

    #[test]
    fn the_record_is_judged_before_a_short_answer() {
        let mut bare = [0; 6];
        assert_eq!(fresh(&mut bare), 0);
        for (buffer, of_centre, of_placard) in [
            (&[][..], 12, 12),
            (&bare[..], 7, 7),
            (&weighed()[..], SHORT, 8),
        ] {
            assert_eq!(centre(buffer, &mut []), of_centre);
            assert_eq!(placard(buffer, &mut [], &mut []), of_placard);
        }
    }

    #[test]
    fn the_count_is_written_only_where_it_is_accepted() {
        let mut bare = [0; 6];
        assert_eq!(fresh(&mut bare), 0);
        let mut fitted = weighed();
        for arm in [1, -1, 1] {
            let c = 100;
            assert_eq!(change(&mut fitted, &Change { c, arm, flag: 0 }), 0);
        }
        for (buffer, length, number) in [
            (&[][..], 2, 12),
            (&bare[..], 2, 7),
            (&fitted[..], 1, SHORT),
            (&fitted[..], 2, 0),
        ] {
            let (mut arms, mut weights, mut nonlifting) = ([9; 2], [9; 2], [9; 2]);
            let mut count = u64::MAX;
            let answer = equipment(
                buffer,
                &mut arms,
                &mut weights,
                &mut nonlifting[..length],
                &mut count,
            );
            assert_eq!(answer, number);
            if number == 0 {
                let columns = (arms, weights, nonlifting);
                assert_eq!((count, columns), (2, ([-1, 1], [100, 200], [0, 0])));
            } else {
                let columns = (arms, weights, nonlifting);
                assert_eq!((count, columns), (u64::MAX, ([9; 2], [9; 2], [9; 2])));
            }
        }
    }
}
