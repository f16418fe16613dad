//! The library's six C functions (`include/retake.h`) over the model.
//!
//! # Safety
//! Each pointer has as many elements behind it as its length says, and `counts` has five.
#![allow(clippy::missing_safety_doc)]

use model::take::{self, Change};
use model::{Answer, KINDS, Setup, Take, score};
use std::slice::{from_raw_parts, from_raw_parts_mut};

unsafe fn give(answer: Answer, first: *mut u64, second: *mut u64) -> u32 {
    let (number, a, b) = match answer {
        Answer::Done(a, b) | Answer::Rendered(a, b, _) => (0, a, b),
        Answer::Refused(number, place) => (number, place, 0),
    };
    unsafe {
        *first = a;
        *second = b;
    }
    number
}

/// The same of a call over a take, and its five counts.
unsafe fn give_with_counts(answer: Answer, first: *mut u64, second: *mut u64, counts: *mut u64) -> u32 {
    let numbers = if let Answer::Rendered(_, _, counts) = answer { counts.numbers() } else { [0; KINDS] };
    unsafe {
        from_raw_parts_mut(counts, KINDS).copy_from_slice(&numbers);
        give(answer, first, second)
    }
}

/// What rendering, edit, insertion and removal are lent.
struct Lent<'a> {
    setup: Setup<'a>,
    count: u64,
    out: &'a mut [u32],
    aux: &'a mut [u32],
    kept: &'a mut [u32],
}

impl Lent<'_> {
    /// A copy of the take goes to the model; what it leaves is copied back.
    fn with(self, call: impl FnOnce(&Setup, u64, &mut Take) -> Answer) -> Answer {
        let mut take = Take { out: self.out.to_vec(), aux: self.aux.to_vec(), kept: self.kept.to_vec() };
        let answer = call(&self.setup, self.count, &mut take);
        self.out.copy_from_slice(&take.out);
        self.aux.copy_from_slice(&take.aux);
        self.kept.copy_from_slice(&take.kept);
        answer
    }

    fn render(self, rows: &[u32]) -> Answer {
        self.with(|setup, count, take| take::render(setup, rows, count, take))
    }

    fn change(self, rows: &mut [u32], change: Change) -> Answer {
        self.with(|setup, count, take| take::change(setup, rows, count, &change, take))
    }
}

#[unsafe(no_mangle)]
pub unsafe extern "C" fn retake_read_score(
    text: *const u8,
    text_len: usize,
    rows: *mut u32,
    rows_len: usize,
    first: *mut u64,
    second: *mut u64,
) -> u32 {
    unsafe {
        let answer = score::read_score(from_raw_parts(text, text_len), from_raw_parts_mut(rows, rows_len));
        give(answer, first, second)
    }
}

#[unsafe(no_mangle)]
pub unsafe extern "C" fn retake_write_score(
    rows: *const u32,
    rows_len: usize,
    count: u64,
    text: *mut u8,
    text_len: usize,
    first: *mut u64,
    second: *mut u64,
) -> u32 {
    unsafe {
        let answer = score::write_score(from_raw_parts(rows, rows_len), count, from_raw_parts_mut(text, text_len));
        give(answer, first, second)
    }
}

#[unsafe(no_mangle)]
pub unsafe extern "C" fn retake_render(
    instrument: u32,
    rate: u32,
    frames: u32,
    bank: *const i16,
    bank_len: usize,
    map: *const u8,
    map_len: usize,
    rows: *const u32,
    rows_len: usize,
    count: u64,
    out: *mut u32,
    out_len: usize,
    aux: *mut u32,
    aux_len: usize,
    kept: *mut u32,
    kept_len: usize,
    first: *mut u64,
    second: *mut u64,
    counts: *mut u64,
) -> u32 {
    unsafe {
        let (bank, map) = (from_raw_parts(bank, bank_len), from_raw_parts(map, map_len));
        let lent = Lent {
            setup: Setup { instrument, rate, frames, bank, map },
            count,
            out: from_raw_parts_mut(out, out_len),
            aux: from_raw_parts_mut(aux, aux_len),
            kept: from_raw_parts_mut(kept, kept_len),
        };
        give_with_counts(lent.render(from_raw_parts(rows, rows_len)), first, second, counts)
    }
}

#[unsafe(no_mangle)]
pub unsafe extern "C" fn retake_edit(
    instrument: u32,
    rate: u32,
    frames: u32,
    bank: *const i16,
    bank_len: usize,
    map: *const u8,
    map_len: usize,
    rows: *mut u32,
    rows_len: usize,
    count: u64,
    position: u64,
    note: u32,
    timbre: u32,
    morph: u32,
    harmonics: u32,
    restart: u32,
    out: *mut u32,
    out_len: usize,
    aux: *mut u32,
    aux_len: usize,
    kept: *mut u32,
    kept_len: usize,
    first: *mut u64,
    second: *mut u64,
    counts: *mut u64,
) -> u32 {
    unsafe {
        let (bank, map) = (from_raw_parts(bank, bank_len), from_raw_parts(map, map_len));
        let lent = Lent {
            setup: Setup { instrument, rate, frames, bank, map },
            count,
            out: from_raw_parts_mut(out, out_len),
            aux: from_raw_parts_mut(aux, aux_len),
            kept: from_raw_parts_mut(kept, kept_len),
        };
        let change = Change::Edit(position, [note, timbre, morph, harmonics, restart]);
        give_with_counts(lent.change(from_raw_parts_mut(rows, rows_len), change), first, second, counts)
    }
}

#[unsafe(no_mangle)]
pub unsafe extern "C" fn retake_insert(
    instrument: u32,
    rate: u32,
    frames: u32,
    bank: *const i16,
    bank_len: usize,
    map: *const u8,
    map_len: usize,
    rows: *mut u32,
    rows_len: usize,
    count: u64,
    position: u64,
    note: u32,
    timbre: u32,
    morph: u32,
    harmonics: u32,
    restart: u32,
    out: *mut u32,
    out_len: usize,
    aux: *mut u32,
    aux_len: usize,
    kept: *mut u32,
    kept_len: usize,
    first: *mut u64,
    second: *mut u64,
    counts: *mut u64,
) -> u32 {
    unsafe {
        let (bank, map) = (from_raw_parts(bank, bank_len), from_raw_parts(map, map_len));
        let lent = Lent {
            setup: Setup { instrument, rate, frames, bank, map },
            count,
            out: from_raw_parts_mut(out, out_len),
            aux: from_raw_parts_mut(aux, aux_len),
            kept: from_raw_parts_mut(kept, kept_len),
        };
        let change = Change::Insert(position, [note, timbre, morph, harmonics, restart]);
        give_with_counts(lent.change(from_raw_parts_mut(rows, rows_len), change), first, second, counts)
    }
}

#[unsafe(no_mangle)]
pub unsafe extern "C" fn retake_remove(
    instrument: u32,
    rate: u32,
    frames: u32,
    bank: *const i16,
    bank_len: usize,
    map: *const u8,
    map_len: usize,
    rows: *mut u32,
    rows_len: usize,
    count: u64,
    position: u64,
    out: *mut u32,
    out_len: usize,
    aux: *mut u32,
    aux_len: usize,
    kept: *mut u32,
    kept_len: usize,
    first: *mut u64,
    second: *mut u64,
    counts: *mut u64,
) -> u32 {
    unsafe {
        let (bank, map) = (from_raw_parts(bank, bank_len), from_raw_parts(map, map_len));
        let lent = Lent {
            setup: Setup { instrument, rate, frames, bank, map },
            count,
            out: from_raw_parts_mut(out, out_len),
            aux: from_raw_parts_mut(aux, aux_len),
            kept: from_raw_parts_mut(kept, kept_len),
        };
        let answer = lent.change(from_raw_parts_mut(rows, rows_len), Change::Remove(position));
        give_with_counts(answer, first, second, counts)
    }
}
