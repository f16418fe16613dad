//! The library's calls on any words and lengths, with guards around each lent buffer.

use model::take::Change;
use model::{Answer, Counts, KINDS, Setup, Take};
use wohketa_retake::sys;

/// How many elements stand before and after a lent buffer that no call may touch.
const GUARDS: usize = 16;

/// A word, a byte or a count.
trait Element: Copy + PartialEq {
    const GUARD: Self;
}

impl Element for u32 {
    const GUARD: u32 = 0xdead_beef;
}

impl Element for u8 {
    const GUARD: u8 = 0xdb;
}

impl Element for u64 {
    const GUARD: u64 = 0xdead_beef_0bad_cafe;
}

/// A copy of a buffer between guards.
struct Guarded<T> {
    elements: Vec<T>,
}

impl<T: Element> Guarded<T> {
    fn of(buffer: &[T]) -> Self {
        let guards = [T::GUARD; GUARDS];
        Guarded { elements: [&guards, buffer, &guards].concat() }
    }

    fn len(&self) -> usize {
        self.elements.len() - 2 * GUARDS
    }

    fn pointer(&mut self) -> *mut T {
        self.elements[GUARDS..].as_mut_ptr()
    }

    /// Copies the buffer back.
    fn give_back(&self, buffer: &mut [T]) {
        let (before, rest) = self.elements.split_at(GUARDS);
        let (inner, after) = rest.split_at(self.len());
        let whole = |guards: &[T]| guards.iter().all(|guard| *guard == T::GUARD);
        assert!(whole(before) && whole(after), "a call wrote outside a lent buffer");
        buffer.copy_from_slice(inner);
    }
}

/// Runs a C function and reads its answer; both result words start as junk.
fn answer(call: impl FnOnce(*mut u64, *mut u64) -> u32) -> Answer {
    let (mut first, mut second) = (0x1234_5678_9abc_def0, 0x0fed_cba9_8765_4321);
    match call(&mut first, &mut second) {
        0 => Answer::Done(first, second),
        number => {
            assert_eq!(second, 0, "second result of refusal {number}");
            Answer::Refused(number, first)
        }
    }
}

/// The same for a call over a take, and its five counts, which start as junk between guards.
fn answer_with_counts(call: impl FnOnce(*mut u64, *mut u64, *mut u64) -> u32) -> Answer {
    let mut numbers: [u64; KINDS] = std::array::from_fn(|kind| 0x5a5a_1111_2222_3300 + kind as u64);
    let mut counts = Guarded::of(&numbers);
    let answer = answer(|first, second| call(first, second, counts.pointer()));
    counts.give_back(&mut numbers);
    match answer {
        Answer::Done(rows, held) => Answer::Rendered(rows, held, Counts::of_numbers(numbers)),
        refusal => {
            assert_eq!(numbers, [0; KINDS], "counts of {refusal:?}");
            refusal
        }
    }
}

pub fn read_score(text: &[u8], rows: &mut [u32]) -> Answer {
    let mut lent = Guarded::of(rows);
    // SAFETY: each pointer goes with its buffer's length.
    let answer = answer(|first, second| unsafe {
        sys::retake_read_score(text.as_ptr(), text.len(), lent.pointer(), lent.len(), first, second)
    });
    lent.give_back(rows);
    answer
}

pub fn write_score(rows: &[u32], count: u64, text: &mut [u8]) -> Answer {
    let mut lent = Guarded::of(text);
    // SAFETY: each pointer goes with its buffer's length.
    let answer = answer(|first, second| unsafe {
        sys::retake_write_score(rows.as_ptr(), rows.len(), count, lent.pointer(), lent.len(), first, second)
    });
    lent.give_back(text);
    answer
}

pub fn render(setup: &Setup, rows: &[u32], count: u64, take: &mut Take) -> Answer {
    let mut out = Guarded::of(&take.out);
    let mut aux = Guarded::of(&take.aux);
    let mut kept = Guarded::of(&take.kept);
    // SAFETY: each pointer goes with its buffer's length.
    let answer = answer_with_counts(|first, second, counts| unsafe {
        sys::retake_render(
            setup.instrument,
            setup.rate,
            setup.frames,
            setup.bank.as_ptr(),
            setup.bank.len(),
            setup.map.as_ptr(),
            setup.map.len(),
            rows.as_ptr(),
            rows.len(),
            count,
            out.pointer(),
            out.len(),
            aux.pointer(),
            aux.len(),
            kept.pointer(),
            kept.len(),
            first,
            second,
            counts,
        )
    });
    out.give_back(&mut take.out);
    aux.give_back(&mut take.aux);
    kept.give_back(&mut take.kept);
    answer
}

/// Edit, insertion or removal.
pub fn change(setup: &Setup, rows: &mut [u32], count: u64, change: &Change, take: &mut Take) -> Answer {
    let mut lent = Guarded::of(rows);
    let mut out = Guarded::of(&take.out);
    let mut aux = Guarded::of(&take.aux);
    let mut kept = Guarded::of(&take.kept);
    // SAFETY: each pointer goes with its buffer's length.
    let answer = answer_with_counts(|first, second, counts| unsafe {
        match *change {
            Change::Edit(position, row) | Change::Insert(position, row) => {
                let edit = matches!(change, Change::Edit(..));
                let call = if edit { sys::retake_edit } else { sys::retake_insert };
                let [note, timbre, morph, harmonics, restart] = row;
                call(
                    setup.instrument,
                    setup.rate,
                    setup.frames,
                    setup.bank.as_ptr(),
                    setup.bank.len(),
                    setup.map.as_ptr(),
                    setup.map.len(),
                    lent.pointer(),
                    lent.len(),
                    count,
                    position,
                    note,
                    timbre,
                    morph,
                    harmonics,
                    restart,
                    out.pointer(),
                    out.len(),
                    aux.pointer(),
                    aux.len(),
                    kept.pointer(),
                    kept.len(),
                    first,
                    second,
                    counts,
                )
            }
            Change::Remove(position) => sys::retake_remove(
                setup.instrument,
                setup.rate,
                setup.frames,
                setup.bank.as_ptr(),
                setup.bank.len(),
                setup.map.as_ptr(),
                setup.map.len(),
                lent.pointer(),
                lent.len(),
                count,
                position,
                out.pointer(),
                out.len(),
                aux.pointer(),
                aux.len(),
                kept.pointer(),
                kept.len(),
                first,
                second,
                counts,
            ),
        }
    });
    lent.give_back(rows);
    out.give_back(&mut take.out);
    aux.give_back(&mut take.aux);
    kept.give_back(&mut take.kept);
    answer
}
