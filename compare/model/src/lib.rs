//! Document 01 and document 02's third voice (N1), rows put in and taken out (N2), tidy writer (N4), kinds of
//! holds (N5) and map edges by axis (N6) in plain Rust, frame by frame, written for being read and not for speed.
//!
//! It is the judge wherever the original has no answer: holds and their kinds, kept words, edits, insertions,
//! removals, refusals, the score text, read and written, and the program. Elsewhere the comparison holds it to
//! the original, bit for bit.
//! Only the published tables (sine, pitch ratios) are taken from the original's files.

pub mod floats;
pub mod oscillator;
pub mod program;
pub mod score;
mod tables;
pub mod take;
pub mod terrain;
pub mod voice;
pub mod wavetable;

/// Words of a row: note, timbre, morph, harmonics, restart.
pub const ROW_WORDS: usize = 5;
/// The largest number of rows of a score.
pub const ROWS: usize = 4096;
/// The largest number of frames of a block.
pub const FRAMES: u32 = 128;
/// Words kept after each row.
pub const KEPT_WORDS: usize = 13;
/// Kinds of holds.
pub const KINDS: usize = 5;
/// Samples of a wave in the bank: a period of 128, and its first four again.
pub const WAVE: usize = 132;
/// Length of the lent bank: 192 waves of 132.
pub const BANK: usize = 25_344;
/// Length of the lent map: 64 rows of 64.
pub const MAP: usize = 4_096;
/// The lowest and the highest rate in Hz.
pub const RATES: std::ops::RangeInclusive<u32> = 32_000..=192_000;

/// How often each kind of position was held. A frame of the wavetable voice or of the plain oscillator counts
/// once in each kind that it holds, a reading of the terrain voice in its own.
#[derive(Debug, Clone, Copy, Default, PartialEq, Eq)]
pub struct Counts {
    pub phase: u64,
    /// x or y of the wavetable voice; the plain oscillator's waveform.
    pub wave_position: u64,
    /// z of the wavetable voice.
    pub level: u64,
    pub map: u64,
    pub bank: u64,
}

impl Counts {
    /// The counts in the order in which a call writes them.
    pub fn numbers(&self) -> [u64; KINDS] {
        [self.phase, self.wave_position, self.level, self.map, self.bank]
    }

    pub fn of_numbers(numbers: [u64; KINDS]) -> Self {
        let [phase, wave_position, level, map, bank] = numbers;
        Self { phase, wave_position, level, map, bank }
    }

    pub fn add(&mut self, other: &Counts) {
        let (own, other) = (self.numbers(), other.numbers());
        *self = Self::of_numbers(std::array::from_fn(|kind| own[kind] + other[kind]));
    }
}

/// The result of a call.
#[derive(Debug, Clone, Copy, PartialEq, Eq)]
pub enum Answer {
    /// (row count, 0) of the reader; (bytes, 0) of the writer.
    Done(u64, u64),
    /// Of the other calls: rows rendered, and `held` of these rows and its kinds.
    Rendered(u64, u64, Counts),
    /// Number and place.
    Refused(u32, u64),
}

/// What stays the same from call to call.
#[derive(Debug, Clone, Copy)]
pub struct Setup<'a> {
    pub instrument: u32,
    pub rate: u32,
    pub frames: u32,
    pub bank: &'a [i16],
    pub map: &'a [u8],
}

/// A take: out, aux and kept words.
#[derive(Debug, Clone, PartialEq, Eq)]
pub struct Take {
    pub out: Vec<u32>,
    pub aux: Vec<u32>,
    pub kept: Vec<u32>,
}

impl Take {
    /// A take with room for `rows` rows of `frames` frames, filled by `word`.
    pub fn filled(rows: usize, frames: u32, mut word: impl FnMut() -> u32) -> Take {
        let mut words = |n: usize| (0..n).map(|_| word()).collect();
        let samples = rows * frames as usize;
        Take { out: words(samples), aux: words(samples), kept: words(rows * KEPT_WORDS) }
    }
}

/// Is there room for so many places of so many words?
fn room(lent: &[u32], places: u64, each: usize) -> bool {
    lent.len() as u128 >= u128::from(places) * each as u128
}
