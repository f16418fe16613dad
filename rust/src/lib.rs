//! Automation scores played through the Plaits wavetable and wave terrain voices and its plain
//! oscillator, with single-row retakes. Safe Rust over the proved library `libretake_c.a`.
//!
//! A score is a list of [`Row`]s: note, timbre, morph, harmonics and restart. Each row plays one block
//! of equal length. A [`Reel`] owns a score and the take that it plays: it is made by rendering the
//! whole score; [`Reel::edit`] changes one row, [`Reel::insert`] puts one in, [`Reel::remove`] takes one
//! out, and each renders just the rows that depend on it. The samples are then what a fresh rendering of
//! the score would be, to the bit.
//!
//! ```
//! use wohketa_retake::{BANK, Instrument, Reel, Row, Setup};
//!
//! // A bank of 192 ramps, louder from wave to wave.
//! let bank: [i16; BANK] = std::array::from_fn(|i| ((i % 132) as i16 - 66) * (i as i16 / 132 + 1));
//! let setup = Setup { instrument: Instrument::Wavetable, rate: 48_000, frames: 24, bank: &bank };
//!
//! let row = Row { note: 60.0, timbre: 0.5, ..Row::default() };
//! let score = [Row { timbre: 0.0, restart: true, ..row }, row, Row { restart: true, ..row }];
//! let mut reel = Reel::render(&setup, &score)?;
//! assert_eq!(reel.out().len(), 3 * 24);
//!
//! // Another timbre in row 1: row 2 restarts, so nothing else is rendered.
//! let before = reel.clone();
//! let edited = reel.edit(1, Row { timbre: 1.0, ..row })?;
//! assert_eq!(edited.rows, 1..2);
//! assert_ne!(reel.block(1), before.block(1));
//! assert_eq!(reel.block(2), before.block(2));
//!
//! // Two rows put in before row 2, which moves up and is still not rendered.
//! for k in 2..4 {
//!     assert_eq!(reel.insert(k, Row { note: 67.0, ..row })?.rows, k..k + 1);
//! }
//! assert_eq!((reel.count(), reel.block(4)), (5, before.block(2)));
//!
//! // Taken out again, the last one first: then nothing is rendered.
//! for k in (2..4).rev() {
//!     assert!(reel.remove(k)?.rows.is_empty());
//! }
//! assert_eq!((reel.count(), reel.block(2)), (3, before.block(2)));
//!
//! // A word outside its limit: the edit is refused and changes nothing.
//! let refusal = reel.edit(2, Row { timbre: 1.5, ..row }).unwrap_err();
//! assert_eq!(refusal.to_string(), "row 2: timbre is not from 0 to 1 (number 9)");
//! # Ok::<(), wohketa_retake::Refusal>(())
//! ```
//!
//! Where the original would have read past a table, a position is held at its top. Each call says how often,
//! and [`Counts`] of which kind.
//!
//! A [`Score`] has the rows alone. It is read from a text and displayed as its tidy text: a version store
//! that keeps that shows no change where columns were shuffled or letters changed case. A reel's is
//! [`Reel::score`].
//!
//! [`read_score`], [`write_score`], [`render`], [`edit`], [`insert`] and [`remove`] are the library's
//! functions over buffers that the caller lends, with the row count beside them: the last three start
//! from the words that the lent take keeps, whatever they are, and the caller sees to it that the take is
//! that of a rendering with the same setup, by this version: 0.6.0 plays other samples than 0.5.0 where a
//! reading of map or bank is held. [`sys`] has the C functions.
#![deny(missing_docs)]

mod calls;
mod counts;
mod reel;
mod refusal;
mod row;
mod score;
pub mod sys;

pub use calls::{
    Instrument, Report, Setup, Take, edit, insert, read_score, remove, render, samples, text_length, write_score,
};
pub use counts::Counts;
pub use reel::{Block, Edited, Reel};
pub use refusal::{Reason, Refusal};
pub use row::{Column, Row};
pub use score::Score;

/// Samples of a bank: 192 waves of 132.
pub const BANK: usize = 25_344;
/// Bytes of a map: 64 rows of 64.
pub const MAP: usize = 4_096;
/// Words kept after each row: the voice's state.
pub const KEPT_WORDS: usize = 13;
/// Rows of the longest score.
pub const MOST_ROWS: usize = 4_096;
/// Frames of the longest block.
pub const MOST_FRAMES: u32 = 128;
/// The rates that are accepted, in Hz.
pub const RATES: std::ops::RangeInclusive<u32> = 32_000..=192_000;
