//! The library's functions over lent buffers.

use std::cmp::Ordering;

use crate::counts::Counts;
use crate::refusal::Refusal;
use crate::row::{Column, Row};
use crate::{BANK, KEPT_WORDS, MAP, sys};

/// The voice that plays a score.
#[derive(Debug, Clone, Copy, PartialEq, Eq)]
#[non_exhaustive]
pub enum Instrument<'a> {
    /// The wavetable voice.
    Wavetable,
    /// The wave terrain voice.
    Terrain,
    /// The wave terrain voice, with a map as its last layer.
    TerrainWithMap(&'a [u8; MAP]),
    /// The plain oscillator, along the first 64 waves of the bank. It plays on out alone, and morph and
    /// harmonics change nothing.
    Oscillator,
}

impl<'a> Instrument<'a> {
    fn number(self) -> u32 {
        match self {
            Instrument::Wavetable => 0,
            Instrument::Terrain => 1,
            Instrument::TerrainWithMap(_) => 2,
            Instrument::Oscillator => 3,
        }
    }

    fn map(self) -> &'a [u8] {
        match self {
            Instrument::TerrainWithMap(map) => map,
            _ => &[],
        }
    }
}

/// What stays the same from call to call of one take.
#[derive(Debug, Clone, Copy)]
pub struct Setup<'a> {
    /// The voice.
    pub instrument: Instrument<'a>,
    /// Samples a second, 32,000 to 192,000.
    pub rate: u32,
    /// Frames of each row's block, 1 to 128.
    pub frames: u32,
    /// The bank: 192 integrated waves of 132 samples.
    pub bank: &'a [i16; BANK],
}

/// Out and aux samples and the words kept after each row, as the plain functions are lent them. The
/// word of a sample is its binary32 pattern: [`samples`] shows them as floats.
///
/// Each may be longer than the score needs: a call changes nothing past the score that it leaves. Two
/// takes are equal where all their words are, these too; the take of a [`Reel`](crate::Reel) has none.
#[derive(Debug, Clone, PartialEq, Eq)]
pub struct Take {
    /// The words of out, one block for each row.
    pub out: Vec<u32>,
    /// The words of aux, one block for each row.
    pub aux: Vec<u32>,
    /// The words kept, [`KEPT_WORDS`] for each row.
    pub kept: Vec<u32>,
}

impl Take {
    /// A take with room for this many rows, all zero.
    pub fn new(rows: usize, frames: u32) -> Take {
        let samples = rows * frames as usize;
        Take { out: vec![0; samples], aux: vec![0; samples], kept: vec![0; rows * KEPT_WORDS] }
    }
}

/// An accepted rendering, edit, insertion or removal.
#[derive(Debug, Clone, Copy, PartialEq, Eq)]
#[non_exhaustive]
pub struct Report {
    /// Rows rendered.
    pub rows: usize,
    /// How often a position was held at its top in these rows.
    pub held: u64,
    /// The same by kind.
    pub counts: Counts,
}

/// Words as samples: the same 32 bits of each.
pub fn samples(words: &[u32]) -> &[f32] {
    // SAFETY: f32 has the size and the alignment of u32, and every pattern of 32 bits is one.
    unsafe { std::slice::from_raw_parts(words.as_ptr().cast(), words.len()) }
}

/// Runs a C function, whose `first` and `second` it is handed, and reads its answer.
fn answer(call: impl FnOnce(*mut u64, *mut u64) -> u32) -> Result<(u64, u64), Refusal> {
    let (mut first, mut second) = (0, 0);
    match call(&mut first, &mut second) {
        0 => Ok((first, second)),
        number => Err(Refusal::new(number, first)),
    }
}

/// Calls a C function over a setup, a score and a take, and reads its report. The list is what the
/// function wants between its map and its take.
macro_rules! call {
    ($function:ident, $setup:ident, [$($score:expr),*], $take:ident) => {{
        let map = $setup.instrument.map();
        let mut counts = [0; Counts::KINDS];
        // SAFETY: as in `read_score`.
        answer(|first, second| unsafe {
            sys::$function(
                $setup.instrument.number(),
                $setup.rate,
                $setup.frames,
                $setup.bank.as_ptr(),
                $setup.bank.len(),
                map.as_ptr(),
                map.len(),
                $($score,)*
                $take.out.as_mut_ptr(),
                $take.out.len(),
                $take.aux.as_mut_ptr(),
                $take.aux.len(),
                $take.kept.as_mut_ptr(),
                $take.kept.len(),
                first,
                second,
                counts.as_mut_ptr(),
            )
        })
        .map(|(rows, held)| Report { rows: rows as usize, held, counts: Counts::of(counts) })
    }};
}

/// The words of row k of a score.
fn row_words(rows: &[u32], k: usize) -> Option<Vec<u32>> {
    rows.chunks(Row::WORDS).nth(k).map(<[u32]>::to_vec)
}

/// The words of row k of a text whose names and line k are as they should be, in the order of a row.
fn text_row(text: &[u8], k: usize) -> Option<Vec<u32>> {
    let text = std::str::from_utf8(text).ok()?;
    let mut lines = text.lines();
    let names: Vec<&str> = lines.next()?.split(' ').collect();
    let values: Vec<&str> = lines.nth(k)?.split(' ').collect();
    let value = |column: Column| {
        let at = names.iter().position(|name| *name == column.name())?;
        u32::from_str_radix(values.get(at)?, 16).ok()
    };
    Column::ALL.into_iter().map(value).collect()
}

/// Reads a score's text into lent row words and returns its row count. Words past the score keep what
/// they had.
///
/// ```
/// use wohketa_retake::{Row, read_score};
///
/// let mut rows = [7; 6];
/// let text = b"timbre note morph harmonics restart\n3f000000 42700000 00000000 00000000 00000001\n";
/// assert_eq!(read_score(text, &mut rows), Ok(1));
/// assert_eq!(rows, [0x42700000, 0x3f000000, 0, 0, 1, 7]);
///
/// let text = b"timbre note morph harmonics restart\n3f000000 42700000 00000000 40000000 00000001\n";
/// let refusal = read_score(text, &mut rows).unwrap_err();
/// assert_eq!(refusal.to_string(), "row 0: harmonics is not from 0 to 1 (number 9)");
/// ```
pub fn read_score(text: &[u8], rows: &mut [u32]) -> Result<usize, Refusal> {
    // SAFETY: each pointer goes with its slice's length, and nothing else refers to what is written.
    let (count, _) = answer(|first, second| unsafe {
        sys::retake_read_score(text.as_ptr(), text.len(), rows.as_mut_ptr(), rows.len(), first, second)
    })
    .map_err(|refusal| refusal.in_row(|k| text_row(text, k)))?;
    Ok(count as usize)
}

/// Bytes of the text of a score of this many rows: 36, and 45 for each row.
pub const fn text_length(count: usize) -> usize {
    const NAMES: usize = "note timbre morph harmonics restart\n".len();
    const WORD: usize = "00000000 ".len();
    NAMES + count * Row::WORDS * WORD
}

/// Writes a score, the first `count` rows of the lent words, as its tidy text into lent bytes and returns
/// how many it wrote, [`text_length`] of the count. Bytes past them keep what they had.
///
/// ```
/// use wohketa_retake::{Reason, Row, text_length, write_score};
///
/// let rows = Row { timbre: 0.5, restart: true, ..Row::default() }.words();
/// let mut text = [b'?'; text_length(1) + 1];
/// assert_eq!(write_score(&rows, 1, &mut text), Ok(81));
/// assert_eq!(&text, b"note timbre morph harmonics restart\n42700000 3f000000 00000000 00000000 00000001\n?");
///
/// let refusal = write_score(&rows, 1, &mut text[..80]).unwrap_err();
/// assert_eq!(refusal.reason, Reason::Paper);
/// ```
pub fn write_score(rows: &[u32], count: usize, text: &mut [u8]) -> Result<usize, Refusal> {
    // SAFETY: as in `read_score`.
    let (bytes, _) = answer(|first, second| unsafe {
        sys::retake_write_score(rows.as_ptr(), rows.len(), count as u64, text.as_mut_ptr(), text.len(), first, second)
    })
    .map_err(|refusal| refusal.in_row(|k| row_words(rows, k)))?;
    Ok(bytes as usize)
}

/// Renders a whole score, the first `count` rows of the lent words, into a take.
///
/// ```
/// use wohketa_retake::{BANK, Instrument, Row, Setup, Take, edit, render, samples};
///
/// let bank: [i16; BANK] = std::array::from_fn(|i| (i % 132) as i16 * 100);
/// let setup = Setup { instrument: Instrument::Terrain, rate: 48_000, frames: 24, bank: &bank };
/// let row = Row { morph: 0.5, ..Row::default() };
/// let mut rows = [row.words(), row.words()].concat();
/// let mut take = Take::new(2, setup.frames);
/// assert_eq!(render(&setup, &rows, 2, &mut take)?.rows, 2);
///
/// let loud = samples(&take.out)[47];
/// assert_eq!(edit(&setup, &mut rows, 2, 1, Row { note: 72.0, ..row }, &mut take)?.rows, 1);
/// assert_ne!(samples(&take.out)[47], loud);
/// # Ok::<(), wohketa_retake::Refusal>(())
/// ```
pub fn render(setup: &Setup, rows: &[u32], count: usize, take: &mut Take) -> Result<Report, Refusal> {
    call!(retake_render, setup, [rows.as_ptr(), rows.len(), count as u64], take)
        .map_err(|refusal| refusal.in_row(|k| row_words(rows, k)))
}

/// Puts other words into row `position` of a score of `count` rows and renders what depends on them.
///
/// The edit starts from the words that the take keeps, and ends where they stay the same: the take is
/// a fresh rendering's after it if it was one before it, with the same setup. A [`Reel`](crate::Reel)
/// sees to that.
pub fn edit(
    setup: &Setup,
    rows: &mut [u32],
    count: usize,
    position: usize,
    row: Row,
    take: &mut Take,
) -> Result<Report, Refusal> {
    let words = row.words();
    let [note, timbre, morph, harmonics, restart] = words;
    call!(
        retake_edit,
        setup,
        [rows.as_mut_ptr(), rows.len(), count as u64, position as u64, note, timbre, morph, harmonics, restart],
        take
    )
    .map_err(|refusal| refusal.in_row(|k| if k == position { Some(words.to_vec()) } else { row_words(rows, k) }))
}

/// Puts a row in at `position` of a score of `count` rows, the rows from there on one place up with
/// their blocks and kept words, and renders what depends on it. At `count` it becomes the last row.
///
/// Rows and take want room for one row more. They then hold `count + 1` rows, and the next call is
/// handed that number. As an edit does, it starts from the words that the take keeps.
///
/// ```
/// use wohketa_retake::{BANK, Instrument, Reason, Row, Setup, Take, insert, remove, render};
///
/// let bank: [i16; BANK] = std::array::from_fn(|i| (i % 132) as i16 * 100);
/// let setup = Setup { instrument: Instrument::Terrain, rate: 48_000, frames: 24, bank: &bank };
/// let row = Row { restart: true, ..Row::default() };
///
/// // Two rows, and room for a third.
/// let mut rows = [row.words(), row.words(), [0; 5]].concat();
/// let mut take = Take::new(3, setup.frames);
/// render(&setup, &rows, 2, &mut take)?;
/// let before = take.clone();
///
/// // One between them: the last row restarts, so it is moved and not rendered.
/// assert_eq!(insert(&setup, &mut rows, 2, 1, Row { morph: 0.5, ..row }, &mut take)?.rows, 1);
/// assert_eq!(take.out[48..], before.out[24..48]);
///
/// // A fourth has no room.
/// assert_eq!(insert(&setup, &mut rows, 3, 3, row, &mut take).unwrap_err().reason, Reason::Full);
///
/// // Out again: what was below the count is as before, and nothing had to be rendered.
/// assert_eq!(remove(&setup, &mut rows, 3, 1, &mut take)?.rows, 0);
/// assert_eq!(take.out[..48], before.out[..48]);
/// # Ok::<(), wohketa_retake::Refusal>(())
/// ```
pub fn insert(
    setup: &Setup,
    rows: &mut [u32],
    count: usize,
    position: usize,
    row: Row,
    take: &mut Take,
) -> Result<Report, Refusal> {
    let words = row.words();
    let [note, timbre, morph, harmonics, restart] = words;
    call!(
        retake_insert,
        setup,
        [rows.as_mut_ptr(), rows.len(), count as u64, position as u64, note, timbre, morph, harmonics, restart],
        take
    )
    .map_err(|refusal| {
        refusal.in_row(|k| match k.cmp(&position) {
            Ordering::Less => row_words(rows, k),
            Ordering::Equal => Some(words.to_vec()),
            Ordering::Greater => row_words(rows, k - 1),
        })
    })
}

/// Takes row `position` out of a score of `count` rows, the rows behind it one place down with their
/// blocks and kept words, and renders what depends on that.
///
/// Rows and take then hold `count - 1` rows, and the next call is handed that number; the last old
/// place keeps its words. As an edit does, it starts from the words that the take keeps.
pub fn remove(
    setup: &Setup,
    rows: &mut [u32],
    count: usize,
    position: usize,
    take: &mut Take,
) -> Result<Report, Refusal> {
    call!(retake_remove, setup, [rows.as_mut_ptr(), rows.len(), count as u64, position as u64], take)
        .map_err(|refusal| refusal.in_row(|k| row_words(rows, if k < position { k } else { k + 1 })))
}
