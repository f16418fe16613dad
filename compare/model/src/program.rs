//! "The program `retake`".

use crate::score::{self, NAMES};
use crate::take::{Change, change, render};
use crate::{Answer, BANK, ROW_WORDS, Setup, Take};

const TEXT_BYTES: usize = 8_192;
const MOST_ROWS: usize = 128;
const MOST_EDITS: usize = 32;

/// What a run leaves: the printed bytes, and the bytes of `out.f32` and `aux.f32` if it writes them.
#[derive(Debug, Clone, PartialEq, Eq)]
pub struct Run {
    pub printed: Vec<u8>,
    pub samples: Option<(Vec<u8>, Vec<u8>)>,
}

/// Number 12 for a text that is too long, before anything else in it.
fn short_enough(text: &[u8]) -> Result<(), Answer> {
    if text.len() > TEXT_BYTES { Err(Answer::Refused(12, 0)) } else { Ok(()) }
}

/// Number 12 for too many lines of values, after everything else.
fn few_enough(lines: usize, most: usize) -> Result<(), Answer> {
    if lines > most { Err(Answer::Refused(12, 0)) } else { Ok(()) }
}

fn read_rows(text: &[u8]) -> Result<Vec<u32>, Answer> {
    short_enough(text)?;
    let rows = score::rows(text)?;
    few_enough(rows.len(), MOST_ROWS)?;
    Ok(rows.as_flattened().to_vec())
}

/// Edits: the row words, and the row's number last.
fn read_edits(text: &[u8]) -> Result<Vec<[u32; ROW_WORDS + 1]>, Answer> {
    short_enough(text)?;
    let [note, timbre, morph, harmonics, restart] = NAMES;
    let edits = score::values(text, [note, timbre, morph, harmonics, restart, "row"], |_, _| Ok(()))?;
    few_enough(edits.len(), MOST_EDITS)?;
    Ok(edits)
}

fn read_bank(bytes: &[u8]) -> Result<Vec<i16>, Answer> {
    if bytes.len() != 2 * BANK {
        return Err(Answer::Refused(4, 0));
    }
    Ok(bytes.chunks(2).map(|b| i16::from_le_bytes([b[0], b[1]])).collect())
}

fn refusal_line(number: u32, place: u64) -> String {
    format!("refused {number} {place}\n")
}

/// The program on the bytes of its three files.
pub fn run(score: &[u8], edits: &[u8], bank: &[u8]) -> Run {
    let read = || Ok((read_rows(score)?, read_edits(edits)?, read_bank(bank)?));
    let (mut rows, edits, bank) = match read() {
        Ok(read) => read,
        Err(Answer::Refused(number, place)) => {
            return Run { printed: refusal_line(number, place).into_bytes(), samples: None };
        }
        Err(_) => unreachable!(),
    };
    let setup = Setup { instrument: 0, rate: 48_000, frames: 24, bank: &bank, map: &[] };
    let count = rows.len() / ROW_WORDS;
    let mut take = Take::filled(count, setup.frames, || 0);
    render(&setup, &rows, count as u64, &mut take);

    let mut printed = String::from("row rendered held\n");
    for [note, timbre, morph, harmonics, restart, row] in edits {
        let edit = Change::Edit(u64::from(row), [note, timbre, morph, harmonics, restart]);
        printed += &match change(&setup, &mut rows, count as u64, &edit, &mut take) {
            Answer::Rendered(rendered, held, _) => format!("{row} {rendered} {held}\n"),
            Answer::Refused(number, place) => refusal_line(number, place),
            Answer::Done(..) => unreachable!(),
        };
    }
    let bytes = |words: &[u32]| words.iter().flat_map(|w| w.to_le_bytes()).collect();
    Run { printed: printed.into_bytes(), samples: Some((bytes(&take.out), bytes(&take.aux))) }
}
