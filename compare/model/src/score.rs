//! "Score text", with document 02's tidy writer (N4): limits by name, the reader and the writer.

use crate::{Answer, ROW_WORDS, ROWS, room};

/// The names in row order.
pub const NAMES: [&str; ROW_WORDS] = ["note", "timbre", "morph", "harmonics", "restart"];

/// Is this word within the limit of the name in this place of a row?
pub fn within(name: usize, word: u32) -> bool {
    let x = f32::from_bits(word);
    match NAMES[name] {
        "note" => (0.0..=120.0).contains(&x),
        "restart" => word <= 1,
        _ => (0.0..=1.0).contains(&x),
    }
}

pub fn row_within(row: &[u32]) -> bool {
    row.iter().enumerate().all(|(name, word)| within(name, *word))
}

/// May a score have so many rows?
pub fn countable(count: u64) -> bool {
    (1..=ROWS as u64).contains(&count)
}

/// Have lent row words so many rows, a number that a score may have? If not, rendering and writer refuse by 6.
pub fn has_rows(rows: &[u32], count: u64) -> bool {
    countable(count) && room(rows, count, ROW_WORDS)
}

/// Number 9 and the first row of a score that is outside its limits.
pub fn beyond(score: &[u32]) -> Option<Answer> {
    let bad = score.chunks(ROW_WORDS).position(|row| !row_within(row))?;
    Some(Answer::Refused(9, bad as u64))
}

/// The text's lines. The second of each pair: an LF ends it.
fn lines(text: &[u8]) -> impl Iterator<Item = (&[u8], bool)> {
    text.split_inclusive(|b| *b == b'\n').map(|line| match line.split_last() {
        Some((b'\n', rest)) => (rest, true),
        _ => (line, false),
    })
}

/// A word: eight hexadecimal digits of either letter case.
fn word(digits: &[u8]) -> Option<u32> {
    if digits.len() != 8 || !digits.iter().all(u8::is_ascii_hexdigit) {
        return None;
    }
    u32::from_str_radix(std::str::from_utf8(digits).ok()?, 16).ok()
}

/// The values of a text under its line of names, each line in the order of `names`; or number 10, or
/// number 11 and its line. `seen` is shown each line of values as it is read and may refuse it.
pub fn values<const N: usize>(
    text: &[u8],
    names: [&str; N],
    mut seen: impl FnMut(usize, &[u32; N]) -> Result<(), Answer>,
) -> Result<Vec<[u32; N]>, Answer> {
    let mut lines = lines(text);
    let (first, ended) = lines.next().unwrap_or((b"", false));
    let columns: Vec<usize> = first
        .split(|b| *b == b' ')
        .filter_map(|column| names.iter().position(|name| name.as_bytes() == column))
        .collect();
    let each_once = (0..N).all(|name| columns.iter().filter(|c| **c == name).count() == 1);
    let count = first.split(|b| *b == b' ').count();
    if !ended || !each_once || count != N {
        return Err(Answer::Refused(10, 0));
    }

    let mut rows = Vec::new();
    for (number, (line, ended)) in lines.enumerate() {
        let words: Vec<Option<u32>> = line.split(|b| *b == b' ').map(word).collect();
        if !ended || words.len() != N || words.contains(&None) {
            return Err(Answer::Refused(11, number as u64));
        }
        let mut row = [0; N];
        for (column, value) in columns.iter().zip(words) {
            row[*column] = value.unwrap_or_default();
        }
        seen(number, &row)?;
        rows.push(row);
    }
    Ok(rows)
}

/// The rows of a score text, tested by 10, then by 11 and 9 line after line, then by 6.
pub fn rows(text: &[u8]) -> Result<Vec<[u32; ROW_WORDS]>, Answer> {
    let rows = values(
        text,
        NAMES,
        |number, row| {
            if row_within(row) { Ok(()) } else { Err(Answer::Refused(9, number as u64)) }
        },
    )?;
    if !countable(rows.len() as u64) {
        return Err(Answer::Refused(6, 0));
    }
    Ok(rows)
}

/// The reader. Row words past the score keep what they had.
pub fn read_score(text: &[u8], lent: &mut [u32]) -> Answer {
    match rows(text) {
        Err(refusal) => refusal,
        Ok(rows) if lent.len() < ROW_WORDS * rows.len() => Answer::Refused(12, 0),
        Ok(rows) => {
            let words = rows.as_flattened();
            lent[..words.len()].copy_from_slice(words);
            Answer::Done(rows.len() as u64, 0)
        }
    }
}

/// Bytes of the tidy text of so many rows.
pub fn text_length(count: usize) -> usize {
    36 + 45 * count
}

/// The tidy text of a score: names in row order, digits in lower case.
pub fn tidy_text(score: &[u32]) -> String {
    let mut text = NAMES.join(" ") + "\n";
    for row in score.chunks(ROW_WORDS) {
        let words: Vec<String> = row.iter().map(|word| format!("{word:08x}")).collect();
        text += &(words.join(" ") + "\n");
    }
    text
}

/// The writer. Bytes past the text keep what they had.
pub fn write_score(rows: &[u32], count: u64, lent: &mut [u8]) -> Answer {
    if !has_rows(rows, count) {
        return Answer::Refused(6, 0);
    }
    let count = count as usize;
    let score = &rows[..count * ROW_WORDS];
    if let Some(refusal) = beyond(score) {
        return refusal;
    }
    let length = text_length(count);
    if lent.len() < length {
        return Answer::Refused(14, 0);
    }
    lent[..length].copy_from_slice(tidy_text(score).as_bytes());
    Answer::Done(length as u64, 0)
}
