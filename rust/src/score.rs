//! A score by itself, and its text.

use std::fmt;
use std::str::FromStr;

use crate::MOST_ROWS;
use crate::calls::{self, text_length};
use crate::refusal::Refusal;
use crate::row::Row;

/// A score by itself, without a take: rows that a rendering accepts.
///
/// It is displayed as its tidy text: the names in the order of a row's words, lower-case digits. A
/// version store that keeps this text shows a change only where a word has changed. Two scores are equal
/// exactly where their texts are.
///
/// ```
/// use wohketa_retake::Score;
///
/// let text = "timbre note morph harmonics restart\n3F000000 42700000 00000000 00000000 00000001\n";
/// let tidy = "note timbre morph harmonics restart\n42700000 3f000000 00000000 00000000 00000001\n";
/// let score: Score = text.parse()?;
/// assert_eq!(score.to_string(), tidy);
/// assert_eq!(score, tidy.parse()?);
/// # Ok::<(), wohketa_retake::Refusal>(())
/// ```
#[derive(Clone, PartialEq, Eq, Hash)]
pub struct Score {
    pub(crate) rows: Vec<u32>,
}

impl Score {
    /// The score of these rows.
    ///
    /// ```
    /// use wohketa_retake::{Row, Score};
    ///
    /// let row = Row { note: 60.0, timbre: 0.5, ..Row::default() };
    /// assert_eq!(Score::new(&[row])?.words(), row.words());
    ///
    /// let refusal = Score::new(&[row, Row { timbre: 1.5, ..row }]).unwrap_err();
    /// assert_eq!(refusal.to_string(), "row 1: timbre is not from 0 to 1 (number 9)");
    /// # Ok::<(), wohketa_retake::Refusal>(())
    /// ```
    pub fn new(rows: &[Row]) -> Result<Score, Refusal> {
        Score::from_words(rows.iter().flat_map(|row| row.words()).collect())
    }

    /// The score of these row words.
    pub fn from_words(rows: Vec<u32>) -> Result<Score, Refusal> {
        let score = Score { rows };
        // The writer judges rows as rendering does.
        score.text()?;
        Ok(score)
    }

    /// Reads a score's text.
    pub fn read(text: &[u8]) -> Result<Score, Refusal> {
        let mut rows = vec![0; MOST_ROWS * Row::WORDS];
        let count = calls::read_score(text, &mut rows)?;
        rows.truncate(count * Row::WORDS);
        Ok(Score { rows })
    }

    /// How many rows the score has.
    pub fn count(&self) -> usize {
        // Part of a row, which no accepted score has, counts as one: so it is refused.
        self.rows.len().div_ceil(Row::WORDS)
    }

    /// The score's rows.
    pub fn rows(&self) -> impl Iterator<Item = Row> + '_ {
        (0..self.count()).filter_map(|k| self.row(k))
    }

    /// Row k of the score.
    pub fn row(&self, k: usize) -> Option<Row> {
        let words = self.rows.chunks_exact(Row::WORDS).nth(k)?;
        Row::from_words(words.try_into().ok()?)
    }

    /// The score's row words.
    pub fn words(&self) -> &[u32] {
        &self.rows
    }

    /// The score's row words, to be kept.
    pub fn into_words(self) -> Vec<u32> {
        self.rows
    }

    /// The text that the library writes.
    fn text(&self) -> Result<String, Refusal> {
        let mut text = vec![0; text_length(self.count())];
        calls::write_score(&self.rows, self.count(), &mut text)?;
        Ok(text.into_iter().map(char::from).collect())
    }
}

/// The score's tidy text, as [`write_score`](crate::write_score) writes it.
impl fmt::Display for Score {
    fn fmt(&self, f: &mut fmt::Formatter<'_>) -> fmt::Result {
        // Never refused: the rows were accepted when the score was made.
        f.write_str(&self.text().map_err(|_| fmt::Error)?)
    }
}

impl fmt::Debug for Score {
    fn fmt(&self, f: &mut fmt::Formatter<'_>) -> fmt::Result {
        f.debug_list().entries(self.rows()).finish()
    }
}

/// As [`Score::read`] does.
impl FromStr for Score {
    type Err = Refusal;

    fn from_str(text: &str) -> Result<Score, Refusal> {
        Score::read(text.as_bytes())
    }
}
