//! A row of a score and its columns.

use std::fmt;

/// A column of a score.
#[derive(Debug, Clone, Copy, PartialEq, Eq, Hash)]
#[non_exhaustive]
pub enum Column {
    /// The pitch in semitones, from 0 to 120.
    Note,
    /// From 0 to 1.
    Timbre,
    /// From 0 to 1.
    Morph,
    /// From 0 to 1.
    Harmonics,
    /// 0 or 1.
    Restart,
}

impl Column {
    /// The columns in the order of a row's words.
    pub const ALL: [Column; Row::WORDS] =
        [Column::Note, Column::Timbre, Column::Morph, Column::Harmonics, Column::Restart];

    /// The column's name in a score's text.
    pub fn name(self) -> &'static str {
        match self {
            Column::Note => "note",
            Column::Timbre => "timbre",
            Column::Morph => "morph",
            Column::Harmonics => "harmonics",
            Column::Restart => "restart",
        }
    }

    /// The limit in words, as it stands behind "is not".
    pub(crate) fn limit(self) -> &'static str {
        match self {
            Column::Note => "from 0 to 120",
            Column::Restart => "0 or 1",
            _ => "from 0 to 1",
        }
    }

    /// Whether a word is within the column's limit. The library decides; this says which column it was.
    fn holds(self, word: u32) -> bool {
        let x = f32::from_bits(word);
        match self {
            Column::Note => (0.0..=120.0).contains(&x),
            Column::Restart => word <= 1,
            _ => (0.0..=1.0).contains(&x),
        }
    }

    /// The first column of a row that is outside its limit.
    pub(crate) fn outside(words: &[u32]) -> Option<Column> {
        Column::ALL.into_iter().zip(words).find(|(column, word)| !column.holds(**word)).map(|(column, _)| column)
    }
}

impl fmt::Display for Column {
    fn fmt(&self, f: &mut fmt::Formatter<'_>) -> fmt::Result {
        f.write_str(self.name())
    }
}

/// One row of a score.
///
/// A literal that ends in `..Row::default()` stays whole when a later version adds a column.
///
/// ```
/// use wohketa_retake::Row;
///
/// let row = Row { note: 60.0, timbre: 0.5, ..Row::default() };
/// assert_eq!(row.words(), [0x42700000, 0x3f000000, 0, 0, 0]);
/// assert_eq!(Row::from_words(row.words()), Some(row));
/// ```
#[derive(Debug, Clone, Copy, PartialEq)]
pub struct Row {
    /// 0 to 120 semitones; 60 is middle C.
    pub note: f32,
    /// 0 to 1.
    pub timbre: f32,
    /// 0 to 1.
    pub morph: f32,
    /// 0 to 1.
    pub harmonics: f32,
    /// The voice starts afresh at this row.
    pub restart: bool,
}

impl Row {
    /// Words of a row.
    pub const WORDS: usize = 5;

    /// The row's words, as a score holds them.
    pub fn words(self) -> [u32; Row::WORDS] {
        let [note, timbre, morph, harmonics] = [self.note, self.timbre, self.morph, self.harmonics].map(f32::to_bits);
        [note, timbre, morph, harmonics, u32::from(self.restart)]
    }

    /// The row of five words; none where the restart word is neither 0 nor 1.
    pub fn from_words(words: [u32; Row::WORDS]) -> Option<Row> {
        let [note, timbre, morph, harmonics, restart] = words;
        let [note, timbre, morph, harmonics] = [note, timbre, morph, harmonics].map(f32::from_bits);
        let restart = match restart {
            0 => false,
            1 => true,
            _ => return None,
        };
        Some(Row { note, timbre, morph, harmonics, restart })
    }
}

/// Middle C, everything else 0, no restart.
impl Default for Row {
    fn default() -> Row {
        Row { note: 60.0, timbre: 0.0, morph: 0.0, harmonics: 0.0, restart: false }
    }
}
