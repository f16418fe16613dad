//! A score and the take that it plays, kept together.

use std::fmt;
use std::ops::Range;

use crate::calls::{self, Instrument, Report, Setup, Take, samples};
use crate::counts::Counts;
use crate::refusal::Refusal;
use crate::row::Row;
use crate::score::Score;
use crate::{BANK, KEPT_WORDS, MAP, MOST_FRAMES, MOST_ROWS};

/// A voice, with a map of its own.
#[derive(Clone)]
enum Voice {
    Wavetable,
    Terrain,
    TerrainWithMap(Box<[u8; MAP]>),
    Oscillator,
}

impl Voice {
    fn of(instrument: Instrument) -> Voice {
        match instrument {
            Instrument::Wavetable => Voice::Wavetable,
            Instrument::Terrain => Voice::Terrain,
            Instrument::TerrainWithMap(map) => Voice::TerrainWithMap(Box::new(*map)),
            Instrument::Oscillator => Voice::Oscillator,
        }
    }

    fn instrument(&self) -> Instrument<'_> {
        match self {
            Voice::Wavetable => Instrument::Wavetable,
            Voice::Terrain => Instrument::Terrain,
            Voice::TerrainWithMap(map) => Instrument::TerrainWithMap(map),
            Voice::Oscillator => Instrument::Oscillator,
        }
    }
}

/// A setup with a bank and a map of its own.
#[derive(Clone)]
struct OwnSetup {
    voice: Voice,
    rate: u32,
    frames: u32,
    bank: Box<[i16; BANK]>,
}

impl OwnSetup {
    fn of(setup: &Setup) -> OwnSetup {
        let (voice, bank) = (Voice::of(setup.instrument), Box::new(*setup.bank));
        OwnSetup { voice, rate: setup.rate, frames: setup.frames, bank }
    }

    fn lent(&self) -> Setup<'_> {
        Setup { instrument: self.voice.instrument(), rate: self.rate, frames: self.frames, bank: &self.bank }
    }
}

/// One row's samples.
#[derive(Debug, Clone, Copy, PartialEq)]
pub struct Block<'a> {
    /// The samples of out.
    pub out: &'a [f32],
    /// The samples of aux.
    pub aux: &'a [f32],
}

/// An accepted edit, insertion or removal.
#[derive(Debug, Clone, PartialEq, Eq)]
#[non_exhaustive]
pub struct Edited {
    /// The rows that were rendered, as they are counted after the call; empty at the position where an
    /// edit changes no word, or where nothing behind a removed row depends on it.
    pub rows: Range<usize>,
    /// How often a position was held at its top in these rows.
    pub held: u64,
    /// The same by kind.
    pub counts: Counts,
}

impl Edited {
    /// What a call at this position reports.
    fn at(position: usize, report: Report) -> Edited {
        Edited { rows: position..position + report.rows, held: report.held, counts: report.counts }
    }
}

/// A score and its take: always what a fresh rendering of the score plays, to the bit.
///
/// A reel owns its setup, score and take, and gives none of them out to be changed. So an edit, an
/// insertion or a removal always meets the take that was rendered from this score with this setup; safe
/// code has no other way to it:
///
/// ```compile_fail,E0616
/// # use wohketa_retake::{BANK, Instrument, Reel, Row, Setup};
/// # let bank = [0; BANK];
/// # let setup = Setup { instrument: Instrument::Wavetable, rate: 48_000, frames: 24, bank: &bank };
/// # let mut reel = Reel::render(&setup, &[Row::default()]).unwrap();
/// reel.setup.rate = 44_100;
/// ```
#[derive(Clone)]
pub struct Reel {
    setup: OwnSetup,
    // Between calls row words and take are just as long as the score; spare room is their vectors' capacity.
    score: Score,
    take: Take,
    rendering: Report,
}

impl Reel {
    /// Renders a whole score.
    pub fn render(setup: &Setup, rows: &[Row]) -> Result<Reel, Refusal> {
        Reel::render_words(setup, rows.iter().flat_map(|row| row.words()).collect())
    }

    /// Renders a whole score, given as its row words.
    pub fn render_words(setup: &Setup, rows: Vec<u32>) -> Result<Reel, Refusal> {
        let score = Score { rows };
        let count = score.count();
        // Past these limits the call is refused before it looks at the take.
        let mut take = Take::new(count.min(MOST_ROWS), setup.frames.min(MOST_FRAMES));
        let rendering = calls::render(setup, &score.rows, count, &mut take)?;
        Ok(Reel { setup: OwnSetup::of(setup), score, take, rendering })
    }

    /// Renders a whole score, given as its text.
    ///
    /// ```
    /// use wohketa_retake::{BANK, Instrument, Reel, Setup};
    ///
    /// let bank = [0; BANK];
    /// let setup = Setup { instrument: Instrument::Wavetable, rate: 48_000, frames: 24, bank: &bank };
    /// let text = b"note timbre morph harmonics restart\n42700000 00000000 00000000 00000000 00000001\n";
    /// let reel = Reel::render_text(&setup, text)?;
    /// assert_eq!(reel.row(0).map(|row| row.note), Some(60.0));
    ///
    /// let refusal = Reel::render_text(&setup, b"note timbre\n").unwrap_err();
    /// assert_eq!(refusal.to_string(), "the first line is not the five names, each once (number 10)");
    /// # Ok::<(), wohketa_retake::Refusal>(())
    /// ```
    pub fn render_text(setup: &Setup, text: &[u8]) -> Result<Reel, Refusal> {
        Reel::render_words(setup, Score::read(text)?.into_words())
    }

    /// Renders another whole score with this reel's setup in the place of the old one. A refused score
    /// leaves the reel as it is.
    pub fn replace(&mut self, rows: &[Row]) -> Result<Report, Refusal> {
        *self = Reel::render(&self.setup(), rows)?;
        Ok(self.rendering)
    }

    /// Puts other words into a row and renders what depends on them: from that row to just before the
    /// next row that restarts, or whose state before it stays the same, or to the end. A refused edit
    /// leaves the reel as it is.
    pub fn edit(&mut self, position: usize, row: Row) -> Result<Edited, Refusal> {
        let count = self.count();
        let report = calls::edit(&self.setup.lent(), &mut self.score.rows, count, position, row, &mut self.take)?;
        Ok(Edited::at(position, report))
    }

    /// Puts a row in at a position, the rows from there on one place up, and renders what depends on it,
    /// from the new row on as far as an edit would. At [`count`](Reel::count) it becomes the last row. A
    /// refused insertion leaves the reel as it is.
    ///
    /// ```
    /// # use wohketa_retake::{BANK, Instrument, Reel, Row, Setup};
    /// # let bank: [i16; BANK] = std::array::from_fn(|i| (i % 132) as i16 * 100);
    /// # let setup = Setup { instrument: Instrument::Wavetable, rate: 48_000, frames: 24, bank: &bank };
    /// let row = Row { timbre: 0.5, ..Row::default() };
    /// let mut reel = Reel::render(&setup, &[row, row])?;
    ///
    /// // A row at the front moves both, and they are rendered from the state that it leaves.
    /// assert_eq!(reel.insert(0, Row { note: 72.0, ..row })?.rows, 0..3);
    ///
    /// // The samples are those of the three rows rendered afresh.
    /// let fresh = Reel::render(&setup, &[Row { note: 72.0, ..row }, row, row])?;
    /// assert_eq!(reel.take(), fresh.take());
    /// # Ok::<(), wohketa_retake::Refusal>(())
    /// ```
    pub fn insert(&mut self, position: usize, row: Row) -> Result<Edited, Refusal> {
        let count = self.count();
        // The longest score is refused whatever its room.
        self.set_count((count + 1).min(MOST_ROWS));
        let answer = calls::insert(&self.setup.lent(), &mut self.score.rows, count, position, row, &mut self.take);
        if answer.is_err() {
            self.set_count(count);
        }
        answer.map(|report| Edited::at(position, report))
    }

    /// Puts a row in behind the last one: an insertion at [`count`](Reel::count).
    pub fn push(&mut self, row: Row) -> Result<Edited, Refusal> {
        self.insert(self.count(), row)
    }

    /// Takes a row out, the rows behind it one place down, and renders what depends on that, from the row
    /// now there on as far as an edit would. The only row of a score stays. A refused removal leaves the
    /// reel as it is.
    pub fn remove(&mut self, position: usize) -> Result<Edited, Refusal> {
        let count = self.count();
        let report = calls::remove(&self.setup.lent(), &mut self.score.rows, count, position, &mut self.take)?;
        self.set_count(count - 1);
        Ok(Edited::at(position, report))
    }

    /// Makes rows and take as long as a score of this many rows.
    fn set_count(&mut self, count: usize) {
        let samples = count * self.setup.frames as usize;
        self.score.rows.resize(count * Row::WORDS, 0);
        self.take.out.resize(samples, 0);
        self.take.aux.resize(samples, 0);
        self.take.kept.resize(count * KEPT_WORDS, 0);
    }

    /// What the reel is rendered with.
    pub fn setup(&self) -> Setup<'_> {
        self.setup.lent()
    }

    /// The score, which is displayed as its tidy text.
    ///
    /// ```
    /// # use wohketa_retake::{BANK, Instrument, Reel, Row, Setup};
    /// # let bank = [0; BANK];
    /// # let setup = Setup { instrument: Instrument::Wavetable, rate: 48_000, frames: 24, bank: &bank };
    /// let mut reel = Reel::render(&setup, &[Row { note: 60.0, ..Row::default() }])?;
    /// reel.edit(0, Row { note: 72.0, ..Row::default() })?;
    /// let text = "note timbre morph harmonics restart\n42900000 00000000 00000000 00000000 00000000\n";
    /// assert_eq!(reel.score().to_string(), text);
    /// # Ok::<(), wohketa_retake::Refusal>(())
    /// ```
    pub fn score(&self) -> &Score {
        &self.score
    }

    /// How many rows the score has.
    pub fn count(&self) -> usize {
        self.score.count()
    }

    /// The score's rows.
    pub fn rows(&self) -> impl Iterator<Item = Row> + '_ {
        self.score.rows()
    }

    /// Row k of the score.
    pub fn row(&self, k: usize) -> Option<Row> {
        self.score.row(k)
    }

    /// The score's row words.
    pub fn words(&self) -> &[u32] {
        self.score.words()
    }

    /// The samples of out, one block after the other.
    pub fn out(&self) -> &[f32] {
        samples(&self.take.out)
    }

    /// The samples of aux, one block after the other.
    pub fn aux(&self) -> &[f32] {
        samples(&self.take.aux)
    }

    /// The block of row k.
    pub fn block(&self, k: usize) -> Option<Block<'_>> {
        let frames = self.setup.frames as usize;
        let out = self.out().chunks_exact(frames).nth(k)?;
        let aux = self.aux().chunks_exact(frames).nth(k)?;
        Some(Block { out, aux })
    }

    /// The samples' places in out and aux that belong to rows, as those of [`Edited::rows`].
    pub fn samples_of(&self, rows: Range<usize>) -> Range<usize> {
        let frames = self.setup.frames as usize;
        rows.start * frames..rows.end * frames
    }

    /// The words kept after row k.
    pub fn kept(&self, k: usize) -> Option<&[u32; KEPT_WORDS]> {
        self.take.kept.chunks_exact(KEPT_WORDS).nth(k)?.try_into().ok()
    }

    /// The take's words.
    pub fn take(&self) -> &Take {
        &self.take
    }

    /// The report of the whole rendering that made the reel.
    pub fn rendering(&self) -> Report {
        self.rendering
    }
}

impl fmt::Debug for Reel {
    fn fmt(&self, f: &mut fmt::Formatter<'_>) -> fmt::Result {
        let voice = match self.setup.voice {
            Voice::Wavetable => "Wavetable",
            Voice::Terrain => "Terrain",
            Voice::TerrainWithMap(_) => "TerrainWithMap",
            Voice::Oscillator => "Oscillator",
        };
        f.debug_struct("Reel")
            .field("voice", &voice)
            .field("rate", &self.setup.rate)
            .field("frames", &self.setup.frames)
            .field("count", &self.count())
            .finish_non_exhaustive()
    }
}
