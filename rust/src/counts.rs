//! How often each kind of position was held.

use std::ops::AddAssign;

/// How often each kind of position was held at its top, where the original would have read past a table.
///
/// On the wavetable voice and the plain oscillator a frame counts once in each kind that it holds, and once in
/// `held`: so `held` is at most the sum of the kinds, and at least the largest. On the terrain voice a reading
/// holds the map or the bank, x and y apart, and `held` is the sum of both. `docs/GUIDE.md` says what to turn
/// down for each.
///
/// ```
/// use wohketa_retake::{BANK, Counts, Instrument, Reel, Row, Setup};
///
/// let bank: [i16; BANK] = std::array::from_fn(|i| (i % 132) as i16 * 100);
/// let setup = Setup { instrument: Instrument::Oscillator, rate: 48_000, frames: 100, bank: &bank };
/// let bright = Row { timbre: 1.0, ..Row::default() };
/// let mut reel = Reel::render(&setup, &[Row { timbre: 0.75, ..bright }, bright, bright])?;
/// let mut counts = reel.rendering().counts;
/// assert_eq!((counts.wave_position, counts.level), (101, 0));
///
/// // Edits report what they hold themselves, and can be added up.
/// counts = Counts::default();
/// for k in 0..3 {
///     counts += reel.edit(k, Row { timbre: 0.99, ..bright })?.counts;
/// }
/// assert_eq!(counts, Counts::default());
/// # Ok::<(), wohketa_retake::Refusal>(())
/// ```
#[derive(Debug, Clone, Copy, Default, PartialEq, Eq)]
#[non_exhaustive]
pub struct Counts {
    /// Frames that held the phase. No rendering that was tried holds it: it comes from kept words that no
    /// rendering left.
    pub phase: u64,
    /// Frames of the wavetable voice that held x, y or both, of which the same is true; frames of the plain
    /// oscillator that held its waveform.
    pub wave_position: u64,
    /// Frames of the wavetable voice that held z.
    pub level: u64,
    /// Readings of the map that were held, at column 62 and row 62 at most.
    pub map: u64,
    /// Readings of the bank by the terrain voice that were held, at wave 62 and sample 128 at most, of the 64 waves
    /// that they read.
    pub bank: u64,
}

impl Counts {
    /// How many kinds the library writes.
    pub(crate) const KINDS: usize = 5;

    /// The counts as the library writes them.
    pub(crate) fn of(numbers: [u64; Counts::KINDS]) -> Counts {
        let [phase, wave_position, level, map, bank] = numbers;
        Counts { phase, wave_position, level, map, bank }
    }
}

/// Kind by kind.
impl AddAssign for Counts {
    fn add_assign(&mut self, other: Counts) {
        self.phase += other.phase;
        self.wave_position += other.wave_position;
        self.level += other.level;
        self.map += other.map;
        self.bank += other.bank;
    }
}
