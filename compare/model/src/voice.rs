//! The voice state, its 13 kept words, and the block of a row.

use crate::floats::word;
use crate::oscillator::Oscillator;
use crate::terrain::Terrain;
use crate::wavetable::Wavetable;
use crate::{Counts, KEPT_WORDS, Setup};

/// A row's floats.
#[derive(Debug, Clone, Copy)]
pub struct Parameters {
    pub note: f32,
    pub timbre: f32,
    pub morph: f32,
    pub harmonics: f32,
}

impl Parameters {
    pub fn of_row(row: &[u32]) -> Self {
        let [note, timbre, morph, harmonics] = [row[0], row[1], row[2], row[3]].map(f32::from_bits);
        Self { note, timbre, morph, harmonics }
    }
}

/// Readings of the map or of one bank that were held at its edge, for the comparison.
#[derive(Debug, Clone, Copy, Default, PartialEq, Eq)]
pub struct Edge {
    pub held: u64,
    /// Of these: past its reach was x alone, y alone, or both.
    pub x: u64,
    pub y: u64,
    pub x_and_y: u64,
    /// Of these: the reading starts elsewhere than at the last flat number there is.
    pub elsewhere: u64,
}

impl Edge {
    pub fn add(&mut self, other: &Edge) {
        self.held += other.held;
        self.x += other.x;
        self.y += other.y;
        self.x_and_y += other.x_and_y;
        self.elsewhere += other.elsewhere;
    }
}

/// How often each position was held in a block or a frame, for the comparison. `layer` is not part of `held`.
#[derive(Debug, Clone, Copy, Default, PartialEq, Eq)]
pub struct Holds {
    pub phase: u64,
    pub x: u64,
    pub y: u64,
    pub z: u64,
    pub waveform: u64,
    pub map: Edge,
    /// By the bank's number, 0 to 2.
    pub banks: [Edge; 3],
    pub layer: u64,
    /// Frames that held both x and y, and frames that held several kinds.
    pub x_and_y: u64,
    pub several: u64,
}

impl Holds {
    pub fn any(&self) -> bool {
        self.phase + self.x + self.y + self.z + self.waveform + self.map.held + self.bank() + self.layer > 0
    }

    /// Held readings of the three banks.
    pub fn bank(&self) -> u64 {
        self.banks.iter().map(|edge| edge.held).sum()
    }

    pub fn add(&mut self, other: &Holds) {
        self.phase += other.phase;
        self.x += other.x;
        self.y += other.y;
        self.z += other.z;
        self.waveform += other.waveform;
        self.map.add(&other.map);
        self.banks.iter_mut().zip(&other.banks).for_each(|(edge, other)| edge.add(other));
        self.layer += other.layer;
        self.x_and_y += other.x_and_y;
        self.several += other.several;
    }
}

/// What a row's block leaves: words of out and aux, `held`, its kinds, and which positions these were.
#[derive(Debug, Clone, Default, PartialEq, Eq)]
pub struct Block {
    pub out: Vec<u32>,
    pub aux: Vec<u32>,
    pub held: u64,
    pub counts: Counts,
    pub holds: Holds,
}

impl Block {
    pub fn push(&mut self, out: f32, aux: f32) {
        self.out.push(word(out));
        self.aux.push(word(aux));
    }

    /// Counts a frame of the wavetable voice or of the plain oscillator, each of whose positions is held or
    /// not (1 or 0): once in `held`, and once in each kind that it holds. x and y are one kind.
    pub fn count_frame(&mut self, holds: Holds) {
        let wave_position = holds.x | holds.y | holds.waveform;
        let counts = Counts { phase: holds.phase, wave_position, level: holds.z, ..Counts::default() };
        let kinds: u64 = counts.numbers().iter().sum();
        self.held += u64::from(kinds > 0);
        self.counts.add(&counts);
        self.holds.add(&Holds { x_and_y: holds.x & holds.y, several: u64::from(kinds > 1), ..holds });
    }

    /// Counts the readings of a block of the terrain voice, each of which holds one kind or none.
    pub fn count_readings(&mut self, holds: Holds) {
        self.counts = Counts { map: holds.map.held, bank: holds.bank(), ..Counts::default() };
        self.held = self.counts.map + self.counts.bank;
        self.holds = holds;
    }
}

#[derive(Debug, Clone, Copy)]
pub enum Voice {
    Wavetable(Wavetable),
    Terrain(Terrain),
    Oscillator(Oscillator),
}

impl Voice {
    pub fn fresh(setup: &Setup) -> Voice {
        match setup.instrument {
            0 => Voice::Wavetable(Wavetable::fresh(setup.rate)),
            3 => Voice::Oscillator(Oscillator::fresh()),
            _ => Voice::Terrain(Terrain::fresh()),
        }
    }

    /// The state of any 13 words. Terrain's last seven and the oscillator's last six are no part of it.
    pub fn of_kept(instrument: u32, kept: &[u32]) -> Voice {
        let floats: [f32; KEPT_WORDS] = std::array::from_fn(|i| f32::from_bits(kept[i]));
        match instrument {
            0 => Voice::Wavetable(Wavetable::of_floats(floats)),
            3 => Voice::Oscillator(Oscillator::of_floats(std::array::from_fn(|i| floats[i]))),
            _ => Voice::Terrain(Terrain::of_floats(std::array::from_fn(|i| floats[i]))),
        }
    }

    pub fn kept(&self) -> [u32; KEPT_WORDS] {
        match self {
            Voice::Wavetable(v) => words_of(&v.floats()),
            Voice::Terrain(v) => words_of(&v.floats()),
            Voice::Oscillator(v) => words_of(&v.floats()),
        }
    }

    pub fn render(&mut self, setup: &Setup, row: &[u32]) -> Block {
        let parameters = Parameters::of_row(row);
        match self {
            Voice::Wavetable(v) => v.render(setup, parameters),
            Voice::Terrain(v) => v.render(setup, parameters),
            Voice::Oscillator(v) => v.render(setup, parameters),
        }
    }
}

/// The words of a state's floats, and zeros behind them.
fn words_of(floats: &[f32]) -> [u32; KEPT_WORDS] {
    std::array::from_fn(|i| floats.get(i).map_or(0, |x| word(*x)))
}
