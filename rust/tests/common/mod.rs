//! What the tests share: a bank, a map, numbers that look random.

use wohketa_retake::{BANK, Counts, Instrument, MAP, Row, Setup};

pub fn bank() -> Box<[i16; BANK]> {
    Box::new(std::array::from_fn(|i| (i * 7919 % 60_000) as u16 as i16))
}

pub fn map() -> Box<[u8; MAP]> {
    Box::new(std::array::from_fn(|i| (i * 31 % 251) as u8))
}

pub fn instruments(map: &[u8; MAP]) -> [Instrument<'_>; 4] {
    [Instrument::Wavetable, Instrument::Terrain, Instrument::TerrainWithMap(map), Instrument::Oscillator]
}

pub fn setup<'a>(instrument: Instrument<'a>, bank: &'a [i16; BANK]) -> Setup<'a> {
    Setup { instrument, rate: 48_000, frames: 24, bank }
}

/// A row of every instrument.
pub const ROW: Row = Row { note: 60.0, timbre: 0.5, morph: 0.25, harmonics: 0.5, restart: false };

/// Rows in whose last the wavetable voice's level comes past its top, in blocks of 128 frames.
pub fn climbing() -> [Row; 54] {
    [Row { note: 120.0, timbre: 0.0, morph: 0.0, harmonics: 1.0, restart: false }; 54]
}

/// The counts in the library's order.
pub fn numbers(counts: Counts) -> [u64; 5] {
    [counts.phase, counts.wave_position, counts.level, counts.map, counts.bank]
}

/// A series of numbers.
pub struct Series(pub u32);

impl Series {
    pub fn below(&mut self, n: u32) -> u32 {
        self.0 = self.0.wrapping_mul(1_664_525).wrapping_add(1_013_904_223);
        ((u64::from(self.0) * u64::from(n)) >> 32) as u32
    }

    /// One of 0, 1 / n, 2 / n .. 1.
    pub fn part(&mut self, n: u32) -> f32 {
        self.below(n + 1) as f32 / n as f32
    }

    pub fn row(&mut self) -> Row {
        Row {
            note: 24.0 + self.below(72) as f32,
            timbre: self.part(8),
            morph: self.part(8),
            harmonics: self.part(8),
            restart: self.below(8) == 0,
        }
    }
}
