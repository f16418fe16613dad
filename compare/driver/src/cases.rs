//! Random and adverse inputs: rows, banks, maps, setups, junk takes, longer buffers, texts.

use std::fmt;

use model::score::{NAMES, tidy_text};
use model::{BANK, KEPT_WORDS, MAP, ROW_WORDS, Setup, Take};

use crate::random::Random;

/// A setup with its own bank and map, and a score's row words.
#[derive(Debug, Clone)]
pub struct Case {
    pub instrument: u32,
    pub rate: u32,
    pub frames: u32,
    pub bank: Vec<i16>,
    pub map: Vec<u8>,
    pub rows: Vec<u32>,
}

impl Case {
    pub fn setup(&self) -> Setup<'_> {
        Setup { instrument: self.instrument, rate: self.rate, frames: self.frames, bank: &self.bank, map: &self.map }
    }

    pub fn count(&self) -> usize {
        self.rows.len() / ROW_WORDS
    }

    /// A take that is just long enough for this score, filled with random words.
    pub fn junk_take(&self, random: &mut Random) -> Take {
        Take::filled(self.count(), self.frames, || junk_word(random))
    }

    /// This score and a take of random words, in buffers that are longer by so many words: row words, out,
    /// aux, kept. Words past the score are random too.
    pub fn lent_with(&self, random: &mut Random, spare: [usize; 4]) -> Lent {
        let mut junk = |n: usize| -> Vec<u32> { (0..n).map(|_| junk_word(random)).collect() };
        let samples = self.count() * self.frames as usize;
        let [rows, out, aux, kept] = spare;
        let rows = [self.rows.clone(), junk(rows)].concat();
        let kept = junk(self.count() * KEPT_WORDS + kept);
        let take = Take { out: junk(samples + out), aux: junk(samples + aux), kept };
        Lent { rows, count: self.count() as u64, take }
    }

    /// The same in buffers with room for so many rows more, now and then for a few more yet, often for part
    /// of one.
    pub fn lent(&self, random: &mut Random, places: usize) -> Lent {
        let frames = self.frames as usize;
        let spare = [ROW_WORDS, frames, frames, KEPT_WORDS].map(|each| {
            let places = places + if random.once_in(4) { random.below(3) } else { 0 };
            places * each + if random.once_in(2) { random.below(each) } else { 0 }
        });
        self.lent_with(random, spare)
    }

    /// An acceptable case with at most `most` rows.
    pub fn random(random: &mut Random, published: &[i16], most: usize) -> Case {
        let instrument = random.below(4) as u32;
        let count = 1 + random.below(most);
        let map = if instrument == 2 { map(random) } else { Vec::new() };
        let (rate, frames) = (rate(random), frames(random));
        let bank = bank(random, published);
        let brightening = instrument == 3 && random.once_in(4);
        let rows = if brightening { brightening_rows(random, count) } else { rows(random, count) };
        Case { instrument, rate, frames, bank, map, rows }
    }

    /// An acceptable case whose path often leaves the circle, and with it the map or the bank.
    pub fn leaving(random: &mut Random, published: &[i16], most: usize) -> Case {
        let instrument = random.pick(&[1, 2]);
        let map = if instrument == 2 { map(random) } else { Vec::new() };
        let (rate, frames) = (32_000 + random.below(12_001) as u32, 1 + random.below(12) as u32);
        let mut rows = Vec::new();
        for k in 0..1 + random.below(most) {
            let mut values = std::array::from_fn(|name| value(random, name, false));
            leave_circle(random, k, &mut values);
            rows.extend(values);
            rows.push(0);
        }
        Case { instrument, rate, frames, bank: bank(random, published), map, rows }
    }

    /// An acceptable case in which a block has a whole number of periods once the frequency is steady. The
    /// phase then comes back to where it was, and rows put in or taken out fade as edits do.
    pub fn whole_periods(random: &mut Random, published: &[i16], most: usize) -> Case {
        let (instrument, frames) = (random.pick(&[0, 3]), random.pick(&[16, 32, 64, 128]));
        let count = 1 + random.below(most);
        let mut rows = if random.once_in(2) { rows(random, count) } else { row(random).repeat(count) };
        for row in rows.chunks_mut(ROW_WORDS) {
            row[0] = 105f32.to_bits();
        }
        // 3,520 Hz is a sixteenth of the rate.
        Case { instrument, rate: 56_320, frames, bank: bank(random, published), map: Vec::new(), rows }
    }
}

impl fmt::Display for Case {
    fn fmt(&self, f: &mut fmt::Formatter) -> fmt::Result {
        writeln!(f, "instrument {} rate {} frames {}", self.instrument, self.rate, self.frames)?;
        f.write_str(&tidy_text(&self.rows))
    }
}

/// What calls are lent: row words and a take, in buffers that may be longer than the score, and its row count.
#[derive(Debug, Clone)]
pub struct Lent {
    pub rows: Vec<u32>,
    pub count: u64,
    pub take: Take,
}

impl Lent {
    pub fn score(&self) -> &[u32] {
        &self.rows[..self.count as usize * ROW_WORDS]
    }
}

pub fn rate(random: &mut Random) -> u32 {
    let usual = random.pick(&[32_000, 44_100, 48_000, 96_000, 192_000]);
    if random.once_in(2) { usual } else { 32_000 + random.below(160_001) as u32 }
}

pub fn frames(random: &mut Random) -> u32 {
    let usual = random.pick(&[1, 2, 3, 4, 12, 24, 32, 64, 127, 128]);
    if random.once_in(2) { usual } else { 1 + random.below(128) as u32 }
}

pub fn bank(random: &mut Random, published: &[i16]) -> Vec<i16> {
    match random.below(6) {
        0 => published.to_vec(),
        1 => (0..BANK).map(|_| random.pick(&[i16::MIN, i16::MAX])).collect(),
        2 => (0..BANK).map(|i| if i % 2 == 0 { i16::MIN } else { i16::MAX }).collect(),
        3 => (0..BANK).map(|i| (i % 132 * 496) as u16 as i16).collect(),
        _ => (0..BANK).map(|_| random.word() as i16).collect(),
    }
}

pub fn map(random: &mut Random) -> Vec<u8> {
    match random.below(4) {
        0 => (0..MAP).map(|_| random.pick(&[0, 255])).collect(),
        1 => (0..MAP).map(|i| (i % 64 * 4) as u8).collect(),
        _ => (0..MAP).map(|_| random.word() as u8).collect(),
    }
}

/// A word within the limit of note (0) or of timbre, morph or harmonics (1 to 3).
fn value(random: &mut Random, name: usize, adverse: bool) -> u32 {
    let top: f32 = if name == 0 { 120.0 } else { 1.0 };
    if !adverse {
        return (random.unit() * top).to_bits();
    }
    match random.below(8) {
        0 => 0x8000_0000,
        1 => 0,
        2 => top.to_bits(),
        3 => top.to_bits() - 1 - random.below(4) as u32,
        4 => 1 + random.below(0x00ff_ffff) as u32,
        5 => (random.below(8) as f32 / 7.0 * top).to_bits(),
        6 => random.below(top.to_bits() as usize + 1) as u32,
        _ => (0.95238096 * top).to_bits(),
    }
}

/// Rows within their limits, of one of several characters.
pub fn rows(random: &mut Random, count: usize) -> Vec<u32> {
    let character = random.below(8);
    let adverse = random.once_in(2);
    let repeat = random.pick(&[1, 1, 4, count]);
    let restarts = if character < 2 { usize::MAX } else { random.pick(&[2, 8, 64, usize::MAX]) };
    let mut rows = Vec::new();
    let mut values = [0; 4];
    for k in 0..count {
        if k % repeat == 0 {
            values = std::array::from_fn(|name| value(random, name, adverse));
        }
        match character {
            0 => leave_circle(random, k, &mut values),
            // A z that climbs to its top.
            1 => values[3] = 1f32.to_bits(),
            _ => (),
        }
        rows.extend(values);
        rows.push(u32::from(random.once_in(restarts)));
    }
    rows
}

/// A path that leaves the circle: a high note draws it out to an ellipse, low notes then walk it with a large
/// radius, on high layers.
fn leave_circle(random: &mut Random, k: usize, values: &mut [u32; 4]) {
    values[0] = (if k % 3 == 0 { 100.0 + random.unit() * 20.0 } else { random.unit() * 60.0 }).to_bits();
    values[1] = 1f32.to_bits();
    values[3] = (0.5 + random.unit() * 0.5).to_bits();
}

/// Rows whose timbre from some row on is 1: there the oscillator's waveform may come to 63.
pub fn brightening_rows(random: &mut Random, count: usize) -> Vec<u32> {
    let mut rows = rows(random, count);
    let from = random.below(count);
    for row in rows.chunks_mut(ROW_WORDS).skip(from) {
        row[1] = 1f32.to_bits();
        row[4] = 0;
    }
    rows
}

/// Rows of a usual score: each value anywhere in the middle of its limits, a restart every `restarts` rows.
pub fn usual_rows(random: &mut Random, count: usize, restarts: usize) -> Vec<u32> {
    (0..count)
        .flat_map(|k| {
            let mut unit = || (random.unit() * 0.85).to_bits();
            let [timbre, morph, harmonics] = [unit(), unit(), unit()];
            let note = (24.0 + random.unit() * 72.0).to_bits();
            [note, timbre, morph, harmonics, u32::from(k % restarts == restarts - 1)]
        })
        .collect()
}

/// One row within its limits.
pub fn row(random: &mut Random) -> [u32; ROW_WORDS] {
    let adverse = random.once_in(2);
    let mut row = [0; ROW_WORDS];
    for (name, word) in row.iter_mut().take(4).enumerate() {
        *word = value(random, name, adverse);
    }
    row[4] = u32::from(random.once_in(8));
    row
}

/// Any word: often one at an edge of the floats.
pub fn junk_word(random: &mut Random) -> u32 {
    match random.below(8) {
        0 => random.pick(&[
            0,
            0x8000_0000,
            0x7f80_0000,
            0xff80_0000,
            0x7fc0_0000,
            0x7fc0_0001,
            0xffff_ffff,
            0x7f80_0001,
            1,
            0x7f7f_ffff,
            0x5f80_0000,
            0x5f7f_ffff,
            0x4f00_0000,
            0xcf00_0000,
        ]),
        1 => random.unit().to_bits(),
        2 => (random.unit() * 16.0 - 4.0).to_bits(),
        3 => (random.unit() * 300.0 - 100.0).to_bits(),
        _ => random.word(),
    }
}

/// 13 kept words near those that renderings keep, now and then junk.
pub fn odd_state(random: &mut Random, instrument: u32) -> [u32; KEPT_WORDS] {
    state_to(random, instrument, 1.0)
}

/// The same with positions that go further, past their tops.
pub fn far_state(random: &mut Random, instrument: u32) -> [u32; KEPT_WORDS] {
    let far = random.pick(&[1.2, 4.0, 30.0, 1000.0]);
    state_to(random, instrument, far)
}

/// An odd state whose positions go so many times as far as those that renderings keep.
fn state_to(random: &mut Random, instrument: u32, far: f32) -> [u32; KEPT_WORDS] {
    let wild = random.pick(&[2, 8, 40]);
    std::array::from_fn(|i| {
        if random.once_in(wild) {
            return junk_word(random);
        }
        let x = random.unit();
        let usual = match (instrument, i) {
            (0, 0) => x * far,
            (0, 1..=9) => x * 7.5 * far,
            (0, 10) => x * 0.2,
            (0, _) => (x - 0.5) * 60_000.0,
            (3, 0) => x * 2.1 * far,
            (3, 1) => x * 0.25,
            (3, 2) => x * 0.05,
            (3, 3) => x * 64.0 * far,
            (3, 4..=6) => (x - 0.5) * 60_000.0,
            (3, _) => 0.0,
            (_, 0 | 1) => x * 3.0 - 1.5,
            (_, 2) => x * 1.5,
            (_, 3) => x * 1.5 * far,
            (_, 4) => (x * 3.0 - 1.5) * far,
            // Further up only the last two layers are read.
            (_, 5) => x * 9.0 * far.min(1.2),
            _ => 0.0,
        };
        usual.to_bits()
    })
}

/// The text of rows with the columns in this order; `letters` may change the letter case of each line of values.
pub fn text_with<const N: usize>(
    names: [&str; N],
    columns: [usize; N],
    rows: &[u32],
    mut letters: impl FnMut(String) -> String,
) -> Vec<u8> {
    let mut text = columns.map(|c| names[c]).join(" ") + "\n";
    for row in rows.chunks(N) {
        text += &letters(columns.map(|c| format!("{:08x}", row[c])).join(" "));
        text.push('\n');
    }
    text.into_bytes()
}

/// The text of rows, with shuffled columns and letters of either case.
pub fn text<const N: usize>(random: &mut Random, names: [&str; N], rows: &[u32]) -> Vec<u8> {
    let mut columns: [usize; N] = std::array::from_fn(|i| i);
    for i in 1..N {
        columns.swap(i, random.below(i + 1));
    }
    text_with(names, columns, rows, |line| if random.once_in(2) { line.to_uppercase() } else { line })
}

/// One small change of a text.
pub fn damage(random: &mut Random, text: &mut Vec<u8>) {
    if text.is_empty() {
        return;
    }
    let at = random.below(text.len());
    let byte = random.pick(b"\n\r\t 0f8AGgx-+_z\0\xff");
    match random.below(6) {
        0 => text[at] = byte,
        1 => text.insert(at, byte),
        2 => drop(text.remove(at)),
        3 => text.truncate(at),
        4 => text.push(byte),
        _ => {
            let name = random.pick(&NAMES).as_bytes();
            let end = (at + random.below(10)).min(text.len());
            text.splice(at..end, name.iter().copied());
        }
    }
}
