//! A score renderer over the original's two engines and its plain oscillator.

use std::panic::{AssertUnwindSafe, catch_unwind, set_hook, take_hook};

use model::floats::{a0, word};
use model::voice::Parameters;
use model::{KEPT_WORDS, ROW_WORDS, Setup, WAVE};
use original::engine::wavetable_engine::WavetableEngine;
use original::engine::{Engine, EngineParameters, note_to_frequency};
use original::engine2::wave_terrain_engine::{self, WaveTerrainEngine};
use original::oscillator::wavetable_oscillator::WavetableOscillator;
use original::resources::waves::WAV_INTEGRATED_WAVES;

/// The published bank, as long as nothing was lent.
pub fn published_bank() -> [i16; model::BANK] {
    *WAV_INTEGRATED_WAVES
}

/// Prints no message for a panic in the original's own lines: the comparison expects some.
pub fn silence_panics() {
    let usual = take_hook();
    set_hook(Box::new(move |panic| {
        if !panic.location().is_some_and(|at| at.file().contains("compare/original/src")) {
            usual(panic);
        }
    }));
}

/// Samples of a wave's period, and how many waves the oscillator is handed.
const TABLE_SIZE: usize = 128;
const NUM_WAVES: usize = 64;

/// The plain oscillator and the waves that its `render` is handed: the first 64 of a bank, 132 samples each.
struct Plain<'a> {
    oscillator: WavetableOscillator,
    waves: [&'a [i16]; NUM_WAVES],
}

impl<'a> Plain<'a> {
    fn new(bank: &'a [i16]) -> Self {
        let waves = std::array::from_fn(|i| &bank[i * WAVE..][..WAVE]);
        Plain { oscillator: WavetableOscillator::new(), waves }
    }

    fn init(&mut self) {
        self.oscillator.init();
    }

    /// One row: amplitude 1, the waveform from timbre, both flags true. The oscillator's `render` adds to
    /// out, which starts at zero, and has no aux.
    #[inline]
    fn render(&mut self, p: &EngineParameters, out: &mut [f32], aux: &mut [f32]) {
        out.fill(0.0);
        aux.fill(0.0);
        let frequency = note_to_frequency(p.note, p.a0_normalized);
        self.oscillator.render(frequency, 1.0, p.timbre, &self.waves, out, TABLE_SIZE, NUM_WAVES, true, true);
    }
}

enum Voice<'a> {
    Wavetable(WavetableEngine<'a>),
    Terrain(WaveTerrainEngine<'a>),
    Oscillator(Plain<'a>),
}

/// One of the original's voices, set up for a score's rows.
pub struct Original<'a> {
    setup: Setup<'a>,
    voice: Voice<'a>,
}

/// What the original leaves after a row, as words.
#[derive(Debug, PartialEq, Eq)]
pub struct Rendered {
    pub out: Vec<u32>,
    pub aux: Vec<u32>,
    pub kept: [u32; KEPT_WORDS],
}

impl<'a> Original<'a> {
    /// The voice after `init`. The bank is lent by `set_wavetables`, or put in the place of the table
    /// that the terrain engine reads by name; the oscillator is handed its waves with each row.
    pub fn new(setup: Setup<'a>) -> Self {
        let bank: &'a [i16; model::BANK] = setup.bank.try_into().expect("a whole bank");
        let voice = match setup.instrument {
            0 => {
                let mut engine = WavetableEngine::new();
                engine.set_wavetables(bank);
                Voice::Wavetable(engine)
            }
            3 => Voice::Oscillator(Plain::new(bank)),
            _ => {
                // SAFETY: the driver has one thread, and no voice keeps a reference to the table:
                // those above were handed another.
                unsafe { WAV_INTEGRATED_WAVES.lend(bank) };
                Voice::Terrain(WaveTerrainEngine::new(setup.frames as usize))
            }
        };
        let mut made = Original { setup, voice };
        made.init();
        made
    }

    /// `init`, and the map lent again, since `init` drops it.
    pub fn init(&mut self) {
        let rate = self.setup.rate as f32;
        match &mut self.voice {
            Voice::Wavetable(engine) => engine.init(rate),
            Voice::Terrain(engine) => {
                engine.init(rate);
                engine.set_user_terrain(self.setup.map.try_into().ok());
            }
            Voice::Oscillator(plain) => plain.init(),
        }
    }

    /// Starts from any 13 kept words.
    pub fn set_kept(&mut self, kept: &[u32]) {
        let floats: [f32; KEPT_WORDS] = std::array::from_fn(|i| f32::from_bits(kept[i]));
        match &mut self.voice {
            Voice::Wavetable(engine) => engine.set_state(floats),
            Voice::Terrain(engine) => engine.set_state(std::array::from_fn(|i| floats[i])),
            Voice::Oscillator(plain) => plain.oscillator.set_state(std::array::from_fn(|i| floats[i])),
        }
    }

    /// The 13 words of the state.
    pub fn kept(&self) -> [u32; KEPT_WORDS] {
        let mut words = [0; KEPT_WORDS];
        let put = |words: &mut [u32], floats: &[f32]| {
            for (w, x) in words.iter_mut().zip(floats) {
                *w = word(*x);
            }
        };
        match &self.voice {
            Voice::Wavetable(engine) => put(&mut words, &engine.state()),
            Voice::Terrain(engine) => put(&mut words, &engine.state()),
            Voice::Oscillator(plain) => put(&mut words, &plain.oscillator.state()),
        }
        words
    }

    /// `render` of one row into samples. It panics where the original does.
    fn render_into(&mut self, row: &[u32], out: &mut [f32], aux: &mut [f32]) {
        let parameters = parameters(self.setup.rate, row);
        match &mut self.voice {
            Voice::Wavetable(engine) => engine.render(&parameters, out, aux, &mut false),
            Voice::Terrain(engine) => engine.render(&parameters, out, aux, &mut false),
            Voice::Oscillator(plain) => plain.render(&parameters, out, aux),
        }
    }

    /// One row as words, or none where the original panics.
    pub fn render_row(&mut self, row: &[u32]) -> Option<Rendered> {
        let mut out = vec![0.0; self.setup.frames as usize];
        let mut aux = out.clone();
        catch_unwind(AssertUnwindSafe(|| self.render_into(row, &mut out, &mut aux))).ok()?;
        let words = |samples: Vec<f32>| samples.into_iter().map(word).collect();
        Some(Rendered { out: words(out), aux: words(aux), kept: self.kept() })
    }
}

fn parameters(rate: u32, row: &[u32]) -> EngineParameters {
    let p = Parameters::of_row(row);
    EngineParameters {
        note: p.note,
        timbre: p.timbre,
        morph: p.morph,
        harmonics: p.harmonics,
        a0_normalized: a0(rate),
        ..EngineParameters::default()
    }
}

/// The reading of a map at a point, or none where the original panics.
pub fn read_map(map: &[u8], [x, y]: [f32; 2]) -> Option<f32> {
    let map = map.try_into().expect("a whole map");
    catch_unwind(|| wave_terrain_engine::read_map(x, y, map)).ok()
}

/// The reading of one of the three parts of a bank at a point, or none where the original panics.
pub fn read_bank(bank: &[i16], number: u64, [x, y]: [f32; 2]) -> Option<f32> {
    // SAFETY: as in `Original::new`.
    unsafe { WAV_INTEGRATED_WAVES.lend(bank.try_into().expect("a whole bank")) };
    catch_unwind(|| wave_terrain_engine::read_bank(x, y, number as i32)).ok()
}

/// The rows of a score up to the first in which the original panics.
pub fn render(setup: Setup, rows: &[u32]) -> Vec<Rendered> {
    let mut original = Original::new(setup);
    let mut rendered = Vec::new();
    for row in rows.chunks(ROW_WORDS) {
        if row[4] == 1 {
            original.init();
        }
        match original.render_row(row) {
            Some(r) => rendered.push(r),
            None => break,
        }
    }
    rendered
}

/// A whole score into samples, for the benchmark.
pub fn play<'a>(setup: Setup<'a>, rows: &[u32], out: &mut [f32], aux: &mut [f32]) {
    let rate = setup.rate as f32;
    let bank: &'a [i16; model::BANK] = setup.bank.try_into().expect("a whole bank");
    match setup.instrument {
        0 => {
            let mut engine = WavetableEngine::new();
            engine.set_wavetables(bank);
            play_rows(engine, |engine| engine.init(rate), render_engine, setup, rows, out, aux);
        }
        3 => play_rows(Plain::new(bank), Plain::init, render_plain, setup, rows, out, aux),
        _ => {
            // SAFETY: as in `Original::new`.
            unsafe { WAV_INTEGRATED_WAVES.lend(bank) };
            let engine = WaveTerrainEngine::new(setup.frames as usize);
            let map = setup.map.try_into().ok();
            let start = |engine: &mut WaveTerrainEngine<'a>| {
                engine.init(rate);
                engine.set_user_terrain(map);
            };
            play_rows(engine, start, render_engine, setup, rows, out, aux);
        }
    }
}

fn play_rows<V>(
    mut voice: V,
    start: impl Fn(&mut V),
    render: impl Fn(&mut V, &EngineParameters, &mut [f32], &mut [f32]),
    setup: Setup,
    rows: &[u32],
    out: &mut [f32],
    aux: &mut [f32],
) {
    let frames = setup.frames as usize;
    start(&mut voice);
    let samples = out.chunks_mut(frames).zip(aux.chunks_mut(frames));
    for (row, (out, aux)) in rows.chunks(ROW_WORDS).zip(samples) {
        if row[4] == 1 {
            start(&mut voice);
        }
        render(&mut voice, &parameters(setup.rate, row), out, aux);
    }
}

/// `render` of an engine.
fn render_engine<E: Engine>(engine: &mut E, p: &EngineParameters, out: &mut [f32], aux: &mut [f32]) {
    called(engine).render(p, out, aux, &mut false);
}

/// The engine as the benchmark calls it: by its type.
#[cfg(not(feature = "trait-object"))]
fn called<E: Engine>(engine: &mut E) -> &mut E {
    engine
}

/// The engine as the benchmark calls it: as a trait object.
#[cfg(feature = "trait-object")]
fn called<'e, E: Engine + 'e>(engine: &'e mut E) -> &'e mut (dyn Engine + 'e) {
    std::hint::black_box(engine)
}

/// The plain oscillator as the benchmark calls it: inlined. It is no `Engine`, so with the feature
/// `trait-object` the call goes through a function that is not inlined.
#[cfg_attr(feature = "trait-object", inline(never))]
fn render_plain(plain: &mut Plain, p: &EngineParameters, out: &mut [f32], aux: &mut [f32]) {
    plain.render(p, out, aux);
}
