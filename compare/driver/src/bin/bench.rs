//! Measures the library beside the original: one process, the same input, turn by turn. Prints a
//! table of medians as comma-separated values.
//!
//! The original is measured at its best: its `render` has one caller, known to the compiler, which then
//! inlines all of it. With the feature `trait-object` the engine is called through `dyn Engine` instead,
//! as a host with several engines does (the plain oscillator, which is no `Engine`, through a function
//! that is not inlined), and whole renderings alone are measured. These are two programs, since in one
//! the second caller would spoil the first.
//!
//! The original has no reader and no writer, and its rows cannot be edited, put in or taken out. A user of
//! it renders the whole score again, so these calls are set against its whole rendering of the same 4,096
//! rows. A plain move of the words that a removal moves is measured beside them.

use std::hint::black_box;
use std::time::{Duration, Instant};

use driver::cases;
use driver::original;
use driver::random::Random;
use model::score::{NAMES, text_length, tidy_text};
use wohketa_retake::{
    BANK, Instrument, KEPT_WORDS, MAP, Refusal, Report, Row, Setup, Take, edit, insert, read_score, remove, render,
    write_score,
};

const INSTRUMENTS: std::ops::RangeInclusive<u32> = 0..=3;
const ROWS: usize = 4_096;
const FRAMES: u32 = 24;
const RATE: u32 = 48_000;
const ROUNDS: usize = 61;
/// After how many rows the measured edits of row 0 stop.
const STOPS: [usize; 4] = [1, 16, 256, ROWS];
/// Where rows are put in and taken out, so that a row behind is there to be rendered: near the end an
/// insertion comes last, a removal last but one.
const PLACES: [(&str, usize, usize); 3] = [("0", 0, 0), ("2048", 2_048, 2_048), ("end", ROWS - 1, ROWS - 2)];
/// A kept word that no rendering leaves, so that an edit stops at a restart alone.
const NEVER_KEPT: u32 = 0x7fc0_0001;

/// One instrument with its bank, map and score, and samples for the original to write.
struct Bench<'a> {
    number: u32,
    bank: &'a [i16; BANK],
    map: Option<&'a [u8; MAP]>,
    rows: &'a [u32],
    out: Vec<f32>,
    aux: Vec<f32>,
}

impl<'a> Bench<'a> {
    fn new(number: u32, bank: &'a [i16; BANK], map: &'a [u8; MAP], rows: &'a [u32]) -> Self {
        let samples = vec![0.0; ROWS * FRAMES as usize];
        Bench { number, bank, map: (number == 2).then_some(map), rows, out: samples.clone(), aux: samples }
    }

    fn setup(&self) -> Setup<'a> {
        let instrument = match (self.number, self.map) {
            (0, _) => Instrument::Wavetable,
            (3, _) => Instrument::Oscillator,
            (_, None) => Instrument::Terrain,
            (_, Some(map)) => Instrument::TerrainWithMap(map),
        };
        Setup { instrument, rate: RATE, frames: FRAMES, bank: self.bank }
    }

    /// The original's whole rendering.
    fn original(&mut self) -> Duration {
        let map = self.map.map_or(&[][..], |map| map);
        let setup = model::Setup { instrument: self.number, rate: RATE, frames: FRAMES, bank: self.bank, map };
        timed(|| original::play(setup, self.rows, &mut self.out, &mut self.aux))
    }

    /// Measures a call of the library, turn by turn with the original.
    fn measure(&mut self, name: &str, mut call: impl FnMut(usize) -> Duration) {
        let (mut library, mut original) = (Vec::new(), Vec::new());
        for round in 0..ROUNDS {
            original.push(self.original().as_secs_f64() * 1e6);
            library.push(call(round).as_secs_f64() * 1e6);
        }
        print(name, library, original);
    }

    /// Whole renderings. The samples must be the same.
    fn renders(&mut self, bank: &str) {
        let (setup, rows) = (self.setup(), self.rows);
        let mut take = Take::new(ROWS, FRAMES);
        let name = format!("render {} {bank} bank", self.number);
        self.measure(&name, |_| timed(|| render(&setup, rows, ROWS, &mut take)));
        let equal = |words: &[u32], samples: &[f32]| words.iter().zip(samples).all(|(w, x)| *w == x.to_bits());
        assert!(equal(&take.out, &self.out) && equal(&take.aux, &self.aux), "different samples: {name}");
    }

    /// Edits of row 0 that stop at a restart in row `stop`, or at the end.
    fn edits(&mut self, stop: usize) {
        let setup = self.setup();
        let mut rows = restarting_at(self.rows, stop);
        let mut take = Take::new(ROWS, FRAMES);
        self.measure(&format!("edit {} stops after {stop}", self.number), |round| {
            take.kept.fill(NEVER_KEPT);
            let row = row([0.25, 0.75][round % 2]);
            rendering(stop, || edit(&setup, &mut rows, ROWS, 0, row, &mut take))
        });
    }

    /// Insertions into 4,095 rows and removals from 4,096. Each renders one row and stops at a restart; no two
    /// places keep the same words, so the row behind a removal does not stop at once.
    fn splices(&mut self, place: &str, put_in: usize, taken_out: usize) {
        let (setup, score) = (self.setup(), self.rows);
        let mut take = Take::new(ROWS, FRAMES);
        self.measure(&format!("insert {} at {place}", self.number), |_| {
            let mut rows = restarting_at(score, put_in);
            keep_different(&mut take.kept);
            rendering(1, || insert(&setup, &mut rows, ROWS - 1, put_in, row(0.25), &mut take))
        });
        self.measure(&format!("remove {} at {place}", self.number), |_| {
            let mut rows = restarting_at(score, taken_out + 2);
            keep_different(&mut take.kept);
            rendering(1, || remove(&setup, &mut rows, ROWS, taken_out, &mut take))
        });
    }

    /// A plain move of the words that a removal moves.
    fn moves(&mut self, place: &str, taken_out: usize) {
        let score = self.rows;
        let mut take = Take::new(ROWS, FRAMES);
        let frames = FRAMES as usize;
        self.measure(&format!("move {place}"), |_| {
            let mut rows = score.to_vec();
            keep_different(&mut take.kept);
            let buffers = [
                (&mut rows, Row::WORDS),
                (&mut take.out, frames),
                (&mut take.aux, frames),
                (&mut take.kept, KEPT_WORDS),
            ];
            timed(|| {
                for (words, each) in buffers {
                    black_box(words).copy_within((taken_out + 1) * each..ROWS * each, taken_out * each);
                }
            })
        });
    }

    /// Reading the score's text.
    fn reads(&mut self) {
        let text = cases::text(&mut Random::new(5), NAMES, self.rows);
        let mut rows = vec![0; ROWS * Row::WORDS];
        self.measure("read", |_| timed(|| read_score(&text, &mut rows)));
        assert_eq!(rows, self.rows);
    }

    /// Writing the score's text.
    fn writes(&mut self) {
        let rows = self.rows;
        let mut text = vec![0; text_length(ROWS)];
        self.measure("write", |_| timed(|| write_score(rows, ROWS, &mut text)));
        assert!(text == tidy_text(rows).as_bytes(), "a different text");
    }
}

/// A row that is put into the score.
fn row(timbre: f32) -> Row {
    Row { note: 60.0, timbre, morph: 0.5, harmonics: 0.5, restart: false }
}

/// A score of which one row restarts, if there is such a row.
fn restarting_at(rows: &[u32], stop: usize) -> Vec<u32> {
    let mut rows = rows.to_vec();
    for (k, row) in rows.chunks_mut(Row::WORDS).enumerate() {
        row[4] = u32::from(k == stop);
    }
    rows
}

/// Keeps words after each row that are kept after no other.
fn keep_different(kept: &mut [u32]) {
    kept.iter_mut().zip(0x3f00_0000..).for_each(|(word, own)| *word = own);
}

/// The time of a call that renders so many rows.
fn rendering(rows: usize, call: impl FnOnce() -> Result<Report, Refusal>) -> Duration {
    let mut report = None;
    let time = timed(|| report = call().ok());
    assert_eq!(report.map(|report| report.rows), Some(rows));
    time
}

fn timed<T>(call: impl FnOnce() -> T) -> Duration {
    let start = Instant::now();
    black_box(call());
    start.elapsed()
}

fn quartile(mut values: Vec<f64>, number: usize) -> f64 {
    values.sort_by(f64::total_cmp);
    values[values.len() * number / 4]
}

/// One line: medians in microseconds, the ratio of the medians, and the quartiles of the rounds' ratios.
fn print(name: &str, library: Vec<f64>, original: Vec<f64>) {
    let ratios: Vec<f64> = library.iter().zip(&original).map(|(l, o)| l / o).collect();
    let (l, o) = (quartile(library, 2), quartile(original, 2));
    let (low, high) = (quartile(ratios.clone(), 1), quartile(ratios, 3));
    println!("{name},{l:.2},{o:.2},{:.5},{low:.5},{high:.5}", l / o);
}

fn main() {
    let published = original::published_bank();
    let mut random = Random::new(7);
    let rows = cases::usual_rows(&mut random, ROWS, 64);
    let noise: [i16; BANK] = std::array::from_fn(|_| random.word() as i16);
    let map: [u8; MAP] = std::array::from_fn(|_| random.word() as u8);
    println!("measurement,library_us,original_us,ratio,first_quartile,third_quartile");
    for number in INSTRUMENTS {
        Bench::new(number, &noise, &map, &rows).renders("random");
        Bench::new(number, &published, &map, &rows).renders("published");
    }
    if cfg!(feature = "trait-object") {
        return;
    }
    for number in INSTRUMENTS {
        for stop in STOPS {
            Bench::new(number, &published, &map, &rows).edits(stop);
        }
    }
    for number in INSTRUMENTS {
        for (place, put_in, taken_out) in PLACES {
            Bench::new(number, &published, &map, &rows).splices(place, put_in, taken_out);
        }
    }
    for (place, _, taken_out) in PLACES {
        Bench::new(0, &published, &map, &rows).moves(place, taken_out);
    }
    Bench::new(0, &published, &map, &rows).reads();
    Bench::new(0, &published, &map, &rows).writes();
}
