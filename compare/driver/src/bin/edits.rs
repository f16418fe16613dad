//! Counts the rows that an edit of one word renders, and prints a table of their quartiles.
//!
//! 4,096 rows of 24 frames with no restart, 48,000 Hz, the published bank; one word of row 12 becomes
//! another within its limit, anywhere. Three kinds of scores, 40 of each:
//!
//! - random rows: each value of each row anywhere within its limit;
//! - slow curves: one note; timbre, morph and harmonics each on a sine of its own, from 0.1 to 0.9,
//!   with a period of 200 to 2,000 rows and any phase;
//! - constant rows: all rows equal.
//!
//! The edit stops where the 13 kept words are the same as before, or at the end, 4,084 rows on.

use std::f32::consts::TAU;

use driver::original;
use driver::random::Random;
use wohketa_retake::{Instrument, Reel, Row, Setup};

const ROWS: usize = 4_096;
const EDITED: usize = 12;
const SCORES: usize = 40;

fn anywhere(random: &mut Random) -> Row {
    let note = random.unit() * 120.0;
    let [timbre, morph, harmonics] = std::array::from_fn(|_| random.unit());
    Row { note, timbre, morph, harmonics, restart: false }
}

fn random_rows(random: &mut Random) -> Vec<Row> {
    (0..ROWS).map(|_| anywhere(random)).collect()
}

fn slow_curves(random: &mut Random) -> Vec<Row> {
    let note = random.unit() * 120.0;
    let curves: [(f32, f32); 3] = std::array::from_fn(|_| (200.0 + random.unit() * 1_800.0, random.unit()));
    let row = |k: usize| {
        let [timbre, morph, harmonics] =
            curves.map(|(period, phase)| 0.5 + 0.4 * (TAU * (k as f32 / period + phase)).sin());
        Row { note, timbre, morph, harmonics, restart: false }
    };
    (0..ROWS).map(row).collect()
}

fn constant_rows(random: &mut Random) -> Vec<Row> {
    vec![anywhere(random); ROWS]
}

/// Row 12 with one word, the one of the name in this place, from another row.
fn edited(row: Row, other: Row, name: usize) -> Row {
    match name {
        0 => Row { note: other.note, ..row },
        1 => Row { timbre: other.timbre, ..row },
        2 => Row { morph: other.morph, ..row },
        _ => Row { harmonics: other.harmonics, ..row },
    }
}

/// The quartiles of the rows rendered, and how many edits went to the end.
fn cell(setup: &Setup, scores: fn(&mut Random) -> Vec<Row>, name: usize) -> String {
    let mut random = Random::new(11);
    let mut counts: Vec<usize> = (0..SCORES)
        .map(|_| {
            let score = scores(&mut random);
            let mut reel = Reel::render(setup, &score).expect("an accepted score");
            let row = edited(score[EDITED], anywhere(&mut random), name);
            reel.edit(EDITED, row).expect("an accepted edit").rows.len()
        })
        .collect();
    counts.sort_unstable();
    let quartiles = [1, 2, 3].map(|n| counts[SCORES * n / 4].to_string()).join(" ");
    let ends = counts.iter().filter(|count| **count == ROWS - EDITED).count();
    format!("{quartiles} ({ends})")
}

fn main() {
    let bank = original::published_bank();
    let voices = [
        ("wavetable", Instrument::Wavetable),
        ("terrain", Instrument::Terrain),
        ("oscillator", Instrument::Oscillator),
    ];
    let kinds: [(&str, fn(&mut Random) -> Vec<Row>); 3] =
        [("random rows", random_rows), ("slow curves", slow_curves), ("constant rows", constant_rows)];
    println!("quartiles of the rows rendered; in brackets the edits of {SCORES} that went to the end");
    print!("| edited |");
    for (voice, _) in voices {
        kinds.iter().for_each(|(kind, _)| print!(" {voice}, {kind} |"));
    }
    println!("\n|---{}|", "|---".repeat(voices.len() * kinds.len()));
    for (name, column) in ["note", "timbre", "morph", "harmonics"].into_iter().enumerate() {
        print!("| {column} |");
        for (_, instrument) in voices {
            let setup = Setup { instrument, rate: 48_000, frames: 24, bank: &bank };
            kinds.iter().for_each(|(_, scores)| print!(" {} |", cell(&setup, *scores, name)));
        }
        println!();
    }
}
