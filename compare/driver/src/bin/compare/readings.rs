//! The model's readings of map and bank beside the original's own, at any point.
//!
//! Past the end the original panics. But a reading depends on whole parts and fractions alone: there the original
//! is asked at another point, one that has the whole parts at which document 02 (N6) holds this one, and the same
//! fractions. Floats are rounded, so that such a point may be missing.

use driver::cases;
use driver::original;
use driver::random::Random;
use model::floats::word;
use model::terrain::{read_bank, read_map};
use model::voice::Holds;

use crate::holds;
use crate::tally::{Tally, fail, same};

/// Where a coordinate lies on a table, and where its whole part stops.
type Axis = (fn(f32) -> f32, u64);
const MAP: [Axis; 2] = [(|x| (x + 1.0) * 31.0, 62), (|y| (y + 1.0) * 31.0, 62)];
const BANK: [Axis; 2] = [(|x| (x + 1.0) * 0.5 * 63.0, 62), (|y| (y + 1.0) * 0.5 * 128.0, 128)];

/// The coordinate itself, or beyond the stop one that lies at the stop with the same fraction.
fn stopped((place, stop): Axis, v: f32) -> Option<f32> {
    let whole = place(v) as u64;
    if whole <= stop {
        return Some(v);
    }
    let fraction = place(v) - whole as f32;
    let near = ((stop as f32 + fraction) / place(0.0) - 1.0).to_bits();
    let same = |v: &f32| place(*v) as u64 == stop && place(*v) - stop as f32 == fraction;
    (near - 4..=near + 4).map(f32::from_bits).find(same)
}

/// One coordinate: within the tables, about their edge, some way past it, or any float.
fn coordinate(random: &mut Random) -> f32 {
    match random.below(4) {
        0 => random.unit() * 2.0 - 1.0,
        1 => random.unit() * 0.2 + 0.9,
        2 => random.unit() * 8.0 - 2.0,
        _ => f32::from_bits(cases::junk_word(random)),
    }
}

/// A reading at a point by the model, and by the original there or, where it panics, at the stop.
fn reading(
    name: &str,
    [x, y]: [Axis; 2],
    point: [f32; 2],
    model: impl Fn([f32; 2], &mut Holds) -> f32,
    original: impl Fn([f32; 2]) -> Option<f32>,
    tally: &mut Tally,
) {
    let what = format!("{name} at {point:?}");
    let mut holds = Holds::default();
    let found = model(point, &mut holds);
    let there = original(point);
    let held = holds.map.held + holds.bank();
    same(&format!("{what}: held, the original panics"), &"", held, u64::from(there.is_none()));
    let stop = stopped(x, point[0]).zip(stopped(y, point[1]));
    let expected = match (there, stop) {
        (Some(expected), _) => {
            tally.add(format!("reading: equal to the original, {name}"), 1);
            expected
        }
        (None, Some((x, y))) => {
            let Some(expected) = original([x, y]) else { fail(&what, &"the original panics at the stop too") };
            holds::edges(&holds).into_iter().for_each(|(edge, n)| tally.add(holds::judged(&edge), n));
            expected
        }
        (None, None) => return tally.add(format!("reading: no such point at the edge, {name}"), 1),
    };
    same(&what, &"", word(found), word(expected));
}

/// A reading of a map and one of each bank, all at the same point.
pub fn readings_are_original(published: &[i16], random: &mut Random, tally: &mut Tally) {
    let (map, bank) = (cases::map(random), cases::bank(random, published));
    let point = [coordinate(random), coordinate(random)];
    let by_model = |point, holds: &mut Holds| read_map(&map, point, holds);
    reading("map", MAP, point, by_model, |point| original::read_map(&map, point), tally);
    for number in 0..3 {
        let by_model = |point, holds: &mut Holds| read_bank(&bank, number, point, holds);
        let by_original = |point| original::read_bank(&bank, number, point);
        reading(&format!("bank {number}"), BANK, point, by_model, by_original, tally);
    }
}
