//! "Float helpers" and "Pitch".

use crate::tables::{LUT_SINE, semitones_to_ratio};

/// Any NaN is written as this word.
pub const NAN_WORD: u32 = 0x7fc0_0000;

pub fn word(x: f32) -> u32 {
    if x.is_nan() { NAN_WORD } else { x.to_bits() }
}

/// The whole part: toward zero, NaN gives 0, below 0 gives 0, saturates at 2^64 - 1.
pub fn whole(x: f32) -> u64 {
    x as u64
}

/// The whole part to i32, as a float: a zero is +0, 2147483647 becomes 2147483648.
pub fn whole_i32(x: f32) -> f32 {
    (x as i32) as f32
}

/// clamp passes NaN and -0 through.
pub fn clamp(x: f32, low: f32, high: f32) -> f32 {
    if x < low {
        low
    } else if x > high {
        high
    } else {
        x
    }
}

pub fn one_pole(state: f32, x: f32, coefficient: f32) -> f32 {
    state + coefficient * (x - state)
}

/// A whole part and its fraction. A whole part above `top` is held there, and the fraction is taken
/// against the held number.
pub struct Part {
    pub whole: u64,
    pub fraction: f32,
    pub held: bool,
}

pub fn part(x: f32, top: u64) -> Part {
    let n = whole(x);
    let held = n > top;
    let whole = if held { top } else { n };
    Part { whole, fraction: x - whole as f32, held }
}

/// `interpolate_wrap`, held at the last entry that has a next one. The second result: it was held.
pub fn interpolate_wrap(table: &[f32], index: f32, size: f32) -> (f32, bool) {
    let wrapped = clamp(index - whole_i32(index), 0.0, 1.0) * size;
    let at = part(wrapped, table.len() as u64 - 2);
    let a = table[at.whole as usize];
    let b = table[at.whole as usize + 1];
    (a + (b - a) * at.fraction, at.held)
}

pub fn sine(phase: f32) -> f32 {
    let (value, held) = interpolate_wrap(&LUT_SINE, phase, 512.0);
    assert!(!held, "interpolate_wrap held on the sine table at {phase:?}");
    value
}

pub fn fast_rsqrt_carmack(x: f32) -> f32 {
    if x > 0.0 {
        let y = f32::from_bits(0x5f37_59df - (x.to_bits() >> 1));
        let half = x * 0.5;
        y * (1.5 - half * y * y)
    } else {
        f32::INFINITY
    }
}

/// The increment of an interpolator.
pub fn increment(value: f32, target: f32, steps: u32) -> f32 {
    (target - value) / steps as f32
}

/// The frequency of A0 over the rate.
pub fn a0(rate: u32) -> f32 {
    55.0 / rate as f32
}

pub fn note_to_frequency(note: f32, a0: f32) -> f32 {
    a0 * 0.25 * semitones_to_ratio(clamp(note - 9.0, -128.0, 127.0))
}
