//! The published tables, copied out of the original's files by `compare/assemble`.
#![allow(clippy::excessive_precision, clippy::approx_constant)]

include!("../../../target/compare/tables.rs");

/// `semitones_to_ratio`.
pub fn semitones_to_ratio(semitones: f32) -> f32 {
    let pitch = semitones + 128.0;
    let whole = crate::floats::whole(pitch);
    let fraction = pitch - whole as f32;
    LUT_PITCH_RATIO_HIGH[whole as usize] * LUT_PITCH_RATIO_LOW[crate::floats::whole(fraction * 256.0) as usize]
}
