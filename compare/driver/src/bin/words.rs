//! The model's helpers beside the original's on every word there is:
//!
//!     words [STRIDE]
//!
//! STRIDE 1 (the default) tries all 2^32 words, 64 every 64th. The whole parts are held to their
//! equation in sign, biased exponent and trailing significand.

use model::floats;
use model::floats::word;
use original::engine::note_to_frequency;
use original::oscillator::sine_oscillator::sine;
use original::utils::rsqrt::fast_rsqrt_carmack;

/// The whole part by a word's fields, unsigned.
fn whole_by_fields(w: u32) -> u64 {
    let (sign, exponent, significand) = (w >> 31, w >> 23 & 0xff, u64::from(w & 0x7f_ffff));
    let nan = exponent == 255 && significand != 0;
    match exponent {
        _ if nan || sign == 1 => 0,
        0..127 => 0,
        127..=150 => ((1 << 23) + significand) >> (150 - exponent),
        151..=190 => ((1 << 23) + significand) << (exponent - 150),
        _ => u64::MAX,
    }
}

/// The whole part to i32 by a word's fields.
fn whole_i32_by_fields(w: u32) -> i32 {
    let (sign, exponent, significand) = (w >> 31, w >> 23 & 0xff, w & 0x7f_ffff);
    if exponent == 255 && significand != 0 {
        return 0;
    }
    if exponent >= 158 {
        return if sign == 1 { i32::MIN } else { i32::MAX };
    }
    let magnitude = whole_by_fields(w & 0x7fff_ffff) as i32;
    if sign == 1 { -magnitude } else { magnitude }
}

fn same<T: PartialEq + std::fmt::Debug>(what: &str, w: u32, left: T, right: T) {
    assert!(left == right, "{what} of {w:08x}: {left:x?} and {right:x?}");
}

fn main() {
    let stride: usize = std::env::args().nth(1).map_or(1, |a| a.parse().expect("STRIDE is a number"));
    let a0 = floats::a0(48_000);
    let mut tried = 0u64;
    for w in (0..=u32::MAX).step_by(stride) {
        let x = f32::from_bits(w);
        same("whole part", w, floats::whole(x), whole_by_fields(w));
        same("whole part to i32", w, floats::whole_i32(x), whole_i32_by_fields(w) as f32);
        same("sine", w, word(floats::sine(x)), word(sine(x)));
        same("fast_rsqrt_carmack", w, word(floats::fast_rsqrt_carmack(x)), word(fast_rsqrt_carmack(x)));
        if !x.is_nan() {
            let (m, o) = (floats::note_to_frequency(x, a0), note_to_frequency(x, a0));
            same("note_to_frequency", w, word(m), word(o));
        }
        tried += 1;
    }
    println!("equal on {tried} words: whole parts, sine (no hold), fast_rsqrt_carmack, note_to_frequency");
}
