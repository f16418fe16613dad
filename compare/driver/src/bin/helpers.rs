//! The port's float helpers, from `libhelpers_c.a`, beside the Rust's on every word there is:
//!
//!     helpers [STRIDE]
//!
//! Words are tried in blocks of 65,536. STRIDE 1 (the default) tries all 65,536 blocks, 64 every 64th.

use model::floats::word;
use original::engine::note_to_frequency;
use original::oscillator::sine_oscillator::sine;
use original::utils::rsqrt::fast_rsqrt_carmack;

#[link(name = "helpers_c", kind = "static")]
unsafe extern "C" {
    fn helper_answers(which: u32, from: u32, answers: *mut u64, answers_len: usize);
}

const BLOCK: usize = 65_536;

/// A helper's name, and the Rust's answer at a float.
type Helper = (&'static str, fn(f32) -> u64);

/// In the order of `helper_answers`.
const HELPERS: [Helper; 8] = [
    ("word of a float", |x| word(x).into()),
    ("whole part", |x| x as u64),
    ("whole part as a float", |x| word(x as u64 as f32).into()),
    ("whole part through i32", |x| word((x as i32) as f32).into()),
    ("abs", |x| word(x.abs()).into()),
    ("fast_rsqrt_carmack", |x| word(fast_rsqrt_carmack(x)).into()),
    ("sine", |x| word(sine(x)).into()),
    ("note_to_frequency", |x| word(note_to_frequency(x, 55.0 / 48_000.0)).into()),
];

fn main() {
    let stride: usize = std::env::args().nth(1).map_or(1, |a| a.parse().expect("STRIDE is a number"));
    let mut answers = vec![0u64; BLOCK];
    let mut tried = 0u64;
    for block in (0..BLOCK as u32).step_by(stride) {
        let from = block * BLOCK as u32;
        for (which, (name, rust)) in HELPERS.iter().enumerate() {
            // SAFETY: the library writes as many answers as it is told there is room for.
            unsafe { helper_answers(which as u32, from, answers.as_mut_ptr(), answers.len()) };
            for (i, &answer) in answers.iter().enumerate() {
                let w = from + i as u32;
                let expected = rust(f32::from_bits(w));
                assert!(answer == expected, "{name} of {w:08x}: {answer:x}, and in Rust {expected:x}");
            }
        }
        tried += BLOCK as u64;
    }
    println!("{} helpers equal the Rust's on {tried} words each", HELPERS.len());
}
