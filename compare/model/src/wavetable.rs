//! "Wavetable voice".

use crate::floats::{a0, clamp, increment, note_to_frequency, one_pole, part, whole, whole_i32};
use crate::voice::{Block, Holds, Parameters};
use crate::{Setup, WAVE};

/// x, y and z of one kind, in this order.
type Axes = [f32; 3];

#[derive(Debug, Clone, Copy)]
pub struct Wavetable {
    phase: f32,
    pre_lp: Axes,
    lp: Axes,
    previous: Axes,
    previous_f0: f32,
    diff_lp: f32,
    diff_previous: f32,
}

impl Wavetable {
    const PHASE_TOP: u64 = 127;
    const TOPS: [u64; 3] = [7, 7, 6];

    pub fn fresh(rate: u32) -> Self {
        let mut floats = [0.0; 13];
        floats[10] = a0(rate);
        Self::of_floats(floats)
    }

    pub fn of_floats(s: [f32; 13]) -> Self {
        Self {
            phase: s[0],
            pre_lp: [s[1], s[2], s[3]],
            lp: [s[4], s[5], s[6]],
            previous: [s[7], s[8], s[9]],
            previous_f0: s[10],
            diff_lp: s[11],
            diff_previous: s[12],
        }
    }

    pub fn floats(&self) -> [f32; 13] {
        let [px, py, pz] = self.pre_lp;
        let [lx, ly, lz] = self.lp;
        let [x, y, z] = self.previous;
        [self.phase, px, py, pz, lx, ly, lz, x, y, z, self.previous_f0, self.diff_lp, self.diff_previous]
    }

    /// One block: the next state is left in `self`.
    pub fn render(&mut self, setup: &Setup, p: Parameters) -> Block {
        let f0 = note_to_frequency(p.note, a0(setup.rate));
        let aims = [(p.timbre, 0.2), (p.morph, 0.2), (p.harmonics, 0.05)];
        for (pre, (parameter, coefficient)) in self.pre_lp.iter_mut().zip(aims) {
            *pre = one_pole(*pre, parameter * 6.9999, coefficient);
        }
        let quantization = clamp(self.pre_lp[2] - 3.0, 0.0, 1.0);
        let lp_coefficient = clamp(2.0 * f0 * (4.0 - 3.0 * quantization), 0.01, 0.1);

        let mut steps = [0.0; 3];
        for (i, step) in steps.iter_mut().enumerate() {
            let target = quantized(self.pre_lp[i], quantization);
            *step = increment(self.previous[i], target, setup.frames);
        }
        let f0_step = increment(self.previous_f0, f0, setup.frames);

        let mut block = Block::default();
        for _ in 0..setup.frames {
            let (sample, holds) = self.frame(setup.bank, steps, f0_step, lp_coefficient);
            block.push(sample, whole_i32(sample * 32.0) / 32.0);
            block.count_frame(holds);
        }
        block
    }

    /// One frame: its sample, and what it held.
    fn frame(&mut self, bank: &[i16], steps: Axes, f0_step: f32, lp_coefficient: f32) -> (f32, Holds) {
        self.previous_f0 += f0_step;
        let f0 = self.previous_f0;
        let gain = (1.0 / (f0 * 131_072.0)) * (0.95 - f0);
        let cutoff = f32::min(128.0 * f0, 1.0);

        for (i, step) in steps.into_iter().enumerate() {
            self.previous[i] += step;
            self.lp[i] = one_pole(self.lp[i], self.previous[i], lp_coefficient);
        }
        let x = part(self.lp[0], Self::TOPS[0]);
        let y = part(self.lp[1], Self::TOPS[1]);
        let z = part(self.lp[2], Self::TOPS[2]);

        self.phase += f0;
        if self.phase >= 1.0 {
            self.phase -= 1.0;
        }
        let phase = part(self.phase * 128.0, Self::PHASE_TOP);

        let corner = |dx: u64, dy: u64, dz: u64| {
            let wave = wave(x.whole + dx, y.whole + dy, fold(z.whole + dz));
            hermite(bank, wave as usize * WAVE + phase.whole as usize, phase.fraction)
        };
        let along_x = |dy, dz| mix(corner(0, dy, dz), corner(1, dy, dz), x.fraction);
        let along_y = |dz| mix(along_x(0, dz), along_x(1, dz), y.fraction);
        let mixed = mix(along_y(0), along_y(1), z.fraction);

        self.diff_lp = one_pole(self.diff_lp, mixed - self.diff_previous, cutoff);
        self.diff_previous = mixed;
        let holds = Holds {
            phase: u64::from(phase.held),
            x: u64::from(x.held),
            y: u64::from(y.held),
            z: u64::from(z.held),
            ..Holds::default()
        };
        (self.diff_lp * gain, holds)
    }
}

/// A position with its fraction drawn toward 0 or 1; the whole part has no top here.
fn quantized(x: f32, quantization: f32) -> f32 {
    let n = whole(x) as f32;
    let fraction = x - n;
    let steep = clamp((fraction - 0.5) * 16.0, -0.5, 0.5) + 0.5;
    n + (fraction + quantization * (steep - fraction))
}

/// The wave that a corner reads: level 3 is spread over the bank.
pub fn wave(x: u64, y: u64, z: u64) -> u64 {
    let r = if z == 3 { 101 } else { 1 };
    (x + 8 * y + 64 * z) * r % 192
}

/// Levels 4 to 7 are the levels 3 to 0 again.
pub fn fold(z: u64) -> u64 {
    if z >= 4 { 7 - z } else { z }
}

fn mix(a: f32, b: f32, t: f32) -> f32 {
    a + (b - a) * t
}

/// `interpolate_wave_hermite` of the four samples from `at` on.
fn hermite(bank: &[i16], at: usize, f: f32) -> f32 {
    let [xm1, x0, x1, x2] = [bank[at], bank[at + 1], bank[at + 2], bank[at + 3]].map(f32::from);
    let c = (x1 - xm1) * 0.5;
    let v = x0 - x1;
    let w = c + v;
    let a = w + v + (x2 - x0) * 0.5;
    let b_neg = w + a;
    (((a * f) - b_neg) * f + c) * f + x0
}
