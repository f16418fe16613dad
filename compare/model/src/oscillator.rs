//! Document 02, "N1. Third voice": `WavetableOscillator` with amplitude 1 and both flags true, along the
//! first 64 waves of the bank.

use crate::floats::{a0, clamp, increment, note_to_frequency, one_pole, part};
use crate::voice::{Block, Holds, Parameters};
use crate::{Setup, WAVE};

/// Samples of a wave's period.
const TABLE_SIZE: f32 = 128.0;
/// Waves that the timbre goes along.
const NUM_WAVES: f32 = 64.0;
const MIN_FREQUENCY: f32 = 0.0000001;
const MAX_FREQUENCY: f32 = 0.25;

#[derive(Debug, Clone, Copy)]
pub struct Oscillator {
    phase: f32,
    frequency: f32,
    amplitude: f32,
    waveform: f32,
    lp: f32,
    diff_lp: f32,
    diff_previous: f32,
}

/// What a frame adds to frequency, amplitude and waveform.
#[derive(Debug, Clone, Copy)]
struct Steps {
    frequency: f32,
    amplitude: f32,
    waveform: f32,
}

impl Oscillator {
    const PHASE_TOP: u64 = 127;
    const WAVEFORM_TOP: u64 = 62;

    pub fn fresh() -> Self {
        Self::of_floats([0.0; 7])
    }

    pub fn of_floats(s: [f32; 7]) -> Self {
        let [phase, frequency, amplitude, waveform, lp, diff_lp, diff_previous] = s;
        Self { phase, frequency, amplitude, waveform, lp, diff_lp, diff_previous }
    }

    pub fn floats(&self) -> [f32; 7] {
        [self.phase, self.frequency, self.amplitude, self.waveform, self.lp, self.diff_lp, self.diff_previous]
    }

    /// One block: the next state is left in `self`. Morph and harmonics are not used.
    pub fn render(&mut self, setup: &Setup, p: Parameters) -> Block {
        let frequency = clamp(note_to_frequency(p.note, a0(setup.rate)), MIN_FREQUENCY, MAX_FREQUENCY);
        let mut amplitude = 1.0;
        amplitude *= 1.0 - 2.0 * frequency;
        amplitude *= 1.0 / (frequency * 131_072.0);
        let waveform = p.timbre * (NUM_WAVES - 1.0001);
        let steps = Steps {
            frequency: increment(self.frequency, frequency, setup.frames),
            amplitude: increment(self.amplitude, amplitude, setup.frames),
            waveform: increment(self.waveform, waveform, setup.frames),
        };

        let mut block = Block::default();
        for _ in 0..setup.frames {
            let (sample, holds) = self.frame(setup.bank, steps);
            // Out starts at zero, and `render` adds to it: so no sample is -0.
            block.push(0.0 + sample, 0.0);
            block.count_frame(holds);
        }
        block
    }

    /// One frame: its sample, and what it held.
    fn frame(&mut self, bank: &[i16], steps: Steps) -> (f32, Holds) {
        self.frequency += steps.frequency;
        let cutoff = f32::min(TABLE_SIZE * self.frequency, 1.0);

        self.phase += self.frequency;
        if self.phase >= 1.0 {
            self.phase -= 1.0;
        }
        self.waveform += steps.waveform;
        let waveform = part(self.waveform, Self::WAVEFORM_TOP);
        let phase = part(self.phase * TABLE_SIZE, Self::PHASE_TOP);

        let wave = |number: u64| {
            let at = number as usize * WAVE + phase.whole as usize;
            let [a, b] = [bank[at], bank[at + 1]].map(f32::from);
            a + (b - a) * phase.fraction
        };
        let (x0, x1) = (wave(waveform.whole), wave(waveform.whole + 1));
        let mixed = x0 + (x1 - x0) * waveform.fraction;

        self.diff_lp = one_pole(self.diff_lp, mixed - self.diff_previous, cutoff);
        self.diff_previous = mixed;
        self.lp = one_pole(self.lp, self.diff_lp, cutoff);
        self.amplitude += steps.amplitude;
        let holds = Holds { phase: u64::from(phase.held), waveform: u64::from(waveform.held), ..Holds::default() };
        (self.amplitude * self.lp, holds)
    }
}
