//! "Path and terrain voice", with document 02's "Map edges by axis" (N6).

use crate::Setup;
use crate::floats::{a0, fast_rsqrt_carmack, increment, note_to_frequency, part, sine, whole};
use crate::voice::{Block, Edge, Holds, Parameters};

/// Path samples for each frame.
const OVERSAMPLING: u32 = 2;
/// The last flat number from which a whole map reading stays inside the map.
const MAP_LAST: u128 = 4_030;
/// The last flat number from which a whole bank reading stays inside the bank.
const BANK_LAST: u128 = 25_209;
/// "On the map both stop at 62": x and y.
const MAP_REACH: [u64; 2] = [62, 62];
/// "On the bank x stops at 62 and y at 128".
const BANK_REACH: [u64; 2] = [62, 128];

#[derive(Debug, Clone, Copy)]
pub struct Terrain {
    x: f32,
    y: f32,
    epsilon: f32,
    amplitude: f32,
    offset: f32,
    terrain_idx: f32,
}

impl Terrain {
    pub fn fresh() -> Self {
        Self::of_floats([1.0, 0.0, 0.0, 0.0, 0.0, 0.0])
    }

    pub fn of_floats(s: [f32; 6]) -> Self {
        let [x, y, epsilon, amplitude, offset, terrain_idx] = s;
        Self { x, y, epsilon, amplitude, offset, terrain_idx }
    }

    pub fn floats(&self) -> [f32; 6] {
        [self.x, self.y, self.epsilon, self.amplitude, self.offset, self.terrain_idx]
    }

    /// One block: the next state is left in `self`.
    pub fn render(&mut self, setup: &Setup, p: Parameters) -> Block {
        let f0 = note_to_frequency(p.note, a0(setup.rate));
        let attenuation = f32::max(1.0 - 8.0 * f0, 0.0);
        let radius = 0.1 + 0.9 * p.timbre * attenuation * (2.0 - attenuation);
        let path = self.render_quadrature(f0 * 0.5, radius, OVERSAMPLING * setup.frames);

        let layers = if setup.map.is_empty() { 8.0 } else { 9.0 };
        let layer_top = if setup.map.is_empty() { 6 } else { 7 };
        let offset_step = increment(self.offset, 1.9 * p.morph - 1.0, setup.frames);
        let target = f32::min(p.harmonics * 1.05, 1.0) * (layers - 1.0001);
        let terrain_step = increment(self.terrain_idx, target, setup.frames);

        let mut block = Block::default();
        let mut holds = Holds::default();
        for points in path.chunks(OVERSAMPLING as usize) {
            self.offset += offset_step;
            self.terrain_idx += terrain_step;
            let layer = part(self.terrain_idx, layer_top);
            holds.layer += u64::from(layer.held);

            let mut out_s = 0.0;
            let mut aux_s = 0.0;
            for &(px, y) in points {
                let x = px * (1.0 - self.offset.abs()) + self.offset;
                let z0 = height(setup, x, y, layer.whole, &mut holds);
                let z1 = height(setup, x, y, layer.whole + 1, &mut holds);
                let z = z0 + (z1 - z0) * layer.fraction;
                out_s += z;
                aux_s += y + z;
            }
            block.push(0.5 * out_s, sine(1.0 + 0.5 * 0.5 * aux_s));
        }
        block.count_readings(holds);
        block
    }

    /// The path: `steps` points (x, y).
    fn render_quadrature(&mut self, mut frequency: f32, mut amplitude: f32, steps: u32) -> Vec<(f32, f32)> {
        if frequency >= 0.25 {
            frequency = 0.25;
            amplitude = 0.0;
        } else {
            amplitude *= 1.0 - frequency * 4.0;
        }
        let epsilon_step = increment(self.epsilon, fast_2_sin(frequency), steps);
        let amplitude_step = increment(self.amplitude, amplitude, steps);

        let norm = self.x * self.x + self.y * self.y;
        if norm <= 0.5 || norm >= 2.0 {
            let scale = fast_rsqrt_carmack(norm);
            self.x *= scale;
            self.y *= scale;
        }
        let mut points = Vec::new();
        for _ in 0..steps {
            self.epsilon += epsilon_step;
            self.x += self.epsilon * self.y;
            self.y -= self.epsilon * self.x;
            self.amplitude += amplitude_step;
            points.push((self.x * self.amplitude, self.y * self.amplitude));
        }
        points
    }
}

fn fast_2_sin(f: f32) -> f32 {
    let f_pi = f * std::f32::consts::PI;
    f_pi * (2.0 - (2.0 * 0.96 / 6.0) * f_pi * f_pi)
}

/// The height of one layer: 0 to 4 by formula, 5 to 7 from the bank, 8 from the map.
fn height(setup: &Setup, x: f32, y: f32, layer: u64, holds: &mut Holds) -> f32 {
    let k = 4.0;
    match layer {
        0 => (squash(sine(k + x * 1.273), 2.0) - sine(k + y * (x + 1.571) * 0.637)) * 0.57,
        1 => {
            let xy = x * y;
            sine(k + sine(k + (x + y) * 0.637) / (0.2 + xy * xy) * 0.159)
        }
        2 => {
            let xy = x * y;
            sine(k + sine(k + 2.387 * xy) / (0.350 + xy * xy) * 0.159)
        }
        3 => {
            let xys = (x - 0.25) * (y + 0.25);
            sine(k + x * y / (2.0 + (5.0 * xys).abs()) * 6.366)
        }
        4 => sine(0.159 / (0.170 + (y - 0.25).abs()) + 0.477 / (0.350 + ((x + 0.5) * (y + 1.5)).abs()) + k),
        5..=7 => read_bank(setup.bank, 7 - layer, [x, y], holds),
        8 => read_map(setup.map, [x, y], holds),
        _ => unreachable!("layer {layer}"),
    }
}

fn squash(x: f32, a: f32) -> f32 {
    x * a / (1.0 + (x * a).abs())
}

/// Where a reading at `point`, the whole parts of x and y, starts. `flat` is the mathematical sum; it fits 128 bits for
/// all whole parts. Held, "where the Rust would read past the end, the two whole parts are held apart".
fn start(flat: impl Fn(u128, u128) -> u128, last: u128, reach: [u64; 2], point: [u64; 2], edge: &mut Edge) -> usize {
    let [x, y] = point;
    let unheld = flat(x.into(), y.into());
    if unheld <= last {
        return unheld as usize;
    }
    let held = flat(x.min(reach[0]).into(), y.min(reach[1]).into());
    let (x_past, y_past) = (x > reach[0], y > reach[1]);
    edge.add(&Edge {
        held: 1,
        x: (x_past && !y_past).into(),
        y: (y_past && !x_past).into(),
        x_and_y: (x_past && y_past).into(),
        elsewhere: (held != last).into(),
    });
    held as usize
}

pub fn read_map(map: &[u8], [x, y]: [f32; 2], holds: &mut Holds) -> f32 {
    let x = (x + 1.0) * 31.0;
    let y = (y + 1.0) * 31.0;
    let x_fraction = x - whole(x) as f32;
    let y_fraction = y - whole(y) as f32;
    let flat = start(|x, y| 64 * y + x, MAP_LAST, MAP_REACH, [whole(x), whole(y)], &mut holds.map);
    let line = |at: usize| {
        let [a, b] = [map[at], map[at + 1]].map(f32::from);
        a + (b - a) * x_fraction
    };
    let (near, far) = (line(flat), line(flat + 64));
    (near + (far - near) * y_fraction) * (1.0 / 128.0)
}

/// x picks the wave and y the sample.
pub fn read_bank(bank: &[i16], number: u64, [x, y]: [f32; 2], holds: &mut Holds) -> f32 {
    let sample = (y + 1.0) * 0.5 * 128.0;
    let wave = (x + 1.0) * 0.5 * 63.0;
    let sample_fraction = sample - whole(sample) as f32;
    let wave_fraction = wave - whole(wave) as f32;
    let first = 8_448 * u128::from(number);
    let point = [whole(wave), whole(sample)];
    let flat = start(|x, y| first + 132 * x + y, BANK_LAST, BANK_REACH, point, &mut holds.banks[number as usize]);
    let slope = |at: usize| {
        let [a, b, c] = [bank[at], bank[at + 1], bank[at + 2]].map(f32::from);
        (b - a) + (c - b - b + a) * sample_fraction
    };
    let (near, far) = (slope(flat), slope(flat + 132));
    (near + (far - near) * wave_fraction) * (1.0 / 1024.0)
}
