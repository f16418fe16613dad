//! Single scores with a known outcome, on the model, the original and the library.

use driver::cases::{self, Case};
use driver::edges::{self, EdgeScore};
use driver::library;
use driver::original::Original;
use driver::random::Random;
use model::take::{Change, Row, report};
use model::{Answer, Counts, KEPT_WORDS, ROW_WORDS, Take, floats, program, wavetable};

use crate::calls::{one_change, rendering};
use crate::holds;
use crate::tally::{Tally, same, same_start};
use crate::voices::model_is_original;
use crate::writer::{Lent, writing};

/// Rows that are all the same.
fn steady(count: usize, row: [u32; ROW_WORDS]) -> Vec<u32> {
    (0..count).flat_map(|_| row).collect()
}

const NO_COUNTS: Counts = Counts { phase: 0, wave_position: 0, level: 0, map: 0, bank: 0 };

/// The answer of a call that renders so many rows and holds nothing.
fn nothing_held(rows: u64) -> Answer {
    Answer::Rendered(rows, 0, NO_COUNTS)
}

/// The smallest scores found in whose last row the original panics, but those of map and bank: instrument, frames, what
/// is held, rows.
fn smallest_holds() -> [(u32, u32, Counts, Vec<u32>); 3] {
    const ONE: u32 = 0x3f80_0000;
    let climbing = [0x42f0_0000, 0, 0, ONE, 0];
    let brightening = [[0x4270_0000, 0x3f05_0000, 0, 0, 0], [0x4270_0000, ONE, 0, 0, 0]];
    [
        (0, 78, Counts { level: 7, ..NO_COUNTS }, steady(54, climbing)),
        (0, 10, Counts { level: 10, ..NO_COUNTS }, steady(65, climbing)),
        (3, 52, Counts { wave_position: 1, ..NO_COUNTS }, brightening.concat()),
    ]
}

/// A score whose last row alone holds something: these counts. Gives that row.
fn held_at_last(case: &Case, counts: Counts, random: &mut Random, tally: &mut Tally) -> Row {
    let mut rows = model_is_original(case, tally);
    let (before, last) = rows.split_at(rows.len() - 1);
    let held = Answer::Rendered(1, counts.numbers().iter().sum(), counts);
    let known = [nothing_held(before.len() as u64), held];
    same("held before and in the last row", case, [before, last].map(report), known);
    rendering(case, case.lent(random, 0), tally);
    rows.remove(rows.len() - 1)
}

/// Known facts about single scores, on the model, the original and the library.
pub fn facts(published: &[i16], random: &mut Random, tally: &mut Tally) {
    let plain = |instrument, frames, rows| Case {
        instrument,
        rate: 48_000,
        frames,
        bank: published.to_vec(),
        map: if instrument == 2 { vec![128; model::MAP] } else { Vec::new() },
        rows,
    };
    // The quantised z reaches 7.
    let case = plain(0, 128, steady(54, [0x42f0_0000, 0, 0, 0x3f80_0000, 0]));
    let rows = model_is_original(&case, tally);
    let level = Counts { level: 49, ..NO_COUNTS };
    let [before, last] = [&rows[..53], &rows[53..]].map(report);
    same("held before and in the last row", &case, [before, last], [nothing_held(53), Answer::Rendered(1, 49, level)]);
    rendering(&case, case.lent(random, 0), tally);

    for (instrument, frames, counts, rows) in smallest_holds() {
        let case = Case { rate: 32_000, ..plain(instrument, frames, rows) };
        held_at_last(&case, counts, random, tally);
    }
    for EdgeScore { edge, instrument, frames, rows, entry, sample } in edges::smallest() {
        let mut case = Case { rate: 32_000, ..plain(instrument, frames, rows) };
        let (map, bank) = if instrument == 2 { (1, 0) } else { (0, 1) };
        let last = held_at_last(&case, Counts { map, bank, ..NO_COUNTS }, random, tally);
        same("the edge of the held reading", &case, &holds::edges(&last.block.holds)[0], &(edge.to_string(), 1));
        case.map.fill(0);
        case.bank.fill(0);
        if instrument == 2 {
            case.map[entry] = 255
        } else {
            case.bank[entry] = 1024
        }
        let last = held_at_last(&case, Counts { map, bank, ..NO_COUNTS }, random, tally);
        same(&format!("the last sample by entry {entry}"), &case, last.block.out.last(), Some(&sample));
    }

    // The oscillator's waveform comes to 63 and stays there as long as the rows do.
    let mut case = plain(3, 100, steady(5, [0x4270_0000, 0x3f80_0000, 0, 0, 0]));
    case.rows[1] = 0x3f40_0000;
    let rows = model_is_original(&case, tally);
    let held: Vec<u64> = rows.iter().map(|r| r.block.held).collect();
    same("held of a waveform that stays", &case, &held[..], &[0, 1, 100, 100, 100]);
    let counts = Counts { wave_position: 301, ..NO_COUNTS };
    same("held of a waveform that stays", &case, report(&rows), Answer::Rendered(5, 301, counts));
    rendering(&case, case.lent(random, 0), tally);

    // On a flat wave the oscillator's sample sinks to -0; out, which starts at zero, then has +0.
    let mut case = plain(3, 128, steady(20, [0x41c0_0000, 0, 0, 0, 0]));
    case.bank.fill(-1000);
    let rows = model_is_original(&case, tally);
    same("the last sample and lp", &case, [rows[19].block.out[127], rows[19].kept[4] >> 31], [0, 1]);
    rendering(&case, case.lent(random, 0), tally);

    // The oscillator takes no map, and there is no instrument behind it.
    for (instrument, number) in [(3, 5), (4, 1)] {
        let mut case = plain(instrument, 24, steady(1, [0x4270_0000, 0, 0, 0, 0]));
        case.map = vec![128; model::MAP];
        let answer = library::render(&case.setup(), &case.rows, 1, &mut case.junk_take(random));
        same("refusal of a map, of an instrument", &case, answer, Answer::Refused(number, 0));
        rendering(&case, case.lent(random, 0), tally);
    }

    // The largest scores.
    for instrument in 0..4 {
        let case = plain(instrument, model::FRAMES, cases::usual_rows(random, model::ROWS, 1000));
        model_is_original(&case, tally);
        rendering(&case, case.lent(random, 0), tally);
    }

    // Edits that the next row's state does not see.
    let note = steady(9, [0x4270_0000, 0, 0, 0, 0]);
    let high = steady(9, [0x4270_0000, 0, 0, 0x3f7f_ffff, 0]);
    for (instrument, rows, position, row) in [
        (0, &note, 4, [0x4270_0001, 0, 0, 0, 0]),
        (0, &note, 4, [0x4270_0000, 0x8000_0000, 0, 0, 0]),
        (0, &note, 0, [0x4270_0000, 0, 0, 0, 1]),
        (1, &high, 4, [0x4270_0000, 0, 0, 0x3f80_0000, 0]),
        (3, &note, 4, [0x4270_0001, 0, 0, 0, 0]),
        (3, &note, 4, [0x4270_0000, 0x8000_0000, 0, 0, 0]),
        (3, &note, 4, [0x4270_0000, 0, 0x3f00_0000, 0, 0]),
        (3, &note, 4, [0x4270_0000, 0, 0, 0x3f80_0000, 0]),
        (3, &note, 0, [0x4270_0000, 0, 0, 0, 1]),
    ] {
        let mut case = plain(instrument, 24, rows.clone());
        let mut take = case.junk_take(random);
        library::render(&case.setup(), rows, 9, &mut take);
        let mut rows = rows.clone();
        let answer = library::change(&case.setup(), &mut rows, 9, &Change::Edit(position, row), &mut take);
        same("an edit that fades at once", &case, answer, nothing_held(1));
        case.rows = rows;
        model_is_original(&case, tally);
    }

    // An edit that never fades: pre x sinks to a subnormal and stays there.
    let case = plain(0, 24, steady(4096, [0x4270_0000, 0, 0, 0, 0]));
    let mut take = case.junk_take(random);
    library::render(&case.setup(), &case.rows, 4096, &mut take);
    let edit = Change::Edit(12, [0x4270_0000, 0x3f00_0000, 0, 0, 0]);
    let answer = library::change(&case.setup(), &mut case.rows.clone(), 4096, &edit, &mut take);
    same("an edit that never fades", &case, answer, nothing_held(4084));

    splices(plain, random, tally);
    kinds(plain, random, tally);
    whole_parts(plain, random, tally);
    writings(tally);

    // Kept words can stay subnormal.
    let mut case = plain(0, 1, steady(600, [0x4270_0000, 0, 0, 0, 0]));
    case.rows[1] = 0x3f80_0000;
    let rows = model_is_original(&case, tally);
    same("pre x at the end", &case, rows[599].kept[1], 2);

    // Bench values.
    same("whole parts", &case, [floats::whole(2.75), floats::whole(-0.5), floats::whole(f32::NAN)], [2, 0, 0]);
    same("whole part to i32", &case, floats::whole_i32(3e9), 2_147_483_648.0);
    let waves = [(1, 0, 3), (7, 7, 3), (8, 7, 2)].map(|(x, y, z)| wavetable::wave(x, y, z));
    same("waves", &case, waves, [101, 27, 0]);
    same("folds", &case, [wavetable::fold(4), wavetable::fold(7)], [3, 0]);

    example(&case);
}

/// Insertions and removals with a known answer.
fn splices(plain: impl Fn(u32, u32, Vec<u32>) -> Case, random: &mut Random, tally: &mut Tally) {
    use Answer::Refused;
    use Change::{Insert, Remove};
    const FRAMES: usize = 24;
    const ONE: [usize; 4] = [ROW_WORDS, FRAMES, FRAMES, KEPT_WORDS];
    const NONE: [usize; 4] = [0; 4];
    let row = [0x4270_0000, 0x3f00_0000, 0, 0, 0];
    let start = [0x4270_0000, 0x3f00_0000, 0, 0, 1];
    let loud = [0x4270_0000, 0x3f80_0001, 0, 0, 0];
    let most = |n: usize| vec![row; n];
    for instrument in 0..4 {
        for (rows, spare, change, answer) in [
            // Row 0 begins fresh whatever its word, and its word alone is a stop.
            (vec![row, row], NONE, Remove(0), nothing_held(1)),
            (vec![row, start], NONE, Remove(0), nothing_held(0)),
            // The row that was row 0 had the fresh state before it.
            (vec![row], ONE, Insert(0, row), nothing_held(2)),
            (vec![start], ONE, Insert(0, row), nothing_held(1)),
            // The same state stands before the row behind.
            (vec![start, row, row], ONE, Insert(1, start), nothing_held(1)),
            (vec![start, start, row], NONE, Remove(1), nothing_held(0)),
            // The end.
            (vec![row, row], ONE, Insert(2, row), nothing_held(1)),
            (vec![row, row], NONE, Remove(1), nothing_held(0)),
            // Too many rows or none come before the position and the room.
            (most(4_095), ONE, Insert(4_095, row), nothing_held(1)),
            (most(4_096), ONE, Insert(5_000, row), Refused(6, 0)),
            (most(4_096), NONE, Remove(4_095), nothing_held(0)),
            (vec![row], NONE, Remove(7), Refused(6, 0)),
            // The position comes before the room, and the room before the limits.
            (vec![row], NONE, Insert(2, row), Refused(8, 2)),
            (vec![row], ONE, Insert(2, row), Refused(8, 2)),
            (vec![row, row], NONE, Remove(2), Refused(8, 2)),
            (vec![row], NONE, Insert(1, loud), Refused(13, 0)),
            (vec![row], ONE.map(|each| each - 1), Insert(1, row), Refused(13, 0)),
            (vec![row], [0, FRAMES, FRAMES, KEPT_WORDS], Insert(0, row), Refused(13, 0)),
            (vec![row], [ROW_WORDS, 0, FRAMES, KEPT_WORDS], Insert(0, row), Refused(13, 0)),
            (vec![row], [ROW_WORDS, FRAMES, 0, KEPT_WORDS], Insert(0, row), Refused(13, 0)),
            (vec![row], [ROW_WORDS, FRAMES, FRAMES, 0], Insert(0, row), Refused(13, 0)),
            // The limits are read in the resulting score.
            (vec![row, loud], ONE, Insert(1, row), Refused(9, 2)),
            (vec![row, loud], ONE, Insert(1, loud), Refused(9, 1)),
            (vec![row, row, loud], NONE, Remove(0), Refused(9, 1)),
            (vec![row, loud, start], NONE, Remove(1), nothing_held(0)),
        ] {
            let case = plain(instrument, FRAMES as u32, rows.concat());
            let mut lent = case.lent_with(random, spare);
            library::render(&case.setup(), &lent.rows, lent.count, &mut lent.take);
            let found = one_change(&case, &change, &mut lent.clone(), &mut lent, tally);
            same(&format!("{change:08x?} with {spare:?} spare words"), &case, found, answer);
        }

        // The state that a row behind row 0 had is the fresh one, which is now before it again.
        let case = plain(instrument, FRAMES as u32, [row, row].concat());
        let mut lent = case.lent_with(random, NONE);
        lent.take.kept[..KEPT_WORDS].copy_from_slice(&Original::new(case.setup()).kept());
        let found = one_change(&case, &Remove(0), &mut lent.clone(), &mut lent, tally);
        same("a removal at the fresh state", &case, found, nothing_held(0));
    }
}

/// A change of a junk take that keeps zeros, but for these floats, before the changed row; what it leaves.
fn change_from(
    floats: &[(usize, f32)],
    case: &Case,
    change: &Change,
    random: &mut Random,
    tally: &mut Tally,
) -> (Answer, Take) {
    let frames = case.frames as usize;
    let mut lent = case.lent_with(random, [ROW_WORDS, frames, frames, KEPT_WORDS]);
    let state = &mut lent.take.kept[(change.position() as usize - 1) * KEPT_WORDS..][..KEPT_WORDS];
    state.fill(0);
    floats.iter().for_each(|(at, x)| state[*at] = x.to_bits());
    let answer = one_change(case, change, &mut lent.clone(), &mut lent, tally);
    (answer, lent.take)
}

/// Edits, insertions and removals that render one row of 24 frames from a known state, and what it holds.
///
/// Wavetable: x, y and z go at most a tenth of their way to 0 in a frame, so 1000 stays far above the top; the
/// phase loses 1 in a frame, but for less than a hundredth. Oscillator: the waveform goes from 130 to 0 in equal
/// steps, and 65 is the twelfth. Terrain: the offset goes from 10,000 to -0.05 in equal steps, and only the last
/// lies within map and bank; with it the layer goes from 6.5 to 7.9999, and 7 comes in the ninth frame.
fn kinds(plain: impl Fn(u32, u32, Vec<u32>) -> Case, random: &mut Random, tally: &mut Tally) {
    let (phase, x, y, z) = ((0, 5.5), (4, 1000.0), (5, 1000.0), (6, 1000.0));
    let (waveform, path, offset) = ((3, 130.0), (0, 1.0), (4, 10_000.0));
    let low = [0x4270_0000, 0, 0, 0, 0];
    let high = [0x4270_0000, 0, 0x3f00_0000, 0x3f80_0000, 0];
    let other = [0x4280_0000, 0x3f00_0000, 0, 0, 0];
    for (instrument, row, floats, held, numbers) in [
        (0, low, &[][..], 0, [0; 5]),
        (0, low, &[phase], 4, [4, 0, 0, 0, 0]),
        (0, low, &[x], 24, [0, 24, 0, 0, 0]),
        (0, low, &[y], 24, [0, 24, 0, 0, 0]),
        (0, low, &[z], 24, [0, 0, 24, 0, 0]),
        // x and y are one kind, and a frame counts once in each kind and once in all.
        (0, low, &[x, y], 24, [0, 24, 0, 0, 0]),
        (0, low, &[phase, y], 24, [4, 24, 0, 0, 0]),
        (0, low, &[phase, z], 24, [4, 0, 24, 0, 0]),
        (0, low, &[x, z], 24, [0, 24, 24, 0, 0]),
        (0, low, &[phase, x, y, z], 24, [4, 24, 24, 0, 0]),
        (3, low, &[], 0, [0; 5]),
        (3, low, &[phase], 4, [4, 0, 0, 0, 0]),
        (3, low, &[waveform], 12, [0, 12, 0, 0, 0]),
        (3, low, &[phase, waveform], 12, [4, 12, 0, 0, 0]),
        // Two points in a frame, each of which reads two layers.
        (1, high, &[path, offset, (5, 5.5)], 92, [0, 0, 0, 0, 92]),
        (2, high, &[path, offset, (5, 6.5)], 92, [0, 0, 0, 30, 62]),
        (2, high, &[path, offset, (5, 7.5)], 92, [0, 0, 0, 46, 46]),
        // The layer's own number is not counted.
        (1, high, &[path, (5, 1000.0)], 0, [0; 5]),
        (2, high, &[path, (5, 1000.0)], 0, [0; 5]),
    ] {
        let known = Answer::Rendered(1, held, Counts::of_numbers(numbers));
        for (rows, change, answer) in [
            (vec![other, other], Change::Edit(1, row), known),
            (vec![other], Change::Insert(1, row), known),
            (vec![other, other, row], Change::Remove(1), known),
            // The same words render nothing, and hold nothing.
            (vec![other, row], Change::Edit(1, row), nothing_held(0)),
        ] {
            let case = plain(instrument, 24, rows.concat());
            let (found, _) = change_from(floats, &case, &change, random, tally);
            same(&format!("{change:08x?} from {floats:?}"), &case, found, answer);
        }
    }

    // All rows that are rendered, and no other: x and y stay far above their top for five rows.
    let case = plain(0, 24, steady(6, low));
    for (position, rows) in [(1, 5), (3, 3), (5, 1)] {
        let edit = Change::Edit(position, other);
        let (found, _) = change_from(&[(4, 1e30), (5, 1e30)], &case, &edit, random, tally);
        let counts = Counts { wave_position: 24 * rows, ..NO_COUNTS };
        same("x and y in several rows", &case, found, Answer::Rendered(rows, 24 * rows, counts));
    }
}

/// Edits from states that bring the first frame's readings to chosen whole parts of x and y, and where these must
/// start. The tables are zero, but that a reading which starts there is 1 whatever its fractions.
///
/// The path stands at (0, 1) and hardly moves, so that x is the offset and y the amplitude. Each goes the first of many
/// steps to its target, the amplitude two. Layers 5 to 7 are banks 2 to 0, layer 8 is the map.
fn whole_parts(plain: impl Fn(u32, u32, Vec<u32>) -> Case, random: &mut Random, tally: &mut Tally) {
    const FAR: u64 = 100_000;
    for (layer, [x, y], [start_x, start_y]) in [
        // Past the end each whole part is held by itself. Document 02: flat 4,032 becomes 3,968.
        (8, [0, 63], [0, 62]),
        (8, [30, 63], [30, 62]),
        (8, [62, 63], [62, 62]),
        (8, [63, 62], [62, 62]),
        (8, [63, 63], [62, 62]),
        (8, [4_031, 0], [62, 0]),
        (8, [10, FAR], [10, 62]),
        (8, [FAR, 10], [62, 10]),
        (8, [FAR, FAR], [62, 62]),
        (5, [63, 0], [62, 0]),
        (5, [63, 100], [62, 100]),
        (5, [62, 130], [62, 128]),
        (5, [63, 131], [62, 128]),
        (5, [5, 8_000], [5, 128]),
        (5, [FAR, FAR], [62, 128]),
        (6, [200, 50], [62, 50]),
        (6, [10, 20_000], [10, 128]),
        (6, [FAR, FAR], [62, 128]),
        (7, [200, 3], [62, 3]),
        (7, [7, 30_000], [7, 128]),
        (7, [FAR, FAR], [62, 128]),
        // Over a row's, a wave's or a bank's end, but not past the last: as the Rust reads.
        (8, [62, 62], [62, 62]),
        (8, [63, 0], [63, 0]),
        (8, [63, 61], [63, 61]),
        (8, [1_000, 5], [1_000, 5]),
        (8, [4_030, 0], [4_030, 0]),
        (5, [62, 129], [62, 129]),
        (5, [5, 200], [5, 200]),
        (6, [63, 50], [63, 50]),
        (6, [100, 100], [100, 100]),
        (7, [190, 3], [190, 3]),
    ] {
        let (instrument, harmonics): (u32, f32) = if layer == 8 { (2, 1.0) } else { (1, [0.7, 0.7, 0.9][layer - 5]) };
        let row = [0, 0, 0, harmonics.to_bits(), 0];
        let mut case = Case { rate: 192_000, ..plain(instrument, 128, steady(2, [0x4270_0000, 0, 0, 0, 0])) };
        case.bank.fill(0);
        let scale = if layer == 8 {
            case.map.fill(0);
            let start = 64 * start_y + start_x;
            [0, 1, 64, 65].iter().for_each(|next| case.map[start + next] = 128);
            [31.0, 31.0]
        } else {
            let start = 8_448 * (7 - layer) + 132 * start_x + start_y;
            [0, 132].iter().for_each(|wave| case.bank[start + wave..][..3].copy_from_slice(&[-1024, 0, 1024]));
            [31.5, 64.0]
        };
        // From where the first step of 128 comes to the middle of x, and the first two of 256 about that of y.
        let middle = |whole: u64, scale: f32| (whole as f32 + 0.5) / scale - 1.0;
        let offset = (128.0 * middle(x, scale[0]) + 1.0) / 127.0;
        let amplitude = (256.0 * middle(y, scale[1]) - 1.5 * 0.1) / 254.5;
        let index = f32::min(harmonics * 1.05, 1.0) * (if layer == 8 { 9.0 } else { 8.0 } - 1.0001);
        let floats = [(1, 1.0), (3, amplitude), (4, offset), (5, index)];
        let (_, take) = change_from(&floats, &case, &Change::Edit(1, row), random, tally);
        let fraction = index - index.floor();
        let expected = if layer as f32 == index.floor() { 1.0 - fraction } else { fraction };
        let what = format!("the reading of layer {layer} at ({x}, {y})");
        same(&what, &case, f32::from_bits(take.out[128]), expected);
    }
}

/// Writings with a known answer and a known text, of rows that were read from an untidy one.
fn writings(tally: &mut Tally) {
    use Answer::{Done, Refused};
    const UNTIDY: &str = "restart harmonics note morph timbre\n\
        00000001 00000000 42F00000 80000000 3F800000\n\
        00000000 3f7FFfff 3dAbCdEf 00678900 3E012345\n";
    const TIDY: &str = "note timbre morph harmonics restart\n\
        42f00000 3f800000 80000000 00000000 00000001\n\
        3dabcdef 3e012345 00678900 3f7fffff 00000000\n";
    let mut two = [7; 2 * ROW_WORDS];
    same("reading an untidy text", &UNTIDY, library::read_score(UNTIDY.as_bytes(), &mut two), Done(2, 0));
    let mut loud = two;
    loud[7] = 0x3f80_0001;
    let (names, line) = TIDY[..81].split_at(36);
    let longest = names.to_string() + &line.repeat(4_096);
    let many = two[..ROW_WORDS].repeat(4_097);
    for (rows, count, length, text, answer) in [
        // Just long enough, longer, too short.
        (&two[..], 2, 126, TIDY, Done(126, 0)),
        (&two, 2, 130, TIDY, Done(126, 0)),
        (&two, 2, 125, TIDY, Refused(14, 0)),
        (&two, 2, 0, TIDY, Refused(14, 0)),
        // Nothing past the count is looked at.
        (&two, 1, 81, TIDY, Done(81, 0)),
        (&two, 1, 80, TIDY, Refused(14, 0)),
        (&loud, 1, 81, TIDY, Done(81, 0)),
        // The rows come before the limits, and these before the text.
        (&loud, 0, 126, TIDY, Refused(6, 0)),
        (&loud, 3, 126, TIDY, Refused(6, 0)),
        (&loud[..9], 2, 0, TIDY, Refused(6, 0)),
        (&loud, 2, 126, TIDY, Refused(9, 1)),
        (&loud, 2, 0, TIDY, Refused(9, 1)),
        // The longest score.
        (&many, 4_096, 184_356, &longest, Done(184_356, 0)),
        (&many, 4_096, 184_400, &longest, Done(184_356, 0)),
        (&many, 4_096, 184_355, &longest, Refused(14, 0)),
        (&many, 4_097, 184_401, &longest, Refused(6, 0)),
    ] {
        let lent = Lent { rows: rows.to_vec(), count, text: vec![b'.'; length] };
        let (found, written) = writing(&lent, tally);
        same("known answer of the writer", &lent, found, answer);
        let bytes = if let Done(bytes, _) = answer { bytes as usize } else { 0 };
        let expected = text[..bytes].to_string() + &".".repeat(length - bytes);
        same_start("known text", &lent, &written, expected.as_bytes());
    }
}

/// Document 01's example of the program.
fn example(case: &Case) {
    let score = b"timbre note morph harmonics restart\n\
        00000000 42700000 00000000 00000000 00000001\n\
        3f000000 42700000 00000000 00000000 00000000\n\
        3f000000 42700000 00000000 00000000 00000001\n";
    let edits = b"row note timbre morph harmonics restart\n\
        00000001 42700000 3f800000 00000000 00000000 00000000\n\
        00000000 42700000 3f800000 00000000 00000000 00000001\n\
        00000002 42700000 3f000000 00000000 00000000 00000001\n";
    let run = program::run(score, edits, &[7; 50_688]);
    let printed = "row rendered held\n1 1 0\n0 2 0\n2 0 0\n";
    same("the program's example", case, String::from_utf8_lossy(&run.printed).as_ref(), printed);
}
