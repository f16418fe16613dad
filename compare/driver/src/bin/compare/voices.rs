//! The model beside the original: fresh renderings, and single rows from any state.

use driver::cases::{self, Case};
use driver::original::{self, Original};
use driver::random::Random;
use model::ROW_WORDS;
use model::take::{Row, fresh};
use model::voice::{Holds, Voice};

use crate::tally::{Tally, fail, same};

/// The model's fresh rendering beside the original, up to the first hold. There the original must panic.
pub fn model_is_original(case: &Case, tally: &mut Tally) -> Vec<Row> {
    let state = Voice::fresh(&case.setup()).kept();
    same("fresh words of model and original", case, state, Original::new(case.setup()).kept());
    let rows = fresh(&case.setup(), &case.rows);
    let original = original::render(case.setup(), &case.rows);
    let agreeing = rows.iter().position(|r| r.block.holds.any()).unwrap_or(rows.len());
    same("rows until the first hold, rows until the original's panic", case, agreeing, original.len());
    for (k, (m, o)) in rows.iter().zip(&original).enumerate() {
        same(&format!("row {k}: out of model and original"), case, &m.block.out, &o.out);
        same(&format!("row {k}: aux of model and original"), case, &m.block.aux, &o.aux);
        same(&format!("row {k}: kept of model and original"), case, m.kept, o.kept);
        for x in [&m.block.out, &m.block.aux, &m.kept.to_vec()] {
            tally
                .add("NaN words in fresh renderings", x.iter().filter(|w| f32::from_bits(**w).is_nan()).count() as u64);
        }
    }
    tally.add(format!("fresh: scores on instrument {}", case.instrument), 1);
    tally.add("fresh: rows equal to the original", agreeing as u64);
    tally.add("fresh: samples equal to the original (out and aux)", 2 * (agreeing as u64) * u64::from(case.frames));
    if let Some(row) = rows.get(agreeing) {
        let holds = row.block.holds;
        let kind = if holds.z > 0 {
            "level z"
        } else if holds.waveform > 0 {
            "waveform"
        } else if holds.map.held > 0 {
            "map"
        } else {
            "bank"
        };
        tally.add(format!("fresh: first holds at which the original panics ({kind})"), 1);
        if holds.phase + holds.x + holds.y + holds.layer > 0 {
            fail("a fresh rendering holds phase, x, y or the layer", case);
        }
    }
    rows
}

/// One row from any 13 words. The original has an answer of its own where x, y or the phase leaves
/// its range and where the layer is above the last (height 0): document 01 decides there, and document
/// 02 on the oscillator's phase, which the original reads on for as long as its wave goes on.
pub fn model_is_original_on_any_state(case: &Case, random: &mut Random, tally: &mut Tally) {
    let state = if random.once_in(8) { cases::far_state } else { cases::odd_state };
    let kept = state(random, case.instrument);
    let row = &case.rows[..ROW_WORDS];
    let mut voice = Voice::of_kept(case.instrument, &kept);
    let block = voice.render(&case.setup(), row);
    let mut original = Original::new(case.setup());
    original.set_kept(&kept);
    let rendered = original.render_row(row);
    let what = format!("from the state {kept:08x?}");
    match rendered {
        Some(o) if !block.holds.any() => {
            same(&format!("{what}: out"), case, block.out, o.out);
            same(&format!("{what}: aux"), case, block.aux, o.aux);
            same(&format!("{what}: kept"), case, voice.kept(), o.kept);
            tally.add("any state: blocks equal to the original", 1);
        }
        None if block.holds.any() => tally.add("any state: blocks held, the original panics", 1),
        Some(_) if block.holds.layer > 0 || !always_panics(&block.holds) => {
            tally.add("any state: blocks held at x, y, phase or layer, the original reads on", 1);
        }
        Some(_) => fail(&format!("{what}: the model holds {:?}, the original goes on", block.holds), case),
        None => fail(&format!("{what}: the original panics, the model holds nothing"), case),
    }
}

/// Did the block hold something of which the original has no reading?
fn always_panics(holds: &Holds) -> bool {
    holds.z + holds.waveform + holds.map.held + holds.bank() > 0
}
