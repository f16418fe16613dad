//! The library's rendering, edits, insertions and removals beside the model's: accepted and refused, on
//! rendered and junk takes, in buffers with and without room for more rows.

use driver::cases::{self, Case, Lent};
use driver::random::Random;
use driver::{changes, library, original};
use model::take::{self, Change, Row, demand_3, fresh};
use model::voice::Voice;
use model::{Answer, KEPT_WORDS, ROW_WORDS, Take};

use crate::holds;
use crate::tally::{Tally, same, same_start};

/// The library's whole rendering into a lent take, beside the model's.
pub fn rendering(case: &Case, lent: Lent, tally: &mut Tally) {
    let (mut found, mut expected) = (lent.take.clone(), lent.take);
    let rendered = take::render_rows(&case.setup(), &lent.rows, lent.count, &mut expected);
    let answer = library::render(&case.setup(), &lent.rows, lent.count, &mut found);
    let what = format!("answer of render of {} rows", lent.count);
    same(&what, case, answer, take::answer(&rendered));
    holds::go_together(&what, case, answer);
    same_take("render", case, &found, &expected);
    match rendered {
        Ok(rows) => {
            tally.add("render: accepted", 1);
            tally.add("render: rows", rows.len() as u64);
            tally.add("render: samples (out and aux)", 2 * rows.len() as u64 * u64::from(case.frames));
            holds::add("render", case, &rows, tally);
        }
        Err(refusal) => tally.add(format!("render: {}", refused(refusal)), 1),
    }
}

fn refused(refusal: Answer) -> String {
    let Answer::Refused(number, _) = refusal else { unreachable!() };
    format!("refused by {number:2}")
}

/// The library's whole rendering of a score, beside the fresh rendering that was held to the original.
/// Places past the score keep their words.
pub fn library_is_fresh(case: &Case, fresh: &[Row], mut lent: Lent, tally: &mut Tally) {
    let mut expected = lent.take.clone();
    begin(&mut expected.out, fresh.iter().flat_map(|r| r.block.out.clone()));
    begin(&mut expected.aux, fresh.iter().flat_map(|r| r.block.aux.clone()));
    begin(&mut expected.kept, fresh.iter().flat_map(|r| r.kept));
    let answer = library::render(&case.setup(), &lent.rows, lent.count, &mut lent.take);
    same("answer of a fresh rendering", case, answer, take::report(fresh));
    holds::go_together("fresh rendering", case, answer);
    same_take("fresh rendering", case, &lent.take, &expected);
    let samples = 2 * fresh.len() as u64 * u64::from(case.frames);
    tally.add("fresh: samples of the library, equal to the same (out and aux)", samples);
    holds::add("fresh", case, fresh, tally);
    holds::add_edges("fresh", case, fresh, tally);
}

/// Puts words at the beginning of others.
fn begin(words: &mut [u32], with: impl Iterator<Item = u32>) {
    words.iter_mut().zip(with).for_each(|(word, put)| *word = put);
}

/// The expected words are those that a take begins with.
fn same_take(what: &str, case: &Case, found: &Take, expected: &Take) {
    same_start(&format!("{what}: out"), case, &found.out, &expected.out);
    same_start(&format!("{what}: aux"), case, &found.aux, &expected.aux);
    same_start(&format!("{what}: kept"), case, &found.kept, &expected.kept);
}

/// An edit, an insertion or a removal: often at an end or near the rows that stand, sometimes out of its
/// limits or place.
fn random_change(random: &mut Random, score: &[u32]) -> Change {
    let count = score.len() / ROW_WORDS;
    let kind = random.below(3);
    let places = if kind == 1 { count + 1 } else { count };
    let position = match random.below(20) {
        0 => random.pick(&[places, places + 1, usize::MAX]),
        1..5 => 0,
        5..9 => places - 1,
        _ => random.below(places),
    };
    let mut row = cases::row(random);
    if position < places && !random.once_in(3) {
        let beside = if kind == 1 { position.saturating_sub(random.below(2)) } else { position }.min(count - 1);
        let standing: [u32; ROW_WORDS] = std::array::from_fn(|i| score[beside * ROW_WORDS + i]);
        let name = random.below(ROW_WORDS);
        let changed = match random.below(5) {
            0 => standing[name],
            1 => standing[name] ^ 1,
            2 => standing[name] ^ 0x8000_0000,
            _ => row[name],
        };
        row = standing;
        row[name] = changed;
    }
    if random.once_in(30) {
        row[random.below(ROW_WORDS)] = cases::junk_word(random);
    }
    match kind {
        0 => Change::Edit(position as u64, row),
        1 => Change::Insert(position as u64, row),
        _ => Change::Remove(position as u64),
    }
}

/// One change by the library and by the model, on the same words: answer and every lent word are the
/// same. The caller counts: an accepted insertion is one row more, a removal one less.
pub fn one_change(case: &Case, change: &Change, found: &mut Lent, expected: &mut Lent, tally: &mut Tally) -> Answer {
    let setup = case.setup();
    let what = format!("{change:08x?} of {} rows in {} row words", expected.count, expected.rows.len());
    let rendered = take::change_rows(&setup, &mut expected.rows, expected.count, change, &mut expected.take);
    let answer = library::change(&setup, &mut found.rows, found.count, change, &mut found.take);
    same(&what, case, answer, take::answer(&rendered));
    holds::go_together(&what, case, answer);
    same_start(&format!("{what}: rows"), case, &found.rows, &expected.rows);
    same_take(&what, case, &found.take, &expected.take);
    let name = changes::name(change);
    match rendered {
        Ok(rows) => {
            for lent in [found, expected] {
                lent.count = change.count(lent.count);
            }
            let rendered = ["no row", "1 row", "more rows"][rows.len().min(2)];
            let stop = changes::stop(change, expected.score(), rows.len() as u64);
            tally.add(format!("{name}: accepted, {rendered}, stopped at {stop}"), 1);
            holds::add(name, case, &rows, tally);
            holds::add_edges("changes", case, &rows, tally);
        }
        Err(refusal) => tally.add(format!("{name}: {}", refused(refusal)), 1),
    }
    answer
}

/// One random call of a list; before it now and then one at its limits, on a copy.
fn step(
    case: &Case,
    found: &mut Lent,
    expected: &mut Lent,
    random: &mut Random,
    tally: &mut Tally,
) -> (Change, Answer) {
    if random.once_in(4) {
        at_limits(case.clone(), found.clone(), random, tally);
    }
    let change = random_change(random, &case.rows);
    let answer = one_change(case, &change, found, expected, tally);
    (change, answer)
}

/// A list of calls after an accepted rendering: each answer and every lent word beside the model; each
/// answer beside demand 3; the end beside a fresh rendering.
pub fn lists(mut case: Case, random: &mut Random, tally: &mut Tally) {
    let spare = random.pick(&[0, 1, 2, 6]);
    let mut expected = case.lent(random, spare);
    take::render(&case.setup(), &expected.rows, expected.count, &mut expected.take);
    let mut found = expected.clone();
    let mut before = fresh(&case.setup(), &case.rows);
    for _ in 0..1 + random.below(8) {
        let (change, answer) = step(&case, &mut found, &mut expected, random, tally);
        if case.rows != expected.score() {
            case.rows = expected.score().to_vec();
            let after = fresh(&case.setup(), &case.rows);
            let promised = demand_3(&case.setup(), &case.rows, &before, &after, &change);
            same(&format!("answer of {change:08x?} and demand 3"), &case, answer, promised);
            before = after;
        }
    }
    let mut again = case.junk_take(random);
    let answer = library::render(&case.setup(), &found.rows, found.count, &mut again);
    same("answer of a fresh rendering after the list", &case, answer, take::report(&before));
    same_take("fresh rendering after the list", &case, &found.take, &again);
    tally.add("lists equal to a fresh rendering", 1);
    holds::add_edges("lists", &case, &before, tally);
    list_is_original(&case, &found.take, tally);
}

/// The take after a list of calls beside the original's rendering of the score as it then stands, up to
/// the row in which the original panics.
fn list_is_original(case: &Case, found: &Take, tally: &mut Tally) {
    let rows = original::render(case.setup(), &case.rows);
    let expected = Take {
        out: rows.iter().flat_map(|r| r.out.clone()).collect(),
        aux: rows.iter().flat_map(|r| r.aux.clone()).collect(),
        kept: rows.iter().flat_map(|r| r.kept).collect(),
    };
    same_take("the take after the list and the original", case, found, &expected);
    tally.add("lists: rows equal to the original after the last call", rows.len() as u64);
}

/// A list of calls on a take with junk in it, every lent word beside the model.
pub fn junk_lists(mut case: Case, random: &mut Random, tally: &mut Tally) {
    let spare = random.pick(&[0, 1, 2, 6]);
    let mut expected = case.lent(random, spare);
    let places = expected.take.kept.len() / KEPT_WORDS;
    if random.once_in(2) {
        // A rendered take with some words changed: the stop by the same state then still occurs.
        take::render(&case.setup(), &expected.rows, expected.count, &mut expected.take);
        for _ in 0..random.below(8) {
            let at = random.below(expected.take.kept.len());
            expected.take.kept[at] = cases::junk_word(random);
        }
    } else {
        for k in 0..places {
            let state = match random.below(6) {
                0 => Voice::fresh(&case.setup()).kept(),
                1..4 => cases::far_state(random, case.instrument),
                _ => cases::odd_state(random, case.instrument),
            };
            expected.take.kept[k * KEPT_WORDS..][..KEPT_WORDS].copy_from_slice(&state);
        }
    }
    for k in 1..places {
        // The state before a row and the one after it are the same.
        if random.once_in(8) {
            expected.take.kept.copy_within((k - 1) * KEPT_WORDS..k * KEPT_WORDS, k * KEPT_WORDS);
        }
    }
    let mut found = expected.clone();
    for _ in 0..1 + random.below(6) {
        step(&case, &mut found, &mut expected, random, tally);
        case.rows = expected.score().to_vec();
    }
    tally.add("lists on junk takes", 1);
}

/// Puts a few of a call's numbers and lengths at or beside their limits.
fn spoil(case: &mut Case, lent: &mut Lent, random: &mut Random) {
    let (count, rows, frames) = (lent.count, lent.count as usize, case.frames as usize);
    for _ in 0..1 + random.below(3) {
        match random.below(11) {
            0 => case.instrument = random.pick(&[0, 1, 2, 3, 4, 256, u32::MAX]),
            1 => case.rate = random.pick(&[0, 31_999, 32_000, 192_000, 192_001, u32::MAX]),
            2 => case.frames = random.pick(&[0, 1, 128, 129, 256, u32::MAX]),
            3 => case.bank.resize(random.pick(&[0, 1, 25_343, 25_344, 25_345, 65_536]), 0),
            4 => case.map.resize(random.pick(&[0, 1, 4_095, 4_096, 4_097]), 0),
            5 => lent.count = random.pick(&[0, 1, count - 1, count + 1, (1 << 32) + count, u64::MAX / 5 + 2, u64::MAX]),
            6 => {
                lent.count = random.pick(&[4_095, 4_096, 4_097]);
                lent.rows.resize(random.pick(&[20_475, 20_479, 20_480, 20_485]), 0);
            }
            7 => resize(&mut lent.rows, rows * ROW_WORDS, ROW_WORDS, random),
            8 => resize(&mut lent.take.out, rows * frames, frames, random),
            9 => resize(&mut lent.take.aux, rows * frames, frames, random),
            _ => resize(&mut lent.take.kept, rows * KEPT_WORDS, KEPT_WORDS, random),
        }
    }
}

/// Makes a buffer too short, or just long enough for `n` words, or for a place more, or not quite.
fn resize(words: &mut Vec<u32>, n: usize, each: usize, random: &mut Random) {
    words.resize(random.pick(&[0, 13, 26, n - 1, n, n + 1, n + each - 1, n + each]), 7);
}

/// A call with numbers, lengths and words at their limits.
pub fn at_limits(mut case: Case, mut lent: Lent, random: &mut Random, tally: &mut Tally) {
    if !random.once_in(4) {
        spoil(&mut case, &mut lent, random);
    }
    for _ in 0..random.below(3) {
        if let Some(at) = random.below(lent.rows.len() + 1).checked_sub(1) {
            lent.rows[at] = random.pick(&[
                0x3f80_0000,
                0x3f80_0001,
                0x42f0_0000,
                0x42f0_0001,
                0x8000_0000,
                0x8000_0001,
                0x7fc0_0000,
                0x7f80_0000,
                1,
                2,
            ]);
        }
    }
    let count = lent.count;
    let position = random.pick(&[0, count, count.wrapping_sub(1), count.wrapping_add(1), count / 2, 1 << 32, u64::MAX]);
    let row = if random.once_in(3) { std::array::from_fn(|_| cases::junk_word(random)) } else { cases::row(random) };
    let change = match random.below(4) {
        0 => return rendering(&case, lent, tally),
        1 => Change::Edit(position, row),
        2 => Change::Insert(position, row),
        _ => Change::Remove(position),
    };
    one_change(&case, &change, &mut lent.clone(), &mut lent, tally);
}
