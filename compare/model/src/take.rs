//! "Rows, states, retakes" and "Calls and their numbers", with document 02's "Rows put in and taken out"
//! (N2) and "Which kind of hold" (N5): fresh rendering, whole rendering, edit, insertion and removal, and
//! what demand 3 says of these three.

use crate::score::{beyond, countable, has_rows};
use crate::voice::{Block, Voice};
use crate::{Answer, BANK, Counts, FRAMES, KEPT_WORDS, MAP, RATES, ROW_WORDS, Setup, Take, room};

/// One row of a fresh rendering.
#[derive(Debug, Clone, PartialEq, Eq)]
pub struct Row {
    pub block: Block,
    pub kept: [u32; KEPT_WORDS],
}

/// What a call changes in the score: at a position, and to which words.
#[derive(Debug, Clone, Copy, PartialEq, Eq)]
pub enum Change {
    Edit(u64, [u32; ROW_WORDS]),
    Insert(u64, [u32; ROW_WORDS]),
    Remove(u64),
}

impl Change {
    /// The position, how many rows are taken out there, and the words of the row that is put in.
    fn parts(&self) -> (u64, usize, &[u32]) {
        match self {
            Change::Edit(position, row) => (*position, 1, row),
            Change::Insert(position, row) => (*position, 0, row),
            Change::Remove(position) => (*position, 1, &[]),
        }
    }

    pub fn position(&self) -> u64 {
        self.parts().0
    }

    /// How many rows are taken out, and how many put in.
    fn rows(&self) -> (usize, usize) {
        let (_, taken, put) = self.parts();
        (taken, put.len() / ROW_WORDS)
    }

    /// The row count after it.
    pub fn count(&self, count: u64) -> u64 {
        let (taken, put) = self.rows();
        count.saturating_sub(taken as u64).saturating_add(put as u64)
    }

    /// The score after it.
    pub fn of(&self, score: &[u32]) -> Vec<u32> {
        let (position, taken, put) = self.parts();
        let first = position as usize * ROW_WORDS;
        let mut rows = score.to_vec();
        rows.splice(first..first + taken * ROW_WORDS, put.iter().copied());
        rows
    }

    /// Where row k of the score after it, at or behind the position, stood before; none for the row put in.
    fn origin(&self, k: usize) -> Option<usize> {
        let (taken, put) = self.rows();
        (k >= self.position() as usize + put).then(|| k + taken - put)
    }
}

fn row(rows: &[u32], k: usize) -> &[u32] {
    &rows[k * ROW_WORDS..][..ROW_WORDS]
}

pub fn restarts(rows: &[u32], k: usize) -> bool {
    row(rows, k)[4] == 1
}

/// The state before row k by the words kept after each row: the fresh one before row 0.
fn state_before(setup: &Setup, kept: &[u32], k: usize) -> [u32; KEPT_WORDS] {
    match k.checked_sub(1) {
        None => Voice::fresh(setup).kept(),
        Some(last) => std::array::from_fn(|i| kept[last * KEPT_WORDS + i]),
    }
}

/// Row k rendered from the 13 words of the state before it.
fn render_row(setup: &Setup, rows: &[u32], k: usize, before: [u32; KEPT_WORDS]) -> Row {
    let fresh = k == 0 || restarts(rows, k);
    let mut voice = if fresh { Voice::fresh(setup) } else { Voice::of_kept(setup.instrument, &before) };
    let block = voice.render(setup, row(rows, k));
    Row { block, kept: voice.kept() }
}

/// The fresh rendering of a score that is within its limits.
pub fn fresh(setup: &Setup, score: &[u32]) -> Vec<Row> {
    let mut state = Voice::fresh(setup).kept();
    let mut rendered: Vec<Row> = Vec::new();
    for k in 0..score.len() / ROW_WORDS {
        let row = render_row(setup, score, k, state);
        state = row.kept;
        rendered.push(row);
    }
    rendered
}

fn take_room(take: &Take, places: u64, frames: u32) -> bool {
    let frames = frames as usize;
    room(&take.out, places, frames) && room(&take.aux, places, frames) && room(&take.kept, places, KEPT_WORDS)
}

/// The refusals of edit, insertion, removal and (with no change) rendering, in the order of their tests.
/// The last, 9, reads the resulting score.
fn refusal(setup: &Setup, rows: &[u32], count: u64, change: Option<&Change>, take: &Take) -> Option<Answer> {
    let map = if setup.instrument == 2 { MAP } else { 0 };
    let resulting = change.map_or(count, |change| change.count(count));
    let (position, taken, _) = change.map_or((0, 0, &[][..]), Change::parts);
    let tests = [
        (1, 0, setup.instrument > 3),
        (2, 0, !RATES.contains(&setup.rate)),
        (3, 0, setup.frames == 0 || setup.frames > FRAMES),
        (4, 0, setup.bank.len() != BANK),
        (5, 0, setup.map.len() != map),
        (6, 0, !has_rows(rows, count) || !countable(resulting)),
        (7, 0, !take_room(take, count, setup.frames)),
        (8, position, position.saturating_add(taken as u64) > count),
        (13, 0, !room(rows, resulting, ROW_WORDS) || !take_room(take, resulting, setup.frames)),
    ];
    if let Some((number, place, _)) = tests.into_iter().find(|(_, _, refused)| *refused) {
        return Some(Answer::Refused(number, place));
    }
    let score = &rows[..count as usize * ROW_WORDS];
    change.map_or_else(|| beyond(score), |change| beyond(&change.of(score)))
}

/// Puts a rendered row into its place of the take.
fn put(take: &mut Take, frames: u32, k: usize, row: &Row) {
    let frames = frames as usize;
    take.out[k * frames..][..frames].copy_from_slice(&row.block.out);
    take.aux[k * frames..][..frames].copy_from_slice(&row.block.aux);
    take.kept[k * KEPT_WORDS..][..KEPT_WORDS].copy_from_slice(&row.kept);
}

/// The answer of an accepted call that rendered just these rows.
pub fn report(rendered: &[Row]) -> Answer {
    let mut counts = Counts::default();
    rendered.iter().for_each(|row| counts.add(&row.block.counts));
    Answer::Rendered(rendered.len() as u64, rendered.iter().map(|row| row.block.held).sum(), counts)
}

/// The answer of a call that rendered these rows, or was refused.
pub fn answer(rendered: &Result<Vec<Row>, Answer>) -> Answer {
    rendered.as_ref().map_or_else(|refusal| *refusal, |rows| report(rows))
}

/// Whole rendering.
pub fn render(setup: &Setup, rows: &[u32], count: u64, take: &mut Take) -> Answer {
    answer(&render_rows(setup, rows, count, take))
}

/// Edit, insertion or removal, on any take.
pub fn change(setup: &Setup, rows: &mut [u32], count: u64, change: &Change, take: &mut Take) -> Answer {
    answer(&change_rows(setup, rows, count, change, take))
}

/// Whole rendering: the rows that it renders, or its refusal.
pub fn render_rows(setup: &Setup, rows: &[u32], count: u64, take: &mut Take) -> Result<Vec<Row>, Answer> {
    if let Some(refusal) = refusal(setup, rows, count, None, take) {
        return Err(refusal);
    }
    let rendered = fresh(setup, &rows[..count as usize * ROW_WORDS]);
    for (k, row) in rendered.iter().enumerate() {
        put(take, setup.frames, k, row);
    }
    Ok(rendered)
}

/// Edit, insertion or removal: the rows that it renders, or its refusal.
pub fn change_rows(
    setup: &Setup,
    rows: &mut [u32],
    count: u64,
    change: &Change,
    take: &mut Take,
) -> Result<Vec<Row>, Answer> {
    if let Some(refusal) = refusal(setup, rows, count, Some(change), take) {
        return Err(refusal);
    }
    let score = &rows[..count as usize * ROW_WORDS];
    let resulting = change.of(score);
    if resulting == score {
        return Ok(Vec::new());
    }
    let stood = take.kept.clone();
    rows[..resulting.len()].copy_from_slice(&resulting);
    shift(take, setup.frames, count as usize, change);

    // The rows from the position on, up to the end or to one that came from elsewhere and stands as it stood there.
    let stops = |take: &Take, k: usize| {
        let same = |from| state_before(setup, &take.kept, k) == state_before(setup, &stood, from);
        k * ROW_WORDS == resulting.len() || change.origin(k).is_some_and(|from| restarts(&resulting, k) || same(from))
    };
    let mut k = change.position() as usize;
    let mut rendered = Vec::new();
    while !stops(take, k) {
        let row = render_row(setup, &resulting, k, state_before(setup, &take.kept, k));
        put(take, setup.frames, k, &row);
        rendered.push(row);
        k += 1;
    }
    Ok(rendered)
}

/// Moves the blocks and kept words of the rows behind the change with them. Places past the new count keep
/// their words.
fn shift(take: &mut Take, frames: u32, count: usize, change: &Change) {
    let (taken, put) = change.rows();
    let first = change.position() as usize;
    let frames = frames as usize;
    for (words, each) in [(&mut take.out, frames), (&mut take.aux, frames), (&mut take.kept, KEPT_WORDS)] {
        words.copy_within((first + taken) * each..count * each, (first + put) * each);
    }
}

/// What demand 3 says of a change between the fresh renderings of the score before and after it: the
/// rows that it renders, and their `held` and its kinds in the second. `score` is the one after it.
pub fn demand_3(setup: &Setup, score: &[u32], before: &[Row], after: &[Row], change: &Change) -> Answer {
    let fresh = Voice::fresh(setup).kept();
    let states = |rows: &[Row]| -> Vec<_> { std::iter::once(fresh).chain(rows.iter().map(|r| r.kept)).collect() };
    let (before, states) = (states(before), states(after));
    let stops = |j: usize, from: usize| j == after.len() || restarts(score, j) || states[j] == before[from];
    let k = change.position() as usize;
    let j = (k..=after.len()).find(|j| change.origin(*j).is_some_and(|from| stops(*j, from))).unwrap_or(after.len());
    report(&after[k..j])
}
