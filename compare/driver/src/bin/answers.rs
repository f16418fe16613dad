//! Writes the list of the Rust's answers that a program replays with no Rust at hand:
//!
//!     answers FOLDER
//!
//! FOLDER/stdin has the scores and FOLDER/stdout what the program must print: crates/replay is such a folder.
//!
//! stdin is words, low byte first: the number of scores, and for each score
//!     instrument, rate, frames, seed, rows n, calls m
//!     n rows of five words
//!     m calls of seven words: kind (0 edit, 1 insertion, 2 removal), position, then the row's five words
//!     (zeros for a removal)
//! Each score has at most 64 rows and 8,192 samples, with the rows that are put in, and 8 calls. All calls
//! are accepted. The seed makes bank and map:
//!     s = seed; for each of 25,344 samples: s = (1664525 s + 1013904223) mod 2^32, sample = s / 65536 - 32768;
//!     then for each of 4,096 map bytes (instrument 2): s as before, byte = s / 16777216.
//!
//! Printed for each score, all numbers decimal:
//!     render ROWS HELD KINDS OUT AUX KEPT    after the whole rendering
//!     edit POSITION RENDERED HELD KINDS      for each call, in its turn: edit, insert or remove
//!     take OUT AUX KEPT                      after the last call, where there are calls
//! KINDS are the five counts of HELD's kinds: PHASE WAVE_POSITION LEVEL MAP BANK.
//! OUT, AUX and KEPT are check numbers of all words of the score's rows: h = 0; for each word:
//! h = (65599 h + word) mod 4294967291.
//!
//! A score in which a position is held, where the original panics, is answered by the model and has a
//! HELD above 0. All others are answered by the original: samples and kept words are its own, HELD and
//! KINDS are 0, and the RENDERED of a call follows from its fresh renderings before and after the call.
//! First come the scores of the two engines, those that hold last; then the plain oscillator's, in the same
//! order; then the smallest that lie past the edge of the map or of the bank.

use std::collections::BTreeMap;
use std::fs;
use std::path::Path;

use driver::cases::{self, Case};
use driver::random::Random;
use driver::{changes, edges, original};
use model::score::{row_within, within};
use model::take::{Change, Row, demand_3, fresh, report, restarts};
use model::voice::Block;
use model::{Answer, BANK, MAP, ROW_WORDS};

const MOST_ROWS: usize = 64;
const MOST_SAMPLES: usize = 8_192;
const MOST_CALLS: usize = 8;
const MOST_BYTES: usize = 65_535;
/// Scores answered by the original for each instrument; scores of the engines and of the oscillator
/// answered by the model.
const PER_INSTRUMENT: usize = 12;
const HOLDING: usize = 6;
const HOLDING_OSCILLATOR: usize = 4;

/// Makes so many rows.
type Rows = fn(&mut Random, usize) -> Vec<u32>;
/// A fresh rendering, or none.
type Rendered = fn(&Case) -> Option<Vec<Row>>;

/// A score of the list.
struct Entry {
    case: Case,
    seed: u32,
    calls: Vec<Change>,
}

/// The bank and the map of a seed.
fn tables(seed: u32, map: bool) -> (Vec<i16>, Vec<u8>) {
    let mut s = seed;
    let mut next = || {
        s = s.wrapping_mul(1_664_525).wrapping_add(1_013_904_223);
        s
    };
    let bank = (0..BANK).map(|_| (i32::from((next() >> 16) as u16) - 32_768) as i16).collect();
    let map = (0..if map { MAP } else { 0 }).map(|_| (next() >> 24) as u8).collect();
    (bank, map)
}

fn check_number(words: impl IntoIterator<Item = u32>) -> u64 {
    words.into_iter().fold(0, |h, word| (65_599 * h + u64::from(word)) % 4_294_967_291)
}

fn check_numbers(rows: &[Row]) -> String {
    let out = check_number(rows.iter().flat_map(|r| r.block.out.clone()));
    let aux = check_number(rows.iter().flat_map(|r| r.block.aux.clone()));
    let kept = check_number(rows.iter().flat_map(|r| r.kept));
    format!("{out} {aux} {kept}")
}

/// Rows rendered, `held` and its kinds.
fn report_numbers(answer: Answer) -> String {
    let Answer::Rendered(rows, held, counts) = answer else { unreachable!() };
    let kinds: String = counts.numbers().iter().map(|n| format!(" {n}")).collect();
    format!("{rows} {held}{kinds}")
}

/// The fresh rendering by the original, or none where it panics.
fn by_original(case: &Case) -> Option<Vec<Row>> {
    let rows = original::render(case.setup(), &case.rows);
    let whole = rows.len() == case.count();
    let row = |r: original::Rendered| Row { block: Block { out: r.out, aux: r.aux, ..Block::default() }, kept: r.kept };
    whole.then(|| rows.into_iter().map(row).collect())
}

/// The fresh rendering by the model, or none where it holds nothing.
fn by_model(case: &Case) -> Option<Vec<Row>> {
    let rows = fresh(&case.setup(), &case.rows);
    rows.iter().any(|r| r.block.held > 0).then_some(rows)
}

/// The fresh rendering by the original, or by the model where it panics.
fn by_either(case: &Case) -> Option<Vec<Row>> {
    by_original(case).or_else(|| by_model(case))
}

/// What the program prints of a score, if `rendered` has an answer to it and to each changed score.
fn printed(entry: &Entry, rendered: Rendered) -> Option<String> {
    let mut case = entry.case.clone();
    let mut before = rendered(&case)?;
    let mut lines = format!("render {} {}\n", report_numbers(report(&before)), check_numbers(&before));
    for change in &entry.calls {
        let score = change.of(&case.rows);
        let answer = if score == case.rows {
            report(&[])
        } else {
            case.rows = score;
            let after = rendered(&case)?;
            let answer = demand_3(&case.setup(), &case.rows, &before, &after, change);
            before = after;
            answer
        };
        lines += &format!("{} {} {}\n", changes::name(change), change.position(), report_numbers(answer));
    }
    if !entry.calls.is_empty() {
        lines += &format!("take {}\n", check_numbers(&before));
    }
    Some(lines)
}

/// An edit of one word, now and then one that the next row's state hardly sees.
fn edit(random: &mut Random, case: &Case) -> Change {
    let k = random.below(case.count());
    let mut row: [u32; ROW_WORDS] = std::array::from_fn(|i| case.rows[k * ROW_WORDS + i]);
    let name = random.below(ROW_WORDS);
    let beside = row[name].wrapping_sub(1);
    row[name] = if random.once_in(3) && within(name, beside) { beside } else { cases::row(random)[name] };
    Change::Edit(k as u64, row)
}

/// An insertion or a removal, often at an end. A row put in is often a copy of the one before it, and the
/// second of two equal rows that restart is often taken out: there the same state stands before the next.
fn splice(random: &mut Random, rows: &[u32]) -> Change {
    let count = rows.len() / ROW_WORDS;
    let row = |k: usize| std::array::from_fn(|i| rows[k * ROW_WORDS + i]);
    let place = |random: &mut Random, places: usize| match random.below(4) {
        0 => 0,
        1 => places - 1,
        _ => random.below(places),
    };
    if count == 1 || count < MOST_ROWS && random.once_in(2) {
        let at = place(random, count + 1);
        let starts: Vec<usize> = (0..count).filter(|k| restarts(rows, *k)).collect();
        match random.below(3) {
            0 if !starts.is_empty() => {
                let k = random.pick(&starts);
                Change::Insert(k as u64 + 1, row(k))
            }
            1 if at > 0 => Change::Insert(at as u64, row(at - 1)),
            _ => Change::Insert(at as u64, cases::row(random)),
        }
    } else {
        let twins: Vec<usize> = (1..count).filter(|k| restarts(rows, *k) && row(*k) == row(*k - 1)).collect();
        let at = if twins.is_empty() || random.once_in(4) { place(random, count) } else { random.pick(&twins) };
        Change::Remove(at as u64)
    }
}

/// An entry's edits in their order, with insertions and removals between them as far as there is room
/// for calls. Where rows were taken out before it, an edit may come to the last row.
fn spliced(random: &mut Random, entry: &Entry) -> Vec<Change> {
    let mut rows = entry.case.rows.clone();
    let mut edits = entry.calls.iter();
    let mut splices = random.below(MOST_CALLS - edits.len() + 1);
    let mut calls = Vec::new();
    while edits.len() + splices > 0 {
        let change = if random.below(edits.len() + splices) < splices {
            splices -= 1;
            splice(random, &rows)
        } else {
            let last = rows.len() / ROW_WORDS - 1;
            match edits.next() {
                Some(Change::Edit(k, row)) => Change::Edit((*k).min(last as u64), *row),
                _ => unreachable!(),
            }
        };
        rows = change.of(&rows);
        calls.push(change);
    }
    calls
}

fn entry(random: &mut Random, instrument: u32, rows: Rows) -> Entry {
    let frames = cases::frames(random);
    let count = 1 + random.below(MOST_ROWS.min(MOST_SAMPLES / frames as usize));
    let seed = random.word();
    let (bank, map) = tables(seed, instrument == 2);
    let case = Case { instrument, rate: cases::rate(random), frames, bank, map, rows: rows(random, count) };
    let calls = (0..random.below(MOST_CALLS + 1)).map(|_| edit(random, &case)).collect();
    Entry { case, seed, calls }
}

/// The score of 54 rows whose last holds z.
fn climbing() -> Entry {
    let (bank, map) = tables(1, false);
    let rows = (0..54).flat_map(|_| [0x42f0_0000, 0, 0, 0x3f80_0000, 0]).collect();
    let case = Case { instrument: 0, rate: 48_000, frames: 128, bank, map, rows };
    Entry { case, seed: 1, calls: vec![Change::Edit(53, [0x42f0_0000, 0, 0x3f80_0000, 0x3f80_0000, 0])] }
}

/// The two rows of 52 frames of which the second holds the oscillator's waveform, and a third in which it stays.
fn brightest() -> Entry {
    let (bank, map) = tables(2, false);
    let row = |timbre| [0x4270_0000, timbre, 0, 0, 0];
    let rows = [0x3f05_0000, 0x3f80_0000, 0x3f80_0000].map(row).concat();
    let case = Case { instrument: 3, rate: 48_000, frames: 52, bank, map, rows };
    let calls = vec![Change::Edit(2, row(0x3f00_0000)), Change::Edit(1, [0x4270_0000, 0x3f80_0000, 0x3f80_0000, 0, 0])];
    Entry { case, seed: 2, calls }
}

/// The smallest scores past the edges of map and bank. Their last row, which holds, gets a little less harmonics, is
/// put in again behind that, and the first of the two is taken out: edit and removal hold, since the path before is the same.
fn past_edges() -> impl Iterator<Item = Entry> {
    edges::smallest().into_iter().zip(3..).map(|(score, seed)| {
        let edges::EdgeScore { instrument, frames, rows, .. } = score;
        let (bank, map) = tables(seed, instrument == 2);
        let last = rows.len() / ROW_WORDS - 1;
        let row: [u32; ROW_WORDS] = std::array::from_fn(|i| rows[last * ROW_WORDS + i]);
        let [note, timbre, morph, harmonics, restart] = row;
        let less = [note, timbre, morph, harmonics - 0x000d_0000, restart];
        let last = last as u64;
        let calls = vec![Change::Edit(last, less), Change::Insert(last + 1, row), Change::Remove(last)];
        Entry { case: Case { instrument, rate: 32_000, frames, bank, map, rows }, seed, calls }
    })
}

/// The first random entry with edits alone that `rendered` has an answer to.
fn answered(random: &mut Random, instrument: u32, rows: Rows, rendered: Rendered) -> Entry {
    loop {
        let entry = entry(random, instrument, rows);
        if printed(&entry, rendered).is_some() {
            return entry;
        }
    }
}

/// An entry with insertions and removals between its edits, such that `rendered` has an answer, and its lines.
fn finished(random: &mut Random, entry: Entry, rendered: Rendered) -> (Entry, String) {
    loop {
        let calls = spliced(random, &entry);
        let entry = Entry { case: entry.case.clone(), seed: entry.seed, calls };
        if let Some(lines) = printed(&entry, rendered) {
            return (entry, lines);
        }
    }
}

/// The scores of an entry, the first and the one after each call.
fn scores(entry: &Entry) -> Vec<Vec<u32>> {
    let mut scores = vec![entry.case.rows.clone()];
    for change in &entry.calls {
        scores.push(change.of(&scores[scores.len() - 1]));
    }
    scores
}

/// Is there room for each score, and is every row within its limits?
fn accepted(entry: &Entry) -> bool {
    scores(entry).iter().all(|score| {
        let count = score.len() / ROW_WORDS;
        let room = count <= MOST_ROWS && count * entry.case.frames as usize <= MOST_SAMPLES;
        room && score.chunks(ROW_WORDS).all(row_within)
    })
}

/// What each call of an entry stopped at.
fn stops(entry: &Entry, lines: &str) -> Vec<String> {
    let scores = scores(entry);
    let stop = |((change, score), line): ((&Change, &Vec<u32>), &str)| {
        let rows = line.split(' ').nth(2).and_then(|rows| rows.parse().ok()).expect("the rows rendered");
        format!("{}, stopped at {}", changes::name(change), changes::stop(change, score, rows))
    };
    entry.calls.iter().zip(&scores[1..]).zip(lines.lines().skip(1)).map(stop).collect()
}

fn words(entry: &Entry) -> Vec<u32> {
    let case = &entry.case;
    let mut words =
        vec![case.instrument, case.rate, case.frames, entry.seed, case.count() as u32, entry.calls.len() as u32];
    words.extend(&case.rows);
    for change in &entry.calls {
        let (kind, row) = match change {
            Change::Edit(_, row) => (0, *row),
            Change::Insert(_, row) => (1, *row),
            Change::Remove(_) => (2, [0; ROW_WORDS]),
        };
        words.extend([kind, change.position() as u32]);
        words.extend(row);
    }
    words
}

fn main() {
    let folder = std::env::args().nth(1).expect("the folder to write to");
    original::silence_panics();
    let mut random = Random::new(1);
    let mut entries: Vec<(Entry, Rendered)> = Vec::new();
    for instrument in 0..3 {
        for _ in 0..PER_INSTRUMENT {
            entries.push((answered(&mut random, instrument, cases::rows, by_original), by_original));
        }
    }
    entries.push((climbing(), by_either));
    for at in 1..HOLDING {
        entries.push((answered(&mut random, 1 + (at as u32) % 2, cases::rows, by_model), by_either));
    }
    for _ in 0..PER_INSTRUMENT {
        entries.push((answered(&mut random, 3, cases::rows, by_original), by_original));
    }
    entries.push((brightest(), by_either));
    for _ in 1..HOLDING_OSCILLATOR {
        entries.push((answered(&mut random, 3, cases::brightening_rows, by_model), by_either));
    }
    let mut random = Random::new(2);
    let mut answers: Vec<_> =
        entries.into_iter().map(|(entry, rendered)| finished(&mut random, entry, rendered)).collect();
    for entry in past_edges() {
        let lines = printed(&entry, by_either).expect("the model has an answer");
        answers.push((entry, lines));
    }

    let mut words_of_list = vec![answers.len() as u32];
    let mut stdout = String::new();
    let mut tally: BTreeMap<String, usize> = BTreeMap::new();
    for (entry, lines) in answers {
        assert!(accepted(&entry), "every call is accepted");
        words_of_list.extend(words(&entry));
        stops(&entry, &lines).into_iter().for_each(|stop| *tally.entry(stop).or_default() += 1);
        stdout += &lines;
    }
    let folder = Path::new(&folder);
    let bytes: Vec<u8> = words_of_list.iter().flat_map(|w| w.to_le_bytes()).collect();
    assert!(bytes.len() <= MOST_BYTES, "the program reads the whole list");
    fs::write(folder.join("stdin"), &bytes).expect("the scores are written to stdin");
    fs::write(folder.join("stdout"), &stdout).expect("the answers are written to stdout");
    println!("{} scores, {} bytes of scores, {} lines to print", words_of_list[0], bytes.len(), stdout.lines().count());
    for (stop, n) in tally {
        println!("{n:>6}  {stop}");
    }
}
