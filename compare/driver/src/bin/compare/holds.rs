//! Kinds of holds: how often calls met each, and how the numbers of an answer go together.

use driver::cases::Case;
use model::take::{Row, report};
use model::voice::Holds;
use model::{Answer, Counts, KINDS};

use crate::tally::{Tally, fail};

/// The kinds in the order of the counts, and what a frame or a block may hold besides.
const NAMES: [&str; KINDS] = ["phase", "wave position", "level", "map", "bank"];
const SEVERAL: &str = "several kinds in one frame";
const X_AND_Y: &str = "x and y in one frame";
const MAP_AND_BANK: &str = "map and bank in one block";

/// What is read, and what may be past its reach there. The last name is for readings, of any of these three, that start
/// elsewhere than if flat itself were held.
const TABLES: [&str; 4] = ["map", "bank 0", "bank 1", "bank 2"];
const PAST: [&str; 4] = ["x alone", "y alone", "x and y", "elsewhere"];

/// What each instrument holds in some fresh rendering, and what in some edit, insertion and removal.
const REACHED: [(&[&str], &[&str]); 4] = [
    (&["level"], &["phase", "wave position", "level", SEVERAL, X_AND_Y]),
    (&["bank"], &["bank"]),
    (&["map", "bank"], &["map", "bank", MAP_AND_BANK]),
    (&["wave position"], &["phase", "wave position", SEVERAL]),
];

/// The edges that random fresh renderings have to go past, before and after a list of calls, by instrument.
const FRESH_EDGES: [(usize, &str); 4] =
    [(1, "bank 2, x alone"), (2, "bank 2, x alone"), (2, "map, y alone"), (2, "map, elsewhere")];

fn name(call: &str, instrument: usize, kind: &str) -> String {
    format!("{call}: held on instrument {instrument}, {kind}")
}

/// The name of the model's held readings that the original judged.
pub fn judged(edge: &str) -> String {
    format!("reading: held as the original reads at the edge, {edge}")
}

fn all_edges(tables: &[&str]) -> Vec<String> {
    tables.iter().flat_map(|table| PAST.map(|past| format!("{table}, {past}"))).collect()
}

/// The holds that random inputs have not met since a tally stood so: the comparison says nothing of them.
pub fn missed(since: &Tally, tally: &Tally) -> Vec<String> {
    let mut names = Vec::new();
    for (instrument, (fresh, changed)) in REACHED.into_iter().enumerate() {
        for (call, kinds) in [("fresh", fresh), ("edit", changed), ("insert", changed), ("remove", changed)] {
            names.extend(kinds.iter().map(|kind| name(call, instrument, kind)));
        }
    }
    for calls in ["fresh", "lists"] {
        names.extend(FRESH_EDGES.iter().map(|(instrument, edge)| name(calls, *instrument, edge)));
    }
    names.extend(all_edges(&TABLES[1..]).iter().map(|edge| name("changes", 1, edge)));
    names.extend(all_edges(&TABLES).iter().map(|edge| name("changes", 2, edge)));
    names.extend(all_edges(&TABLES).iter().map(|edge| judged(edge)));
    names.retain(|name| tally.0.get(name) == since.0.get(name));
    names
}

/// What rows hold together.
fn of_rows(rows: &[Row]) -> Holds {
    let mut holds = Holds::default();
    rows.iter().for_each(|row| holds.add(&row.block.holds));
    holds
}

/// Adds what the rows of an accepted call held.
pub fn add(call: &str, case: &Case, rows: &[Row], tally: &mut Tally) {
    let Answer::Rendered(_, held, counts) = report(rows) else { unreachable!() };
    let holds = of_rows(rows);
    let both = rows.iter().filter(|row| row.block.counts.map > 0 && row.block.counts.bank > 0).count() as u64;
    tally.add(format!("{call}: held"), held);
    let besides = [(SEVERAL, holds.several), (X_AND_Y, holds.x_and_y), (MAP_AND_BANK, both)];
    for (kind, n) in NAMES.into_iter().zip(counts.numbers()).chain(besides).filter(|(_, n)| *n > 0) {
        tally.add(name(call, case.instrument as usize, kind), n);
    }
}

/// Adds where the held readings of rows were past the edges of map and banks.
pub fn add_edges(calls: &str, case: &Case, rows: &[Row], tally: &mut Tally) {
    let holds = of_rows(rows);
    for (edge, n) in edges(&holds) {
        tally.add(name(calls, case.instrument as usize, &edge), n);
    }
}

/// The held readings by table and by what was past its reach, as far as there are any.
pub fn edges(holds: &Holds) -> Vec<(String, u64)> {
    let [first, second, third] = holds.banks;
    let mut edges = Vec::new();
    for (table, edge) in TABLES.into_iter().zip([holds.map, first, second, third]) {
        let held = PAST.into_iter().zip([edge.x, edge.y, edge.x_and_y, edge.elsewhere]);
        edges.extend(held.filter(|(_, n)| *n > 0).map(|(past, n)| (format!("{table}, {past}"), n)));
    }
    edges
}

/// The six numbers of any answer go together. A frame of instruments 0 and 3 counts once in `held` and in each
/// of its kinds, of which it may have several; each of the four readings in a frame of 1 and 2 has one or none.
pub fn go_together(what: &str, case: &Case, answer: Answer) {
    let Answer::Rendered(rows, held, counts) = answer else { return };
    let Counts { phase, wave_position, level, map, bank } = counts;
    let kinds = [phase, wave_position, level];
    let frames = rows * u64::from(case.frames);
    let of_frames = held <= kinds.iter().sum() && kinds.iter().all(|n| *n <= held) && held <= frames;
    let of_readings = held == map + bank && held <= 4 * frames;
    let right = match case.instrument {
        0 => of_frames && map + bank == 0,
        1 => of_readings && kinds == [0; 3] && map == 0,
        2 => of_readings && kinds == [0; 3],
        _ => of_frames && level + map + bank == 0,
    };
    if !right {
        fail(&format!("{what}: {answer:?} doesn't go together"), case);
    }
}
