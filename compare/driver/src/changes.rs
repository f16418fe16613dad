//! How changes of a score are named, and what an accepted one stopped at.

use model::ROW_WORDS;
use model::take::{Change, restarts};

pub fn name(change: &Change) -> &'static str {
    match change {
        Change::Edit(..) => "edit",
        Change::Insert(..) => "insert",
        Change::Remove(_) => "remove",
    }
}

/// What a change that rendered so many rows stopped at, in the score after it.
pub fn stop(change: &Change, score: &[u32], rows: u64) -> &'static str {
    let end = (change.position() + rows) as usize;
    match change {
        Change::Edit(..) if rows == 0 => "the same words",
        _ if end * ROW_WORDS == score.len() => "the end",
        _ if restarts(score, end) => "a restart",
        _ => "the same state",
    }
}
