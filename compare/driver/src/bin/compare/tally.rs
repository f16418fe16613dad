//! What was compared, and how a difference is shown.

use std::collections::BTreeMap;
use std::fmt::{Debug, Display, LowerHex};
use std::process::exit;

/// How much was compared, by name.
#[derive(Clone, Default)]
pub struct Tally(pub BTreeMap<String, u64>);

impl Tally {
    pub fn add(&mut self, name: impl Into<String>, n: u64) {
        *self.0.entry(name.into()).or_default() += n;
    }
}

/// Prints a difference and its input, and ends the run.
pub fn fail(what: &str, input: &impl Display) -> ! {
    println!("DIFFERENT: {what}\n{input}");
    exit(1);
}

pub fn same<T: PartialEq + Debug>(what: &str, input: &impl Display, left: T, right: T) {
    if left != right {
        let (mut left, mut right) = (format!("{left:x?}"), format!("{right:x?}"));
        left.truncate(2000);
        right.truncate(2000);
        fail(&format!("{what}\n  {left}\n  {right}"), input);
    }
}

/// The expected words or bytes are those that the found ones begin with.
pub fn same_start<T: PartialEq + LowerHex>(what: &str, input: &impl Display, found: &[T], expected: &[T]) {
    if let Some(at) = (0..expected.len()).find(|i| found[*i] != expected[*i]) {
        fail(&format!("{what}[{at}] is {:02x}, expected {:02x}", found[at], expected[at]), input);
    }
}
