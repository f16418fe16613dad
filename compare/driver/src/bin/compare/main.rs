//! Holds the model to the original, and the library to both.
//!
//!     compare [SCALE [SEED]]
//!
//! SCALE 1 is the quick run; 100 does a hundred times as much. SEED picks other inputs. The first
//! difference is printed with its input and ends the run. A run whose random inputs never met some kind of
//! hold fails too.

mod calls;
mod facts;
mod holds;
mod readings;
mod tally;
mod texts;
mod voices;
mod writer;

use std::path::Path;
use std::process::exit;

use driver::cases::Case;
use driver::original;
use driver::random::Random;

use calls::{at_limits, junk_lists, library_is_fresh, lists, rendering};
use readings::readings_are_original;
use tally::Tally;
use texts::{programs, texts};
use voices::{model_is_original, model_is_original_on_any_state};
use writer::{orders, random_lent, round_trips, writing};

fn main() {
    let mut arguments = std::env::args().skip(1).map(|a| a.parse::<u64>().expect("SCALE and SEED are numbers"));
    let scale = arguments.next().unwrap_or(1);
    let seed = arguments.next().unwrap_or(1);
    original::silence_panics();
    let published = original::published_bank();
    let mut random = Random::new(seed);
    let random = &mut random;
    let mut tally = Tally::default();

    facts::facts(&published, random, &mut tally);
    let known = tally.clone();
    for _ in 0..1500 * scale {
        let make = if random.once_in(8) { Case::leaving } else { Case::random };
        let case = make(random, &published, 90);
        let fresh = model_is_original(&case, &mut tally);
        library_is_fresh(&case, &fresh, case.lent(random, 0), &mut tally);
    }
    for _ in 0..20_000 * scale {
        let case = Case::random(random, &published, 1);
        model_is_original_on_any_state(&case, random, &mut tally);
    }
    for _ in 0..10_000 * scale {
        readings_are_original(&published, random, &mut tally);
    }
    for _ in 0..1000 * scale {
        let case = Case::random(random, &published, 60);
        rendering(&case, case.lent(random, 0), &mut tally);
        lists(Case::random(random, &published, 20), random, &mut tally);
        lists(Case::whole_periods(random, &published, 60), random, &mut tally);
        lists(Case::leaving(random, &published, 20), random, &mut tally);
        junk_lists(Case::random(random, &published, 20), random, &mut tally);
        for _ in 0..4 {
            let case = Case::random(random, &published, 6);
            let spare = random.below(2);
            let lent = case.lent(random, spare);
            at_limits(case, lent, random, &mut tally);
        }
        for _ in 0..10 {
            texts(random, &mut tally);
            writing(&random_lent(random), &mut tally);
        }
    }
    for _ in 0..10 * scale {
        for columns in orders() {
            round_trips(columns, random, &mut tally);
        }
    }
    let program = std::env::var("RETAKE_PROGRAM").unwrap_or_default();
    if Path::new(&program).exists() {
        for _ in 0..200 * scale {
            programs(&program, random, &published, &mut tally);
        }
    }

    let missed = holds::missed(&known, &tally);
    if !missed.is_empty() {
        println!("NOT REACHED:\n{}", missed.join("\n"));
        exit(1);
    }
    println!("equal, scale {scale}, seed {seed}:");
    for (name, n) in &tally.0 {
        println!("{n:>14}  {name}");
    }
}
