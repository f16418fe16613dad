//! The library's reader and the program beside the model's, on good and damaged texts.

use std::process::{Command, exit};

use driver::cases;
use driver::library;
use driver::random::Random;
use model::score::{self, NAMES};
use model::{Answer, ROW_WORDS, program};

use crate::tally::{Tally, same, same_start};

/// Rows of a text: none, a few, as many as a score may have or one more, now and then with a bad word.
pub fn random_rows(random: &mut Random) -> Vec<u32> {
    let count = match random.below(60) {
        0 => 4_096,
        1 => 4_097,
        2 => 0,
        _ => random.below(12),
    };
    let mut rows = cases::rows(random, count);
    if random.once_in(4) && !rows.is_empty() {
        let at = random.below(rows.len());
        rows[at] = cases::junk_word(random);
    }
    rows
}

/// A text for the reader: good, with a bad word, or damaged.
fn random_text(random: &mut Random) -> Vec<u8> {
    let rows = random_rows(random);
    let mut text = cases::text(random, NAMES, &rows);
    if random.once_in(2) {
        for _ in 0..1 + random.below(2) {
            cases::damage(random, &mut text);
        }
    }
    text
}

pub fn texts(random: &mut Random, tally: &mut Tally) {
    let text = random_text(random);
    let lines = text.iter().filter(|b| **b == b'\n').count();
    let exact = ROW_WORDS * lines.saturating_sub(1);
    let space = random.pick(&[0, exact.saturating_sub(1), exact, exact, exact + 7]);
    let mut expected: Vec<u32> = (0..space).map(|_| random.word()).collect();
    let mut found = expected.clone();
    let answer = score::read_score(&text, &mut expected);
    let read = library::read_score(&text, &mut found);
    same("answer of the reader", &text.escape_ascii(), read, answer);
    same_start("rows that were read", &text.escape_ascii(), &found, &expected);
    match answer {
        Answer::Refused(number, _) => tally.add(format!("reader: refused by {number:2}"), 1),
        _ => tally.add("reader: accepted", 1),
    }
}

/// Random files for the program: score, edits, bank.
fn random_files(random: &mut Random, published: &[i16]) -> [(&'static str, Option<Vec<u8>>); 3] {
    let mut score = random_text(random);
    if random.once_in(2) {
        let count = random.pick(&[5, 20, 127, 128, 129, 181, 182]);
        let rows = cases::rows(random, count);
        score = cases::text(random, NAMES, &rows);
    }
    let mut edits: Vec<u32> = Vec::new();
    for _ in 0..random.pick(&[0, 1, 3, 8, 32, 33]) {
        edits.extend(cases::row(random));
        edits.push(if random.once_in(20) { u32::MAX } else { random.below(14) as u32 });
    }
    if random.once_in(4) && !edits.is_empty() {
        let at = random.below(edits.len());
        edits[at] = cases::junk_word(random);
    }
    let mut edits = cases::text(random, ["note", "timbre", "morph", "harmonics", "restart", "row"], &edits);
    if random.once_in(4) {
        cases::damage(random, &mut edits);
    }
    let mut bank: Vec<u8> = cases::bank(random, published).iter().flat_map(|s| s.to_le_bytes()).collect();
    if random.once_in(8) {
        bank.resize(random.pick(&[0, 50_687, 50_689, 53_248, 65_536]), 0);
    }
    [("score.txt", score), ("edits.txt", edits), ("bank.bin", bank)]
        .map(|(name, bytes)| (name, if random.once_in(30) { None } else { Some(bytes) }))
}

/// The program on random files, some of them missing.
pub fn programs(binary: &str, random: &mut Random, published: &[i16], tally: &mut Tally) {
    let files = random_files(random, published);
    let folder = std::env::temp_dir().join(format!("retake-{}", std::process::id()));
    std::fs::create_dir_all(&folder).expect("a folder to run in");
    for (name, bytes) in &files {
        if let Some(bytes) = bytes {
            std::fs::write(folder.join(name), bytes).expect("a file to write");
        }
    }
    let output = Command::new(binary).current_dir(&folder).output().expect("the program runs");
    let file = |name: &str| std::fs::read(folder.join(name)).ok();
    let samples = file("out.f32").zip(file("aux.f32"));
    let found = program::Run { printed: output.stdout, samples };
    let [score, edits, bank] = files.map(|(_, bytes)| bytes.unwrap_or_default());
    let expected = program::run(&score, &edits, &bank);
    if found != expected {
        println!("DIFFERENT: the program, on the files in {}; expected", folder.display());
        println!("{}", String::from_utf8_lossy(&expected.printed));
        exit(1);
    }
    std::fs::remove_dir_all(&folder).expect("the folder goes");
    let refused = expected.samples.is_none();
    tally.add(if refused { "program: runs that refuse a file" } else { "program: runs that write samples" }, 1);
}
