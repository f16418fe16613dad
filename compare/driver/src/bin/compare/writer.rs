//! The library's writer beside the model's, and texts that the library reads and writes again.

use std::fmt;

use driver::cases;
use driver::library;
use driver::random::Random;
use model::score::{self, NAMES, text_length, tidy_text, within};
use model::{Answer, ROW_WORDS, ROWS};

use crate::tally::{Tally, fail, same, same_start};
use crate::texts::random_rows;

/// What the writer is lent.
pub struct Lent {
    pub rows: Vec<u32>,
    pub count: u64,
    pub text: Vec<u8>,
}

impl fmt::Display for Lent {
    fn fmt(&self, f: &mut fmt::Formatter) -> fmt::Result {
        writeln!(f, "{} rows of {} row words in {} bytes", self.count, self.rows.len(), self.text.len())?;
        f.write_str(&tidy_text(&self.rows))
    }
}

/// The library's writer into a lent text, beside the model's: its answer, and the text after it.
pub fn writing(lent: &Lent, tally: &mut Tally) -> (Answer, Vec<u8>) {
    let (mut found, mut expected) = (lent.text.clone(), lent.text.clone());
    let answer = score::write_score(&lent.rows, lent.count, &mut expected);
    same("answer of the writer", lent, library::write_score(&lent.rows, lent.count, &mut found), answer);
    same_start("text that was written", lent, &found, &expected);
    match answer {
        Answer::Done(bytes, _) => {
            tally.add("writer: accepted", 1);
            tally.add("writer: bytes", bytes);
        }
        Answer::Refused(number, _) => tally.add(format!("writer: refused by {number:2}"), 1),
        Answer::Rendered(..) => unreachable!(),
    }
    (answer, found)
}

/// Row words, a count and a text full of random bytes, often beside what they should be.
pub fn random_lent(random: &mut Random) -> Lent {
    let mut rows = random_rows(random);
    let standing = (rows.len() / ROW_WORDS) as u64;
    let count = match random.below(16) {
        0 => random.pick(&[0, (1 << 32) + standing, u64::MAX / 5 + 2, u64::MAX]),
        1 => standing + 1,
        2 | 3 => random.below(standing as usize + 1) as u64,
        _ => standing,
    };
    match random.below(8) {
        0 => drop(rows.pop()),
        1 | 2 => rows.extend((0..1 + random.below(12)).map(|_| cases::junk_word(random))),
        _ => (),
    }
    let exact = text_length(count.min(1 + ROWS as u64) as usize);
    let shorter = random.below(exact);
    let length = random.pick(&[0, shorter, exact - 1, exact, exact, exact + 1, exact + 100]);
    Lent { rows, count, text: (0..length).map(|_| random.word() as u8).collect() }
}

/// All orders of the five names.
pub fn orders() -> impl Iterator<Item = [usize; ROW_WORDS]> {
    let each_once = |columns: &[usize; ROW_WORDS]| (0..ROW_WORDS).all(|name| columns.contains(&name));
    let places = [1, 5, 25, 125, 625];
    (0..3_125).map(move |n| places.map(|place| n / place % ROW_WORDS)).filter(each_once)
}

/// Two different words within the limit of a name, often the two zeros.
fn two_words(random: &mut Random, name: usize) -> [u32; 2] {
    loop {
        let zeros = random.once_in(2);
        let [one, other] = if zeros { [0, 0x8000_0000] } else { [(); 2].map(|()| cases::row(random)[name]) };
        if one != other && within(name, one) && within(name, other) {
            return [one, other];
        }
    }
}

/// The texts of rows with the columns in this order: letters of lower, upper and mixed case.
fn texts(random: &mut Random, columns: [usize; ROW_WORDS], rows: &[u32]) -> [Vec<u8>; 3] {
    let mut either = |c: char| if random.once_in(2) { c.to_ascii_uppercase() } else { c };
    [
        cases::text_with(NAMES, columns, rows, |line| line),
        cases::text_with(NAMES, columns, rows, |line| line.to_uppercase()),
        cases::text_with(NAMES, columns, rows, |line| line.chars().map(&mut either).collect()),
    ]
}

/// The rows of a text and the text written of them, by the library, in buffers just long enough.
fn tidied(text: &[u8], count: usize) -> (Vec<u32>, Vec<u8>) {
    let (mut rows, mut tidy) = (vec![7; count * ROW_WORDS], vec![7; text.len()]);
    let input = text.escape_ascii();
    let answers = [library::read_score(text, &mut rows), library::write_score(&rows, count as u64, &mut tidy)];
    let expected = [count, text_length(count)].map(|n| Answer::Done(n as u64, 0));
    same("answers of the reader and then the writer", &input, answers, expected);
    (rows, tidy)
}

/// Texts of the same rows are read as those rows and become one text, the tidy one, which comes back as it
/// is. A text of rows that differ in one word becomes another.
pub fn round_trips(columns: [usize; ROW_WORDS], random: &mut Random, tally: &mut Tally) {
    let count = 1 + random.below(12);
    let mut rows = cases::rows(random, count);
    let at = random.below(rows.len());
    let [word, other] = two_words(random, at % ROW_WORDS);
    rows[at] = other;
    let (_, different) = tidied(&cases::text(random, NAMES, &rows), count);
    rows[at] = word;
    let tidy = tidy_text(&rows).into_bytes();
    for text in texts(random, columns, &rows).iter().chain([&tidy]) {
        let (read, written) = tidied(text, count);
        same_start("rows that were read", &text.escape_ascii(), &read, &rows);
        same_start("text that was written again", &text.escape_ascii(), &written, &tidy);
        tally.add("round trips: texts that became tidy", 1);
    }
    if tidy == different {
        fail(&format!("{word:08x} and {other:08x} became one text"), &tidy.escape_ascii());
    }
    let kind = if word ^ other == 0x8000_0000 { "the sign of a zero" } else { "a word" };
    tally.add(format!("round trips: texts that differ in {kind}, and stayed different"), 1);
}
