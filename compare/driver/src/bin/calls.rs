//! Prints what the program `c_calls` must print, each of its calls answered by the model:
//!
//!     calls > crates/c_calls/stdout

use driver::changes;
use model::score::{read_score, write_score};
use model::take::{Change, change, render};
use model::{Answer, BANK, KEPT_WORDS, KINDS, MAP, ROW_WORDS, Setup, Take};

const FRAMES: u32 = 4;
const SCORE: &str = "harmonics restart note morph timbre\n\
                     3f19999a 00000000 42700000 3dcccccd 3e99999a\n\
                     3e19999a 00000001 42400000 3f4ccccd 3f59999a\n\
                     3ecccccd 00000000 427c0000 3e4ccccd 3f266666\n";
const BEYOND: &str = "note timbre morph harmonics restart\n\
                      42700000 00000000 3f000000 3f800000 00000000\n\
                      42700000 00000000 3f000000 3f800000 00000002\n";

/// The row that is put in.
const PUT_IN: [u32; ROW_WORDS] = [0x4230_0000, 0x3e80_0000, 0x3f20_0000, 0x3f60_0000, 0];

/// The row that holds positions from the states below, which no rendering leaves.
const HOLDING: [u32; ROW_WORDS] = [0x4248_0000, 0x3f00_0000, 0x3f40_0000, 0x3f80_0000, 0];
/// With the row behind it: phase in 2 frames, x in 1, y in 3, z in 6, any of them in 7.
const WAVETABLE: [u32; KEPT_WORDS] = [
    0x4060_0000,
    0x4000_0000,
    0x4040_0000,
    0x3f80_0000,
    0x4104_0000,
    0x4108_0000,
    0x4000_0000,
    0x3f80_0000,
    0x4000_0000,
    0x4334_0000,
    0x3c00_0000,
    0x447a_0000,
    0x44fa_0000,
];
/// The map in 2 readings, the bank in 10.
const TERRAIN: [u32; KEPT_WORDS] =
    [0x3f80_0000, 0, 0x3d00_0000, 0x3f00_0000, 0x461c_4000, 0x40c0_0000, 0, 0, 0, 0, 0, 0, 0];
/// With the row behind it: phase in 5 frames, the waveform in 3 of these.
const OSCILLATOR: [u32; KEPT_WORDS] =
    [0x40d0_0000, 0x3a80_0000, 0x3c00_0000, 0x4348_0000, 0x42c8_0000, 0x4348_0000, 0x4396_0000, 0, 0, 0, 0, 0, 0];

/// The number that a C function returns, what it writes to `first` and `second`, and the counts that it writes.
fn print_values(call: &str, answer: Answer, counts: &[u64]) {
    let counts: String = counts.iter().map(|n| format!(" {n}")).collect();
    match answer {
        Answer::Done(first, second) | Answer::Rendered(first, second, _) => {
            println!("{call} 0 {first} {second}{counts}")
        }
        Answer::Refused(number, place) => println!("{call} {number} {place} 0{counts}"),
    }
}

/// The same of a call over a take.
fn print_report(call: &str, answer: Answer) {
    let counts = if let Answer::Rendered(_, _, counts) = answer { counts.numbers() } else { [0; KINDS] };
    print_values(call, answer, &counts);
}

fn print_words(name: &str, words: &[u32]) {
    let words: String = words.iter().map(|word| format!(" {word}")).collect();
    println!("{name}{words}");
}

/// A writing, and every lent byte as it is.
fn print_writing(rows: &[u32], count: u64, text: &mut [u8]) {
    print_values("write", write_score(rows, count, text), &[]);
    println!("text\n{}", String::from_utf8_lossy(text));
}

fn print_take(take: &Take) {
    print_words("out", &take.out);
    print_words("aux", &take.aux);
    print_words("kept", &take.kept);
}

/// The score of three rows written into a text that is longer by four bytes; a fourth row outside its limits; a text that
/// is shorter by one byte.
fn write(rows: &[u32]) {
    let mut text = [b'.'; 175];
    print_writing(rows, 3, &mut text);
    print_writing(rows, 4, &mut text);
    print_writing(rows, 3, &mut [b'.'; 170]);
}

/// A change of a score of so many rows, and every lent word after it.
fn print_change(setup: &Setup, rows: &mut [u32], count: u64, call: Change, take: &mut Take) {
    print_report(changes::name(&call), change(setup, rows, count, &call, take));
    print_words("rows", rows);
    print_take(take);
}

/// The score of three rows rendered and then changed, in buffers with room for a fourth: an accepted edit, one past the
/// end, one outside a limit; an accepted insertion, and one with no room left; an accepted removal, and one past the end;
/// last an edit of row 1 with other words kept after row 0, which holds positions.
fn play(setup: &Setup, lent: &[u32], row: [u32; ROW_WORDS], kept: [u32; KEPT_WORDS]) {
    let mut rows = lent.to_vec();
    let mut take = Take { out: vec![1; 16], aux: vec![2; 16], kept: vec![3; 52] };
    print_report("render", render(setup, &rows, 3, &mut take));
    print_take(&take);
    let mut loud = row;
    loud[3] = 0x3f80_0001;
    for (count, call) in [
        (3, Change::Edit(1, row)),
        (3, Change::Edit(5, row)),
        (3, Change::Edit(2, loud)),
        (3, Change::Insert(1, PUT_IN)),
        (4, Change::Insert(2, PUT_IN)),
        (4, Change::Remove(0)),
        (3, Change::Remove(3)),
    ] {
        print_change(setup, &mut rows, count, call, &mut take);
    }
    take.kept[..KEPT_WORDS].copy_from_slice(&kept);
    print_change(setup, &mut rows, 3, Change::Edit(1, HOLDING), &mut take);
}

fn main() {
    let mut rows = vec![u32::MAX; 20];
    for text in [SCORE, BEYOND] {
        print_values("read", read_score(text.as_bytes(), &mut rows), &[]);
        print_words("rows", &rows);
    }
    write(&rows);
    let bank: Vec<i16> = (0..BANK).map(|i| (i * 7919 % 32749) as i16).collect();
    let map = vec![90; MAP];
    let wavetable = Setup { instrument: 0, rate: 48_000, frames: FRAMES, bank: &bank, map: &[] };
    play(&wavetable, &rows, [0x4260_0000, 0x3f40_0000, 0x3e80_0000, 0x3f00_0000, 1], WAVETABLE);
    let terrain = Setup { instrument: 2, rate: 44_100, frames: FRAMES, bank: &bank, map: &map };
    play(&terrain, &rows, [0x4250_0000, 0x3f10_0000, 0x3ec0_0000, 0x3f70_0000, 0], TERRAIN);
    let oscillator = Setup { instrument: 3, rate: 96_000, frames: FRAMES, bank: &bank, map: &[] };
    play(&oscillator, &rows, [0x4220_0000, 0x3e20_0000, 0x3f30_0000, 0x3ea0_0000, 0], OSCILLATOR);
}
