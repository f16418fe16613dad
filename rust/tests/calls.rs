//! The plain functions: each accepted and refused, on rendered and on junk takes.

mod common;

use std::ptr::{null, null_mut};

use common::{ROW, Series, bank, climbing, instruments, map, numbers, setup};
use wohketa_retake::{
    BANK, Column, Counts, Instrument, KEPT_WORDS, MAP, MOST_ROWS, Reason, Refusal, Report, Row, Setup, Take, edit,
    insert, read_score, remove, render, sys, text_length, write_score,
};

fn rows(count: usize) -> Vec<u32> {
    (0..count).flat_map(|i| Row { timbre: (i % 10) as f32 / 10.0, ..ROW }.words()).collect()
}

fn junk(rows: usize) -> Take {
    let mut take = Take::new(rows, 24);
    let mut series = Series(5);
    for word in take.out.iter_mut().chain(&mut take.aux).chain(&mut take.kept) {
        *word = series.below(u32::MAX);
    }
    take
}

fn refused<T: std::fmt::Debug>(result: Result<T, Refusal>) -> (Reason, u64) {
    let refusal = result.unwrap_err();
    (refusal.reason, refusal.place)
}

#[test]
fn a_rendering_writes_every_word_of_a_junk_take() {
    let (bank, map) = (bank(), map());
    for instrument in instruments(&map) {
        let setup = setup(instrument, &bank);
        let (mut take, mut zeros) = (junk(40), Take::new(40, 24));
        assert_eq!(render(&setup, &rows(40), 40, &mut take).unwrap().rows, 40);
        render(&setup, &rows(40), 40, &mut zeros).unwrap();
        assert_eq!(take, zeros);
    }
}

/// The words of the first line of a text that begins with this name.
fn words_of(text: &str, name: &str) -> Vec<u32> {
    let line = text.lines().find(|line| line.split(' ').next() == Some(name)).unwrap();
    line.split(' ').skip(1).map(|word| word.parse().unwrap()).collect()
}

/// The first take in a text.
fn take_of(text: &str) -> Take {
    Take { out: words_of(text, "out"), aux: words_of(text, "aux"), kept: words_of(text, "kept") }
}

/// What the program `c_calls` must print has the model's words for three renderings, each edited, with a row put in and one
/// taken out, and at last edited from kept words that no rendering leaves, so that positions are held.
#[test]
fn samples_kept_words_and_counts_are_the_models() {
    let answers = include_str!("../../crates/c_calls/stdout");
    let bank: Box<[i16; BANK]> = Box::new(std::array::from_fn(|i| (i * 7919 % 32749) as i16));
    let wavetable = Setup { instrument: Instrument::Wavetable, rate: 48_000, frames: 4, bank: &bank };
    let terrain = Setup { instrument: Instrument::TerrainWithMap(&[90; MAP]), rate: 44_100, ..wavetable };
    let oscillator = Setup { instrument: Instrument::Oscillator, rate: 96_000, ..wavetable };
    let rows = [
        Row { note: 56.0, timbre: 0.75, morph: 0.25, harmonics: 0.5, restart: true },
        Row { note: 52.0, timbre: 0.5625, morph: 0.375, harmonics: 0.9375, restart: false },
        Row { note: 40.0, timbre: 0.15625, morph: 0.6875, harmonics: 0.3125, restart: false },
    ];
    let put_in = Row { note: 44.0, timbre: 0.25, morph: 0.625, harmonics: 0.875, restart: false };
    let played: Vec<&str> = answers.split("\nrender ").skip(1).collect();
    assert_eq!(played.len(), rows.len());
    for ((setup, row), text) in [wavetable, terrain, oscillator].into_iter().zip(rows).zip(played) {
        let (rendered, edited) = text.split_once("\nedit ").unwrap();
        let (edited, inserted) = edited.split_once("\ninsert ").unwrap();
        let (inserted, removed) = inserted.split_once("\nremove ").unwrap();
        let mut score = words_of(answers, "rows");
        let mut take = Take { out: vec![1; 16], aux: vec![2; 16], kept: vec![3; 4 * KEPT_WORDS] };
        render(&setup, &score, 3, &mut take).unwrap();
        assert_eq!(take, take_of(rendered));
        edit(&setup, &mut score, 3, 1, row, &mut take).unwrap();
        assert_eq!((&score, &take), (&words_of(edited, "rows"), &take_of(edited)));
        insert(&setup, &mut score, 3, 1, put_in, &mut take).unwrap();
        assert_eq!((&score, &take), (&words_of(inserted, "rows"), &take_of(inserted)));
        remove(&setup, &mut score, 4, 0, &mut take).unwrap();
        assert_eq!((&score, &take), (&words_of(removed, "rows"), &take_of(removed)));

        let (_, held) = text.rsplit_once("\nedit ").unwrap();
        let (after, known) = (words_of(held, "rows"), take_of(held));
        take.kept[..KEPT_WORDS].copy_from_slice(&known.kept[..KEPT_WORDS]);
        let row = Row::from_words(after[5..10].try_into().unwrap()).unwrap();
        let report = edit(&setup, &mut score, 3, 1, row, &mut take).unwrap();
        assert_eq!((&score, &take), (&after, &known));
        let line = [&[0, report.rows as u64, report.held], &numbers(report.counts)[..]].concat();
        assert_eq!(held.lines().next().unwrap(), line.iter().map(u64::to_string).collect::<Vec<String>>().join(" "));
        assert!(report.held > 0);
    }
}

#[test]
fn each_instrument_plays_its_own_samples() {
    let (bank, map) = (bank(), map());
    let takes = instruments(&map).map(|instrument| {
        let mut take = Take::new(2, 24);
        let row = Row { harmonics: 1.0, ..ROW };
        render(&setup(instrument, &bank), &[row.words(), row.words()].concat(), 2, &mut take).unwrap();
        take
    });
    for (at, take) in takes.iter().enumerate() {
        assert!(takes[..at].iter().all(|other| other.out != take.out));
    }
    assert!(takes[1].kept[6..13].iter().all(|word| *word == 0));
    assert!(takes[3].kept[7..13].iter().all(|word| *word == 0));
    assert!(takes[3].aux.iter().all(|word| *word == 0));
}

#[test]
fn the_oscillator_hears_neither_morph_nor_harmonics() {
    let bank = bank();
    let setup = setup(Instrument::Oscillator, &bank);
    let (mut score, mut take) = (rows(5), junk(5));
    render(&setup, &score, 5, &mut take).unwrap();
    let before = take.clone();
    let other = Row { timbre: 0.2, morph: 1.0, harmonics: 0.0, ..ROW };
    let report = edit(&setup, &mut score, 5, 2, other, &mut take).unwrap();
    assert_eq!((report.rows, report.held, report.counts), (1, 0, Counts::default()));
    assert_eq!(take, before);
    let loud = Row { morph: 1.5, ..ROW };
    assert_eq!(refused(edit(&setup, &mut score, 5, 2, loud, &mut take)), (Reason::Limit, 2));
}

#[test]
fn a_waveform_past_the_last_wave_is_held() {
    let bank = bank();
    let setup = Setup { frames: 52, ..setup(Instrument::Oscillator, &bank) };
    let bright = Row { timbre: 1.0, ..ROW };
    let mut score = [Row { timbre: 0.519_531_25, ..ROW }.words(), bright.words(), bright.words()].concat();
    let mut take = Take::new(3, 52);
    let answer = |report: Report| (report.rows, report.held, numbers(report.counts));
    let report = render(&setup, &score, 3, &mut take).unwrap();
    assert_eq!(answer(report), (3, 53, [0, 53, 0, 0, 0]));
    let report = edit(&setup, &mut score, 3, 2, Row { timbre: 0.5, ..ROW }, &mut take).unwrap();
    assert_eq!(answer(report), (1, 0, [0; 5]));
    let report = remove(&setup, &mut score, 3, 2, &mut take).unwrap();
    assert_eq!(answer(report), (0, 0, [0; 5]));
    let report = insert(&setup, &mut score, 2, 1, bright, &mut take).unwrap();
    assert_eq!(answer(report), (2, 53, [0, 53, 0, 0, 0]));
}

#[test]
fn a_level_past_the_last_is_held_and_a_lower_one_is_not() {
    let bank = bank();
    let setup = Setup { frames: 128, ..setup(Instrument::Wavetable, &bank) };
    let mut score: Vec<u32> = climbing().iter().flat_map(|row| row.words()).collect();
    let mut take = Take::new(54, 128);
    let report = render(&setup, &score, 54, &mut take).unwrap();
    assert_eq!((report.rows, report.held, numbers(report.counts)), (54, 49, [0, 0, 49, 0, 0]));
    // The last row alone, which held: it counts what it holds itself.
    let high = Row { morph: 1.0, ..climbing()[53] };
    let report = edit(&setup, &mut score, 54, 53, high, &mut take).unwrap();
    assert_eq!((report.rows, report.held, numbers(report.counts)), (1, 49, [0, 0, 49, 0, 0]));
    let lower: Vec<u32> = climbing().iter().flat_map(|row| Row { harmonics: 0.93, ..*row }.words()).collect();
    let report = render(&setup, &lower, 54, &mut take).unwrap();
    assert_eq!((report.rows, report.held, report.counts), (54, 0, Counts::default()));
}

/// Kept words that are zeros but for these floats.
fn state(floats: &[(usize, f32)]) -> [u32; KEPT_WORDS] {
    let mut words = [0; KEPT_WORDS];
    floats.iter().for_each(|(at, x)| words[*at] = x.to_bits());
    words
}

/// x and y are one kind, and a frame that holds several kinds counts once in each and once in all.
#[test]
fn a_frame_counts_once_in_each_kind() {
    let bank = bank();
    let setup = setup(Instrument::Wavetable, &bank);
    let holds = |floats: &[(usize, f32)]| {
        let mut take = junk_with(2, 0, &state(floats));
        let report = edit(&setup, &mut rows(2), 2, 1, ROW, &mut take).unwrap();
        (report.held, numbers(report.counts))
    };
    let (phase, x, y, z) = ((0, 5.5), (4, 1e3), (5, 1e3), (6, 1e3));
    assert_eq!(holds(&[]), (0, [0; 5]));
    assert_eq!(holds(&[phase]), (4, [4, 0, 0, 0, 0]));
    assert_eq!(holds(&[x]), (24, [0, 24, 0, 0, 0]));
    assert_eq!(holds(&[x, y]), (24, [0, 24, 0, 0, 0]));
    assert_eq!(holds(&[phase, x, y, z]), (24, [4, 24, 24, 0, 0]));
}

#[test]
fn counts_add_up_kind_by_kind() {
    let (bank, map) = (bank(), map());
    let terrain = setup(Instrument::TerrainWithMap(&map), &bank);
    let oscillator = setup(Instrument::Oscillator, &bank);
    let high = Row { harmonics: 1.0, ..ROW };
    let mut sum = Counts::default();
    for (setup, floats) in [(terrain, &[(0, 1.0), (4, 1e4), (5, 6.5)][..]), (oscillator, &[(0, 5.5), (3, 130.0)])] {
        let mut take = junk_with(2, 0, &state(floats));
        sum += edit(&setup, &mut rows(2), 2, 1, high, &mut take).unwrap().counts;
    }
    assert_eq!(numbers(sum), [4, 16, 0, 30, 62]);
    sum += Counts::default();
    assert_eq!(numbers(sum), [4, 16, 0, 30, 62]);
}

#[test]
fn an_edit_of_a_junk_take_starts_from_its_words_and_stops_where_they_stay() {
    let bank = bank();
    let setup = setup(Instrument::Wavetable, &bank);
    let score = rows(8);
    let row = Row { morph: 0.75, ..ROW };

    // Junk is never the state that a row leaves: the edit goes to the end.
    let (mut edited, mut take) = (score.clone(), junk(8));
    assert_eq!(edit(&setup, &mut edited, 8, 3, row, &mut take).unwrap().rows, 5);
    let before = junk(8);
    assert_eq!(take.out[..72], before.out[..72]);
    assert_eq!(take.aux[..72], before.aux[..72]);
    assert_eq!(take.kept[..3 * KEPT_WORDS], before.kept[..3 * KEPT_WORDS]);
    assert!(take.out[72..].iter().zip(&before.out[72..]).filter(|(a, b)| a == b).count() < 3);

    // With the words of row 5 in their place before the edit, it stops behind row 5.
    let (mut edited, mut known) = (score.clone(), junk(8));
    let fifth = 5 * KEPT_WORDS..6 * KEPT_WORDS;
    known.kept[fifth.clone()].copy_from_slice(&take.kept[fifth]);
    assert_eq!(edit(&setup, &mut edited, 8, 3, row, &mut known).unwrap().rows, 3);
    assert_eq!(known.out[..144], take.out[..144]);
    assert_eq!(known.out[144..], before.out[144..]);
    assert_eq!(known.kept[6 * KEPT_WORDS..], before.kept[6 * KEPT_WORDS..]);

    // Another take before row 3 gives another row 3; row 0 begins afresh whatever the take.
    let (mut edited, mut zeros) = (score.clone(), Take::new(8, 24));
    edit(&setup, &mut edited, 8, 3, row, &mut zeros).unwrap();
    assert_ne!(zeros.out[72..96], take.out[72..96]);
    let (mut first, mut second) = (junk(8), Take::new(8, 24));
    edit(&setup, &mut score.clone(), 8, 0, row, &mut first).unwrap();
    edit(&setup, &mut score.clone(), 8, 0, row, &mut second).unwrap();
    assert_eq!(first, second);
}

#[test]
fn an_edit_of_the_same_words_renders_nothing() {
    let bank = bank();
    let setup = setup(Instrument::Wavetable, &bank);
    let mut take = junk(1);
    let report = edit(&setup, &mut ROW.words(), 1, 0, ROW, &mut take).unwrap();
    assert_eq!((report.rows, report.held, report.counts), (0, 0, Counts::default()));
    assert_eq!(take, junk(1));
}

/// A take of junk that keeps other words after one row.
fn junk_with(rows: usize, k: usize, words: &[u32]) -> Take {
    let mut take = junk(rows);
    take.kept[k * KEPT_WORDS..][..KEPT_WORDS].copy_from_slice(words);
    take
}

fn kept(take: &Take, k: usize) -> &[u32] {
    &take.kept[k * KEPT_WORDS..][..KEPT_WORDS]
}

#[test]
fn an_insertion_into_a_junk_take_measures_rows_where_they_came_from() {
    let bank = bank();
    let setup = setup(Instrument::Wavetable, &bank);
    let row = Row { morph: 0.75, ..ROW };

    // Junk is never the state that a row leaves: the insertion goes to the end.
    let (mut score, mut take) = (rows(9), junk(9));
    assert_eq!(insert(&setup, &mut score, 8, 3, row, &mut take).unwrap().rows, 6);
    assert_eq!(score, [&rows(3)[..], &row.words(), &rows(8)[15..]].concat());
    assert_eq!((&take.out[..72], &take.aux[..72]), (&junk(9).out[..72], &junk(9).aux[..72]));
    assert_eq!(take.kept[..3 * KEPT_WORDS], junk(9).kept[..3 * KEPT_WORDS]);

    // Row 6 was row 5: with the words of its state kept after row 4 before, it is moved and not rendered.
    let mut known = junk_with(9, 4, kept(&take, 5));
    assert_eq!(insert(&setup, &mut rows(9), 8, 3, row, &mut known).unwrap().rows, 3);
    assert_eq!(known.out[..144], take.out[..144]);
    assert_eq!((&known.out[144..], &known.aux[144..]), (&junk(9).out[120..192], &junk(9).aux[120..192]));
    assert_eq!(known.kept[6 * KEPT_WORDS..], junk(9).kept[5 * KEPT_WORDS..8 * KEPT_WORDS]);

    // The same words at another place are no stop.
    for k in [3, 5, 6] {
        let mut other = junk_with(9, k, kept(&take, 5));
        assert_eq!(insert(&setup, &mut rows(9), 8, 3, row, &mut other).unwrap().rows, 6);
    }

    // Behind the last row nothing is left to measure.
    let mut take = junk(9);
    assert_eq!(insert(&setup, &mut rows(9), 8, 8, row, &mut take).unwrap().rows, 1);
    assert_eq!(take.out[..192], junk(9).out[..192]);
}

#[test]
fn a_removal_from_a_junk_take_measures_rows_where_they_came_from() {
    let bank = bank();
    let setup = setup(Instrument::Wavetable, &bank);

    // Row 3 was row 4, and the state now before it is another: the removal goes to the end.
    let (mut score, mut take) = (rows(8), junk(8));
    assert_eq!(remove(&setup, &mut score, 8, 3, &mut take).unwrap().rows, 4);
    assert_eq!(score, [&rows(8)[..15], &rows(8)[20..], &rows(8)[35..]].concat());
    assert_eq!(take.out[..72], junk(8).out[..72]);
    assert_eq!((&take.out[168..], &take.aux[168..]), (&junk(8).out[168..], &junk(8).aux[168..]));
    assert_eq!(take.kept[7 * KEPT_WORDS..], junk(8).kept[7 * KEPT_WORDS..]);

    // Row 5 was row 6: it had the state that was kept after row 5.
    let mut known = junk_with(8, 5, kept(&take, 4));
    assert_eq!(remove(&setup, &mut rows(8), 8, 3, &mut known).unwrap().rows, 2);
    assert_eq!(known.out[..120], take.out[..120]);
    assert_eq!(known.out[120..168], junk(8).out[144..]);
    assert_eq!(known.kept[5 * KEPT_WORDS..7 * KEPT_WORDS], junk(8).kept[6 * KEPT_WORDS..]);

    // The removed row left the state that it found: what follows is moved, and nothing is rendered.
    let mut same = junk_with(8, 3, kept(&junk(8), 2));
    let report = remove(&setup, &mut rows(8), 8, 3, &mut same).unwrap();
    assert_eq!((report.rows, report.held, report.counts), (0, 0, Counts::default()));
    assert_eq!(same.out, [&junk(8).out[..72], &junk(8).out[96..], &junk(8).out[168..]].concat());

    // The last row leaves nothing to measure.
    let mut take = junk(8);
    assert_eq!(remove(&setup, &mut rows(8), 8, 7, &mut take).unwrap().rows, 0);
    assert_eq!(take, junk(8));
}

/// Row 0 begins afresh whatever its words; the row that comes to stand there, or no longer does, is measured by that.
#[test]
fn the_state_before_row_0_is_the_fresh_one() {
    let (bank, map) = (bank(), map());
    for instrument in instruments(&map) {
        let setup = setup(instrument, &bank);
        // Another row in front, and a copy of the only one.
        for row in [Row { note: 50.0, ..ROW }, ROW] {
            let (mut score, mut take, mut fresh) = ([ROW.words(), [0; 5]].concat(), junk(2), junk(2));
            render(&setup, &score, 1, &mut take).unwrap();
            let alone = take.out[..24].to_vec();
            assert_eq!(insert(&setup, &mut score, 1, 0, row, &mut take).unwrap().rows, 2);
            render(&setup, &score, 2, &mut fresh).unwrap();
            assert_eq!(take, fresh);
            assert_eq!(remove(&setup, &mut score, 2, 0, &mut take).unwrap().rows, 1);
            assert_eq!((&take.out[..24], &take.out[24..]), (&alone[..], &fresh.out[24..]));
        }
    }
}

#[test]
fn after_each_call_the_take_is_fresh_below_the_count_and_as_it_was_above_it() {
    const ROOM: usize = 12;
    let (bank, map) = (bank(), map());
    for instrument in instruments(&map) {
        let setup = setup(instrument, &bank);
        let mut series = Series(11);
        let (mut score, mut take, mut count) = (rows(ROOM), junk(ROOM), 5);
        render(&setup, &score, count, &mut take).unwrap();
        assert_eq!((&score, &take.out[120..]), (&rows(ROOM), &junk(ROOM).out[120..]));
        let mut refused = 0;
        for _ in 0..300 {
            let (old_score, old) = (score.clone(), take.clone());
            let (at, row) = (series.below(count as u32 + 2) as usize, series.row());
            let reason_if = |refused: bool, reason| refused.then_some(reason);
            let past = reason_if(at >= count, Reason::Position);
            let (answer, left, reason) = match series.below(5) {
                0 => (edit(&setup, &mut score, count, at, row, &mut take), count, past),
                1 | 2 => {
                    let reason = reason_if(at > count, Reason::Position).or(reason_if(count == ROOM, Reason::Full));
                    (insert(&setup, &mut score, count, at, row, &mut take), count + 1, reason)
                }
                _ => {
                    let reason = reason_if(count == 1, Reason::Rows).or(past);
                    (remove(&setup, &mut score, count, at, &mut take), count - 1, reason)
                }
            };
            assert_eq!(answer.err().map(|refusal| refusal.reason), reason);
            if reason.is_some() {
                assert_eq!((&score, &take), (&old_score, &old));
                refused += 1;
                continue;
            }
            count = left;
            let mut fresh = old;
            render(&setup, &score, count, &mut fresh).unwrap();
            assert_eq!((&score[count * 5..], &take), (&old_score[count * 5..], &fresh));
        }
        assert!((20..150).contains(&refused));
    }
}

#[test]
fn refusals_have_their_reason_and_place_and_change_nothing() {
    let bank = bank();
    let good = setup(Instrument::Terrain, &bank);
    let (mut score, mut take) = (rows(3), junk(3));
    // All four calls at row 0, which refuse these alike.
    let mut all = |setup: Setup, words: usize, count: usize| {
        let lent = &mut score[..words];
        let answers = [
            refused(render(&setup, lent, count, &mut take)),
            refused(edit(&setup, lent, count, 0, ROW, &mut take)),
            refused(insert(&setup, lent, count, 0, ROW, &mut take)),
            refused(remove(&setup, lent, count, 0, &mut take)),
        ];
        assert_eq!(answers, [answers[0]; 4]);
        answers[0]
    };
    assert_eq!(all(Setup { rate: 31_999, ..good }, 15, 3), (Reason::Rate, 0));
    assert_eq!(all(Setup { rate: 192_001, ..good }, 15, 3), (Reason::Rate, 0));
    assert_eq!(all(Setup { frames: 0, ..good }, 15, 3), (Reason::Block, 0));
    assert_eq!(all(Setup { frames: 129, ..good }, 15, 3), (Reason::Block, 0));
    assert_eq!(all(good, 14, 3), (Reason::Rows, 0));
    assert_eq!(all(good, 15, 0), (Reason::Rows, 0));
    assert_eq!(all(good, 15, 4), (Reason::Rows, 0));
    assert_eq!(all(good, 15, usize::MAX), (Reason::Rows, 0));
    assert_eq!(all(Setup { frames: 25, ..good }, 15, 3), (Reason::Take, 0));

    assert_eq!(refused(edit(&good, &mut score, 3, 3, ROW, &mut take)), (Reason::Position, 3));
    assert_eq!(refused(insert(&good, &mut score, 3, 4, ROW, &mut take)), (Reason::Position, 4));
    assert_eq!(refused(remove(&good, &mut score, 3, 3, &mut take)), (Reason::Position, 3));
    let loud = Row { timbre: 1.5, ..ROW };
    assert_eq!(refused(edit(&good, &mut score, 3, 2, loud, &mut take)), (Reason::Limit, 2));
    assert_eq!(refused(insert(&good, &mut score, 3, 2, loud, &mut take)), (Reason::Full, 0));
    assert_eq!(refused(insert(&good, &mut score, 2, 2, loud, &mut take)), (Reason::Limit, 2));
    assert_eq!(refused(remove(&good, &mut score, 1, 9, &mut take)), (Reason::Rows, 0));
    assert_eq!(score, rows(3));
    assert_eq!(take, junk(3));
}

#[test]
fn the_longest_score_can_be_edited_and_shortened_but_not_lengthened() {
    let bank = bank();
    let setup = Setup { frames: 1, ..setup(Instrument::Oscillator, &bank) };
    let (mut score, mut take) = (rows(4_097), Take::new(4_097, 1));
    assert_eq!(refused(render(&setup, &score, 4_097, &mut take)), (Reason::Rows, 0));
    assert_eq!(render(&setup, &score, 4_096, &mut take).unwrap().rows, 4_096);
    assert_eq!(refused(insert(&setup, &mut score, 4_096, 9_999, ROW, &mut take)), (Reason::Rows, 0));
    let high = Row { note: 72.0, ..ROW };
    assert_eq!(edit(&setup, &mut score, 4_096, 4_095, high, &mut take).unwrap().rows, 1);
    assert_eq!(remove(&setup, &mut score, 4_096, 4_095, &mut take).unwrap().rows, 0);
    assert_eq!(insert(&setup, &mut score, 4_095, 0, ROW, &mut take).unwrap().rows, 4_096);
}

/// Each buffer in its turn has all but one word of the place for one row more.
#[test]
fn part_of_a_place_is_no_room() {
    let bank = bank();
    let setup = setup(Instrument::Terrain, &bank);
    let whole = |take: &Take| [20, take.out.len(), take.aux.len(), take.kept.len()];
    for buffer in 0..4 {
        let (mut lengths, mut take) = (whole(&junk(4)), junk(4));
        lengths[buffer] -= 1;
        let mut score = rows(4);
        score.truncate(lengths[0]);
        take.out.truncate(lengths[1]);
        take.aux.truncate(lengths[2]);
        take.kept.truncate(lengths[3]);
        assert_eq!(refused(insert(&setup, &mut score, 3, 1, ROW, &mut take)), (Reason::Full, 0));
        assert_eq!(render(&setup, &score, 3, &mut take).unwrap().rows, 3);
        assert!(remove(&setup, &mut score, 3, 1, &mut take).is_ok());
        assert!(insert(&setup, &mut score, 2, 1, ROW, &mut take).is_ok());
    }
}

/// The numbers that no safe call can bring about; every buffer of length 0 is null.
#[test]
fn instruments_and_lengths_of_other_callers_are_refused() {
    let bank = bank();
    let reason = |instrument: u32, bank_len: usize| {
        let (none, mut first, mut second, mut counts) = (null_mut(), 7, 7, [[7; 5]; 4]);
        let (a, b, x, y) = (bank.as_ptr(), null(), &mut first, &mut second);
        let [c, d, e, f] = counts.each_mut().map(|counts| counts.as_mut_ptr());
        // SAFETY: `bank_len` is at most the bank's length.
        let numbers = unsafe {
            let (i, n) = (instrument, bank_len);
            [
                sys::retake_render(i, 48_000, 24, a, n, b, 0, none, 0, 1, none, 0, none, 0, none, 0, x, y, c),
                sys::retake_edit(
                    i, 48_000, 24, a, n, b, 0, none, 0, 1, 0, 0, 0, 0, 0, 0, none, 0, none, 0, none, 0, x, y, d,
                ),
                sys::retake_insert(
                    i, 48_000, 24, a, n, b, 0, none, 0, 1, 0, 0, 0, 0, 0, 0, none, 0, none, 0, none, 0, x, y, e,
                ),
                sys::retake_remove(i, 48_000, 24, a, n, b, 0, none, 0, 1, 0, none, 0, none, 0, none, 0, x, y, f),
            ]
        };
        assert_eq!((numbers, counts), ([numbers[0]; 4], [[0; 5]; 4]));
        (Reason::of(numbers[0]), first, second)
    };
    assert_eq!(reason(4, BANK), (Reason::Instrument, 0, 0));
    assert_eq!(reason(0, BANK - 1), (Reason::Bank, 0, 0));
    assert_eq!(reason(2, BANK), (Reason::Map, 0, 0));
    assert_eq!(reason(1, BANK), (Reason::Rows, 0, 0));
    assert_eq!(reason(3, BANK), (Reason::Rows, 0, 0));

    let (row, mut first, mut second) = (ROW.words(), 7, 7);
    // SAFETY: `row` has five words.
    let number = unsafe { sys::retake_write_score(row.as_ptr(), 5, 1, null_mut(), 0, &mut first, &mut second) };
    assert_eq!((Reason::of(number), first, second), (Reason::Paper, 0, 0));
    // SAFETY: no word and no byte is lent.
    let number = unsafe { sys::retake_write_score(null(), 0, 1, null_mut(), 0, &mut first, &mut second) };
    assert_eq!((Reason::of(number), first, second), (Reason::Rows, 0, 0));
}

#[test]
fn columns_may_stand_in_any_order() {
    let text = b"restart harmonics note timbre morph\n00000001 3F800000 42f00000 00000000 80000000\n";
    let mut rows = [7; 6];
    assert_eq!(read_score(text, &mut rows), Ok(1));
    assert_eq!(rows, [0x42f0_0000, 0, 0x8000_0000, 0x3f80_0000, 1, 7]);
}

#[test]
fn texts_are_refused_by_line() {
    let read = |text: &str, space: usize| read_score(text.as_bytes(), &mut vec![0; space]);
    let names = "note timbre morph harmonics restart\n";
    let line = "42700000 00000000 00000000 00000000 00000000\n";
    assert_eq!(refused(read("", 5)), (Reason::Names, 0));
    assert_eq!(refused(read(names, 5)), (Reason::Rows, 0));
    assert_eq!(refused(read(&format!("{names}{line}\n"), 5)), (Reason::Value, 1));
    assert_eq!(refused(read(&format!("{names}{line}"), 4)), (Reason::Space, 0));
    let high = line.replace("00000000\n", "00000002\n");
    let refusal = read(&format!("{names}{line}{high}"), 10).unwrap_err();
    assert_eq!((refusal.reason, refusal.place, refusal.column), (Reason::Limit, 1, Some(Column::Restart)));
}

/// The text that a score's rows should have.
fn tidy(rows: &[u32]) -> String {
    let line = |row: &[u32]| row.iter().map(|word| format!("{word:08x}")).collect::<Vec<String>>().join(" ") + "\n";
    "note timbre morph harmonics restart\n".to_owned() + &rows.chunks(Row::WORDS).map(line).collect::<String>()
}

#[test]
fn a_text_is_written_into_as_many_bytes_as_it_has() {
    for count in [1, 2, 7, MOST_ROWS] {
        let (score, length) = (rows(count + 1), text_length(count));
        let expected = tidy(&score[..count * Row::WORDS]);
        assert_eq!(expected.len(), length);
        for past in [0, 1, 100] {
            let mut text = vec![b'#'; length + past];
            assert_eq!(write_score(&score, count, &mut text), Ok(length));
            assert_eq!(text, [expected.as_bytes(), &vec![b'#'; past]].concat());
        }
        let mut text = vec![b'#'; length - 1];
        assert_eq!(refused(write_score(&score, count, &mut text)), (Reason::Paper, 0));
        assert_eq!(text, vec![b'#'; length - 1]);

        let mut back = vec![7; count * Row::WORDS + 1];
        assert_eq!(read_score(expected.as_bytes(), &mut back), Ok(count));
        assert_eq!(back, [&score[..count * Row::WORDS], &[7]].concat());
    }
}

#[test]
fn a_text_is_refused_by_rows_then_limits_then_paper() {
    let mut text = [b'#'; text_length(3)];
    let mut score = rows(4);
    score[7] = 0x3f80_0001;
    let mut answer = |words: usize, count: usize, bytes: usize| {
        let refusal = write_score(&score[..words], count, &mut text[..bytes]).unwrap_err();
        (refusal.reason, refusal.place, refusal.column)
    };
    let (rows, limit) = ((Reason::Rows, 0, None), (Reason::Limit, 1, Some(Column::Morph)));
    for bytes in [0, text_length(3)] {
        assert_eq!(answer(20, 0, bytes), rows);
        assert_eq!(answer(20, 5, bytes), rows);
        assert_eq!(answer(20, usize::MAX, bytes), rows);
        assert_eq!(answer(14, 3, bytes), rows);
        assert_eq!(answer(15, 3, bytes), limit);
        assert_eq!(answer(10, 2, bytes), limit);
    }
    assert_eq!(answer(20, 1, text_length(1) - 1), (Reason::Paper, 0, None));
    assert_eq!(text, [b'#'; text_length(3)]);
    // Rows past the count are not judged.
    assert_eq!(write_score(&score, 1, &mut text), Ok(text_length(1)));
    let most = vec![0; (MOST_ROWS + 1) * Row::WORDS];
    let mut text = vec![b'#'; text_length(MOST_ROWS + 1)];
    assert_eq!(refused(write_score(&most, MOST_ROWS + 1, &mut text)), (Reason::Rows, 0));
    assert_eq!(write_score(&most, MOST_ROWS, &mut text), Ok(text_length(MOST_ROWS)));
}

#[test]
fn a_refusal_of_a_limit_names_row_and_column() {
    let bank = bank();
    let setup = setup(Instrument::Wavetable, &bank);
    let outside = [
        (Row { note: 120.5, ..ROW }, "row 1: note is not from 0 to 120 (number 9)"),
        (Row { timbre: -0.5, ..ROW }, "row 1: timbre is not from 0 to 1 (number 9)"),
        (Row { morph: f32::NAN, ..ROW }, "row 1: morph is not from 0 to 1 (number 9)"),
        (Row { harmonics: 1.5, ..ROW }, "row 1: harmonics is not from 0 to 1 (number 9)"),
    ];
    for (row, text) in outside {
        let refusal = edit(&setup, &mut rows(3), 3, 1, row, &mut Take::new(3, 24)).unwrap_err();
        assert_eq!(refusal.to_string(), text);
        let refusal = insert(&setup, &mut rows(3), 2, 1, row, &mut Take::new(3, 24)).unwrap_err();
        assert_eq!(refusal.to_string(), text);
        let score = [ROW.words(), row.words()].concat();
        let refusal = render(&setup, &score, 2, &mut Take::new(2, 24)).unwrap_err();
        assert_eq!(refusal.to_string(), text);
        assert_eq!(write_score(&score, 2, &mut []).unwrap_err().to_string(), text);
    }

    // A bad row elsewhere in the score refuses as well, by its number in the score as it would be.
    let (mut score, mut take) = (rows(5), Take::new(5, 24));
    score[14] = 2;
    let refusal = edit(&setup, &mut score, 4, 1, ROW, &mut take).unwrap_err();
    assert_eq!(refusal.to_string(), "row 2: restart is not 0 or 1 (number 9)");
    let refusal = insert(&setup, &mut score, 4, 1, ROW, &mut take).unwrap_err();
    assert_eq!(refusal.to_string(), "row 3: restart is not 0 or 1 (number 9)");
    let refusal = insert(&setup, &mut score, 4, 3, ROW, &mut take).unwrap_err();
    assert_eq!(refusal.to_string(), "row 2: restart is not 0 or 1 (number 9)");
    let refusal = remove(&setup, &mut score, 4, 1, &mut take).unwrap_err();
    assert_eq!(refusal.to_string(), "row 1: restart is not 0 or 1 (number 9)");
    let refusal = remove(&setup, &mut score, 4, 3, &mut take).unwrap_err();
    assert_eq!(refusal.to_string(), "row 2: restart is not 0 or 1 (number 9)");

    // Past the count nothing is judged, and the bad row itself may go.
    render(&setup, &score, 2, &mut take).unwrap();
    remove(&setup, &mut score, 4, 2, &mut take).unwrap();
    assert_eq!(score[10..15], rows(5)[15..20]);
}

#[test]
fn every_refusal_has_its_number_and_words() {
    let mut texts = Vec::new();
    for number in 1..=14 {
        let reason = Reason::of(number);
        assert_eq!(reason.number(), number);
        assert_ne!(reason, Reason::Other(number));
        texts.push(format!("{reason:?}"));
    }
    texts.dedup();
    assert_eq!(texts.len(), 14);
    for number in [0, 15, u32::MAX] {
        assert_eq!((Reason::of(number), Reason::of(number).number()), (Reason::Other(number), number));
    }
    let text = |text: &[u8]| read_score(text, &mut []).unwrap_err().to_string();
    assert_eq!(text(b""), "the first line is not the five names, each once (number 10)");
    let names = "note timbre morph harmonics restart\n";
    let refusal = "row 0: not five words of eight hexadecimal digits (number 11)";
    assert_eq!(text(format!("{names}60\n").as_bytes()), refusal);
    let bank = bank();
    let setup = setup(Instrument::Terrain, &bank);
    let (mut score, mut take) = (rows(1), Take::new(1, 24));
    let refusal = edit(&setup, &mut score, 1, 9, ROW, &mut take).unwrap_err();
    assert_eq!(refusal.to_string(), "row 9: past the score's end (number 8)");
    let refusal = remove(&setup, &mut score, 1, 0, &mut take).unwrap_err();
    let text = "not 1 to 4,096 rows before and after the call, or too few row words (number 6)";
    assert_eq!(refusal.to_string(), text);
    let refusal = insert(&setup, &mut score, 1, 0, ROW, &mut take).unwrap_err();
    assert_eq!(refusal.to_string(), "rows, out, aux or kept has no room for one row more (number 13)");
    let refusal = write_score(&score, 1, &mut []).unwrap_err();
    assert_eq!(refusal.to_string(), "the lent text is shorter than the score needs (number 14)");
    take.out.pop();
    let refusal = render(&setup, &score, 1, &mut take).unwrap_err();
    assert_eq!(refusal.to_string(), "out, aux or kept is shorter than the score needs (number 7)");
}

#[test]
fn words_of_a_row_are_its_row() {
    let mut series = Series(9);
    for _ in 0..100 {
        let row = series.row();
        assert_eq!(Row::from_words(row.words()), Some(row));
    }
    assert_eq!(Row::from_words([0, 0, 0, 0, 2]), None);
    let zero = Row::from_words([0x8000_0000; 4].into_iter().chain([1]).collect::<Vec<u32>>().try_into().unwrap());
    assert_eq!(zero.unwrap().words(), [0x8000_0000, 0x8000_0000, 0x8000_0000, 0x8000_0000, 1]);
}
