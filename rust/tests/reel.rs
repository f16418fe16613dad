//! Reels: lists of edits, insertions and removals against fresh ones, refusals, what can be read of one.

mod common;

use common::{ROW, Series, bank, climbing, instruments, map, numbers, setup};
use wohketa_retake::{
    BANK, Column, Counts, Edited, Instrument, KEPT_WORDS, MAP, MOST_ROWS, Reason, Reel, Refusal, Row, Score, Setup,
    samples,
};

/// The same score and take, word by word.
fn assert_same(reel: &Reel, other: &Reel) {
    assert_eq!(reel.words(), other.words());
    assert_eq!(reel.take(), other.take());
}

/// The reel is what a fresh rendering of this score is.
fn assert_fresh(reel: &Reel, score: &[Row]) {
    assert_same(reel, &Reel::render(&reel.setup(), score).unwrap());
    assert_eq!(reel.count(), score.len());
}

#[test]
fn after_each_call_of_a_list_a_reel_is_a_fresh_one() {
    let (bank, map) = (bank(), map());
    for instrument in instruments(&map) {
        let setup = setup(instrument, &bank);
        let mut series = Series(1);
        let mut score: Vec<Row> = (0..40).map(|_| series.row()).collect();
        let mut reel = Reel::render(&setup, &score).unwrap();
        let (mut stopped, mut refused) = (0, 0);
        for turn in 0..300 {
            let before = reel.clone();
            let count = score.len();
            let k = series.below(count as u32 + 3) as usize;
            let mut row = series.row();
            if turn % 7 == 0 {
                row.morph = 1.25;
            }
            // By how many places the rows behind have moved up and down.
            let (answer, up, down) = match series.below(3) {
                0 => (reel.edit(k, row), 0, 0),
                1 => (reel.insert(k, row), 1, 0),
                _ => (reel.remove(k), 0, 1),
            };
            if let Err(refusal) = answer {
                let reason = if k < count + up { Reason::Limit } else { Reason::Position };
                assert_eq!((refusal.reason, refusal.place), (reason, k as u64));
                assert_same(&reel, &before);
                refused += 1;
                continue;
            }
            score.splice(k..k + 1 - up, (down == 0).then_some(row));
            assert_fresh(&reel, &score);

            let rendered = answer.unwrap().rows;
            assert_eq!(rendered.start, k);
            for i in 0..k {
                assert_eq!((reel.block(i), reel.kept(i)), (before.block(i), before.kept(i)));
            }
            for i in rendered.end..score.len() {
                let from = i + down - up;
                assert_eq!((reel.block(i), reel.kept(i)), (before.block(from), before.kept(from)));
            }
            stopped += usize::from(rendered.end < score.len());
        }
        assert!(stopped > 100 && refused > 20);
    }
}

#[test]
fn a_splice_says_which_rows_it_rendered() {
    let bank = bank();
    let setup = setup(Instrument::Wavetable, &bank);
    let mut score = vec![ROW; 10];
    score[6].restart = true;
    let mut reel = Reel::render(&setup, &score).unwrap();
    let high = Row { note: 72.0, ..ROW };
    assert_eq!(reel.insert(2, high).unwrap().rows, 2..7);
    assert_eq!(reel.insert(7, high).unwrap().rows, 7..8);
    assert_eq!(reel.push(high).unwrap().rows, 12..13);
    assert_eq!(reel.insert(0, ROW).unwrap().rows, 0..9);
    // Before a row that restarts, and at the end, a removal renders nothing.
    assert_eq!(reel.row(9).map(|row| row.restart), Some(true));
    assert_eq!(reel.remove(8).unwrap().rows, 8..8);
    assert_eq!(reel.remove(12).unwrap().rows, 12..12);
    assert_eq!(reel.remove(3).unwrap().rows, 3..7);
    assert_eq!((reel.samples_of(12..12), reel.count()), (288..288, 11));
}

#[test]
fn rows_that_find_the_state_that_they_had_are_not_rendered() {
    let (bank, map) = (bank(), map());
    for instrument in instruments(&map) {
        let setup = setup(instrument, &bank);
        let first = Row { timbre: 0.75, restart: true, ..ROW };
        let mut reel = Reel::render(&setup, &[first, ROW, ROW]).unwrap();
        let before = reel.clone();
        assert_eq!(reel.insert(1, first).unwrap().rows, 1..2);
        assert_fresh(&reel, &[first, first, ROW, ROW]);
        assert_eq!(reel.remove(1).unwrap().rows, 1..1);
        assert_same(&reel, &before);
    }
}

#[test]
fn a_reel_grows_to_the_longest_score_and_no_further() {
    let bank = bank();
    let setup = Setup { frames: 2, ..setup(Instrument::Oscillator, &bank) };
    let mut series = Series(3);
    let mut score = vec![series.row()];
    let mut reel = Reel::render(&setup, &score).unwrap();
    while score.len() < MOST_ROWS {
        let (k, row) = (series.below(score.len() as u32 + 1) as usize, series.row());
        score.insert(k, row);
        reel.insert(k, row).unwrap();
    }
    assert_fresh(&reel, &score);
    let before = reel.clone();
    for k in [0, 2_000, MOST_ROWS, MOST_ROWS + 9] {
        let refusal = reel.insert(k, ROW).unwrap_err();
        assert_eq!((refusal.reason, refusal.place), (Reason::Rows, 0));
    }
    assert_eq!(reel.push(ROW).unwrap_err().reason, Reason::Rows);
    assert_same(&reel, &before);

    reel.remove(17).unwrap();
    score.remove(17);
    reel.push(ROW).unwrap();
    score.push(ROW);
    assert_fresh(&reel, &score);
}

#[test]
fn the_only_row_stays() {
    let bank = bank();
    let setup = setup(Instrument::Terrain, &bank);
    let mut reel = Reel::render(&setup, &[ROW; 3]).unwrap();
    reel.remove(0).unwrap();
    reel.remove(1).unwrap();
    for k in 0..2 {
        let refusal = reel.remove(k).unwrap_err();
        assert_eq!((refusal.reason, refusal.place), (Reason::Rows, 0));
    }
    assert_fresh(&reel, &[ROW]);
    reel.insert(0, Row { note: 50.0, ..ROW }).unwrap();
    assert_fresh(&reel, &[Row { note: 50.0, ..ROW }, ROW]);
}

/// After removals a reel's buffers have room that held rows; nothing shows it, and no copy has it.
#[test]
fn nothing_is_seen_past_the_count() {
    let (bank, map) = (bank(), map());
    let setup = setup(Instrument::TerrainWithMap(&map), &bank);
    let mut series = Series(8);
    let mut score: Vec<Row> = (0..9).map(|_| series.row()).collect();
    let mut reel = Reel::render(&setup, &score).unwrap();
    for k in [8, 2, 0, 3] {
        reel.remove(k).unwrap();
        score.remove(k);
    }
    assert_fresh(&reel, &score);
    assert_eq!((reel.words().len(), reel.rows().count(), reel.row(5)), (25, 5, None));
    assert_eq!((reel.out().len(), reel.aux().len(), reel.block(5)), (120, 120, None));
    assert_eq!((reel.take().kept.len(), reel.kept(5)), (5 * KEPT_WORDS, None));
    assert!(format!("{reel:?}").contains("count: 5"));

    let mut copy = reel.clone();
    copy.insert(1, ROW).unwrap();
    copy.push(Row { restart: true, ..ROW }).unwrap();
    assert_fresh(&reel, &score);
    score.insert(1, ROW);
    score.push(Row { restart: true, ..ROW });
    assert_fresh(&copy, &score);

    assert_eq!(copy.replace(&[ROW; 2]).unwrap().rows, 2);
    assert_fresh(&copy, &[ROW; 2]);
}

#[test]
fn a_refused_splice_names_the_row_and_leaves_the_reel() {
    let bank = bank();
    let setup = setup(Instrument::Wavetable, &bank);
    let mut reel = Reel::render(&setup, &[ROW; 4]).unwrap();
    let loud = Row { harmonics: 2.0, ..ROW };
    let text = |answer: Result<Edited, Refusal>| answer.unwrap_err().to_string();
    assert_eq!(text(reel.insert(3, loud)), "row 3: harmonics is not from 0 to 1 (number 9)");
    assert_eq!(text(reel.push(loud)), "row 4: harmonics is not from 0 to 1 (number 9)");
    assert_eq!(text(reel.insert(5, ROW)), "row 5: past the score's end (number 8)");
    assert_eq!(text(reel.insert(usize::MAX, ROW)), format!("row {}: past the score's end (number 8)", u64::MAX));
    assert_eq!(text(reel.remove(4)), "row 4: past the score's end (number 8)");
    assert_fresh(&reel, &[ROW; 4]);
}

#[test]
fn an_edit_says_which_rows_it_rendered() {
    let bank = bank();
    let setup = setup(Instrument::Wavetable, &bank);
    let mut score = vec![ROW; 10];
    score[6].restart = true;
    let mut reel = Reel::render(&setup, &score).unwrap();
    let rendering = reel.rendering();
    assert_eq!((rendering.rows, rendering.held, rendering.counts), (10, 0, Counts::default()));
    let edited = reel.edit(2, Row { note: 72.0, ..ROW }).unwrap();
    assert_eq!((edited.rows, edited.held, edited.counts), (2..6, 0, Counts::default()));
    assert!(reel.edit(2, Row { note: 72.0, ..ROW }).unwrap().rows.is_empty());
    assert_eq!(reel.edit(8, Row { note: 72.0, ..ROW }).unwrap().rows, 8..10);
    assert_eq!(reel.samples_of(8..10), 192..240);
}

#[test]
fn a_reel_says_which_kind_it_held() {
    let bank = bank();
    let setup = Setup { frames: 128, ..setup(Instrument::Wavetable, &bank) };
    let mut score = climbing().to_vec();
    let mut reel = Reel::render(&setup, &score).unwrap();
    assert_eq!((reel.rendering().held, numbers(reel.rendering().counts)), (49, [0, 0, 49, 0, 0]));
    // A row more stays at the top.
    score.push(score[53]);
    let pushed = reel.push(score[53]).unwrap();
    assert_eq!((pushed.rows.clone(), pushed.held), (54..55, pushed.counts.level));
    let all = Reel::render(&setup, &score).unwrap().rendering();
    assert_eq!((all.held, numbers(all.counts)), (49 + pushed.held, [0, 0, 49 + pushed.held, 0, 0]));
    // Without the first row they are as many as at first.
    let removed = reel.remove(0).unwrap();
    assert_eq!((removed.rows, removed.held, numbers(removed.counts)), (0..54, 49, [0, 0, 49, 0, 0]));
    // Refused edits leave the report of the rendering as it was.
    reel.edit(9, Row { timbre: 2.0, ..ROW }).unwrap_err();
    assert_eq!(reel.rendering().held, 49);
}

/// The path's last point is at column 0 and row 63, flat 4,032: it is read at 3,968, where its column ends, and not at
/// 4,030, in the map's last corner.
#[test]
fn a_reading_past_the_map_stays_in_its_column() {
    let high = Row { note: 120.0, timbre: 1.0, morph: 1.0, harmonics: 1.0, restart: false };
    let low = Row { note: 0.0, morph: 0.0, ..high };
    // The last sample on a map with height 1 around this byte alone.
    let sample = |at: usize| {
        let mut map = [0; MAP];
        for byte in [at, at + 1, at + 64, at + 65] {
            map[byte] = 128;
        }
        let instrument = Instrument::TerrainWithMap(&map);
        let setup = Setup { instrument, rate: 32_000, frames: 1, bank: &[0; BANK] };
        let mut score = [high, high, Row { morph: 0.5, ..high }, high];
        let mut reel = Reel::render(&setup, &score).unwrap();
        score[3] = low;
        assert_eq!(numbers(reel.edit(3, low).unwrap().counts), [0, 0, 0, 1, 0]);
        assert_fresh(&reel, &score);
        reel.out()[3]
    };
    // One of the two points of the frame.
    assert!((sample(3_968) - 0.5).abs() < 0.001);
    assert_eq!(sample(4_030), 0.0);
}

/// The path's last point is at wave 63 and sample 47 of the last set: it is read at wave 62 and sample 47, and not at
/// 25,209, where the bank ends.
#[test]
fn a_reading_past_the_bank_stays_at_its_sample() {
    let high = Row { note: 120.0, timbre: 1.0, morph: 0.5, harmonics: 0.625, restart: false };
    let low = Row { note: 20.0, morph: 1.0, ..high };
    let last = Row { note: 50.0, harmonics: 0.75, ..low };
    // The last sample with a bank that rises from this sample on, in this wave and the next, for two steps alone.
    let sample = |at: usize| {
        let mut bank = [0; BANK];
        for at in [at, at + 132] {
            bank[at..at + 3].copy_from_slice(&[0, 1_024, 2_048]);
        }
        let setup = Setup { instrument: Instrument::Terrain, rate: 32_000, frames: 2, bank: &bank };
        let mut score = [high, low, high, high];
        let mut reel = Reel::render(&setup, &score).unwrap();
        score[3] = last;
        assert_eq!(numbers(reel.edit(3, last).unwrap().counts), [0, 0, 0, 0, 1]);
        assert_fresh(&reel, &score);
        reel.out()[7]
    };
    assert!(sample((2 * 64 + 62) * 132 + 47) > 0.2);
    assert_eq!(sample(25_209), 0.0);
}

#[test]
fn a_row_is_read_by_its_number() {
    let bank = bank();
    let setup = setup(Instrument::Terrain, &bank);
    let score: Vec<Row> = (0..5).map(|i| Row { timbre: i as f32 / 8.0, ..ROW }).collect();
    let reel = Reel::render(&setup, &score).unwrap();
    assert_eq!((reel.count(), reel.rows().collect::<Vec<Row>>()), (5, score.clone()));
    assert_eq!((reel.row(4), reel.row(5)), (Some(score[4]), None));
    let block = reel.block(3).unwrap();
    assert_eq!((block.out, block.aux), (&reel.out()[72..96], &reel.aux()[72..96]));
    assert_eq!(reel.block(5), None);
    assert_eq!(reel.kept(4).unwrap()[..], reel.take().kept[4 * KEPT_WORDS..]);
    assert_eq!(reel.kept(5), None);
    assert_eq!((reel.setup().rate, reel.setup().frames), (48_000, 24));
    assert_eq!(reel.setup().instrument, Instrument::Terrain);
    assert_eq!(samples(&reel.take().aux), reel.aux());
    assert!(format!("{reel:?}").len() < 100);
}

#[test]
fn another_score_takes_the_old_ones_place_or_leaves_it() {
    let bank = bank();
    let setup = setup(Instrument::Wavetable, &bank);
    let mut reel = Reel::render(&setup, &[ROW; 4]).unwrap();
    let before = reel.clone();
    let refusal = reel.replace(&[ROW, Row { note: 121.0, ..ROW }]).unwrap_err();
    assert_eq!((refusal.reason, refusal.place, refusal.column), (Reason::Limit, 1, Some(Column::Note)));
    assert_same(&reel, &before);
    assert_eq!(reel.replace(&[ROW; 7]).unwrap().rows, 7);
    assert_same(&reel, &Reel::render(&setup, &[ROW; 7]).unwrap());
}

#[test]
fn a_reel_is_not_made_where_the_library_refuses() {
    let bank = bank();
    let good = setup(Instrument::Wavetable, &bank);
    let reason = |setup, rows: &[Row]| Reel::render(&setup, rows).unwrap_err().reason;
    assert_eq!(reason(Setup { rate: 31_999, ..good }, &[ROW]), Reason::Rate);
    assert_eq!(reason(Setup { frames: 0, ..good }, &[ROW]), Reason::Block);
    assert_eq!(reason(Setup { frames: u32::MAX, ..good }, &[ROW]), Reason::Block);
    assert_eq!(reason(good, &[]), Reason::Rows);
    assert_eq!(reason(good, &[ROW; 4_097]), Reason::Rows);
    for part in [4, 6, 4_096 * 5 - 1] {
        assert_eq!(Reel::render_words(&good, vec![0; part]).unwrap_err().reason, Reason::Rows);
    }
    assert_eq!(Reel::render(&good, &[ROW; 4_096]).unwrap().count(), 4_096);
}

#[test]
fn a_text_gives_the_reel_of_its_rows() {
    let bank = bank();
    let setup = setup(Instrument::Wavetable, &bank);
    let words = |row: Row| row.words().map(|w| format!("{w:08x}")).join(" ");
    let text =
        format!("note timbre morph harmonics restart\n{}\n{}\n", words(ROW), words(Row { restart: true, ..ROW }));
    let reel = Reel::render_text(&setup, text.as_bytes()).unwrap();
    assert_same(&reel, &Reel::render(&setup, &[ROW, Row { restart: true, ..ROW }]).unwrap());
    assert_eq!(reel.score().to_string(), text);
}

#[test]
fn a_reel_has_the_score_of_its_rows_after_each_call() {
    let bank = bank();
    let setup = setup(Instrument::Oscillator, &bank);
    let high = Row { note: 72.0, ..ROW };
    let mut reel = Reel::render(&setup, &[ROW; 3]).unwrap();
    assert_eq!(*reel.score(), Score::new(&[ROW; 3]).unwrap());
    reel.insert(1, high).unwrap();
    reel.edit(0, high).unwrap();
    reel.push(Row { timbre: 1.5, ..ROW }).unwrap_err();
    reel.remove(3).unwrap();
    assert_eq!(*reel.score(), Score::new(&[high, high, ROW]).unwrap());
    assert_same(&reel, &Reel::render_text(&setup, reel.score().to_string().as_bytes()).unwrap());
}
