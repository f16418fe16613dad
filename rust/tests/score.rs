//! Scores by themselves: read, made of rows, refused, displayed.

use wohketa_retake::{Column, MOST_ROWS, Reason, Row, Score, text_length};

/// All orders of these columns.
fn orders(columns: &[Column]) -> Vec<Vec<Column>> {
    let Some((first, others)) = columns.split_first() else { return vec![vec![]] };
    let with_first =
        |order: Vec<Column>| (0..=order.len()).map(move |at| [&order[..at], &[*first], &order[at..]].concat());
    orders(others).into_iter().flat_map(with_first).collect()
}

/// A text of row words with its columns in an order.
fn text(words: &[u32], order: &[Column]) -> String {
    let mut text = order.iter().map(|column| column.name()).collect::<Vec<&str>>().join(" ") + "\n";
    for row in words.chunks(Row::WORDS) {
        let word = |column: &Column| row[Column::ALL.iter().position(|other| other == column).unwrap()];
        let line: Vec<String> = order.iter().map(|column| format!("{:08x}", word(column))).collect();
        text += &(line.join(" ") + "\n");
    }
    text
}

/// The text with its digits in upper case; the names keep theirs.
fn upper(text: &str) -> String {
    let (names, lines) = text.split_once('\n').unwrap();
    format!("{names}\n{}", lines.to_uppercase())
}

/// Rows with digits of every kind, and other words in each column.
fn rows(count: usize) -> Vec<Row> {
    let row = |k: usize| Row {
        note: (k % 121) as f32,
        timbre: (k % 11) as f32 / 11.0,
        morph: (k % 7) as f32 / 7.0,
        harmonics: (k % 13) as f32 / 13.0,
        restart: k.is_multiple_of(5),
    };
    (0..count).map(row).collect()
}

#[test]
fn a_score_is_displayed_tidily_whatever_its_columns_and_letters() {
    let score = Score::new(&rows(30)).unwrap();
    let tidy = text(score.words(), &Column::ALL);
    assert_eq!(score.to_string(), tidy);
    assert_eq!(orders(&Column::ALL).len(), 120);
    for order in orders(&Column::ALL) {
        let shuffled = text(score.words(), &order);
        for text in [upper(&shuffled), shuffled] {
            let read: Score = text.parse().unwrap();
            assert_eq!(read, score);
            assert_eq!((read.to_string(), text.len()), (tidy.clone(), tidy.len()));
        }
    }
}

#[test]
fn a_word_that_changes_changes_its_place_alone() {
    let score = Score::new(&rows(30)).unwrap();
    let tidy = score.to_string();
    for at in 0..score.words().len() {
        let mut words = score.words().to_vec();
        words[at] ^= 1;
        let other = Score::from_words(words).unwrap();
        let changed = other.to_string();
        assert_ne!((&other, &changed), (&score, &tidy));
        let digit = text_length(0) + 9 * at + 7;
        assert_eq!((&changed[..digit], &changed[digit + 1..]), (&tidy[..digit], &tidy[digit + 1..]));
        assert_eq!(changed.parse(), Ok(other));
    }
}

/// 0 and -0 are two words: equal as floats, not as rows.
#[test]
fn scores_are_equal_where_their_words_are() {
    let row = Row { timbre: 0.0, ..Row::default() };
    let [plus, minus] = [row, Row { timbre: -0.0, ..row }].map(|row| Score::new(&[row]).unwrap());
    assert_eq!(plus.row(0), minus.row(0));
    assert_ne!(plus, minus);
    assert_ne!(plus.to_string(), minus.to_string());
    assert_eq!(minus.to_string().parse(), Ok(minus));
}

#[test]
fn the_longest_score_is_read_and_displayed() {
    let score = Score::new(&rows(MOST_ROWS)).unwrap();
    let text = score.to_string();
    assert_eq!((score.count(), text.len()), (MOST_ROWS, 184_356));
    assert_eq!(text.parse(), Ok(score));
}

#[test]
fn a_score_gives_its_rows_and_words() {
    let rows = rows(9);
    let score = Score::new(&rows).unwrap();
    assert_eq!((score.count(), score.rows().collect::<Vec<Row>>()), (9, rows.clone()));
    assert_eq!((score.row(8), score.row(9)), (Some(rows[8]), None));
    let words: Vec<u32> = rows.iter().flat_map(|row| row.words()).collect();
    assert_eq!(score.words(), words);
    assert_eq!(score.clone().into_words(), words);
    assert_eq!(Score::from_words(words), Ok(score.clone()));
    assert_eq!(format!("{score:?}"), format!("{rows:?}"));
}

#[test]
fn a_score_is_not_made_where_the_library_refuses() {
    let answer = |rows: &[Row]| Score::new(rows).map_err(|refusal| (refusal.reason, refusal.place, refusal.column));
    assert_eq!(answer(&[]), Err((Reason::Rows, 0, None)));
    assert_eq!(answer(&rows(MOST_ROWS + 1)), Err((Reason::Rows, 0, None)));
    let loud = Row { harmonics: 1.5, ..Row::default() };
    assert_eq!(answer(&[Row::default(), loud]), Err((Reason::Limit, 1, Some(Column::Harmonics))));
    for part in [1, 4, 6, MOST_ROWS * Row::WORDS - 1] {
        assert_eq!(Score::from_words(vec![0; part]).unwrap_err().reason, Reason::Rows);
    }

    let names = "note timbre morph harmonics restart\n";
    let line = "42700000 00000000 00000000 00000000 00000000\n";
    let refusal = |text: String| text.parse::<Score>().unwrap_err().to_string();
    assert_eq!(refusal(String::new()), "the first line is not the five names, each once (number 10)");
    assert_eq!(refusal(format!("row {names}")), "the first line is not the five names, each once (number 10)");
    assert_eq!(refusal(format!("{names}{line}\n")), "row 1: not five words of eight hexadecimal digits (number 11)");
    let high = line.replace("42700000", "42F00001");
    assert_eq!(refusal(format!("{names}{line}{high}")), "row 1: note is not from 0 to 120 (number 9)");
    assert_eq!(names.parse::<Score>().unwrap_err().reason, Reason::Rows);
    assert_eq!((names.to_owned() + &line.repeat(MOST_ROWS + 1)).parse::<Score>().unwrap_err().reason, Reason::Rows);
    assert_eq!(Score::read(&[0xff]).unwrap_err().reason, Reason::Names);
}
