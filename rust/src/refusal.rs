//! Why a call was refused.

use std::fmt;

use crate::row::Column;

/// Why a call was refused.
#[derive(Debug, Clone, Copy, PartialEq, Eq, Hash)]
#[non_exhaustive]
pub enum Reason {
    /// 1: no such instrument.
    Instrument,
    /// 2: the rate is not from 32,000 to 192,000 Hz.
    Rate,
    /// 3: the frame count is not from 1 to 128.
    Block,
    /// 4: the bank has not 25,344 samples.
    Bank,
    /// 5: the map has not the length that the instrument wants.
    Map,
    /// 6: the rows are not 1 to 4,096 before and after the call, or the row words are too few for them.
    Rows,
    /// 7: out, aux or kept is shorter than the score needs.
    Take,
    /// 8: the position is not below the row count, or in an insertion above it.
    Position,
    /// 9: a word of the score, as the call would leave it, is outside its name's limit.
    Limit,
    /// 10: the first line of a text is not the five names, each once.
    Names,
    /// 11: a line of a text is not five words of eight hexadecimal digits.
    Value,
    /// 12: the lent row words are fewer than a text's score needs.
    Space,
    /// 13: an insertion finds no room for one row more in the row words, out, aux or kept.
    Full,
    /// 14: the lent text is shorter than the score needs.
    Paper,
    /// A number of the library that this version does not know.
    Other(u32),
}

impl Reason {
    /// The reason of a refusal's number.
    pub fn of(number: u32) -> Reason {
        match number {
            1 => Reason::Instrument,
            2 => Reason::Rate,
            3 => Reason::Block,
            4 => Reason::Bank,
            5 => Reason::Map,
            6 => Reason::Rows,
            7 => Reason::Take,
            8 => Reason::Position,
            9 => Reason::Limit,
            10 => Reason::Names,
            11 => Reason::Value,
            12 => Reason::Space,
            13 => Reason::Full,
            14 => Reason::Paper,
            other => Reason::Other(other),
        }
    }

    /// The refusal's number.
    pub fn number(self) -> u32 {
        match self {
            Reason::Instrument => 1,
            Reason::Rate => 2,
            Reason::Block => 3,
            Reason::Bank => 4,
            Reason::Map => 5,
            Reason::Rows => 6,
            Reason::Take => 7,
            Reason::Position => 8,
            Reason::Limit => 9,
            Reason::Names => 10,
            Reason::Value => 11,
            Reason::Space => 12,
            Reason::Full => 13,
            Reason::Paper => 14,
            Reason::Other(number) => number,
        }
    }

    fn text(self) -> &'static str {
        match self {
            Reason::Instrument => "no such instrument",
            Reason::Rate => "the rate is not from 32,000 to 192,000 Hz",
            Reason::Block => "the frame count is not from 1 to 128",
            Reason::Bank => "the bank has not 25,344 samples",
            Reason::Map => "the map has not the length that the instrument wants",
            Reason::Rows => "not 1 to 4,096 rows before and after the call, or too few row words",
            Reason::Take => "out, aux or kept is shorter than the score needs",
            Reason::Position => "past the score's end",
            Reason::Limit => "a word is outside its name's limit",
            Reason::Names => "the first line is not the five names, each once",
            Reason::Value => "not five words of eight hexadecimal digits",
            Reason::Space => "the lent row words are fewer than the score needs",
            Reason::Full => "rows, out, aux or kept has no room for one row more",
            Reason::Paper => "the lent text is shorter than the score needs",
            Reason::Other(_) => "a refusal that this version does not know",
        }
    }
}

/// A call's refusal. Nothing was changed.
#[derive(Debug, Clone, Copy, PartialEq, Eq, Hash)]
#[non_exhaustive]
pub struct Refusal {
    /// Why.
    pub reason: Reason,
    /// The first bad row for `Limit`, counted in the score as the call would leave it, and for `Value` (a
    /// text's lines of values are its rows), the position for `Position`, else 0.
    pub place: u64,
    /// For `Limit`, the first column of that row that is outside its limit.
    pub column: Option<Column>,
}

impl Refusal {
    pub(crate) fn new(number: u32, place: u64) -> Refusal {
        Refusal { reason: Reason::of(number), place, column: None }
    }

    /// The refusal with its column, where it is one of a limit; `row` has the words of row `place`.
    pub(crate) fn in_row(self, row: impl FnOnce(usize) -> Option<Vec<u32>>) -> Refusal {
        let bad = (self.reason == Reason::Limit).then(|| row(self.place as usize)).flatten();
        Refusal { column: bad.and_then(|words| Column::outside(&words)), ..self }
    }
}

impl fmt::Display for Refusal {
    fn fmt(&self, f: &mut fmt::Formatter<'_>) -> fmt::Result {
        if matches!(self.reason, Reason::Position | Reason::Limit | Reason::Value) {
            write!(f, "row {}: ", self.place)?;
        }
        match self.column {
            Some(column) => write!(f, "{column} is not {}", column.limit())?,
            None => f.write_str(self.reason.text())?,
        }
        write!(f, " (number {})", self.reason.number())
    }
}

impl std::error::Error for Refusal {}
