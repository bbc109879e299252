//! Texts of day sheets as the page of cardwrite describes them: what is wrong with a line, and the card up to a line that is refused.

use super::{columns, header};
use crate::reference::compare::QUARTERS;
use crate::reference::sheet::exists;
use crate::tools::sheets::{random_symbols, sheet_record};
use crate::tools::Chance;

pub const COLUMNS: &str = "the number of columns is not that of the header";
pub const NUMBER: &str = "a column is no number";
pub const DATE: &str = "the date does not exist, or no day sheet can hold it";
pub const PUMP: &str = "the pump is above 127";
pub const COUNT: &str = "a count is above 127";
pub const HEADER: &str = "this is no header of day sheets";
pub const LONG: &str = "the line is longer than that of any sheet";

/// The number that at most so many digits stand for, where it is below 2^64.
fn number(column: &str, most: usize) -> Result<u64, &'static str> {
    let decimal = (1..=most).contains(&column.len()) && column.bytes().all(|byte| byte.is_ascii_digit());
    decimal.then(|| column.parse().unwrap_or(u64::MAX)).ok_or(NUMBER)
}

/// The symbol of a column: a number up to 127.
fn symbol(column: &str, above: &'static str) -> Result<u8, &'static str> {
    u8::try_from(number(column, 3)?).ok().filter(|&symbol| symbol < 128).ok_or(above)
}

/// Year less 2000, month and day.
fn date(column: &str) -> Option<[u8; 3]> {
    let parts: Vec<&str> = column.split('-').collect();
    let lengths: Vec<usize> = parts.iter().map(|part| part.len()).collect();
    if lengths != [4, 2, 2] || !column.bytes().all(|byte| byte == b'-' || byte.is_ascii_digit()) {
        return None;
    }
    let [year, month, day] = [0, 1, 2].map(|at| parts[at].parse::<u16>().expect("digits"));
    let date = [u8::try_from(year.checked_sub(2000)?).ok()?, month as u8, day as u8];
    exists(date[0], date[1], date[2]).then_some(date)
}

/// The symbols of a line below a header, or what is wrong with it: columns are counted, then read from left to right.
fn sheet_of(line: &str, with_slots: bool) -> Result<Vec<u8>, &'static str> {
    let columns: Vec<&str> = line.split(',').collect();
    if columns.len() != if with_slots { 100 } else { 98 } {
        return Err(COLUMNS);
    }
    let mut columns = columns.into_iter();
    let mut next = || columns.next().expect("a column");
    if with_slots {
        number(next(), 20)?;
    }
    let day = date(next()).ok_or(DATE)?;
    let pump = symbol(next(), PUMP)?;
    if with_slots {
        number(next(), 20)?;
    }
    let counts: Result<Vec<u8>, _> = (0..QUARTERS).map(|_| symbol(next(), COUNT)).collect();
    Ok([&counts?[..], &day, &[pump]].concat())
}

/// The records of the lines before the first that is refused, and that one's number with what is wrong, where there is one. A byte that is no
/// part of a text counts as a sign that no column takes. No line is longer than a part.
pub fn card_of(text: &[u8]) -> (Vec<u8>, Option<(usize, &'static str)>) {
    let text = String::from_utf8_lossy(text);
    let mut lines = text.strip_suffix('\n').unwrap_or(&text).split('\n').map(|line| line.strip_suffix('\r').unwrap_or(line));
    let first = lines.next().expect("a line, if an empty one");
    let with_slots = match [true, false].into_iter().find(|&with_slots| header(with_slots).trim_end() == first) {
        Some(with_slots) => with_slots,
        None => return (Vec::new(), Some((1, HEADER))),
    };
    let mut records = Vec::new();
    for (number, line) in (2..).zip(lines) {
        match sheet_of(line, with_slots) {
            Ok(symbols) => records.extend(sheet_record(&symbols)),
            Err(why) => return (records, Some((number, why))),
        }
    }
    (records, None)
}

/// A good line with other texts in these columns.
pub fn line_with(changes: &[(usize, &str)]) -> String {
    let mut columns = columns(&random_symbols(&mut Chance::new()), Some((1, 0)));
    changes.iter().for_each(|&(at, text)| columns[at] = text.to_owned());
    columns.join(",")
}

/// Lines with all columns, by what is wrong with them.
pub fn bad_lines() -> [(&'static str, Vec<String>); 5] {
    let good = line_with(&[]);
    let each = |places: &[usize], texts: &str| -> Vec<String> {
        places.iter().flat_map(|&at| texts.split('|').map(move |text| line_with(&[(at, text)]))).collect()
    };
    let shorter = good.rsplit_once(',').expect("columns").0.to_owned();
    let mut wrong_columns = vec![shorter, format!("{good},5"), format!("{good},"), format!(",{good}"), good.replace(',', ";")];
    wrong_columns.extend(["", "\r", " ", "total 1 1 1", &good[2..], header(false).trim_end(), &",".repeat(98), &",".repeat(100)].map(String::from));
    let counts = "|x|-1|+1|1.0|1e1| 1|1 |0x1|0001|1000|\"1\"|１|1_0|\u{0}|\r1|:|/";
    let dates = "|2024-02-30|2023-02-29|2100-02-29|2024-13-01|2024-00-10|2024-01-00|2024-04-31|2024-01-32|1999-12-31|2128-01-01|0000-01-01\
        |2024-1-01|2024-01-1|2024/01/01|24-01-01|01-01-2024|20240101|2024-01-01 | 2024-01-01|2024-01-011|20x4-01-01|2024-0x-01|2024-01-x1\
        |x024-01-01|202\u{e9}-01-01|2024-01-0:|2024 01 01|9999-01-01";
    let numbers = "|x|-1|1.0| 1|1 |999999999999999999999|\"1\"";
    [
        (COLUMNS, wrong_columns),
        (NUMBER, [each(&[0, 3], numbers), each(&[2, 4, 50, 99], counts), vec![header(true).trim_end().to_owned(), good + "\r\r"]].concat()),
        (DATE, each(&[1], dates)),
        (PUMP, each(&[2], "128|200|255|256|257|999")),
        (COUNT, each(&[4, 5, 50, 98, 99], "128|200|255|256|257|999")),
    ]
}
