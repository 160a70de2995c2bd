//! The text of a release: how much room is lent for it, whether it reads back,
//! and which classes it and its room fall into.

use crate::classes::Classes;
use crate::reference::value::{HIGHEST, LOWEST};
use crate::rng::Rng;

/// The longest text: 25 bytes of names, and 256 rows of 137 bytes.
pub const LONGEST: usize = 35_097;

/// Names of two bytes, commas between them, CR LF.
fn header(columns: usize) -> usize {
    3 * columns + 1
}

/// Room enough for a text of this length, which is 0 where none is written.
pub fn enough(rng: &mut Rng, length: usize) -> usize {
    match rng.below(8) {
        0 | 1 => length,
        2 => length + 1,
        3 => length + rng.below(300),
        4 => length + rng.below(LONGEST),
        5 => LONGEST,
        _ => LONGEST + 1 + rng.below(5_000),
    }
}

/// Too little room for the text of a table of so many columns.
pub fn too_little(rng: &mut Rng, length: usize, columns: usize) -> usize {
    let room = match rng.below(8) {
        0 => 0,
        1 | 2 => length - 1,
        3 => header(columns),
        4 => rng.below(header(columns)),
        _ => rng.below(length),
    };
    room.min(length - 1)
}

/// Reads a text by document 02's grammar: "The first line is the header `c0,c1`
/// and so on, one name per column. Every line ends in CR LF. Values are decimal
/// with a minus sign where needed and no leading zeros, zero being `0`; nothing
/// is quoted." Answers the columns and the values, row by row.
pub fn read(text: &[u8]) -> Option<(usize, Vec<i64>)> {
    let lines = std::str::from_utf8(text).ok()?.strip_suffix("\r\n")?;
    let mut lines = lines.split("\r\n").map(|line| line.split(',').collect::<Vec<&str>>());
    let names = lines.next()?;
    let named = names.iter().enumerate().all(|(column, name)| *name == format!("c{column}"));
    let mut values = Vec::new();
    for line in lines {
        if line.len() != names.len() {
            return None;
        }
        for field in line {
            values.push(decimal(field)?);
        }
    }
    named.then_some((names.len(), values))
}

fn decimal(field: &str) -> Option<i64> {
    let digits = field.strip_prefix('-').unwrap_or(field);
    let right = match digits.as_bytes() {
        [b'0'] => field == digits,
        [b'1'..=b'9', rest @ ..] => rest.iter().all(u8::is_ascii_digit),
        _ => false,
    };
    right.then(|| field.parse().ok()).flatten()
}

/// A release, its rows and its text's length, into a slice of `room` bytes.
pub fn released(columns: usize, rows: &[i64], length: usize, room: usize, classes: &mut Classes) {
    let (exact, none, longest) = (room == length, rows.is_empty(), length == LONGEST);
    classes.hit_if(exact, "text: slice of just its length");
    classes.hit_if(room == length + 1, "text: slice one byte longer");
    classes.hit_if(room > length + 1 && room < LONGEST, "text: slice longer than the text");
    classes.hit_if(room == LONGEST && !longest, "text: slice for the longest text");
    classes.hit_if(room > LONGEST, "text: slice longer than any text");
    classes.hit_if(none, "text: header alone");
    classes.hit_if(none && exact, "text: header alone, slice of just its length");
    classes.hit_if(longest, "text: 35,097 bytes, the longest");
    classes.hit_if(longest && exact, "text: 35,097 bytes, slice of just its length");
    classes.hit(COLUMNS[columns - 1]);
    for &value in rows {
        let digits = value.unsigned_abs().to_string();
        let power = digits.len() > 1 && digits.trim_end_matches('0') == "1";
        let below = digits.trim_end_matches('9').is_empty();
        classes.hit(DIGITS[digits.len() - 1]);
        classes.hit_if(value == 0, "text: zero");
        classes.hit_if(value < 0, "text: a negative value");
        classes.hit_if(value > 0 && power, "text: a power of ten");
        classes.hit_if(value < 0 && power, "text: a negative power of ten");
        classes.hit_if(value > 0 && below, "text: one below a power of ten");
        classes.hit_if(value < 0 && below, "text: one above a negative power of ten");
    }
    let ends = [LOWEST, HIGHEST].map(|end| rows.contains(&end));
    classes.hit_if(ends[0], "text: -2^47");
    classes.hit_if(ends[1], "text: 2^47 - 1");
    classes.hit_if(ends == [true; 2], "text: both ends of the range");
}

const COLUMNS: [&str; 8] = [
    "text: 1 column",
    "text: 2 columns",
    "text: 3 columns",
    "text: 4 columns",
    "text: 5 columns",
    "text: 6 columns",
    "text: 7 columns",
    "text: 8 columns",
];
const DIGITS: [&str; 15] = [
    "text: a value of 1 digit",
    "text: a value of 2 digits",
    "text: a value of 3 digits",
    "text: a value of 4 digits",
    "text: a value of 5 digits",
    "text: a value of 6 digits",
    "text: a value of 7 digits",
    "text: a value of 8 digits",
    "text: a value of 9 digits",
    "text: a value of 10 digits",
    "text: a value of 11 digits",
    "text: a value of 12 digits",
    "text: a value of 13 digits",
    "text: a value of 14 digits",
    "text: a value of 15 digits",
];

/// 51 for the text of a release with this answer.
pub fn refused(answer: [u32; 4], steps: usize, room: usize, classes: &mut Classes) {
    let [_, rows, columns, length] = answer.map(|number| number as usize);
    let header = header(columns);
    classes.hit_if(room == 0, "51 empty slice");
    classes.hit_if(room > 0 && room < header, "51 header cut");
    classes.hit_if(room == header, "51 room for the header alone");
    classes.hit_if(room > header && room + 1 < length, "51 rows cut");
    classes.hit_if(room + 1 == length, "51 one byte short");
    classes.hit_if(rows == 0, "51 header alone to write");
    classes.hit_if(rows == 0 && room + 1 == length, "51 header alone to write, one byte short");
    classes.hit_if(rows == 1, "51 one row to write");
    classes.hit_if(rows == 256, "51 256 rows to write");
    classes.hit_if(length == LONGEST, "51 35,097 bytes to write");
    classes.hit_if(room + 1 == LONGEST && length == LONGEST, "51 35,096 bytes for 35,097");
    classes.hit_if(steps == 1, "51 after 1 step");
    classes.hit_if(steps == 64, "51 after 64 steps");
}

/// A refusal that comes before 51, with an empty slice for the text and with
/// one that would hold any.
pub fn refused_before(number: u32, room: usize, classes: &mut Classes) {
    let [empty, long] = match number {
        1 => ["1 with an empty text slice", "1 with a long text slice"],
        11..=20 => ["11 to 20 with an empty text slice", "11 to 20 with a long text slice"],
        21 => ["21 with an empty text slice", "21 with a long text slice"],
        22 => ["22 with an empty text slice", "22 with a long text slice"],
        31 => ["31 with an empty text slice", "31 with a long text slice"],
        32 => ["32 with an empty text slice", "32 with a long text slice"],
        33 => ["33 with an empty text slice", "33 with a long text slice"],
        34 => ["34 with an empty text slice", "34 with a long text slice"],
        35 => ["35 with an empty text slice", "35 with a long text slice"],
        36 => ["36 with an empty text slice", "36 with a long text slice"],
        37 => ["37 with an empty text slice", "37 with a long text slice"],
        _ => return,
    };
    classes.hit_if(room == 0, empty);
    classes.hit_if(room >= LONGEST, long);
}
