//! Document 02, #101: a release "as RFC 4180 text".

use std::fmt::Write;

/// "Every line ends in CR LF."
const LINE_END: &str = "\r\n";

/// The text of a table of these values, row by row. "The first line is the
/// header `c0,c1` and so on, one name per column." "Values are decimal with a
/// minus sign where needed and no leading zeros, zero being `0`; nothing is
/// quoted. A release of no rows gives the header alone."
pub fn of(columns: usize, values: &[i64]) -> String {
    let mut text = String::new();
    line(&mut text, (0..columns).map(|column| format!("c{column}")));
    for row in values.chunks(columns) {
        line(&mut text, row);
    }
    text
}

fn line(text: &mut String, fields: impl IntoIterator<Item = impl std::fmt::Display>) {
    for (place, field) in fields.into_iter().enumerate() {
        if place > 0 {
            text.push(',');
        }
        write!(text, "{field}").expect("a string takes every text");
    }
    text.push_str(LINE_END);
}
