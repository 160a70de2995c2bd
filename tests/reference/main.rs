//! The monitor program of document 01, by the reference implementation, the
//! text of a release, runs with draws and with overlays, the conversion of stored
//! containers, and the answers of the trials.
//!
//!     rustc -O --edition 2021 -o reference tests/reference/main.rs
//!
//!     reference             runs the container on standard input
//!     reference FILE..      runs each container, behind a line with its name
//!     reference noise FILE DRAWS..  runs each container with the draws of the
//!                           file named after it, behind a line with its name
//!     reference overlays FILE O0 O1 O2 O3..  runs each container with the overlays
//!                           of the four files named after it, behind a line with
//!                           its name; an empty file is no overlay
//!     reference export      writes the text of the release, or the refusal's
//!                           line to standard error
//!     reference texts FILE..  the answers with much and little room for the
//!                           text, behind a line with the name, and the text
//!     reference convert     writes the container on standard input anew, and the
//!                           offsets of the labels changed, one a line, or the
//!                           refusal's line, to standard error
//!     reference check FILE..  a line for each: what the input checks answer
//!     reference labels      a line for each line of standard input, a question
//!                           to the label library, with its answer
//!     reference steps       the same for single steps on small tables
//!
//! Only `noise` and `steps` have draws, and only `overlays` has overlays. A file of
//! draws has decimal numbers of 64 bits, one a line.

#[path = "lib.rs"]
#[allow(dead_code, unused_imports)]
mod reference;

mod label_trials;
mod step_trials;

use reference::container::parse;
use reference::conversion::converted;
use reference::release::{MARKS_LENGTH, OUTPUT_LENGTH, TEXT_LENGTH, TRACE_LENGTH, WORK_LENGTH};
use reference::{run, Answer, Overlays};
use std::fmt::{Display, Write as _};
use std::io::{self, Read, Write};

fn main() {
    let words: Vec<String> = std::env::args().skip(1).collect();
    let words: Vec<&str> = words.iter().map(String::as_str).collect();
    let mut text = String::new();
    match words[..] {
        [] => print_run(&read(io::stdin(), "standard input"), NO_DRAWS, NO_OVERLAYS, &mut text),
        ["labels"] => {
            for (index, question) in input().lines().enumerate() {
                let line = label_trials::line(question).unwrap_or_else(|| no_line(index + 1));
                writeln!(text, "{line}").unwrap();
            }
        }
        ["noise", ref names @ ..] => {
            for pair in names.chunks(2) {
                let (name, draws) = match *pair {
                    [name, draws] => (name, draws),
                    _ => fail(pair[0], "no file of draws after it"),
                };
                writeln!(text, "{name}").unwrap();
                print_run(&read_file(name), &read_draws(draws), NO_OVERLAYS, &mut text);
            }
        }
        ["overlays", ref names @ ..] => {
            for group in names.chunks(5) {
                let (name, overlays) = match *group {
                    [name, ref overlays @ ..] if overlays.len() == 4 => (name, overlays),
                    _ => fail(group[0], "no four files of overlays after it"),
                };
                let files: Vec<Vec<u8>> = overlays.iter().map(|name| read_file(name)).collect();
                let overlays = [0, 1, 2, 3].map(|place: usize| &files[place][..]);
                writeln!(text, "{name}").unwrap();
                print_run(&read_file(name), NO_DRAWS, &overlays, &mut text);
            }
        }
        ["export"] => match export(&read(io::stdin(), "standard input")) {
            Ok(release) => text = release,
            Err(refusal) => eprintln!("{refusal}"),
        },
        ["texts", ref names @ ..] => {
            for name in names {
                writeln!(text, "{name}").unwrap();
                print_texts(&read_file(name), &mut text);
            }
        }
        ["convert"] => {
            let (container, lines) = conversion(&read(io::stdin(), "standard input"));
            eprint!("{lines}");
            return write(&container);
        }
        ["steps"] => text = step_trials::lines(&input()).unwrap_or_else(|number| no_line(number)),
        ["check", ref names @ ..] => {
            for name in names {
                print_check(name, &read_file(name), &mut text);
            }
        }
        ref names => {
            for name in names {
                writeln!(text, "{name}").unwrap();
                print_run(&read_file(name), NO_DRAWS, NO_OVERLAYS, &mut text);
            }
        }
    }
    write(text.as_bytes());
}

fn write(bytes: &[u8]) {
    io::stdout().write_all(bytes).unwrap_or_else(|error| fail("standard output", error));
}

fn fail(name: &str, error: impl Display) -> ! {
    eprintln!("{name}: {error}");
    std::process::exit(2)
}

fn no_line(number: usize) -> ! {
    fail(&format!("line {number}"), "no question that the documents answer")
}

/// Standard input, as text.
fn input() -> String {
    let mut text = String::new();
    if let Err(error) = io::stdin().read_to_string(&mut text) {
        fail("standard input", error)
    }
    text
}

fn read_file(name: &str) -> Vec<u8> {
    let file = std::fs::File::open(name).unwrap_or_else(|error| fail(name, error));
    read(file, name)
}

/// One byte more than the longest container and the longest overlay, so that 11
/// and 21 show.
fn read(source: impl Read, name: &str) -> Vec<u8> {
    let mut bytes = Vec::new();
    if let Err(error) = source.take(65_537).read_to_end(&mut bytes) {
        fail(name, error)
    }
    bytes
}

/// Programs lend, "of the inputs that requests add, empty ones".
const NO_DRAWS: &[i64] = &[];
const NO_OVERLAYS: &Overlays = &[&[]; 4];

fn read_draws(name: &str) -> Vec<i64> {
    let text = std::fs::read_to_string(name).unwrap_or_else(|error| fail(name, error));
    draws(&text).unwrap_or_else(|number| fail(name, format!("line {number} is no draw")))
}

/// The draws of a file, or the number of a line that is none. The last line may
/// lack its LF.
fn draws(text: &str) -> Result<Vec<i64>, usize> {
    if text.is_empty() {
        return Ok(Vec::new());
    }
    let lines = text.strip_suffix('\n').unwrap_or(text).split('\n');
    lines.enumerate().map(|(index, line)| draw(line).ok_or(index + 1)).collect()
}

/// Decimal digits, behind a minus sign or not, of a signed 64-bit number.
fn draw(line: &str) -> Option<i64> {
    let digits = line.strip_prefix('-').unwrap_or(line);
    let right = digits.bytes().all(|byte| byte.is_ascii_digit());
    right.then(|| line.parse().ok()).flatten()
}

/// The steps and the tables of an accepted container, or the refusal.
fn print_check(name: &str, container: &[u8], text: &mut String) {
    match parse(container) {
        Ok(container) => {
            let (steps, tables) = (container.plan.len(), container.tables.len());
            writeln!(text, "{name} accepted {steps} {tables}").unwrap();
        }
        Err(refusal) => {
            writeln!(text, "{name} X {} {}", refusal.fault.number(), refusal.offset).unwrap();
        }
    }
}

/// Document 02, #107: "writes the new container to standard output and the offset
/// of each label changed, one a line, to standard error"; any other container than
/// those that it converts "gives its `X` line on standard error and no container".
fn conversion(container: &[u8]) -> (Vec<u8>, String) {
    match converted(container) {
        Ok((container, offsets)) => {
            (container, offsets.iter().map(|offset| format!("{offset}\n")).collect())
        }
        Err(refusal) => (Vec::new(), format!("X {} {}\n", refusal.fault.number(), refusal.offset)),
    }
}

/// What a run leaves in slices that were zero.
struct Left {
    answer: Answer,
    output: Vec<i64>,
    trace: Vec<u32>,
    text: Vec<u8>,
}

/// Runs a container with these draws and overlays and so many bytes of room for
/// the text.
fn run_in(room: usize, container: &[u8], draws: &[i64], overlays: &Overlays) -> Left {
    let mut values = vec![0i64; WORK_LENGTH];
    let mut labels = vec![0u32; WORK_LENGTH];
    let mut marks = vec![0u64; MARKS_LENGTH];
    let mut output = vec![0i64; OUTPUT_LENGTH];
    let mut trace = vec![0u32; TRACE_LENGTH];
    let mut text = vec![0u8; room];
    let answer = run(
        container,
        draws,
        overlays,
        &mut values,
        &mut labels,
        &mut marks,
        &mut output,
        &mut trace,
        &mut text,
    );
    Left { answer, output, trace, text }
}

impl Left {
    /// The text of a release, or "`X`, the number and the place (one number or
    /// three)".
    fn export(self) -> Result<String, String> {
        let [number, step, row, column] = self.answer.numbers();
        match self.answer {
            Answer::Released { length, .. } => {
                let text = self.text[..length].to_vec();
                Ok(String::from_utf8(text).expect("names, numbers, commas and line ends"))
            }
            Answer::Input(refusal) => Err(format!("X {number} {}", refusal.offset)),
            Answer::ShortSlice | Answer::State(_) | Answer::ShortText { .. } => {
                Err(format!("X {number} {step} {row} {column}"))
            }
        }
    }
}

fn export(container: &[u8]) -> Result<String, String> {
    run_in(TEXT_LENGTH, container, NO_DRAWS, NO_OVERLAYS).export()
}

/// "per finished step `S`, step, kind, rows, columns, stages left; then per
/// released row `R` and its values, or `X`, the number and the place". The
/// program "lends room enough for every write".
fn print_run(container: &[u8], draws: &[i64], overlays: &Overlays, text: &mut String) {
    let left = run_in(TEXT_LENGTH, container, draws, overlays);
    // No step has kind 0, so a zero kind ends the finished steps.
    for (step, line) in left.trace.chunks(4).take_while(|line| line[0] != 0).enumerate() {
        writeln!(text, "S {step} {} {} {} {}", line[0], line[1], line[2], line[3]).unwrap();
    }
    if let Answer::Released { rows, columns, .. } = left.answer {
        for row in left.output.chunks(columns).take(rows) {
            text.push('R');
            for value in row {
                write!(text, " {value}").unwrap();
            }
            text.push('\n');
        }
    }
    if let Err(refusal) = left.export() {
        writeln!(text, "{refusal}").unwrap();
    }
}

/// More than any text needs.
const MUCH_ROOM: usize = 40_000;

/// A line for each length of the text's slice: `T`, the length, and the numbers
/// of the answer; then the text of a release.
fn print_texts(container: &[u8], text: &mut String) {
    let release = export(container).unwrap_or_default();
    let mut rooms = vec![0];
    if !release.is_empty() {
        rooms.extend([release.len() - 1, release.len()]);
    }
    rooms.push(MUCH_ROOM);
    for room in rooms {
        let left = run_in(room, container, NO_DRAWS, NO_OVERLAYS);
        let [number, one, two, three] = left.answer.numbers();
        writeln!(text, "T {room} {number} {one} {two} {three}").unwrap();
    }
    text.push_str(&release);
}

#[cfg(test)]
mod conversion_examples;

#[cfg(test)]
#[path = "examples.rs"]
mod examples;

#[cfg(test)]
mod minimum_examples;

#[cfg(test)]
mod noise_examples;

#[cfg(test)]
mod overlay_checks;

#[cfg(test)]
mod overlay_examples;

#[cfg(test)]
mod sheet_examples;

#[cfg(test)]
mod text_examples;

#[cfg(test)]
mod year_checks;

#[cfg(test)]
mod year_examples;
