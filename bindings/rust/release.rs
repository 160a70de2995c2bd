//! The release monitor as a command for scripts, in Rust.
//!
//! ```text
//! rustc -O --edition 2024 -L native=out -o release bindings/rust/release.rs
//! release < CONTAINER
//! release FILE..
//! release --csv < CONTAINER > tally.csv
//! release --csv FILE > tally.csv
//! release --draws DRAWS < CONTAINER
//! release --draws DRAWS --csv FILE > tally.csv
//! release --overlay OVERLAY --overlay OVERLAY FILE
//! ```
//!
//! Prints a line for each finished step, then the released rows or the refusal.
//! Given files, it prints the name of each before its lines.
//!
//! With --csv it prints the released table as comma-separated text and nothing else.
//! Of a refusal it prints nothing, and the line of the refusal goes to standard error.
//!
//! With --draws it lends the run the numbers of the file DRAWS, which NOISE adds to
//! values: one to a line, each from -2^63 to 2^63 - 1, in at most 19 decimal digits.
//! Without it there are none.
//!
//! With --overlay, up to four times, the labels of the file OVERLAY are composed onto
//! those of the container's tables, and so the release asks for more. An empty file is
//! no overlay.
//!
//! The options stand before the file, in any order, and with any of them there is one
//! container at most: draws are never used twice, and an overlay is made for its
//! container. A word that begins with -- is no file; ./--name is one.
//!
//! Exit status: 0 every container is released; 1 one is refused; 2 something could
//! not be read or written, or the words are wrong, and then nothing that was printed
//! is to be used. A descriptor that is closed when the program begins counts as
//! /dev/null: Rust puts that in its place.

mod cilunovay;

use cilunovay::{Line, Monitor, Refusal, Release};
use cilunovay::{LONGEST_CONTAINER, LONGEST_OVERLAY, MOST_DRAWS, MOST_OVERLAYS};
use std::ffi::{OsStr, OsString};
use std::fs::File;
use std::io::{self, BufRead, BufReader, Read, Write};
use std::os::unix::ffi::OsStrExt;
use std::process::ExitCode;

const RELEASED: u8 = 0;
const REFUSED: u8 = 1;
const BROKEN: u8 = 2;

/// The bytes of the longest line in a file of draws, that of -2^63, with its end.
const LONGEST_LINE: u64 = 21;

fn main() -> ExitCode {
    let words: Vec<OsString> = std::env::args_os().skip(1).collect();
    let mut text = Vec::new();
    let status = run(&words, &mut text).and_then(|status| {
        let mut out = io::stdout();
        out.write_all(&text).and_then(|()| out.flush()).map_err(|error| named("standard output", error))?;
        Ok(status)
    });
    ExitCode::from(status.unwrap_or_else(|message| {
        let _ = writeln!(io::stderr(), "{message}");
        BROKEN
    }))
}

fn named(name: &str, error: io::Error) -> String {
    format!("release: {name}: {error}")
}

/// The options, and the files behind them.
struct Words<'a> {
    csv: bool,
    draws: Option<&'a OsStr>,
    overlays: Vec<&'a OsStr>,
    names: &'a [OsString],
}

fn is_option(word: &OsString) -> bool {
    word.as_bytes().starts_with(b"--")
}

fn options(words: &[OsString]) -> Option<Words<'_>> {
    let mut taken = Words { csv: false, draws: None, overlays: Vec::new(), names: words };
    loop {
        taken.names = match taken.names {
            [word, rest @ ..] if word == "--csv" && !taken.csv => {
                taken.csv = true;
                rest
            }
            [word, file, rest @ ..] if word == "--draws" && taken.draws.is_none() && !is_option(file) => {
                taken.draws = Some(file);
                rest
            }
            [word, file, rest @ ..]
                if word == "--overlay" && taken.overlays.len() < MOST_OVERLAYS && !is_option(file) =>
            {
                taken.overlays.push(file);
                rest
            }
            names => {
                let alone = names.len() < words.len();
                let wrong = names.iter().any(is_option) || (alone && names.len() > 1);
                return (!wrong).then_some(taken);
            }
        };
    }
}

/// Runs the container of standard input, or those of the files, and adds to the
/// text what is to be printed.
fn run(words: &[OsString], text: &mut Vec<u8>) -> Result<u8, String> {
    let usage = "usage: release [FILE..], or release [--csv] [--draws DRAWS] [--overlay OVERLAY].. [FILE]";
    let Words { csv, draws, overlays, names } = options(words).ok_or(usage)?;
    let draws = draws.map_or(Ok(Vec::new()), read_draws)?;
    let overlays = read_overlays(&overlays)?;
    let overlays = overlays.each_ref().map(Vec::as_slice);
    let print = if csv { print_text } else { print_run };
    let mut monitor = Monitor::new();
    if names.is_empty() {
        let read = read(io::stdin(), LONGEST_CONTAINER);
        let container = read.map_err(|error| named("standard input", error))?;
        return Ok(print(monitor.run_with_overlays(&container, &draws, overlays), text));
    }
    let mut status = RELEASED;
    for name in names {
        let container = read_file(name, LONGEST_CONTAINER)?;
        if !csv {
            text.extend_from_slice(name.as_bytes());
            text.push(b'\n');
        }
        status = status.max(print(monitor.run_with_overlays(&container, &draws, overlays), text));
    }
    Ok(status)
}

/// The overlays of these files; where there is none, no bytes.
fn read_overlays(names: &[&OsStr]) -> Result<[Vec<u8>; MOST_OVERLAYS], String> {
    let mut overlays: [Vec<u8>; MOST_OVERLAYS] = Default::default();
    for (overlay, name) in overlays.iter_mut().zip(names) {
        *overlay = read_file(name, LONGEST_OVERLAY)?;
    }
    Ok(overlays)
}

/// The numbers of a file of draws; those that no plan can use are not kept.
fn read_draws(name: &OsStr) -> Result<Vec<i64>, String> {
    let shown = name.to_string_lossy();
    let file = File::open(name).map_err(|error| named(&shown, error))?;
    let mut lines = BufReader::new(file);
    let mut draws = Vec::new();
    for count in 1.. {
        let mut line = Vec::new();
        let read = lines.by_ref().take(LONGEST_LINE + 1).read_until(b'\n', &mut line);
        if read.map_err(|error| named(&shown, error))? == 0 {
            break;
        }
        let what = || format!("release: {shown}: line {count} is no number from -2^63 to 2^63 - 1");
        let draw = number(line.strip_suffix(b"\n").unwrap_or(&line)).ok_or_else(what)?;
        if draws.len() < MOST_DRAWS {
            draws.push(draw);
        }
    }
    Ok(draws)
}

/// The number of a line: 1 to 19 digits, and a minus before them where it is below zero.
fn number(word: &[u8]) -> Option<i64> {
    let digits = word.strip_prefix(b"-").unwrap_or(word);
    let fits = (1..=19).contains(&digits.len()) && digits.iter().all(u8::is_ascii_digit);
    if fits { std::str::from_utf8(word).ok()?.parse().ok() } else { None }
}

/// At most one byte more than the longest that is accepted, so that a longer one is
/// refused.
fn read(source: impl Read, longest: usize) -> io::Result<Vec<u8>> {
    let mut bytes = Vec::new();
    source.take(longest as u64 + 1).read_to_end(&mut bytes)?;
    Ok(bytes)
}

fn read_file(name: &OsStr, longest: usize) -> Result<Vec<u8>, String> {
    let file = File::open(name).and_then(|file| read(file, longest));
    file.map_err(|error| named(&name.to_string_lossy(), error))
}

fn print_run(answer: Result<Release, Refusal>, text: &mut Vec<u8>) -> u8 {
    match answer {
        Ok(release) => {
            print_steps(&release.trace, text);
            for row in &release {
                print_line("R", row, text);
            }
            RELEASED
        }
        Err(refusal) => {
            print_steps(refusal.trace(), text);
            print_refusal(&refusal, text);
            REFUSED
        }
    }
}

/// The text of a release alone; the line of a refusal goes to standard error.
fn print_text(answer: Result<Release, Refusal>, text: &mut Vec<u8>) -> u8 {
    match answer {
        Ok(release) => {
            text.extend_from_slice(release.text.as_bytes());
            RELEASED
        }
        Err(refusal) => {
            let mut line = Vec::new();
            print_refusal(&refusal, &mut line);
            let _ = io::stderr().write_all(&line);
            REFUSED
        }
    }
}

fn print_steps(trace: &[Line], text: &mut Vec<u8>) {
    for (step, line) in trace.iter().enumerate() {
        let Line { kind, rows, columns, stages_left } = line;
        print_line("S", &[step as u32, kind.number(), *rows, *columns, *stages_left], text);
    }
}

fn print_refusal(refusal: &Refusal, text: &mut Vec<u8>) {
    let number = refusal.number() as usize;
    match refusal {
        Refusal::Input(at) => print_line("X", &[number, at.offset], text),
        Refusal::State(at) => print_line("X", &[number, at.step, at.row, at.column], text),
    }
}

fn print_line(letter: &str, numbers: &[impl ToString], text: &mut Vec<u8>) {
    text.extend_from_slice(letter.as_bytes());
    for number in numbers {
        text.push(b' ');
        text.extend_from_slice(number.to_string().as_bytes());
    }
    text.push(b'\n');
}
