//! The conversion of stored containers as a command for scripts, in Rust.
//!
//! ```text
//! rustc -O --edition 2024 -L native=out -o convert bindings/rust/convert.rs
//! convert < CONTAINER > NEW 2> OFFSETS
//! convert FILE > NEW 2> OFFSETS
//! ```
//!
//! Raises each group minimum of 1 in a container to 2, and leaves every other byte as it
//! is. Writes the new container to standard output, and then the byte offset of each
//! label that was changed to standard error, one to a line. A container without a
//! minimum of 1 comes back as it is.
//!
//! Only a container that was accepted before, when a minimum could be 1, is converted;
//! its rule year is 0. Of any other the line of the refusal goes to standard error, and
//! nothing to standard output.
//!
//! A word that begins with -- is no file; ./--name is one.
//!
//! Exit status: 0 the container is converted; 1 it is refused; 2 something could not be
//! read or written, or the words are wrong, and then nothing that was written is to be
//! used. A descriptor that is closed when the program begins counts as /dev/null: Rust
//! puts that in its place.

mod cilunovay;

use cilunovay::{convert, Conversion, LONGEST_CONTAINER};
use std::ffi::{OsStr, OsString};
use std::fs::File;
use std::io::{self, Read, Write};
use std::os::unix::ffi::OsStrExt;
use std::process::ExitCode;

const CONVERTED: u8 = 0;
const REFUSED: u8 = 1;
const BROKEN: u8 = 2;

fn main() -> ExitCode {
    let words: Vec<OsString> = std::env::args_os().skip(1).collect();
    let (status, lines) = run(&words).unwrap_or_else(|message| (BROKEN, message + "\n"));
    let said = io::stderr().write_all(lines.as_bytes());
    ExitCode::from(if said.is_ok() { status } else { BROKEN })
}

/// Converts the container of standard input or of the file, writes what it becomes, and
/// answers the exit status and the lines for standard error.
fn run(words: &[OsString]) -> Result<(u8, String), String> {
    let container = match words {
        [] => read(io::stdin()).map_err(|error| named("standard input", error))?,
        [name] if !name.as_bytes().starts_with(b"--") => read_file(name)?,
        _ => return Err("usage: convert [FILE]".to_string()),
    };
    match convert(&container) {
        Ok(Conversion { container, offsets }) => {
            write(&container).map_err(|error| named("standard output", error))?;
            Ok((CONVERTED, offsets.iter().map(|offset| format!("{offset}\n")).collect()))
        }
        Err(refusal) => Ok((REFUSED, format!("X {} {}\n", refusal.fault.number(), refusal.offset))),
    }
}

fn named(name: &str, error: io::Error) -> String {
    format!("convert: {name}: {error}")
}

/// At most one byte more than the longest container, so that a longer one is refused.
fn read(source: impl Read) -> io::Result<Vec<u8>> {
    let mut bytes = Vec::new();
    source.take(LONGEST_CONTAINER as u64 + 1).read_to_end(&mut bytes)?;
    Ok(bytes)
}

fn read_file(name: &OsStr) -> Result<Vec<u8>, String> {
    let file = File::open(name).and_then(read);
    file.map_err(|error| named(&name.to_string_lossy(), error))
}

/// Writes the new container, all of it, before any offset is said.
fn write(container: &[u8]) -> io::Result<()> {
    let mut out = io::stdout();
    out.write_all(container).and_then(|()| out.flush())
}
