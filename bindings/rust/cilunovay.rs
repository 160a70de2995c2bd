//! The release monitor for Rust, with nothing unsafe for its callers.
//!
//! Take this file in as a module, and link `libcilunovay.a`, which
//! `tools/library out` writes for x86-64 Linux. It needs Rust 1.82, and is of
//! edition 2021 or 2024. By rustc alone:
//!
//! ```text
//! rustc --edition 2024 -L native=out PROGRAM.rs
//! ```
//!
//! In a Cargo package, copy this file into `src`, the archive into `lib` and
//! `build.rs`, which stands beside this file, beside `Cargo.toml`; then write
//! `mod cilunovay;`.
//!
//! [`Monitor::run`] evaluates a container with a list of draws, which is empty for a
//! plan without NOISE, and [`Monitor::run_with_overlays`] with labels that were
//! delivered apart as well; [`check`] does the checks of a container alone, and
//! [`convert`] raises the group minima of 1 that an earlier container may have. All
//! answer for every slice of bytes. Rows, columns, steps and byte offsets count from 0.
//!
//! Byte 1 of a container is its rule year (#108), 0 or 1. Under 1 a run reads each group
//! minimum below ten as ten, after overlays are composed.

// A program may use a part of this file.
#![allow(dead_code)]

use std::fmt;

/// The longest container, in bytes. A longer one is refused.
pub const LONGEST_CONTAINER: usize = 65_536;

/// The longest text of a release, in bytes: 256 rows of 8 values of -2^47.
pub const LONGEST_TEXT: usize = 35_097;

/// No plan uses more draws: at most 63 steps NOISE, of 256 rows each.
pub const MOST_DRAWS: usize = 16_128;

/// How many overlays a run may have.
pub const MOST_OVERLAYS: usize = 4;

/// The longest overlay, in bytes. A longer one is refused.
pub const LONGEST_OVERLAY: usize = 65_536;

const WORK: usize = 8_192;
const MARKS: usize = 1_024;
const OUTPUT: usize = 2_048;
const TRACE: usize = 256;
const OFFSETS: usize = 8_192;

// A slice is lent as a pointer and a length; include/cilunovay.h has the contracts.
#[link(name = "cilunovay", kind = "static")]
unsafe extern "C" {
    fn cilunovay_run(
        container: *const u8,
        container_length: usize,
        draws: *const i64,
        draws_length: usize,
        overlay_0: *const u8,
        overlay_0_length: usize,
        overlay_1: *const u8,
        overlay_1_length: usize,
        overlay_2: *const u8,
        overlay_2_length: usize,
        overlay_3: *const u8,
        overlay_3_length: usize,
        values: *mut i64,
        values_length: usize,
        labels: *mut u32,
        labels_length: usize,
        marks: *mut u64,
        marks_length: usize,
        output: *mut i64,
        output_length: usize,
        trace: *mut u32,
        trace_length: usize,
        text: *mut u8,
        text_length: usize,
        answer: *mut u64,
        answer_length: usize,
    ) -> u32;

    fn cilunovay_check(
        container: *const u8,
        container_length: usize,
        answer: *mut u64,
        answer_length: usize,
    ) -> u32;

    fn cilunovay_convert(
        container: *const u8,
        container_length: usize,
        converted: *mut u8,
        converted_length: usize,
        offsets: *mut u32,
        offsets_length: usize,
        answer: *mut u64,
        answer_length: usize,
    ) -> u32;
}

/// The kind of a plan's step.
#[derive(Clone, Copy, PartialEq, Eq, Hash, Debug)]
pub enum Kind {
    Scan,
    Union,
    Join,
    Filter,
    Keep,
    Apply,
    Group,
    Noise,
}

impl Kind {
    /// The number of the kind in a container and in a trace, 1 to 8.
    pub fn number(self) -> u32 {
        self as u32 + 1
    }

    fn from_number(number: u32) -> Kind {
        match number {
            1 => Kind::Scan,
            2 => Kind::Union,
            3 => Kind::Join,
            4 => Kind::Filter,
            5 => Kind::Keep,
            6 => Kind::Apply,
            7 => Kind::Group,
            8 => Kind::Noise,
            _ => unreachable!("a step has a kind from 1 to 8"),
        }
    }
}

/// The trace line of a finished step: its kind, and of the table that it made
/// the rows, the columns, and the sum of present stages over all cells.
#[derive(Clone, Copy, PartialEq, Eq, Debug)]
pub struct Line {
    pub kind: Kind,
    pub rows: u32,
    pub columns: u32,
    pub stages_left: u32,
}

/// A released table, its text, and a line for each step of the plan.
#[derive(Clone, PartialEq, Eq, Debug)]
pub struct Release {
    pub rows: usize,
    /// 1 to 8.
    pub columns: usize,
    /// Row by row, `rows` times `columns` of them.
    pub values: Vec<i64>,
    /// The table as comma-separated values (RFC 4180), in ASCII: a line of names,
    /// `c0,c1` and so on, then a line for each row. Nothing is quoted, and every
    /// line ends in CR LF.
    pub text: String,
    pub trace: Vec<Line>,
}

impl Release {
    /// The rows, each with a value for each column.
    pub fn iter(&self) -> std::slice::Chunks<'_, i64> {
        self.values.chunks(self.columns.max(1))
    }
}

/// `for row in &release` goes through the rows.
impl<'a> IntoIterator for &'a Release {
    type Item = &'a [i64];
    type IntoIter = std::slice::Chunks<'a, i64>;

    fn into_iter(self) -> Self::IntoIter {
        self.iter()
    }
}

/// `for row in release` does too, and gives each row away.
impl IntoIterator for Release {
    type Item = Vec<i64>;
    type IntoIter = std::vec::IntoIter<Vec<i64>>;

    fn into_iter(self) -> Self::IntoIter {
        self.iter().map(<[i64]>::to_vec).collect::<Vec<_>>().into_iter()
    }
}

/// What is wrong with a container, or with an overlay.
#[derive(Clone, Copy, PartialEq, Eq, Hash, Debug)]
pub enum InputFault {
    /// 11: its length, its rule year or its part count.
    Container,
    /// 12: a pair of the directory.
    Directory,
    /// 13: a table's header or length.
    Table,
    /// 14: a value out of range.
    Value,
    /// 15: an ill-formed label.
    Label,
    /// 16: the plan's length.
    Plan,
    /// 17: a field of a step.
    Step,
    /// 18: too few tables for a step, too many, or other than one at the end.
    Tables,
    /// 19: a table or a column that is not there, unequal widths, or too many columns.
    Columns,
    /// 20: a table's column of sheet numbers.
    Sheets,
    /// 21: an overlay's length, count or directory, or one of its parts.
    Overlay,
    /// 22: a label of an overlay, ill-formed or on a sheet number.
    OverlayLabel,
}

impl InputFault {
    /// The number of documents 01 and 02, 11 to 22.
    pub fn number(self) -> u32 {
        self as u32 + 11
    }

    fn from_number(number: u32) -> InputFault {
        match number {
            11 => InputFault::Container,
            12 => InputFault::Directory,
            13 => InputFault::Table,
            14 => InputFault::Value,
            15 => InputFault::Label,
            16 => InputFault::Plan,
            17 => InputFault::Step,
            18 => InputFault::Tables,
            19 => InputFault::Columns,
            20 => InputFault::Sheets,
            21 => InputFault::Overlay,
            22 => InputFault::OverlayLabel,
            _ => unreachable!("the input is refused with 11 to 22"),
        }
    }

    /// What the fault means.
    pub fn meaning(self) -> &'static str {
        match self {
            InputFault::Container => {
                "the container is too long or too short, or its rule year or part count is wrong"
            }
            InputFault::Directory => "the directory does not lay the parts one after the other to the end",
            InputFault::Table => "a table's header or length is wrong",
            InputFault::Value => "a value is out of range",
            InputFault::Label => "a label is ill-formed",
            InputFault::Plan => "the plan is not 1 to 64 steps of 16 bytes",
            InputFault::Step => "a step's record is wrong",
            InputFault::Tables => "a step has too few tables or too many, or the plan does not leave one",
            InputFault::Columns => {
                "a step names a table or column that does not exist, unequal widths, or over 8 columns"
            }
            InputFault::Sheets => {
                "a table's sheet numbers stand in none of its columns, or one is negative or not clear"
            }
            InputFault::Overlay => "an overlay's length, count, directory or part does not fit the container",
            InputFault::OverlayLabel => "a label of an overlay is ill-formed, or not zero on a sheet number",
        }
    }
}

/// Why an evaluation, or its release, is refused.
#[derive(Clone, Copy, PartialEq, Eq, Hash, Debug)]
pub enum StateFault {
    /// 31: a FILTER operand, JOIN key or GROUP key is not clear.
    NotClear,
    /// 32: APPLY, GROUP or NOISE is forbidden by a label.
    Forbidden,
    /// 33: APPLY's second operand is not clear.
    OperandNotClear,
    /// 34: UNION or JOIN would make more than 256 rows.
    TooMany,
    /// 35: at release a cell has a stage left.
    StageLeft,
    /// 36: at release a cell is OVER.
    Over,
    /// 37: no draw is left for a row of NOISE.
    NoDraw,
}

impl StateFault {
    /// The number of documents 01 and 02, 31 to 37.
    pub fn number(self) -> u32 {
        self as u32 + 31
    }

    fn from_number(number: u32) -> StateFault {
        match number {
            31 => StateFault::NotClear,
            32 => StateFault::Forbidden,
            33 => StateFault::OperandNotClear,
            34 => StateFault::TooMany,
            35 => StateFault::StageLeft,
            36 => StateFault::Over,
            37 => StateFault::NoDraw,
            _ => unreachable!("an evaluation is refused with 31 to 37"),
        }
    }

    /// What the fault means.
    pub fn meaning(self) -> &'static str {
        match self {
            StateFault::NotClear => "a FILTER operand, JOIN key or GROUP key is not clear",
            StateFault::Forbidden => "the cell's label forbids the APPLY, GROUP or NOISE",
            StateFault::OperandNotClear => "APPLY's second operand is not clear",
            StateFault::TooMany => "the UNION or JOIN would make more than 256 rows",
            StateFault::StageLeft => "at the release the cell has a stage of its label left",
            StateFault::Over => "at the release the cell is OVER, a result out of range",
            StateFault::NoDraw => "no draw is left for the row, and NOISE needs new ones",
        }
    }
}

/// A refusal because of the input. The place is a byte offset in the container, and
/// for 21 and 22 in the overlay; which overlay is not said.
#[derive(Clone, Copy, PartialEq, Eq, Hash, Debug)]
pub struct InputRefusal {
    pub fault: InputFault,
    pub offset: usize,
}

/// A refusal because of the state, and the lines of the finished steps. The
/// place is a step, and a row and a column of the table that it read; for 35 and
/// 36 the step is the number of steps.
#[derive(Clone, PartialEq, Eq, Debug)]
pub struct StateRefusal {
    pub fault: StateFault,
    pub step: usize,
    pub row: usize,
    pub column: usize,
    pub trace: Vec<Line>,
}

/// Why nothing is released.
#[derive(Clone, PartialEq, Eq, Debug)]
pub enum Refusal {
    Input(InputRefusal),
    State(StateRefusal),
}

impl Refusal {
    /// The number of documents 01 and 02: 11 to 22, or 31 to 37.
    pub fn number(&self) -> u32 {
        match self {
            Refusal::Input(refusal) => refusal.fault.number(),
            Refusal::State(refusal) => refusal.fault.number(),
        }
    }

    /// The lines of the finished steps; none where the input is refused.
    pub fn trace(&self) -> &[Line] {
        match self {
            Refusal::Input(_) => &[],
            Refusal::State(refusal) => &refusal.trace,
        }
    }
}

impl fmt::Display for InputRefusal {
    fn fmt(&self, f: &mut fmt::Formatter<'_>) -> fmt::Result {
        let InputRefusal { fault, offset } = self;
        let of = match fault {
            InputFault::Overlay | InputFault::OverlayLabel => " of an overlay",
            _ => "",
        };
        write!(f, "refused with {} at byte {offset}{of}: {}", fault.number(), fault.meaning())
    }
}

impl fmt::Display for StateRefusal {
    fn fmt(&self, f: &mut fmt::Formatter<'_>) -> fmt::Result {
        let StateRefusal { fault, step, row, column, .. } = self;
        let (number, meaning) = (fault.number(), fault.meaning());
        write!(f, "refused with {number} at step {step}, row {row}, column {column}: {meaning}")
    }
}

impl fmt::Display for Refusal {
    fn fmt(&self, f: &mut fmt::Formatter<'_>) -> fmt::Result {
        match self {
            Refusal::Input(refusal) => refusal.fmt(f),
            Refusal::State(refusal) => refusal.fmt(f),
        }
    }
}

impl std::error::Error for InputRefusal {}
impl std::error::Error for StateRefusal {}
impl std::error::Error for Refusal {}

/// A monitor with its work memory. It may run any number of containers, one
/// after the other; nothing of one shows in the next.
pub struct Monitor {
    values: Vec<i64>,
    labels: Vec<u32>,
    marks: Vec<u64>,
    output: Vec<i64>,
    trace: Vec<u32>,
    text: Vec<u8>,
}

impl Default for Monitor {
    fn default() -> Monitor {
        Monitor::new()
    }
}

impl Monitor {
    pub fn new() -> Monitor {
        Monitor {
            values: vec![0; WORK],
            labels: vec![0; WORK],
            marks: vec![0; MARKS],
            output: vec![0; OUTPUT],
            trace: vec![0; TRACE],
            text: vec![0; LONGEST_TEXT],
        }
    }

    /// Evaluates a container's plan, and releases a table or refuses. Each lent slice
    /// has room enough, the text's too, so refusals 1 and 51 do not occur.
    ///
    /// NOISE adds the draws to values, one for each row of the table that it reads, in
    /// row order and over the whole plan; a sum outside the range of values is OVER.
    /// The draws may be any numbers, and more than the plan uses. Where a row finds none
    /// left, the run is refused with 37. How they are distributed is the caller's care,
    /// and so is that no draw is used in two runs: docs/DRAWS.md.
    pub fn run(&mut self, container: &[u8], draws: &[i64]) -> Result<Release, Refusal> {
        self.run_with_overlays(container, draws, [&[]; MOST_OVERLAYS])
    }

    /// The same after the overlays' labels are composed onto those of the container's
    /// tables, so that the run asks for more. An empty slice, in any place, is no
    /// overlay, and the order makes no difference. One that does not fit the container
    /// is refused with 21, and a label that is ill-formed or stands on a sheet number
    /// with 22, both after the checks of the container.
    pub fn run_with_overlays(
        &mut self,
        container: &[u8],
        draws: &[i64],
        overlays: [&[u8]; MOST_OVERLAYS],
    ) -> Result<Release, Refusal> {
        let [overlay_0, overlay_1, overlay_2, overlay_3] = overlays;
        let mut answer = [0u64; 4];
        // Each pointer comes from a slice of the length given with it, and none that
        // is written to overlaps another.
        let number = unsafe {
            cilunovay_run(
                container.as_ptr(),
                container.len(),
                draws.as_ptr(),
                draws.len(),
                overlay_0.as_ptr(),
                overlay_0.len(),
                overlay_1.as_ptr(),
                overlay_1.len(),
                overlay_2.as_ptr(),
                overlay_2.len(),
                overlay_3.as_ptr(),
                overlay_3.len(),
                self.values.as_mut_ptr(),
                self.values.len(),
                self.labels.as_mut_ptr(),
                self.labels.len(),
                self.marks.as_mut_ptr(),
                self.marks.len(),
                self.output.as_mut_ptr(),
                self.output.len(),
                self.trace.as_mut_ptr(),
                self.trace.len(),
                self.text.as_mut_ptr(),
                self.text.len(),
                answer.as_mut_ptr(),
                answer.len(),
            )
        };
        let [_, first, second, third] = answer.map(|number| number as usize);
        match number {
            0 => {
                let values = self.output[..first * second].to_vec();
                let text = self.characters(third);
                let trace = self.lines(plan_steps(container));
                Ok(Release { rows: first, columns: second, values, text, trace })
            }
            11..=22 => {
                let fault = InputFault::from_number(number);
                Err(Refusal::Input(InputRefusal { fault, offset: first }))
            }
            _ => Err(Refusal::State(StateRefusal {
                fault: StateFault::from_number(number),
                step: first,
                row: second,
                column: third,
                trace: self.lines(first),
            })),
        }
    }

    /// The text of a release, ASCII: each byte is a character. What lies past it is of
    /// an earlier run.
    fn characters(&self, length: usize) -> String {
        self.text.iter().take(length).copied().map(char::from).collect()
    }

    /// The lines of the finished steps. What lies past them is of an earlier run.
    fn lines(&self, finished: usize) -> Vec<Line> {
        self.trace
            .chunks(4)
            .take(finished)
            .map(|line| Line {
                kind: Kind::from_number(line[0]),
                rows: line[1],
                columns: line[2],
                stages_left: line[3],
            })
            .collect()
    }
}

/// The steps of an accepted container's plan, all finished by a release: its length
/// in bytes, at most 1,024, stands at bytes 6 and 7.
fn plan_steps(container: &[u8]) -> usize {
    (usize::from(container[6]) + 256 * usize::from(container[7])) / 16
}

/// The checks of a container alone, 11 to 20.
pub fn check(container: &[u8]) -> Result<(), InputRefusal> {
    let mut answer = [0u64; 2];
    // Each pointer comes from a slice of the length given with it.
    let number = unsafe {
        cilunovay_check(container.as_ptr(), container.len(), answer.as_mut_ptr(), answer.len())
    };
    match number {
        0 => Ok(()),
        _ => Err(InputRefusal {
            fault: InputFault::from_number(number),
            offset: answer[1] as usize,
        }),
    }
}

/// A converted container, and where it differs from the old one.
#[derive(Clone, PartialEq, Eq, Debug)]
pub struct Conversion {
    /// The new container, as long as the old one.
    pub container: Vec<u8>,
    /// The byte offset of each label that was changed, in rising order; none where the
    /// new container is the old one.
    pub offsets: Vec<usize>,
}

/// Converts a container that was written when a group minimum could be 1: each label
/// with a minimum of 1 gets a minimum of 2, and every other byte stays. The new
/// container is accepted by [`check`].
///
/// ```text
/// let Conversion { container, offsets } = convert(&stored)?;
/// for &offset in &offsets {
///     assert_eq!((stored[offset], container[offset]), (1, 2));
/// }
/// ```
///
/// Only a container that was accepted before is converted: the refusals, 11 to 20, are
/// those of [`check`], but for a minimum of 1, which is none, and for rule year 1, which
/// is 11. Each lent slice has room enough, so refusal 1 does not occur. Overlays are not
/// converted.
pub fn convert(container: &[u8]) -> Result<Conversion, InputRefusal> {
    let mut converted = vec![0u8; container.len()];
    let mut offsets = vec![0u32; OFFSETS];
    let mut answer = [0u64; 2];
    // Each pointer comes from a slice of the length given with it, and none that is
    // written to overlaps another.
    let number = unsafe {
        cilunovay_convert(
            container.as_ptr(),
            container.len(),
            converted.as_mut_ptr(),
            converted.len(),
            offsets.as_mut_ptr(),
            offsets.len(),
            answer.as_mut_ptr(),
            answer.len(),
        )
    };
    let second = answer[1] as usize;
    match number {
        0 => {
            let offsets = offsets.iter().take(second).map(|&offset| offset as usize).collect();
            Ok(Conversion { container: converted, offsets })
        }
        _ => Err(InputRefusal { fault: InputFault::from_number(number), offset: second }),
    }
}
