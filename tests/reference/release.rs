//! `run` and `check`, and what becomes of the lent slices.

use super::container::{parse, InputRefusal};
use super::eval::{evaluate, StateRefusal};
use super::overlay::{composed, Overlays};
use super::table::Table;
use super::text;
use super::value::Value;
use super::year::by_year;

pub const WORK_LENGTH: usize = 8_192;
pub const MARKS_LENGTH: usize = 1_024;
pub const OUTPUT_LENGTH: usize = 2_048;
pub const TRACE_LENGTH: usize = 256;
/// Room for every text: the longest has 256 rows of 8 values -2^47.
pub const TEXT_LENGTH: usize = 35_097;

#[derive(Clone, Copy, PartialEq, Eq, Debug)]
pub enum Answer {
    /// With the length of the text.
    Released {
        rows: usize,
        columns: usize,
        length: usize,
    },
    /// 1: "a lent slice is too short".
    ShortSlice,
    Input(InputRefusal),
    State(StateRefusal),
    /// Document 02's 51, "when that slice is shorter than the text".
    ShortText {
        step: usize,
    },
}

impl Answer {
    /// The number (0 for a release), then rows, columns and the text's length,
    /// or the place: an offset and two zeros, or step, row and column.
    pub fn numbers(&self) -> [u32; 4] {
        match *self {
            Answer::Released { rows, columns, length } => {
                [0, rows as u32, columns as u32, length as u32]
            }
            Answer::ShortSlice => [1, 0, 0, 0],
            Answer::Input(refusal) => [refusal.fault.number(), refusal.offset as u32, 0, 0],
            Answer::State(StateRefusal { fault, step, row, column }) => {
                [fault.number(), step as u32, row as u32, column as u32]
            }
            // "the step are as for 35, row and column 0"
            Answer::ShortText { step } => [51, step as u32, 0, 0],
        }
    }
}

/// The checks of a container alone, 11 to 20.
pub fn check(container: &[u8]) -> Result<(), InputRefusal> {
    parse(container).map(|_| ())
}

/// `draws` is document 02's "lent list of signed draws", #102, empty where there
/// are none; it is read, and of any length. So are the overlays, #106.
pub fn run(
    container: &[u8],
    draws: &[i64],
    overlays: &Overlays,
    work_values: &mut [i64],
    work_labels: &mut [u32],
    work_marks: &mut [u64],
    output: &mut [i64],
    trace: &mut [u32],
    lent_text: &mut [u8],
) -> Answer {
    // 1: "First of all checks; place zeros; nothing changes." The text's slice,
    // the draws and the overlays are not among those that it tests.
    if work_values.len() < WORK_LENGTH
        || work_labels.len() < WORK_LENGTH
        || work_marks.len() < MARKS_LENGTH
        || output.len() < OUTPUT_LENGTH
        || trace.len() < TRACE_LENGTH
    {
        return Answer::ShortSlice;
    }
    let prepared = parse(container).and_then(|container| composed(container, overlays));
    // #108's floor comes "after overlays are composed".
    let container = match prepared {
        Ok(container) => by_year(container),
        Err(refusal) => return Answer::Input(refusal),
    };
    let evaluation = evaluate(&container, draws);

    // "A run's refusal from 31 on, and a release, write the trace lines of the
    // finished steps from the start of the trace."
    for (place, line) in trace.chunks_exact_mut(4).zip(&evaluation.trace) {
        place.copy_from_slice(line);
    }
    // "Both leave the first 8,192 elements of both work slices zero."
    work_values[..WORK_LENGTH].fill(0);
    work_labels[..WORK_LENGTH].fill(0);
    // #103: "A further work slice of 1,024 marks is lent, tested under 1 and
    // left zero."
    work_marks[..MARKS_LENGTH].fill(0);

    let table = match evaluation.outcome {
        Err(refusal) => return Answer::State(refusal),
        Ok(table) => table,
    };
    let values = released(&table);
    let text = text::of(table.columns, &values);
    // 51, "after the run's own refusals; the slice is unchanged, all else and
    // the step are as for 35".
    if lent_text.len() < text.len() {
        return Answer::ShortText { step: container.plan.len() };
    }
    // "The text goes, beside the rows, to a lent byte slice of its own, from
    // its start, and the answer gains its length."
    output[..values.len()].copy_from_slice(&values);
    lent_text[..text.len()].copy_from_slice(text.as_bytes());
    Answer::Released { rows: table.rows(), columns: table.columns, length: text.len() }
}

/// The values of a table that is released, row by row.
pub fn released(table: &Table) -> Vec<i64> {
    let number = |value: Value| match value {
        Value::Known(number) => number,
        Value::Over => unreachable!("a released table has no OVER"),
    };
    table.cells.iter().map(|cell| number(cell.value)).collect()
}
