//! The lines of crates/step_trials, by the reference. A line of the input is a
//! case, the bytes of a container that the cases after it SCAN, or nothing but
//! a comment behind `#`. A case has its words, a colon, how much work memory is
//! lent if that is too little, and its tables:
//!
//!     JOIN 0 = 1: 8191 values, 2| 1:0 OVER:20020002 / -3:0 4:0; 1| 5:0
//!
//! A table is its columns, a bar and its rows of cells, a value and a label in
//! hexadecimal each; or, of one column, `7:0 .. 8:0 of 129 rows`: the first row,
//! and the one that all others are. `; one more` is a fourth table. What stands
//! behind `#` is read and not printed. A NOISE has the draws that are left among
//! its words, `NOISE 1 with 5,-3,7`, or `NOISE 1 with none`. No table has a column
//! of sheet numbers: each row has a mark of its own.
//!
//! A line of the output is that of the input up to `#`, and the answer. So what
//! the program prints of a case, which it takes from the step that it read and
//! from memory, is held to the input as its answer is held to the rules.
//!
//! "does not fit" is said where documents 01 and 02 have no such step: less work
//! memory than 1 asks for, a stack or a table larger than there are, a step that
//! 17 to 19 refuse, a SCAN of a container that is refused, an ill-formed label
//! under a discharge. Whatever else they do not settle is no case.

use super::reference::container::{parse, MOST_ROWS};
use super::reference::eval::{perform, Stop};
use super::reference::label::{present, Label};
use super::reference::release::{MARKS_LENGTH, WORK_LENGTH};
use super::reference::steps::{Aggregate, Comparison, Operand, Operation, Step};
use super::reference::steps::{MOST_COLUMNS, MOST_TABLES};
use super::reference::table::{Cell, Mark, Table};
use super::reference::value::{in_range, Value, HIGHEST};
use std::str::FromStr;

/// The values and labels that a case lends, unless it says less.
const LENT: usize = 8_200;

/// A cell as a case has it, its label perhaps ill-formed.
#[derive(Clone, Copy)]
struct Given {
    value: Value,
    word: u32,
}

struct GivenTable {
    columns: usize,
    cells: Vec<Given>,
}

struct Case<'a> {
    words: Vec<&'a str>,
    values: usize,
    labels: usize,
    marks: usize,
    stack: Vec<GivenTable>,
}

/// The output, or the number of a line that is no case.
pub fn lines(input: &str) -> Result<String, usize> {
    let mut text = String::new();
    let mut container = Vec::new();
    for (number, line) in input.lines().enumerate() {
        let (shown, hidden) = line.split_once('#').unwrap_or((line, ""));
        if shown.is_empty() {
            continue;
        }
        text.push_str(shown);
        if let Some(digits) = line.strip_prefix("container ") {
            container = bytes(digits).ok_or(number + 1)?;
        } else {
            let line = format!("{shown}{hidden}");
            let answer = Case::read(&line).and_then(|case| case.answer(&container));
            text.push_str(" gives ");
            text.push_str(&answer.ok_or(number + 1)?);
        }
        text.push('\n');
    }
    Ok(text)
}

fn bytes(digits: &str) -> Option<Vec<u8>> {
    let pairs = digits.as_bytes().chunks(2);
    pairs.map(|pair| hexadecimal(std::str::from_utf8(pair).ok()?, 2).map(|n| n as u8)).collect()
}

/// A number in hexadecimal, of so many digits.
fn hexadecimal(word: &str, digits: usize) -> Option<u32> {
    let right = |byte: u8| matches!(byte, b'0'..=b'9' | b'a'..=b'f');
    let fits = word.len() == digits && word.bytes().all(right);
    fits.then(|| u32::from_str_radix(word, 16).ok()).flatten()
}

/// A number in decimal, as it is printed.
fn decimal<N: FromStr + ToString>(word: &str) -> Option<N> {
    word.parse().ok().filter(|number: &N| number.to_string() == word)
}

impl<'a> Case<'a> {
    fn read(line: &'a str) -> Option<Case<'a>> {
        let (words, rest) = line.split_once(": ").unwrap_or((line, "no tables"));
        let less = WORK_LENGTH - 1;
        let (values, labels, marks, tables) = match rest.split_once(", ") {
            Some(("8191 values", tables)) => (less, LENT, MARKS_LENGTH, tables),
            Some(("8191 labels", tables)) => (LENT, less, MARKS_LENGTH, tables),
            Some(("1023 marks", tables)) => (LENT, LENT, MARKS_LENGTH - 1, tables),
            _ => (LENT, LENT, MARKS_LENGTH, rest),
        };
        let (tables, more) = match tables.strip_suffix("; one more") {
            Some(tables) => (tables, true),
            None => (tables, false),
        };
        let mut stack: Vec<GivenTable> = match tables {
            "no tables" => Vec::new(),
            _ => tables.split("; ").map(GivenTable::read).collect::<Option<_>>()?,
        };
        if more {
            stack.push(GivenTable { columns: 1, cells: Vec::new() });
        }
        let deep = if more { MOST_TABLES + 1 } else { stack.len().min(MOST_TABLES) };
        let words = words.split(' ').collect();
        (stack.len() == deep).then_some(Case { words, values, labels, marks, stack })
    }

    fn answer(&self, container: &[u8]) -> Option<String> {
        match self.words[..] {
            ["stages", "left"] => self.stages_left(),
            ["first", "OVER"] => self.first_over(),
            ["line", step] => Some(trace_line(decimal(step)?)),
            ["output", "of", count, "from", at] => self.output(decimal(count)?, decimal(at)?),
            ["clear"] => self.clear(),
            _ => self.step(container),
        }
    }

    /// The tables after a step, or its refusal.
    fn step(&self, container: &[u8]) -> Option<String> {
        let draws = draws(&self.words)?;
        let made = match self.fitting(container)? {
            None => return Some("does not fit".to_string()),
            Some((step, tables)) => {
                let given = self.stack.iter().enumerate();
                let mut stack: Vec<Table> =
                    given.map(|(place, table)| table.labelled(place)).collect::<Option<_>>()?;
                perform(&step, &tables, &mut stack, &mut draws.iter()).map(|made| {
                    stack.push(made);
                    stack
                })
            }
        };
        match made {
            Ok(stack) => {
                let tables: Option<Vec<String>> = stack.iter().map(shown_table).collect();
                Some(tables?.join("; "))
            }
            Err(Stop { fault, row, column }) => {
                Some(format!("{} at row {row} column {column}", fault.number()))
            }
        }
    }

    /// The step and the container's tables; `Some(None)` if it does not fit.
    fn fitting(&self, container: &[u8]) -> Option<Option<(Step, Vec<Table>)>> {
        let (step, tables) = match (step(&self.words)?, &self.words[..]) {
            (Some(step), [.., "of", count, "bytes"]) => {
                let bytes = container.get(..decimal(count)?)?;
                (step, parse(bytes).map_or(Vec::new(), |container| container.tables))
            }
            (Some(step), _) => (step, Vec::new()),
            (None, _) => return Some(None),
        };
        let mut stack: Vec<usize> = self.stack.iter().map(|table| table.columns).collect();
        let widths: Vec<usize> = tables.iter().map(|table| table.columns).collect();
        let fits = self.values.min(self.labels) >= WORK_LENGTH
            && self.marks >= MARKS_LENGTH
            && self.stack.len() <= MOST_TABLES
            && self.stack.iter().all(GivenTable::fits)
            && step.shape(&mut stack, &widths).is_ok()
            && self.discharged(&step).all(|cell| Label::from_word(cell.word).is_some());
        Some(fits.then_some((step, tables)))
    }

    /// The cells whose labels the step discharges.
    fn discharged(&self, step: &Step) -> impl Iterator<Item = &Given> {
        let column = match *step {
            Step::Apply { column, .. } | Step::Group { column, .. } | Step::Noise { column } => {
                Some(column)
            }
            _ => None,
        };
        let cells = column.zip(self.stack.last()).map(|(column, table)| {
            table.cells.iter().skip(column).step_by(table.columns)
        });
        cells.into_iter().flatten()
    }

    fn only_table(&self) -> Option<&GivenTable> {
        match &self.stack[..] {
            [table] => Some(table),
            _ => None,
        }
    }

    /// "the sum of present stages over all cells"; none of a table that does
    /// not fit.
    fn stages_left(&self) -> Option<String> {
        let table = self.only_table()?;
        let stages = table.cells.iter().flat_map(|cell| present(cell.word));
        let count = stages.filter(|&present| present).count();
        Some(if table.fits() { count } else { 0 }.to_string())
    }

    /// "36: .. a cell is OVER": "The first cell met row by row, left to right".
    fn first_over(&self) -> Option<String> {
        let table = self.only_table()?;
        if !table.fits() {
            return Some("does not fit".to_string());
        }
        Some(match table.cells.iter().position(|cell| cell.value == Value::Over) {
            Some(at) => format!("row {} column {}", at / table.columns, at % table.columns),
            None => "nowhere".to_string(),
        })
    }

    /// So many values from a place of work memory on, written to an output of
    /// five sevens from its start.
    fn output(&self, count: usize, at: usize) -> Option<String> {
        let memory = self.only_table()?.in_memory()?;
        let mut output = [Given { value: Value::Known(7), word: 0 }; 5];
        let fits = at + count <= memory.len() && count <= output.len();
        if fits {
            for (place, cell) in output.iter_mut().zip(&memory[at..at + count]) {
                place.value = cell.value;
            }
        }
        Some(done(fits, output.iter().map(|cell| Some(*cell))))
    }

    /// "the first 8,192 elements of both work slices zero": of these the first
    /// and the last, and the one behind them.
    fn clear(&self) -> Option<String> {
        let mut memory = self.only_table()?.in_memory()?;
        memory.truncate(self.values.min(self.labels));
        let fits = memory.len() >= WORK_LENGTH && self.marks >= MARKS_LENGTH;
        if fits {
            memory[..WORK_LENGTH].fill(Given { value: Value::Known(0), word: 0 });
        }
        let places = [0, WORK_LENGTH - 1, WORK_LENGTH];
        Some(done(fits, places.iter().map(|&place| memory.get(place).copied())))
    }
}

/// "Trace: four 32-bit numbers per finished step": a SCAN with 5 rows, 2
/// columns and 3 stages left, in a trace of nine sevens.
fn trace_line(step: usize) -> String {
    let mut trace = [7; 9];
    let fits = match trace.chunks_exact_mut(4).nth(step) {
        Some(place) => {
            place.copy_from_slice(&[1, 5, 2, 3]);
            true
        }
        None => false,
    };
    done(fits, trace.iter().map(|&word| Some(Given { value: Value::Known(0), word })))
}

fn done(fits: bool, cells: impl Iterator<Item = Option<Given>>) -> String {
    let mut text = if fits { "done," } else { "does not fit," }.to_string();
    for cell in cells {
        text.push_str(&cell.map_or(" none".to_string(), |cell| shown(cell.value, cell.word)));
    }
    text
}

impl GivenTable {
    fn read(text: &str) -> Option<GivenTable> {
        let (columns, rows) = text.split_once('|')?;
        let columns = decimal(columns).filter(|&columns| columns > 0)?;
        let mut cells = Vec::new();
        if let Some((first, rest)) = rows.split_once(" .. ") {
            let (last, count) = rest.strip_suffix(" rows")?.split_once(" of ")?;
            cells.resize(decimal(count)?, Given::read(last)?);
            *cells.first_mut().filter(|_| columns == 1)? = Given::read(first.strip_prefix(' ')?)?;
        } else if !rows.is_empty() {
            for row in rows.strip_prefix(' ')?.split(" / ") {
                let row: Option<Vec<Given>> = row.split(' ').map(Given::read).collect();
                cells.extend(row.filter(|row| row.len() == columns)?);
            }
        }
        Some(GivenTable { columns, cells })
    }

    fn fits(&self) -> bool {
        self.columns <= MOST_COLUMNS && self.cells.len() <= MOST_ROWS * self.columns
    }

    fn rows(&self) -> usize {
        self.cells.len() / self.columns
    }

    /// As the table at this place of the stack; each row has a mark of its own.
    fn labelled(&self, place: usize) -> Option<Table> {
        let cells = self.cells.iter().map(|cell| {
            Label::from_word(cell.word).map(|label| Cell { value: cell.value, label })
        });
        let cells = cells.collect::<Option<_>>()?;
        let marks = (0..self.rows()).map(|row| Mark::Own { table: place, row }).collect();
        Some(Table { columns: self.columns, cells, marks })
    }

    /// The table at the start of work memory; its last cell stands in every
    /// place behind it.
    fn in_memory(&self) -> Option<Vec<Given>> {
        let mut cells = self.cells.clone();
        cells.resize(LENT, *self.cells.last()?);
        Some(cells)
    }
}

impl Given {
    fn read(text: &str) -> Option<Given> {
        let (value, word) = text.split_once(':')?;
        let value = match value {
            "OVER" => Value::Over,
            _ => Some(decimal(value)?).filter(|&n| in_range(n)).map_or(Value::Over, Value::Known),
        };
        Some(Given { value, word: hexadecimal(word, word.len().min(8))? })
    }
}

/// A step; `Some(None)` if it is one of an operation or a column that does not
/// exist, whatever the tables are.
fn step(words: &[&str]) -> Option<Option<Step>> {
    Some(Some(match *words {
        ["SCAN", table, "of", _, "bytes"] => Step::Scan { table: decimal(table)? },
        ["UNION"] => Step::Union,
        ["JOIN", left, "=", right] => {
            Step::Join { left_key: decimal(left)?, right_key: decimal(right)? }
        }
        ["FILTER", column, comparison, ref operand @ ..] => Step::Filter {
            column: decimal(column)?,
            comparison: match comparison {
                "=" => Comparison::Equal,
                "!=" => Comparison::NotEqual,
                "<" => Comparison::Less,
                "<=" => Comparison::AtMost,
                ">" => Comparison::Greater,
                ">=" => Comparison::AtLeast,
                _ => return None,
            },
            operand: second(operand)?,
        },
        ["KEEP", mask] => match mask_of(mask)? {
            Some(0) => return None,
            Some(mask) => Step::Keep { mask },
            None => return Some(None),
        },
        ["APPLY", column, operation, ref operand @ ..] => {
            let operation = match (operation, second(operand)?) {
                ("add", operand) => Operation::Add(operand),
                ("sub", operand) => Operation::Sub(operand),
                ("cut", Operand::Constant(k @ 1..=6)) => Operation::Cut(k as u8),
                ("cut", Operand::Constant(_)) => return Some(None),
                ("band", Operand::Constant(k @ 1..=HIGHEST)) => Operation::Band(k),
                _ => return None,
            };
            Step::Apply { column: decimal(column)?, operation }
        }
        ["GROUP", keys, aggregate, column] => {
            let aggregate = match aggregate {
                "count" => Aggregate::Count,
                "sum" => Aggregate::Sum,
                "min" => Aggregate::Min,
                "max" => Aggregate::Max,
                "avg" => Aggregate::Avg,
                _ => return None,
            };
            match mask_of(keys)? {
                Some(keys) => Step::Group { keys, aggregate, column: decimal(column)? },
                None => return Some(None),
            }
        }
        ["NOISE", column, "with", _] => Step::Noise { column: decimal(column)? },
        _ => return None,
    }))
}

/// The draws that are left for the step.
fn draws(words: &[&str]) -> Option<Vec<i64>> {
    match *words {
        ["NOISE", _, "with", draws] if draws != "none" => draws.split(',').map(decimal).collect(),
        _ => Some(Vec::new()),
    }
}

/// "c = 0: against the constant; c = 1: against column d."
fn second(words: &[&str]) -> Option<Operand> {
    match *words {
        ["column", column] => Some(Operand::Column(decimal(column)?)),
        [constant] => decimal(constant).filter(|&n| in_range(n)).map(Operand::Constant),
        _ => None,
    }
}

/// A mask; `Some(None)` if it has a bit past column 7.
fn mask_of(word: &str) -> Option<Option<u8>> {
    Some(u8::try_from(decimal::<u32>(word)?).ok())
}

/// A table as it is written; of more than eight rows, of one column, the first
/// and the last.
fn shown_table(table: &Table) -> Option<String> {
    let rows: Vec<String> = (0..table.rows()).map(|row| shown_row(table.row(row))).collect();
    let rows = match &rows[..] {
        [first, .., last] if rows.len() > 8 => {
            (table.columns == 1).then(|| format!("{first} ..{last} of {} rows", rows.len()))?
        }
        _ => rows.join(" /"),
    };
    Some(format!("{}|{rows}", table.columns))
}

fn shown_row(row: &[Cell]) -> String {
    row.iter().map(|cell| shown(cell.value, cell.label.word())).collect()
}

fn shown(value: Value, word: u32) -> String {
    match value {
        Value::Known(number) => format!(" {number}:{word:x}"),
        Value::Over => format!(" OVER:{word:x}"),
    }
}
