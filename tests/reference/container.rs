//! "The container", and what is "refused because of the input". "Checked in
//! this order: 11; 12; for each table 13, then for each cell 14, 15; then 16;
//! then for each step 17, 18, 19." Document 02's 20 comes "after all 14 and 15 of
//! the table"; its 21 and 22 are in `overlay`.

use super::label::{Label, SMALLEST_MINIMUM};
use super::steps::{Step, STEP_BYTES};
use super::table::{Cell, Mark, Table};
use super::value::{in_range, Value};
use super::year::RuleYear;
use std::ops::Range;

pub const MOST_BYTES: usize = 65_536;
pub const MOST_ROWS: usize = 256;
pub const PAIR_BYTES: usize = 8;
const CELL_BYTES: usize = 12;

#[derive(Clone, Copy, PartialEq, Eq, Hash, Debug)]
pub enum InputFault {
    Container,
    Directory,
    TableHeader,
    ValueRange,
    IllFormedLabel,
    PlanLength,
    Field,
    Tables,
    Shape,
    Sheets,
    Overlay,
    OverlayLabel,
}

impl InputFault {
    pub fn number(self) -> u32 {
        match self {
            InputFault::Container => 11,
            InputFault::Directory => 12,
            InputFault::TableHeader => 13,
            InputFault::ValueRange => 14,
            InputFault::IllFormedLabel => 15,
            InputFault::PlanLength => 16,
            InputFault::Field => 17,
            InputFault::Tables => 18,
            InputFault::Shape => 19,
            InputFault::Sheets => 20,
            InputFault::Overlay => 21,
            InputFault::OverlayLabel => 22,
        }
    }
}

/// A refusal because of the input; the place is a byte offset.
#[derive(Clone, Copy, PartialEq, Eq, Debug)]
pub struct InputRefusal {
    pub fault: InputFault,
    pub offset: usize,
}

pub fn refuse<T>(fault: InputFault, offset: usize) -> Result<T, InputRefusal> {
    Err(InputRefusal { fault, offset })
}

/// A container past the input checks, with the four header bytes of each table.
#[derive(Clone)]
pub struct Container {
    pub year: RuleYear,
    pub tables: Vec<Table>,
    pub headers: Vec<[u8; 4]>,
    pub plan: Vec<Step>,
}

/// What requests have changed in the input checks.
pub struct Check {
    pub smallest_minimum: u16,
    pub years: &'static [RuleYear],
}

const CHECK: Check =
    Check { smallest_minimum: SMALLEST_MINIMUM, years: &[RuleYear::Earlier, RuleYear::Floor] };

pub fn parse(bytes: &[u8]) -> Result<Container, InputRefusal> {
    parse_by(&CHECK, bytes)
}

pub fn parse_by(check: &Check, bytes: &[u8]) -> Result<Container, InputRefusal> {
    // "a 16-bit part count, 2 to 9", of which by #108 "the high byte .. becomes the
    // rule year".
    let year = |high: u8| check.years.iter().copied().find(|year| year.byte() == high);
    let count = |[low, high]: [u8; 2]| {
        let right = (2..=9).contains(&low) && year(high).is_some();
        right.then_some(low as usize)
    };
    let parts = match directory(bytes, count) {
        Ok(parts) => parts,
        Err(Misfit::Whole) => return refuse(InputFault::Container, 0),
        Err(Misfit::Pair(place)) => return refuse(InputFault::Directory, place),
    };
    let year = year(bytes[1]).expect("a right part count");
    let (mut tables, mut headers) = (Vec::new(), Vec::new());
    for (number, part) in parts[1..].iter().enumerate() {
        tables.push(table(bytes, part.clone(), number, check.smallest_minimum)?);
        headers.push(bytes[part.start..part.start + 4].try_into().unwrap());
    }
    let plan = plan(bytes, parts[0].clone(), &tables)?;
    Ok(Container { year, tables, headers, plan })
}

fn u16_at(bytes: &[u8], offset: usize) -> usize {
    u16::from_le_bytes(bytes[offset..offset + 2].try_into().unwrap()) as usize
}

pub fn u32_at(bytes: &[u8], offset: usize) -> u32 {
    u32::from_le_bytes(bytes[offset..offset + 4].try_into().unwrap())
}

fn i64_at(bytes: &[u8], offset: usize) -> i64 {
    i64::from_le_bytes(bytes[offset..offset + 8].try_into().unwrap())
}

/// What a count and its directory may be: "too long, too short for its directory,
/// or a wrong part count"; or a pair at this place "breaks the rule".
pub enum Misfit {
    Whole,
    Pair(usize),
}

/// "First a 16-bit part count, 2 to 9, then a directory with one pair per
/// part, 32-bit offset and 32-bit length." The same of an overlay, #106, with
/// another count. `count` says how many parts these two bytes stand for, if they
/// are right.
pub fn directory(
    bytes: &[u8],
    count: impl Fn([u8; 2]) -> Option<usize>,
) -> Result<Vec<Range<usize>>, Misfit> {
    let count = match *bytes {
        [low, high, ..] if bytes.len() <= MOST_BYTES => count([low, high]),
        _ => None,
    };
    let count = match count {
        Some(count) if bytes.len() >= 2 + PAIR_BYTES * count => count,
        _ => return Err(Misfit::Whole),
    };
    // "The first part begins where the directory ends, each next one where the
    // last ends, and the final one ends the container."
    let pair = |part: usize| 2 + PAIR_BYTES * part;
    let mut expected = pair(count) as u64;
    let mut parts = Vec::new();
    for part in 0..count {
        let offset = u32_at(bytes, pair(part)) as u64;
        let length = u32_at(bytes, pair(part) + 4) as u64;
        if offset != expected {
            return Err(Misfit::Pair(pair(part)));
        }
        expected = offset + length;
        parts.push(offset as usize..expected as usize);
    }
    if expected != bytes.len() as u64 {
        return Err(Misfit::Pair(pair(count - 1)));
    }
    Ok(parts)
}

/// "Table: byte 0 columns 1 to 8, byte 1 zero, then 16-bit rows 0 to 256, then
/// the cells row by row, each a signed 64-bit value and a label. Part length is
/// 4 + 12 × rows × columns." By #103 "13 no longer tests byte 1".
fn table(
    bytes: &[u8],
    part: Range<usize>,
    number: usize,
    smallest: u16,
) -> Result<Table, InputRefusal> {
    let start = part.start;
    if part.len() < 4 {
        return refuse(InputFault::TableHeader, start);
    }
    let columns = bytes[start] as usize;
    let rows = u16_at(bytes, start + 2);
    let header = (1..=8).contains(&columns) && rows <= MOST_ROWS;
    if !header || part.len() != 4 + CELL_BYTES * rows * columns {
        return refuse(InputFault::TableHeader, start);
    }
    let mut cells = Vec::with_capacity(rows * columns);
    for cell in 0..rows * columns {
        let field = start + 4 + CELL_BYTES * cell;
        let value = i64_at(bytes, field);
        if !in_range(value) {
            return refuse(InputFault::ValueRange, field);
        }
        let label = match Label::with_minimum_from(smallest, u32_at(bytes, field + 8)) {
            Some(label) => label,
            None => return refuse(InputFault::IllFormedLabel, field + 8),
        };
        cells.push(Cell { value: Value::Known(value), label });
    }
    // "It refuses with 20 .. the place is the table part."
    match marks(bytes[start + 1], number, columns, cells.chunks(columns)) {
        Some(marks) => Ok(Table { columns, cells, marks }),
        None => refuse(InputFault::Sheets, start),
    }
}

/// The marks of the rows of table `number`: "Byte 1 of a table is zero, or one
/// more than the column of sheet numbers." `None` is 20: "when byte 1 names no
/// column or a sheet cell is negative or not clear".
fn marks<'a>(
    byte: u8,
    number: usize,
    columns: usize,
    rows: impl Iterator<Item = &'a [Cell]>,
) -> Option<Vec<Mark>> {
    match byte as usize {
        0 => Some(rows.enumerate().map(|(row, _)| Mark::Own { table: number, row }).collect()),
        above if above <= columns => rows.map(|row| sheet(row[above - 1])).collect(),
        _ => None,
    }
}

fn sheet(cell: Cell) -> Option<Mark> {
    match cell.value {
        Value::Known(number) if number >= 0 && cell.label.is_clear() => Some(Mark::Sheet(number)),
        _ => None,
    }
}

/// "Plan: 1 to 64 steps of 16 bytes." "A plan that leaves other than one table
/// gives 18 at the plan's end."
fn plan(bytes: &[u8], part: Range<usize>, tables: &[Table]) -> Result<Vec<Step>, InputRefusal> {
    let whole = part.len() % STEP_BYTES == 0;
    if !whole || !(1..=64).contains(&(part.len() / STEP_BYTES)) {
        return refuse(InputFault::PlanLength, part.start);
    }
    let widths: Vec<usize> = tables.iter().map(|table| table.columns).collect();
    let mut stack = Vec::new();
    let mut steps = Vec::new();
    for offset in part.clone().step_by(STEP_BYTES) {
        let field: &[u8; STEP_BYTES] = bytes[offset..offset + STEP_BYTES].try_into().unwrap();
        let step = match Step::read(field) {
            Some(step) => step,
            None => return refuse(InputFault::Field, offset),
        };
        if let Err(fault) = step.shape(&mut stack, &widths) {
            return refuse(fault, offset);
        }
        steps.push(step);
    }
    if stack.len() != 1 {
        return refuse(InputFault::Tables, part.end);
    }
    Ok(steps)
}
