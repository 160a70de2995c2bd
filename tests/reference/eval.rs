//! What the steps make of the tables, and what is "refused because of the
//! state (place: step, row, column of the table read)".

use super::container::{Container, MOST_ROWS};
use super::label::Label;
use super::steps::{columns_of, Aggregate, Comparison, Operand, Operation, Step};
use super::table::{distinct, Cell, Table};
use super::value::{aggregate, Value};
use std::collections::HashMap;

#[derive(Clone, Copy, PartialEq, Eq, Hash, Debug)]
pub enum StateFault {
    OperandNotClear,
    Forbidden,
    SecondNotClear,
    TooManyRows,
    StageLeft,
    OverLeft,
    NoDraw,
}

impl StateFault {
    pub fn number(self) -> u32 {
        match self {
            StateFault::OperandNotClear => 31,
            StateFault::Forbidden => 32,
            StateFault::SecondNotClear => 33,
            StateFault::TooManyRows => 34,
            StateFault::StageLeft => 35,
            StateFault::OverLeft => 36,
            StateFault::NoDraw => 37,
        }
    }
}

#[derive(Clone, Copy, PartialEq, Eq, Debug)]
pub struct StateRefusal {
    pub fault: StateFault,
    pub step: usize,
    pub row: usize,
    pub column: usize,
}

/// A refusal within one step.
#[derive(Clone, Copy, Debug)]
pub struct Stop {
    pub fault: StateFault,
    pub row: usize,
    pub column: usize,
}

fn stop<T>(fault: StateFault, row: usize, column: usize) -> Result<T, Stop> {
    Err(Stop { fault, row, column })
}

/// The draws that no row has used yet: "One draw is used per row, in row order
/// over the whole plan", document 02's #102.
pub type Draws<'a> = std::slice::Iter<'a, i64>;

/// "from step 0 to its release or its refusal because of the state, with the
/// trace lines of its finished steps"
pub struct Evaluation {
    pub trace: Vec<[u32; 4]>,
    pub outcome: Result<Table, StateRefusal>,
}

pub fn evaluate(container: &Container, draws: &[i64]) -> Evaluation {
    let mut stack: Vec<Table> = Vec::new();
    let mut draws = draws.iter();
    let mut trace = Vec::new();
    for (number, step) in container.plan.iter().enumerate() {
        match perform(step, &container.tables, &mut stack, &mut draws) {
            Err(Stop { fault, row, column }) => {
                let refusal = StateRefusal { fault, step: number, row, column };
                return Evaluation { trace, outcome: Err(refusal) };
            }
            Ok(made) => {
                // "kind, rows, columns, and stages left"
                let (rows, columns) = (made.rows() as u32, made.columns as u32);
                trace.push([step.kind(), rows, columns, made.stages_left()]);
                stack.push(made);
            }
        }
    }
    let last = stack.pop().expect("the input checks leave one table");
    let outcome = judge(last).map_err(|Stop { fault, row, column }| StateRefusal {
        fault,
        step: container.plan.len(),
        row,
        column,
    });
    Evaluation { trace, outcome }
}

/// "35: at release a cell has a stage left. 36: no 35, but a cell is OVER."
pub fn judge(last: Table) -> Result<Table, Stop> {
    let place = |index: usize| (index / last.columns, index % last.columns);
    if let Some(index) = last.cells.iter().position(|cell| !cell.label.is_clear()) {
        let (row, column) = place(index);
        return stop(StateFault::StageLeft, row, column);
    }
    if let Some(index) = last.cells.iter().position(|cell| cell.value == Value::Over) {
        let (row, column) = place(index);
        return stop(StateFault::OverLeft, row, column);
    }
    Ok(last)
}

/// Takes the tables that the step reads from the stack, and the draws that it
/// uses; answers the table made. Document 02, #103: "Marks survive FILTER, KEEP,
/// APPLY, NOISE and UNION."
pub fn perform(
    step: &Step,
    tables: &[Table],
    stack: &mut Vec<Table>,
    draws: &mut Draws,
) -> Result<Table, Stop> {
    let mut pop = || stack.pop().expect("the input checks count the tables");
    match *step {
        Step::Scan { table } => Ok(tables[table].clone()),
        Step::Union => {
            let right = pop();
            union(pop(), right)
        }
        Step::Join { left_key, right_key } => {
            let right = pop();
            join(&pop(), &right, left_key, right_key)
        }
        Step::Filter { column, comparison, operand } => filter(&pop(), column, comparison, operand),
        Step::Keep { mask } => Ok(keep(&pop(), mask)),
        Step::Apply { column, operation } => apply(&pop(), column, operation),
        Step::Group { keys, aggregate, column } => group(&pop(), keys, aggregate, column),
        Step::Noise { column } => noise(&pop(), column, draws),
    }
}

/// 31: the first cell of these columns that is not clear, row by row, left to
/// right; rows are numbered on from `first`.
fn require_clear(table: &Table, columns: &[usize], first: usize) -> Result<(), Stop> {
    for row in 0..table.rows() {
        for &column in columns {
            if !table.row(row)[column].label.is_clear() {
                return stop(StateFault::OperandNotClear, first + row, column);
            }
        }
    }
    Ok(())
}

/// "Left (pushed earlier) rows, then right rows ... no duplicate removed."
fn union(mut left: Table, right: Table) -> Result<Table, Stop> {
    if left.rows() + right.rows() > MOST_ROWS {
        return stop(StateFault::TooManyRows, 256, 0);
    }
    left.cells.extend(right.cells);
    left.marks.extend(right.marks);
    Ok(left)
}

/// "For each left row, each matching right row in order; left columns, then
/// right columns without the key." "OVER matches nothing in a join." "A joined
/// row takes the left mark", #103.
fn join(left: &Table, right: &Table, left_key: usize, right_key: usize) -> Result<Table, Stop> {
    require_clear(left, &[left_key], 0)?;
    require_clear(right, &[right_key], left.rows())?;
    let mut matching: HashMap<i64, Vec<usize>> = HashMap::new();
    for row in 0..right.rows() {
        if let Value::Known(key) = right.row(row)[right_key].value {
            matching.entry(key).or_default().push(row);
        }
    }
    let mut made = Table::new(left.columns + right.columns - 1);
    for row in 0..left.rows() {
        let matches = match left.row(row)[left_key].value {
            Value::Known(key) => matching.get(&key),
            Value::Over => None,
        };
        let matches = match matches {
            Some(matches) => matches,
            None => continue,
        };
        if made.rows() + matches.len() > MOST_ROWS {
            return stop(StateFault::TooManyRows, 256, 0);
        }
        for &other in matches {
            let other = right.row(other);
            made.cells.extend_from_slice(left.row(row));
            made.cells.extend_from_slice(&other[..right_key]);
            made.cells.extend_from_slice(&other[right_key + 1..]);
            made.marks.push(left.marks[row]);
        }
    }
    Ok(made)
}

fn filter(
    table: &Table,
    column: usize,
    comparison: Comparison,
    operand: Operand,
) -> Result<Table, Stop> {
    let mut tested = vec![column];
    if let Operand::Column(other) = operand {
        tested.push(other);
    }
    tested.sort();
    require_clear(table, &tested, 0)?;
    let mut made = Table::new(table.columns);
    for row in 0..table.rows() {
        let cells = table.row(row);
        let second = match operand {
            Operand::Constant(number) => Value::Known(number),
            Operand::Column(other) => cells[other].value,
        };
        if cells[column].value.satisfies(comparison, second) {
            made.cells.extend_from_slice(cells);
            made.marks.push(table.marks[row]);
        }
    }
    Ok(made)
}

/// "Kept columns stay in order."
fn keep(table: &Table, mask: u8) -> Table {
    let kept: Vec<usize> = columns_of(mask).collect();
    let mut made = Table::new(kept.len());
    for row in 0..table.rows() {
        let cells = table.row(row);
        made.cells.extend(kept.iter().map(|&column| cells[column]));
    }
    made.marks.extend(&table.marks);
    made
}

/// "Appends a column; the first column stays. The new label is the first
/// operand's, discharged at level T."
fn apply(table: &Table, column: usize, operation: Operation) -> Result<Table, Stop> {
    let second_column = match operation {
        Operation::Add(Operand::Column(other)) | Operation::Sub(Operand::Column(other)) => {
            Some(other)
        }
        _ => None,
    };
    let mut made = Table::new(table.columns + 1);
    made.cells.reserve(table.rows() * (table.columns + 1));
    for row in 0..table.rows() {
        let cells = table.row(row);
        let first = cells[column];
        let label = match first.label.after_operation(&operation) {
            Ok(label) => label,
            Err(_) => return stop(StateFault::Forbidden, row, column),
        };
        if let Some(other) = second_column {
            if !cells[other].label.is_clear() {
                return stop(StateFault::SecondNotClear, row, other);
            }
        }
        let second = |operand: Operand| match operand {
            Operand::Constant(number) => Value::Known(number),
            Operand::Column(other) => cells[other].value,
        };
        let value = match operation {
            Operation::Add(operand) => first.value.add(second(operand)),
            Operation::Sub(operand) => first.value.sub(second(operand)),
            Operation::Cut(k) => first.value.cut(k),
            Operation::Band(k) => first.value.band(k),
        };
        made.cells.extend_from_slice(cells);
        made.cells.push(Cell { value, label });
    }
    made.marks.extend(&table.marks);
    Ok(made)
}

/// "Groups in order of first appearance: keys, then the aggregate, whose label
/// is the composition of each cell's label discharged at level A." By #103 "the
/// group minimum shall count distinct sheets", those of all rows of the group, and
/// "a group row takes its first row's mark".
fn group(table: &Table, mask: u8, kind: Aggregate, column: usize) -> Result<Table, Stop> {
    let keys: Vec<usize> = columns_of(mask).collect();
    require_clear(table, &keys, 0)?;
    // 32 "in GROUP, after all keys": whether a label forbids does not depend
    // on the size of the group.
    for row in 0..table.rows() {
        if table.row(row)[column].label.after_aggregate(kind, 0).is_err() {
            return stop(StateFault::Forbidden, row, column);
        }
    }
    let mut places: HashMap<Vec<Value>, usize> = HashMap::new();
    let mut groups: Vec<Vec<usize>> = Vec::new();
    for row in 0..table.rows() {
        let key: Vec<Value> = keys.iter().map(|&key| table.row(row)[key].value).collect();
        let place = *places.entry(key).or_insert(groups.len());
        if place == groups.len() {
            groups.push(Vec::new());
        }
        groups[place].push(row);
    }
    let mut made = Table::new(keys.len() + 1);
    for rows in groups {
        let values: Vec<Value> = rows.iter().map(|&row| table.row(row)[column].value).collect();
        let sheets = distinct(rows.iter().map(|&row| table.marks[row]));
        let mut label = Label::default();
        for &row in &rows {
            let cell = table.row(row)[column].label;
            let left = cell.after_aggregate(kind, sheets).expect("tested above");
            label = label.compose(&left);
        }
        let first = table.row(rows[0]);
        made.cells.extend(keys.iter().map(|&key| first[key]));
        made.cells.push(Cell { value: aggregate(kind, &values), label });
        made.marks.push(table.marks[rows[0]]);
    }
    Ok(made)
}

/// Document 02, #102: "It appends a column: each row's value plus the next
/// number from a lent list of signed draws." "The new label is that value's,
/// discharged at level N."
fn noise(table: &Table, column: usize, draws: &mut Draws) -> Result<Table, Stop> {
    let mut made = Table::new(table.columns + 1);
    made.cells.reserve(table.rows() * (table.columns + 1));
    for row in 0..table.rows() {
        let cells = table.row(row);
        let Cell { value, label } = cells[column];
        // "forbidden with 32 where T, A or H stands highest"
        let label = match label.after_noise() {
            Ok(label) => label,
            Err(_) => return stop(StateFault::Forbidden, row, column),
        };
        // "37 at a row for which no draw is left, column a, after 32 in that
        // row"
        let draw = match draws.next() {
            Some(&draw) => draw,
            None => return stop(StateFault::NoDraw, row, column),
        };
        made.cells.extend_from_slice(cells);
        made.cells.push(Cell { value: value.add_draw(draw), label });
    }
    made.marks.extend(&table.marks);
    Ok(made)
}
