//! What a plan does to the cells that differ between the two sides of a pair: both are
//! evaluated side by side, step by step.

use crate::classes::Classes;
use crate::reference::container::Container;
use crate::reference::eval::{judge, perform, StateFault, Stop};
use crate::reference::steps::{columns_of, Aggregate, Operand, Operation, Step};
use crate::reference::table::Table;
use crate::reference::value::{in_range, Value};
use std::collections::HashMap;

/// The values of a cell on the two sides.
type Both = [Value; 2];

/// What the evaluation of a pair came to.
#[derive(Default)]
pub struct Watched {
    /// The tables that a finished step has scanned.
    pub scanned: [bool; 8],
    /// What was done to cells that differ, as a class of pairs that are released.
    pub done: Vec<&'static str>,
    /// The cells made by all steps, and the rows compared with rows.
    pub work: usize,
}

pub fn watch(sides: &[Container; 2], draws: &[i64], classes: &mut Classes) -> Watched {
    let mut watched = Watched::default();
    let mut stacks: [Vec<Table>; 2] = Default::default();
    let mut draws = [draws.iter(), draws.iter()];
    for step in &sides[0].plan {
        let before = stacks.clone();
        let left = draws[0].as_slice();
        let mut made = Vec::new();
        for side in 0..2 {
            match perform(step, &sides[side].tables, &mut stacks[side], &mut draws[side]) {
                Ok(table) => made.push(table),
                // That both are refused alike is seen in their answers.
                Err(stop) => {
                    stopped(step, &before, stop, classes);
                    return watched;
                }
            }
        }
        let made = <[Table; 2]>::try_from(made).expect("one for each side");
        let rows = before[0].iter().rev().take(2).map(Table::rows);
        watched.work += made[0].cells.len() + rows.product::<usize>();
        let differs = made[0].cells != made[1].cells;
        if let Step::Scan { table } = *step {
            watched.scanned[table] = true;
        }
        classes.hit_if(differs && made[0].rows() == 256, "256 rows");
        match (*step, before.each_ref().map(|stack| stack.last())) {
            (Step::Apply { column, operation }, [Some(one), Some(two)]) => {
                for (row, both) in differing([one, two], column) {
                    applied(operation, both, last(&made, row), classes);
                    watched.done.push("released after APPLY");
                }
            }
            (Step::Noise { column }, [Some(one), Some(two)]) => {
                for (row, both) in differing([one, two], column) {
                    noised(left[row], both, last(&made, row), classes);
                    watched.done.push("released after NOISE");
                }
            }
            (Step::Group { keys, aggregate, column }, [Some(one), Some(two)]) => {
                if differing([one, two], column).next().is_some() {
                    grouped(keys, aggregate, column, [one, two], &made, classes);
                    watched.done.push("released after GROUP");
                }
            }
            _ => classes.hit_if(differs, carrier(step)),
        }
        stacks.iter_mut().zip(made).for_each(|(stack, made)| stack.push(made));
    }
    if let Err(stop) = judge(stacks[0][0].clone()) {
        let [one, two] = stacks.each_ref().map(|stack| stack[0].row(stop.row)[stop.column]);
        classes.hit_if(one != two, "35 at a cell that differs");
    }
    watched
}

/// A refusal at a cell that differs.
fn stopped(step: &Step, before: &[Vec<Table>; 2], stop: Stop, classes: &mut Classes) {
    let at = |stack: &Vec<Table>| {
        let top = stack.last()?;
        let (table, row) = match step {
            // "Right rows of a JOIN are numbered on from the left."
            Step::Join { .. } => {
                let left = &stack[stack.len() - 2];
                if stop.row < left.rows() {
                    (left, stop.row)
                } else {
                    (top, stop.row - left.rows())
                }
            }
            _ => (top, stop.row),
        };
        Some(table.row(row)[stop.column].value)
    };
    let number = stop.fault.number();
    if stop.fault != StateFault::TooManyRows && at(&before[0]) != at(&before[1]) {
        classes.hit(&format!("{number} at a cell that differs"));
    }
}

fn carrier(step: &Step) -> &'static str {
    match step {
        Step::Scan { .. } => "SCAN",
        Step::Union => "UNION",
        Step::Join { .. } => "JOIN",
        Step::Filter { .. } => "FILTER",
        _ => "KEEP",
    }
}

/// The rows whose cells in a column differ.
fn differing(tables: [&Table; 2], column: usize) -> impl Iterator<Item = (usize, Both)> + '_ {
    let both = move |row: usize| (row, tables.map(|table| table.row(row)[column].value));
    (0..tables[0].rows()).map(both).filter(|(_, both)| both[0] != both[1])
}

/// What a step appended to a row.
fn last(made: &[Table; 2], row: usize) -> Both {
    made.each_ref().map(|table| table.row(row)[table.columns - 1].value)
}

fn numbers(both: Both) -> Option<[i64; 2]> {
    match both {
        [Value::Known(one), Value::Known(two)] => Some([one, two]),
        _ => None,
    }
}

/// Whether one of two, in either order, is so and the other is so.
fn one_each(both: [i64; 2], one: impl Fn(i64) -> bool, other: impl Fn(i64) -> bool) -> bool {
    one(both[0]) && other(both[1]) || one(both[1]) && other(both[0])
}

fn only_one(both: [i64; 2], test: impl Fn(i64) -> bool) -> bool {
    test(both[0]) != test(both[1])
}

pub fn signs(both: [i64; 2]) -> bool {
    one_each(both, |value| value < 0, |value| value > 0)
}

/// A division of such a value may be one of 32 bits.
pub fn narrow(value: i64) -> bool {
    (0..1 << 32).contains(&value)
}

fn over(both: Both) -> bool {
    (both[0] == Value::Over) != (both[1] == Value::Over)
}

fn applied(operation: Operation, both: Both, made: Both, classes: &mut Classes) {
    let name = match operation {
        Operation::Add(_) => "add",
        Operation::Sub(_) => "sub",
        Operation::Cut(_) => "cut",
        Operation::Band(_) => "band",
    };
    classes.hit(&match operation {
        Operation::Add(Operand::Constant(_)) | Operation::Sub(Operand::Constant(_)) => {
            format!("{name} a constant")
        }
        Operation::Add(_) | Operation::Sub(_) => format!("{name} a column"),
        Operation::Cut(digits) => format!("cut {digits}"),
        Operation::Band(width) => String::from(match width {
            1 => "band 1",
            2..=0x7FFF_FFFF => "band 2 to 2^31 - 1",
            0x8000_0000..=0xFFFF_FFFF => "band from 2^31",
            _ => "band from 2^32",
        }),
    });
    let Some(known) = numbers(both) else {
        return classes.hit(&format!("OVER read by {name}"));
    };
    classes.hit_if(over(made), &format!("OVER by {name}"));
    match operation {
        Operation::Cut(_) => {
            classes.hit_if(signs(known), "cut of both signs");
            classes.hit_if(only_one(known, narrow), "cut of 32 bits and of more");
        }
        Operation::Band(width) => {
            classes.hit_if(signs(known), "band of both signs");
            let narrow = narrow(width) && only_one(known, narrow);
            classes.hit_if(narrow, "band of 32 bits and of more, by 32 bits");
            let divided = only_one(known, |value| value % width == 0);
            classes.hit_if(divided, "band remainder 0 on one side");
        }
        _ => (),
    }
}

fn noised(draw: i64, both: Both, made: Both, classes: &mut Classes) {
    classes.hit("NOISE");
    classes.hit_if(!in_range(draw), "NOISE with a draw out of range");
    match numbers(both) {
        Some(known) => {
            classes.hit_if(over(made), "OVER by a draw");
            classes.hit_if(signs(known), "NOISE of both signs");
        }
        None => classes.hit("OVER read by NOISE"),
    }
}

fn grouped(
    keys: u8,
    aggregate: Aggregate,
    column: usize,
    tables: [&Table; 2],
    made: &[Table; 2],
    classes: &mut Classes,
) {
    let name = match aggregate {
        Aggregate::Count => "count",
        Aggregate::Sum => "sum",
        Aggregate::Min => "min",
        Aggregate::Max => "max",
        Aggregate::Avg => "avg",
    };
    // Keys are clear, and so the same on both sides; the groups are made in order.
    let mut places: HashMap<Vec<Value>, usize> = HashMap::new();
    let mut groups: Vec<Vec<Both>> = Vec::new();
    for row in 0..tables[0].rows() {
        let key = columns_of(keys).map(|key| tables[0].row(row)[key].value).collect();
        let place = *places.entry(key).or_insert(groups.len());
        if place == groups.len() {
            groups.push(Vec::new());
        }
        groups[place].push(tables.map(|table| table.row(row)[column].value));
    }
    for (group, members) in groups.iter().enumerate() {
        if members.iter().all(|both| both[0] == both[1]) {
            continue;
        }
        classes.hit(name);
        classes.hit(if keys == 0 { "GROUP without keys" } else { "GROUP by keys" });
        let known: Option<Vec<[i64; 2]>> = members.iter().map(|&both| numbers(both)).collect();
        let Some(known) = known else {
            let any = |side: usize| members.iter().any(|both| both[side] == Value::Over);
            classes.hit_if(any(0) != any(1), &format!("OVER read by {name}"));
            continue;
        };
        aggregated(aggregate, &known, last(made, group), classes);
    }
}

/// Of a group of values.
fn aggregated(aggregate: Aggregate, group: &[[i64; 2]], made: Both, classes: &mut Classes) {
    let sums = [0, 1].map(|side| group.iter().map(|both| both[side]).sum::<i64>());
    let rows = group.len() as i64;
    let first =
        |side: usize, sign: i64| (0..group.len()).min_by_key(|&row| sign * group[row][side]);
    match aggregate {
        Aggregate::Count => (),
        Aggregate::Sum => {
            classes.hit_if(over(made), "OVER by sum");
            classes.hit_if(signs(sums), "sum of both signs");
            classes.hit_if(only_one(sums, narrow), "sum of 32 bits and of more");
        }
        Aggregate::Min => classes.hit_if(first(0, 1) != first(1, 1), "min in another row"),
        Aggregate::Max => classes.hit_if(first(0, -1) != first(1, -1), "max in another row"),
        Aggregate::Avg => {
            let twice = |sum: i64| 2 * sum.rem_euclid(rows);
            let (up, down) = (|sum| twice(sum) > rows, |sum| twice(sum) < rows && twice(sum) > 0);
            classes.hit_if(signs(sums), "avg of both signs");
            classes.hit_if(only_one(sums, narrow), "avg of 32 bits and of more");
            classes.hit_if(only_one(sums, |sum| twice(sum) == rows), "avg tie on one side");
            classes.hit_if(one_each(sums, up, down), "avg up on one side, down on the other");
            classes.hit_if(only_one(sums, |sum| twice(sum) == 0), "avg remainder 0 on one side");
        }
    }
}

/// A step in a word or two.
pub fn name(step: &Step) -> String {
    match step {
        Step::Scan { table } => format!("SCAN {table}"),
        Step::Union => "UNION".into(),
        Step::Join { .. } => "JOIN".into(),
        Step::Filter { .. } => "FILTER".into(),
        Step::Keep { .. } => "KEEP".into(),
        Step::Apply { operation, .. } => match operation {
            Operation::Add(operand) => format!("APPLY add {}", second(operand)),
            Operation::Sub(operand) => format!("APPLY sub {}", second(operand)),
            Operation::Cut(digits) => format!("APPLY cut {digits}"),
            Operation::Band(width) => format!("APPLY band {width}"),
        },
        Step::Group { aggregate, .. } => {
            format!("GROUP {}", format!("{aggregate:?}").to_lowercase())
        }
        Step::Noise { .. } => "NOISE".into(),
    }
}

fn second(operand: &Operand) -> String {
    match operand {
        Operand::Constant(number) => number.to_string(),
        Operand::Column(_) => "a column".into(),
    }
}
