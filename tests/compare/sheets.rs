//! Sheet numbers for generated tables, and the classes that containers and
//! groups fall into by their sheets.

use crate::classes::Classes;
use crate::draft::RawTable;
use crate::reference::container::Container;
use crate::reference::steps::{Aggregate, Step};
use crate::reference::table::{distinct, Mark, Table};
use crate::reference::value::{Value, HIGHEST};
use crate::rng::Rng;

/// Gives some of the tables a column of sheet numbers: one that holds nothing
/// else already, or, where `write` allows it, any, with new numbers.
pub fn number_some(rng: &mut Rng, tables: &mut [RawTable], write: bool) {
    for table in tables {
        let fit: Vec<usize> = (0..table.columns).filter(|&column| fits(table, column)).collect();
        if write && rng.chance(50) {
            let column = rng.below(table.columns);
            number(rng, table, column);
        } else if !fit.is_empty() && rng.chance(60) {
            table.sheets = 1 + rng.pick(&fit) as u8;
        }
    }
}

fn fits(table: &RawTable, column: usize) -> bool {
    let mut cells = table.cells.iter().skip(column).step_by(table.columns);
    cells.all(|&(value, label)| value >= 0 && label == 0)
}

/// Makes this column one of sheet numbers.
pub fn number(rng: &mut Rng, table: &mut RawTable, column: usize) {
    let numbers = numbers(rng, table.rows());
    put(table, column, &numbers);
}

/// Makes this column that of these sheet numbers.
pub fn put(table: &mut RawTable, column: usize, numbers: &[i64]) {
    let cells = table.cells.iter_mut().skip(column).step_by(table.columns);
    for (cell, &number) in cells.zip(numbers) {
        *cell = (number, 0);
    }
    table.sheets = 1 + column as u8;
}

/// Sheet numbers for so many rows, mostly small, so that tables share some.
pub fn numbers(rng: &mut Rng, rows: usize) -> Vec<i64> {
    let most = rows as i64;
    let first = rng.pick(&[0, 0, 1, 7, 255, 256, HIGHEST - most]);
    let mut numbers: Vec<i64> = match rng.below(8) {
        0 | 1 => (0..most).map(|row| first + row).collect(),
        2 => (0..most).map(|row| first + row / 2).collect(),
        3 => vec![first; rows],
        4 | 5 => (0..most).map(|_| first + rng.between(0, 3).min(most)).collect(),
        6 => (0..most).map(|_| first + rng.between(0, most)).collect(),
        _ => (0..most).map(|_| rng.pick(&[0, 1, HIGHEST - 1, HIGHEST])).collect(),
    };
    if rng.chance(30) {
        shuffle(rng, &mut numbers);
    }
    numbers
}

pub fn shuffle<T>(rng: &mut Rng, items: &mut [T]) {
    for place in (1..items.len()).rev() {
        items.swap(place, rng.below(place + 1));
    }
}

/// The column of sheet numbers of each table of an accepted container.
fn columns(bytes: &[u8], container: &Container) -> Vec<Option<usize>> {
    let u32_at = |at: usize| u32::from_le_bytes(bytes[at..at + 4].try_into().unwrap()) as usize;
    let byte = |table: usize| bytes[u32_at(2 + 8 * (table + 1)) + 1] as usize;
    (0..container.tables.len()).map(|table| byte(table).checked_sub(1)).collect()
}

/// Whether some table of an accepted container has a column of sheet numbers.
pub fn any(bytes: &[u8], container: &Container) -> bool {
    columns(bytes, container).iter().any(Option::is_some)
}

/// The plan scans no table twice and has no JOIN, and no table has a column of
/// sheet numbers: each group has as many sheets as rows.
pub fn as_rows(bytes: &[u8], container: &Container) -> bool {
    let mut scans = [0; 8];
    let mut joins = 0;
    for step in &container.plan {
        match *step {
            Step::Scan { table } => scans[table] += 1,
            Step::Join { .. } => joins += 1,
            _ => (),
        }
    }
    !any(bytes, container) && joins == 0 && scans.iter().all(|&count| count < 2)
}

/// What byte 1 of the tables names, and the numbers there.
pub fn accepted(bytes: &[u8], container: &Container, classes: &mut Classes) {
    let columns = columns(bytes, container);
    let mixed = columns.iter().any(Option::is_some) && columns.contains(&None);
    classes.hit_if(mixed, "accepted: a table with sheets, one without");
    for (index, (table, &column)) in container.tables.iter().zip(&columns).enumerate() {
        let column = match column {
            Some(column) => column,
            None => {
                classes.hit("accepted: byte 1 zero");
                continue;
            }
        };
        let scanned = container
            .plan
            .iter()
            .any(|step| matches!(step, Step::Scan { table } if *table == index));
        classes.hit_if(column == 0, "accepted: sheets in column 0");
        classes.hit_if(column > 0 && column + 1 < table.columns, "accepted: sheets in between");
        classes.hit_if(column + 1 == table.columns, "accepted: sheets in the last column");
        classes.hit_if(column == 7, "accepted: sheets in column 7");
        classes.hit_if(table.rows() == 0, "accepted: sheets, no rows");
        classes.hit_if(table.rows() == 256, "accepted: sheets, 256 rows");
        classes.hit_if(!scanned, "accepted: sheets that no step scans");
        classes.hit_if(table.marks.contains(&Mark::Sheet(0)), "accepted: sheet 0");
        classes.hit_if(table.marks.contains(&Mark::Sheet(HIGHEST)), "accepted: sheet 2^47 - 1");
        let different = distinct(table.marks.iter().copied());
        classes.hit_if(different < table.rows(), "accepted: a sheet twice in a table");
        classes.hit_if(different == 1 && table.rows() > 1, "accepted: one sheet for all rows");
        let others = &container.tables[..index];
        let shared = table.marks.iter().any(|mark| others.iter().any(|o| o.marks.contains(mark)));
        classes.hit_if(shared, "accepted: a sheet in two tables");
        for (place, cell) in table.cells.iter().enumerate() {
            let beside = place % table.columns != column;
            let negative = matches!(cell.value, Value::Known(number) if number < 0);
            classes.hit_if(beside && negative, "accepted: a negative value beside the sheets");
            classes.hit_if(beside && !cell.label.is_clear(), "accepted: a label beside the sheets");
        }
    }
}

/// UNION or JOIN of two tables with the same marks.
pub fn of_itself(left: &Table, right: &Table) -> bool {
    left.rows() > 0 && left.marks == right.marks
}

/// A group of these rows.
pub fn grouped(
    aggregate: Aggregate,
    column: usize,
    top: &Table,
    rows: &[usize],
    classes: &mut Classes,
) {
    let count = |rows: &[usize]| distinct(rows.iter().map(|&row| top.marks[row]));
    let different = count(rows);
    let numbered = |&row: &usize| matches!(top.marks[row], Mark::Sheet(_));
    let numbers = rows.iter().any(numbered);
    classes.hit_if(numbers && different == rows.len() && different > 1, "GROUP, each row a sheet");
    classes.hit_if(numbers && different == 1 && rows.len() > 1, "GROUP, one sheet");
    classes.hit_if(numbers && !rows.iter().all(numbered), "GROUP, numbered sheets and others");
    if rows.len() == 256 {
        classes.hit_if(numbers && different == 256, "GROUP, 256 sheets");
        classes.hit_if(different == 128, "GROUP, 128 sheets in 256 rows");
        classes.hit_if(different == 1, "GROUP, one sheet in 256 rows");
    }
    let shown = |column: usize| {
        rows.iter().all(|&row| match top.marks[row] {
            Mark::Sheet(number) => top.row(row)[column].value == Value::Known(number),
            Mark::Own { .. } => false,
        })
    };
    let gone = numbers && !(0..top.columns).any(shown);
    let labelled: Vec<usize> =
        rows.iter().copied().filter(|&row| !top.row(row)[column].label.is_clear()).collect();
    for &row in rows {
        let minimum = match top.row(row)[column].label.aggregate {
            Some(stage) if stage.allows(aggregate) => stage.minimum as usize,
            _ => continue,
        };
        let above = rows.len() > minimum;
        classes.hit_if(above && different + 1 == minimum, "GROUP, sheets one short, rows above");
        classes.hit_if(above && different == minimum, "GROUP, sheets just enough, rows above");
        classes.hit_if(above && different == minimum + 1, "GROUP, sheets one more, rows above");
        let exact = rows.len() == minimum;
        classes.hit_if(exact && different < minimum, "GROUP, rows just enough, sheets short");
        let fewer = count(&labelled);
        let decide = different >= minimum && fewer < minimum;
        classes.hit_if(decide, "GROUP, the sheets of clear cells decide");
        classes.hit_if(gone && different < rows.len(), "GROUP, the sheet numbers are in no column");
    }
}
