//! Beginnings of containers in which sheets decide what a GROUP discharges: as
//! many as a label asks for, one more and one less, in more rows.

use crate::draft::{step, RawStep, RawTable};
use crate::generate::read;
use crate::reference::table::distinct;
use crate::reference::value::{Value, HIGHEST};
use crate::rng::Rng;
use crate::scenes::{keep, noise, scan, Scene};
use crate::sheets::{numbers, put, shuffle};
use crate::year_scenes::or_about_ten;

pub const KEY: usize = 0;
pub const VALUE: usize = 1;
const SHEET: usize = 2;

/// Rows of a key, a value and a sheet number, in groups of one key; numbers that
/// follow one another, or are alike in their low bits. The label of the values is
/// put in later.
pub fn ballots(rng: &mut Rng) -> RawTable {
    let first = rng.pick(&[0, 0, 1, 255]);
    let apart = rng.pick(&[1, 1, 1, 1 << 8, 1 << 16, 1 << 32, HIGHEST / 12]);
    let mut rows = Vec::new();
    for key in 0..1 + rng.below(3) as i64 {
        let few = 1 + rng.below(5);
        let different = or_about_ten(rng, few) as i64;
        for row in 0..different + rng.between(0, 5) {
            let sheet = if row < different { row } else { rng.between(0, different - 1) };
            rows.push([(key, 0), (rng.between(-9, 99), 0), (first + apart * sheet, 0)]);
        }
    }
    if rng.chance(60) {
        shuffle(rng, &mut rows);
    }
    let mut made = RawTable::new(3, rows.concat());
    made.sheets = if rng.chance(75) { 1 + SHEET as u8 } else { 0 };
    made
}

/// How many sheets the rows with key 0 have, in these tables together.
pub fn sheets_of_key_0(tables: &[RawTable]) -> usize {
    let tables = read(0, tables);
    let rows = tables.iter().flat_map(|table| (0..table.rows()).map(move |row| (table, row)));
    let of_key_0 = rows.filter(|(table, row)| table.row(*row)[KEY].value == Value::Known(0));
    distinct(of_key_0.map(|(table, row)| table.marks[row]))
}

/// Gives the values a label that asks for about so many sheets; answers the
/// aggregate that it allows, or by chance another.
fn put_label(rng: &mut Rng, table: &mut RawTable, sheets: usize) -> u8 {
    let aggregate = rng.below(5) as u8;
    let mut minimum = (sheets as i64 + rng.pick(&[-1, 0, 0, 1, 1])).clamp(2, 1023);
    if sheets > 8 && rng.chance(40) {
        minimum = rng.pick(&[2, 3, 9, 10]);
    }
    let below = rng.pick(&[0, 0, 0, 0x1080_0000]);
    let word = 1 << 29 | 1 << (16 + aggregate) | minimum as u32 | below;
    let some_clear = rng.chance(25);
    for cell in table.cells.iter_mut().skip(VALUE).step_by(table.columns) {
        cell.1 = if some_clear && rng.chance(60) { 0 } else { word };
    }
    if rng.chance(90) {
        aggregate
    } else {
        rng.below(5) as u8
    }
}

/// Steps that keep rows and marks, and leave key and value where they are.
pub fn between(rng: &mut Rng) -> Vec<RawStep> {
    let drop = keep(1 << KEY | 1 << VALUE);
    match rng.below(8) {
        0 => vec![],
        1..=3 => vec![drop],
        4 => vec![step(6, KEY as u8, 0, 0, 0, 1), drop],
        5 => vec![noise(KEY), drop],
        6 => vec![noise(SHEET)],
        _ => vec![step(4, KEY as u8, rng.pick(&[0, 1, 3, 4]), 0, 0, rng.between(0, 1))],
    }
}

pub fn group(keys: u8, aggregate: u8, column: usize) -> RawStep {
    step(7, keys, aggregate, column as u8, 0, 0)
}

pub fn around_the_minimum(rng: &mut Rng) -> Scene {
    let mut table = ballots(rng);
    let count = sheets_of_key_0(std::slice::from_ref(&table));
    let aggregate = put_label(rng, &mut table, count);
    let mut steps = vec![scan(0)];
    if rng.chance(40) {
        // Some rows go, and with them their sheets.
        let constant = table.cells[SHEET].0;
        steps.push(step(4, SHEET as u8, rng.pick(&[1, 2, 4]), 0, 0, constant));
    }
    steps.extend(between(rng));
    steps.push(group(1, aggregate, VALUE));
    Scene { tables: vec![table], steps }
}

pub fn united_with_itself(rng: &mut Rng) -> Scene {
    let mut table = ballots(rng);
    let count = sheets_of_key_0(std::slice::from_ref(&table)) * rng.pick(&[1, 1, 1, 2]);
    let aggregate = put_label(rng, &mut table, count);
    let before = if rng.chance(30) { vec![keep(3)] } else { vec![] };
    let mut steps = vec![scan(0)];
    steps.extend(&before);
    steps.push(scan(0));
    steps.extend(&before);
    steps.push(step(2, 0, 0, 0, 0, 0));
    if before.is_empty() {
        steps.extend(between(rng));
    }
    steps.push(group(rng.pick(&[1, 1, 0]), aggregate, VALUE));
    Scene { tables: vec![table], steps }
}

/// Two tables that share sheet numbers, or of which one or both have none.
pub fn two_tables(rng: &mut Rng) -> Scene {
    let mut tables = vec![ballots(rng), ballots(rng)];
    let without = rng.below(2);
    match rng.below(3) {
        0 => tables.iter_mut().for_each(|table| table.sheets = 0),
        // Numbers that marks of rows might have.
        1 => {
            let rows = tables[1 - without].rows() as i64;
            let first = rng.pick(&[256 * without as i64, HIGHEST + 1 - rows]);
            put(&mut tables[1 - without], SHEET, &(first..first + rows).collect::<Vec<i64>>());
            tables[without].sheets = 0;
        }
        _ => {
            for table in &mut tables {
                let numbers: Vec<i64> = (0..table.rows()).map(|_| rng.between(0, 6)).collect();
                put(table, SHEET, &numbers);
            }
        }
    }
    let count = sheets_of_key_0(&tables);
    let aggregate = put_label(rng, &mut tables[0], count);
    let mut steps = vec![scan(0), scan(1), step(2, 0, 0, 0, 0, 0)];
    steps.extend(between(rng));
    steps.push(group(1, aggregate, VALUE));
    Scene { tables, steps }
}

/// The last rows of 256 with the first ones of the next table.
pub fn rows_that_run_on(rng: &mut Rng) -> Scene {
    let mut tables = vec![ballots(rng), ballots(rng)];
    let missing = 256 - tables[0].rows();
    let filler = [(9, 0), (0, 0), (0, 0)].repeat(missing);
    tables[0].cells.splice(0..0, filler);
    tables.iter_mut().for_each(|table| table.sheets = 0);
    let count = sheets_of_key_0(&tables);
    let aggregate = put_label(rng, &mut tables[0], count);
    let filter = step(4, KEY as u8, 2, 0, 0, 9);
    let steps = [scan(0), filter, scan(1), step(2, 0, 0, 0, 0, 0), group(1, aggregate, VALUE)];
    Scene { tables, steps: steps.to_vec() }
}

/// A table joined with itself, or one of few sheets with one of many.
pub fn joined(rng: &mut Rng) -> Scene {
    let mut tables = vec![ballots(rng), ballots(rng)];
    let right = rng.below(2) as u8;
    let count = sheets_of_key_0(&tables[rng.below(2)..][..1]);
    let aggregate = put_label(rng, &mut tables[0], count);
    // Of the right table its keys alone, or these and its sheet numbers; by the
    // sheet numbers at times.
    let (mask, keys) = match rng.below(8) {
        0..=2 => (0b001, [KEY, 0]),
        3..=5 => (0b101, [KEY, 0]),
        _ => (0b101, [SHEET, 1]),
    };
    let join = step(3, keys[0] as u8, keys[1] as u8, 0, 0, 0);
    let mut steps = vec![scan(0), scan(right), keep(mask), join];
    steps.extend(between(rng));
    steps.push(group(1, aggregate, VALUE));
    Scene { tables, steps }
}

/// A GROUP that discharges nothing, by key and by a further column, and a second
/// one over its rows.
pub fn group_of_groups(rng: &mut Rng) -> Scene {
    let few = 2 + rng.below(4);
    let (inner, shared) = (or_about_ten(rng, few), rng.below(3));
    let mut rows = Vec::new();
    for part in 0..inner as i64 {
        for row in 0..1 + rng.between(0, 3) {
            // Any sheets; the first rows on one sheet, or all but the first.
            let sheet = match (shared, row) {
                (0, _) => rng.between(0, 3),
                (1, 0) => 7,
                (1, _) => 10 * part + row,
                (_, 0) => 10 * part,
                _ => 7,
            };
            rows.push([
                (rng.pick(&[0, 0, 0, 1]), 0),
                (rng.between(-9, 9), 0),
                (sheet, 0),
                (part, 0),
            ]);
        }
    }
    if rng.chance(40) {
        shuffle(rng, &mut rows);
    }
    let mut table = RawTable::new(4, rows.concat());
    table.sheets = if rng.chance(85) { 1 + SHEET as u8 } else { 0 };
    let asked = rng.between(1, inner as i64) as usize;
    let aggregate = put_label(rng, &mut table, asked);
    let other = (aggregate + 1 + rng.below(4) as u8) % 5;
    let steps = vec![scan(0), group(9, other, VALUE), group(1, aggregate, 2)];
    Scene { tables: vec![table], steps }
}

/// 256 rows: of one key, of a few and of many; sheets all different, all the same
/// and others.
pub fn full_tables(rng: &mut Rng) -> Scene {
    let keys = rng.pick(&[1, 1, 4, 25, 26, 64]);
    let mut numbers = match rng.below(5) {
        0 => (0..256).collect(),
        1 => vec![rng.between(0, 9); 256],
        2 => (0..256).map(|row| row / 2).collect(),
        _ => numbers(rng, 256),
    };
    if rng.chance(50) {
        shuffle(rng, &mut numbers);
    }
    let cells = (0..256).flat_map(|row| [(row % keys, 0), (row, 0), (0, 0)]).collect();
    let mut table = RawTable::new(3, cells);
    put(&mut table, SHEET, &numbers);
    if rng.chance(15) {
        table.sheets = 0;
    }
    let count = sheets_of_key_0(std::slice::from_ref(&table));
    let aggregate = put_label(rng, &mut table, count);
    let mut steps = vec![scan(0)];
    steps.extend(between(rng));
    steps.push(group(1, aggregate, VALUE));
    Scene { tables: vec![table], steps }
}
