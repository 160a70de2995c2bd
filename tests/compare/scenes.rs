//! Beginnings of containers that chance alone would seldom bring: tables, and
//! the first steps over them.

use crate::draft::{step, RawStep, RawTable};
use crate::generate::{number, table, Theme};
use crate::labels::label;
use crate::noise::NOISY;
use crate::reference::value::{HIGHEST, LOWEST};
use crate::rng::Rng;
use crate::sheet_scenes;
use crate::year_scenes::or_about_ten;

pub struct Scene {
    pub tables: Vec<RawTable>,
    pub steps: Vec<RawStep>,
}

const SCENES: [fn(&mut Rng) -> Scene; 34] = [
    union_at_the_limit,
    join_at_the_limit,
    whole_output,
    seven_keys,
    filter_not_clear,
    apply_refused,
    apply_refused,
    group_refused,
    join_not_clear,
    over_keys,
    sums_at_the_ends,
    averages,
    averages,
    over_before_a_stage,
    group_a_composed_label,
    any_digits,
    longest_text,
    noise_refused,
    noise_refused,
    noises_released,
    many_noises,
    noise_at_the_ends,
    noise_ends_a_chain,
    noise_beside_locked,
    sheet_scenes::around_the_minimum,
    sheet_scenes::united_with_itself,
    sheet_scenes::two_tables,
    sheet_scenes::two_tables,
    sheet_scenes::rows_that_run_on,
    sheet_scenes::joined,
    sheet_scenes::group_of_groups,
    sheet_scenes::group_of_groups,
    sheet_scenes::full_tables,
    sheet_scenes::full_tables,
];

pub fn scene(rng: &mut Rng) -> Scene {
    SCENES[rng.below(SCENES.len())](rng)
}

pub fn scan(table: u8) -> RawStep {
    step(1, table, 0, 0, 0, 0)
}

pub fn keep(mask: u8) -> RawStep {
    step(5, mask, 0, 0, 0, 0)
}

pub fn noise(column: usize) -> RawStep {
    step(8, column as u8, 0, 0, 0, 0)
}

/// A table without labels, of small values.
pub fn clear(rng: &mut Rng, columns: usize, rows: usize) -> RawTable {
    let most = rng.pick(&[1, 3, 50]);
    let cells = (0..columns * rows).map(|_| (rng.between(0, most), 0)).collect();
    RawTable::new(columns, cells)
}

/// Gives a label to a few cells of a column.
fn put_labels(rng: &mut Rng, table: &mut RawTable, column: usize) {
    let rows = table.rows();
    for _ in 0..1 + rng.below(2) {
        let row = rng.below(rows);
        table.cells[row * table.columns + column].1 = label(rng, rows);
    }
}

fn union_at_the_limit(rng: &mut Rng) -> Scene {
    let columns = 1 + rng.below(4);
    let total = 254 + rng.below(5);
    let left = total - 256.min(rng.below(total + 1));
    let tables = [left, total - left]
        .map(|rows| table(rng, Theme::General, columns, rows.min(256)))
        .to_vec();
    Scene { tables, steps: vec![scan(0), scan(1), step(2, 0, 0, 0, 0, 0)] }
}

/// Keys with so many left and right rows each.
fn join_at_the_limit(rng: &mut Rng) -> Scene {
    let keys: &[(usize, usize)] = match rng.below(9) {
        0 => &[(16, 16)],
        1 => &[(16, 16), (1, 1)],
        2 => &[(1, 256)],
        3 => &[(256, 1)],
        4 => &[(128, 2), (1, 1)],
        5 => &[(15, 17), (1, 1)],
        6 => &[(2, 128), (5, 0)],
        7 => &[(10, 20), (8, 7), (0, 9)],
        _ => &[(10, 20), (8, 7), (1, 1)],
    };
    let mut tables = Vec::new();
    let mut columns = [0; 2];
    for side in 0..2 {
        let mut rows: Vec<i64> = Vec::new();
        for (key, counts) in keys.iter().enumerate() {
            let count = if side == 0 { counts.0 } else { counts.1 };
            rows.extend(vec![key as i64; count]);
        }
        for place in (1..rows.len()).rev() {
            rows.swap(place, rng.below(place + 1));
        }
        let width = 1 + rng.below(4);
        let mut made = table(rng, Theme::General, width, rows.len());
        columns[side] = rng.below(width);
        for (row, &key) in rows.iter().enumerate() {
            made.cells[row * width + columns[side]] = (key, 0);
        }
        tables.push(made);
    }
    let join = step(3, columns[0] as u8, columns[1] as u8, 0, 0, 0);
    Scene { tables, steps: vec![scan(0), scan(1), join] }
}

fn whole_output(rng: &mut Rng) -> Scene {
    let mut steps = vec![scan(0)];
    let columns = 6 + rng.below(3);
    let tables = vec![clear(rng, columns, 256)];
    for _ in columns..8 {
        steps.push(step(6, 0, rng.below(2) as u8, 0, 0, rng.between(-5, 5)));
    }
    if rng.chance(50) {
        steps.push(step(4, rng.below(8) as u8, 5, 0, 0, LOWEST));
    }
    Scene { tables, steps }
}

fn seven_keys(rng: &mut Rng) -> Scene {
    let rows = 2 + rng.below(20);
    let mut made = clear(rng, 8, rows);
    let left_out = rng.below(8);
    for row in 0..rows {
        for column in 0..8 {
            made.cells[row * 8 + column].0 %= 2;
        }
    }
    if rng.chance(50) {
        put_labels(rng, &mut made, left_out);
    }
    let column = if rng.chance(70) { left_out } else { rng.below(8) };
    let group = step(7, 255 - (1 << left_out), rng.below(5) as u8, column as u8, 0, 0);
    Scene { tables: vec![made], steps: vec![scan(0), group] }
}

fn filter_not_clear(rng: &mut Rng) -> Scene {
    let (columns, rows) = (2 + rng.below(4), 1 + rng.below(6));
    let mut made = clear(rng, columns, rows);
    let (one, two) = (rng.below(columns), rng.below(columns));
    if rng.chance(70) {
        put_labels(rng, &mut made, one);
    }
    if rng.chance(70) {
        put_labels(rng, &mut made, two);
    }
    if rng.chance(30) {
        // Both in the same row.
        let row = rng.below(rows);
        for column in [one, two] {
            made.cells[row * columns + column].1 = label(rng, rows);
        }
    }
    let comparison = rng.below(6) as u8;
    let filter = if rng.chance(25) {
        step(4, one as u8, comparison, 0, 0, 1)
    } else {
        step(4, one as u8, comparison, 1, two as u8, 0)
    };
    Scene { tables: vec![made], steps: vec![scan(0), filter] }
}

fn apply_refused(rng: &mut Rng) -> Scene {
    let (columns, rows) = (2 + rng.below(3), 1 + rng.below(6));
    let mut made = clear(rng, columns, rows);
    let (one, two) = (rng.below(columns), rng.below(columns));
    for row in 0..rows {
        let held = 1 << 31 | if rng.chance(50) { label(rng, rows) } else { 0 };
        let first = match rng.below(6) {
            0 => held,
            1..=3 => label(rng, rows),
            _ => 0,
        };
        made.cells[row * columns + one].1 = first;
        if rng.chance(20) {
            made.cells[row * columns + two].1 = label(rng, rows);
        }
    }
    let code = rng.below(4) as u8;
    let apply = match code {
        0 | 1 if rng.chance(75) => step(6, one as u8, code, 1, two as u8, 0),
        0 | 1 => step(6, one as u8, code, 0, 0, number(rng)),
        _ => step(6, one as u8, code, 0, 0, rng.between(1, 6)),
    };
    Scene { tables: vec![made], steps: vec![scan(0), apply] }
}

fn group_refused(rng: &mut Rng) -> Scene {
    let (columns, rows) = (2 + rng.below(4), 1 + rng.below(8));
    let mut made = clear(rng, columns, rows);
    let column = rng.below(columns);
    let keys = rng.below(1 << columns) as u8 & 0x7F;
    let mask = if rng.chance(30) { 0 } else { keys };
    if rng.chance(80) {
        let row = rng.below(rows);
        let above = rng.pick(&[1 << 31, 1 << 30, 3 << 30]);
        let word = above | if rng.chance(40) { 0x2007_0002 } else { 0 };
        made.cells[row * columns + column].1 = word;
    }
    if rng.chance(30) {
        let key = rng.below(columns);
        put_labels(rng, &mut made, key);
    }
    let group = step(7, mask, rng.below(5) as u8, column as u8, 0, 0);
    Scene { tables: vec![made], steps: vec![scan(0), group] }
}

fn join_not_clear(rng: &mut Rng) -> Scene {
    let mut tables = Vec::new();
    let mut keys = [0; 2];
    for side in 0..2 {
        let (columns, rows) = (1 + rng.below(4), 1 + rng.below(6));
        let mut made = clear(rng, columns, rows);
        keys[side] = rng.below(columns);
        if rng.chance(if side == 0 { 40 } else { 70 }) {
            put_labels(rng, &mut made, keys[side]);
        }
        tables.push(made);
    }
    let join = step(3, keys[0] as u8, keys[1] as u8, 0, 0, 0);
    Scene { tables, steps: vec![scan(0), scan(1), join] }
}

/// Tables whose last column is OVER in some rows, joined, compared or grouped.
fn over_keys(rng: &mut Rng) -> Scene {
    let mut tables = Vec::new();
    let mut steps = Vec::new();
    let both = rng.chance(40);
    for side in 0..1 + both as u8 {
        let rows = 1 + rng.below(8);
        let mut made = clear(rng, 2, rows);
        for row in 0..rows {
            made.cells[2 * row].0 = rng.pick(&[0, 1, HIGHEST, HIGHEST - 1]);
        }
        tables.push(made);
        steps.push(scan(side));
        steps.push(step(6, 0, 0, 0, 0, rng.between(1, 2)));
    }
    let comparison = rng.below(6) as u8;
    match rng.below(4) {
        _ if both => steps.push(step(3, 2, 2, 0, 0, 0)),
        0 => steps.push(step(7, 4, rng.below(5) as u8, rng.below(2) as u8, 0, 0)),
        1 => steps.push(step(4, 1, comparison, 1, 2, 0)),
        2 => steps.push(step(4, 2, comparison, 1, rng.between(1, 2) as u8, 0)),
        _ => steps.push(step(7, rng.below(4) as u8, rng.below(5) as u8, 2, 0, 0)),
    }
    Scene { tables, steps }
}

fn sums_at_the_ends(rng: &mut Rng) -> Scene {
    let part = rng.between(1, 1_000);
    let values = match rng.below(8) {
        0 => vec![HIGHEST - part, part],
        1 => vec![HIGHEST - part, part, 1],
        2 => vec![LOWEST + part, -part],
        3 => vec![LOWEST + part, -part, -1],
        4 => vec![HIGHEST, part, -part],
        5 => vec![LOWEST, -part, part],
        6 => vec![HIGHEST; 256],
        _ => vec![LOWEST; 256],
    };
    let word = if rng.chance(50) { label(rng, values.len()) & !(3 << 30) } else { 0 };
    // Without T its fields have to go as well.
    let word = word & !0x0F00_1C00;
    let cells = values.iter().flat_map(|&value| [(7, 0), (value, word)]).collect();
    let code = rng.pick(&[1, 1, 1, 2, 3, 4, 4]);
    let group = step(7, rng.below(2) as u8, code, 1, 0, 0);
    Scene { tables: vec![RawTable::new(2, cells)], steps: vec![scan(0), group] }
}

/// Averages about the half between a number and the next, which about half of
/// the rows have, at the ends of the range and around zero.
fn averages(rng: &mut Rng) -> Scene {
    let rows = rng.pick(&[2, 3, 4, 5, 128, 255, 256]);
    let number = rng.pick(&[LOWEST, LOWEST, -3, -2, -1, 0, 1, HIGHEST - 1, HIGHEST - 1]);
    let more = rows / 2 + rng.between(-1, 1);
    let word = if rng.chance(50) { 0x2010_0002 } else { 0 };
    let cells = (0..rows).map(|row| (number + (row < more) as i64, word)).collect();
    let group = step(7, 0, 4, 0, 0, 0);
    Scene { tables: vec![RawTable::new(1, cells)], steps: vec![scan(0), group] }
}

fn over_before_a_stage(rng: &mut Rng) -> Scene {
    let word = label(rng, 2) & !(1 << 31);
    let cells = vec![(HIGHEST, 0), (1, 0), (1, rng.pick(&[0, word])), (2, word)];
    let add = step(6, 0, 0, 0, 0, 1);
    Scene { tables: vec![RawTable::new(2, cells)], steps: vec![scan(0), add] }
}

/// Two labels composed by a GROUP that discharges neither, and a second GROUP
/// over the result: the larger minimum and the common aggregates decide. With a
/// minimum of 2 the first GROUP may discharge one of the two.
fn group_a_composed_label(rng: &mut Rng) -> Scene {
    let few = 4 + rng.below(4);
    let groups = or_about_ten(rng, few);
    let mut words = [0; 2];
    for word in &mut words {
        let minimum = if rng.chance(30) { 2 } else { groups as i64 + rng.between(-1, 1) };
        *word = 1 << 29 | minimum as u32;
        for place in 16..=20 {
            *word |= (rng.chance(70) as u32) << place;
        }
        if rng.chance(10) {
            *word |= 1 << 28 | (rng.below(2) as u32) << 23;
        }
    }
    let mut cells = Vec::new();
    for group in 0..groups {
        for word in words {
            let value = rng.between(-9, 9);
            cells.extend([(1, 0), (group as i64, 0), (value, word)]);
        }
    }
    let (one, two) = (rng.below(5) as u8, rng.below(5) as u8);
    let steps = vec![scan(0), step(7, 3, one, 2, 0, 0), step(7, 1, two, 2, 0, 0)];
    Scene { tables: vec![RawTable::new(3, cells)], steps }
}

/// A table of any width, released as it is: values of any number of digits, and
/// those beside the powers of ten.
fn any_digits(rng: &mut Rng) -> Scene {
    let (columns, rows) = (1 + rng.below(8), rng.below(12));
    let mut cells = Vec::new();
    for _ in 0..columns * rows {
        let power = 10i64.pow(rng.below(15) as u32);
        let value = match rng.below(4) {
            0 => power,
            1 => power - 1,
            2 => rng.between(power, 10 * power - 1),
            _ => number(rng),
        };
        let signed = if rng.chance(50) { -value } else { value };
        cells.push((signed.clamp(LOWEST, HIGHEST), 0));
    }
    Scene { tables: vec![RawTable::new(columns, cells)], steps: vec![scan(0)] }
}

/// 256 rows of 8 values -2^47; sometimes one of them is another.
fn longest_text(rng: &mut Rng) -> Scene {
    let mut cells = vec![(LOWEST, 0); 256 * 8];
    if rng.chance(30) {
        cells[rng.below(256 * 8)].0 = number(rng);
    }
    Scene { tables: vec![RawTable::new(8, cells)], steps: vec![scan(0)] }
}

/// N without its noise bit.
const NO_BIT: u32 = 0x1000_0000;

/// A column in which some rows forbid NOISE, perhaps after a NOISE over another.
fn noise_refused(rng: &mut Rng) -> Scene {
    let (columns, rows) = (2 + rng.below(3), 1 + rng.below(8));
    let mut made = clear(rng, columns, rows);
    let (one, two) = (rng.below(columns), rng.below(columns));
    for row in 0..rows {
        let above = rng.pick(&[1 << 31, 1 << 30, 0x2002_0002, 0xE000_0002]);
        made.cells[row * columns + one].1 = match rng.below(10) {
            0 => above,
            1 => above | NOISY,
            2 => label(rng, rows),
            3..=5 => NOISY,
            6 => NO_BIT,
            _ => 0,
        };
    }
    let mut steps = vec![scan(0), noise(one)];
    if rng.chance(40) {
        steps.insert(1, noise(two));
    }
    Scene { tables: vec![made], steps }
}

/// Two or three NOISE steps, perhaps with fewer rows for the later ones.
fn noises_released(rng: &mut Rng) -> Scene {
    let rows = rng.pick(&[0, 1, 2, 3, 5, 9, 256]);
    let mut made = clear(rng, 3, rows);
    let words = [0, NOISY, rng.pick(&[NOISY, NOISY, 0, NO_BIT])];
    for (place, cell) in made.cells.iter_mut().enumerate() {
        cell.1 = words[place % 3];
    }
    // What comes between the first NOISE and the last, and the columns then.
    let (between, columns) = match rng.below(4) {
        0 => (vec![step(4, 0, rng.below(6) as u8, 0, 0, rng.between(0, 2))], 4),
        1 => (vec![noise(3), noise(0)], 6),
        2 => (vec![scan(0), noise(rng.below(3)), step(2, 0, 0, 0, 0, 0)], 4),
        _ => (vec![step(6, 3, 0, 0, 0, 1)], 5),
    };
    let mut steps = vec![scan(0), noise(1)];
    steps.extend(between);
    steps.extend([noise(1 + rng.below(2)), keep(1 << columns | 1 << 3 | rng.below(2) as u8)]);
    Scene { tables: vec![made], steps }
}

/// As many NOISE steps as fit into a plan, and of the last column the values that
/// are not OVER.
fn many_noises(rng: &mut Rng) -> Scene {
    let rows = rng.pick(&[1, 40, 256]);
    let tables = vec![clear(rng, 1, rows)];
    let mut steps = vec![scan(0)];
    let mut columns = 1;
    while steps.len() < 62 {
        if columns < 8 {
            steps.push(noise(rng.below(columns)));
            columns += 1;
        } else {
            steps.push(keep(1 << rng.below(columns)));
            columns = 1;
        }
    }
    steps.extend([keep(1 << (columns - 1)), step(4, 0, 5, 0, 0, LOWEST)]);
    Scene { tables, steps }
}

/// Values anywhere in the range, some OVER by an APPLY, and what is left of them
/// after a NOISE.
fn noise_at_the_ends(rng: &mut Rng) -> Scene {
    let rows = 1 + rng.below(8);
    let word = rng.pick(&[0, NOISY, NOISY, NO_BIT]);
    let cells = (0..rows).map(|_| (number(rng), word)).collect();
    let mut steps = vec![scan(0)];
    if rng.chance(50) {
        steps.push(step(6, 0, rng.below(2) as u8, 0, 0, number(rng)));
    }
    let column = steps.len() - 1;
    steps.extend([noise(column), keep(2 << column)]);
    if rng.chance(70) {
        steps.push(step(4, 0, 5, 0, 0, LOWEST));
    }
    Scene { tables: vec![RawTable::new(1, cells)], steps }
}

/// A label of N below A, mostly below T as well, taken off stage by stage;
/// sometimes one of the operations is not allowed.
fn noise_ends_a_chain(rng: &mut Rng) -> Scene {
    let few = 2 + rng.below(6);
    let rows = or_about_ten(rng, few);
    let (transformed, keys) = (rng.chance(70), rng.below(2));
    let (code, aggregate) = (rng.below(4) as u8, rng.below(5) as u8);
    let digits = rng.between(1, 5);
    let mut word = 0x3000_0000 | rng.pick(&[2, 2, 2, rows as u32]);
    word |= (rng.chance(90) as u32) << (16 + aggregate) | (rng.chance(85) as u32) << 23;
    if transformed {
        let allowed = rng.chance(90) as u32;
        word |= 1 << 30 | allowed << (24 + code);
        word |= if code == 2 { allowed * (digits as u32) << 10 } else { 0 };
    }
    let cells =
        (0..rows).flat_map(|_| [(rng.between(0, 1), 0), (rng.between(-9_999, 9_999), word)]);
    let tables = vec![RawTable::new(2, cells.collect())];
    let mut steps = vec![scan(0)];
    if transformed {
        steps.push(step(6, 1, code, 0, 0, digits + rng.between(0, 1)));
    }
    let column = steps.len() as u8;
    steps.push(step(7, keys as u8, aggregate, column, 0, 0));
    steps.extend([noise(keys), keep(2 << keys | keys as u8)]);
    Scene { tables, steps }
}

/// Cells locked by N, without the bit under a NOISE or with it in a plan without
/// one, beside clear ones that are released.
fn noise_beside_locked(rng: &mut Rng) -> Scene {
    let rows = 1 + rng.below(6);
    let noised = rng.chance(70);
    let word = if noised { NO_BIT } else { rng.pick(&[NOISY, NOISY, NO_BIT]) };
    let cells = (0..rows).flat_map(|row| [(row as i64, 0), (number(rng), word)]).collect();
    let mut steps = vec![scan(0)];
    if noised {
        steps.extend([noise(1), noise(rng.below(3))]);
    } else {
        steps.extend([step(6, 1, 0, 0, 0, number(rng)), step(6, 0, 0, 0, 0, 1)]);
    }
    steps.push(keep(rng.pick(&[1, 1, 9])));
    Scene { tables: vec![RawTable::new(2, cells)], steps }
}
