//! Small containers of both rule years with groups of about ten sheets under minima
//! about ten, which come from the container, from overlays or from both.

use crate::draft::{step, Draft, RawOverlay, RawStep, RawTable};
use crate::generate::number;
use crate::labels::{label, A, H, N, T};
use crate::noise::NOISY;
use crate::overlay_scenes::{draft, in_column, put};
use crate::overlays::{divided, put_labels};
use crate::rng::Rng;
use crate::scenes::{clear, keep, noise, scan};
use crate::sheet_scenes::{between, group, KEY, VALUE};
use crate::sheets::shuffle;

const SCENES: [fn(&mut Rng) -> Draft; 28] = [
    about_ten,
    about_ten,
    about_ten,
    one_label,
    one_label,
    last_cell,
    last_cell,
    last_cell,
    read_later,
    read_later,
    read_later,
    read_later,
    read_later,
    chain,
    chain,
    chain,
    under_overlays,
    under_overlays,
    under_overlays,
    united,
    united,
    united,
    groups_of_groups,
    many_tables,
    large_minima,
    without_a,
    beside_locked,
    beside_locked,
];

pub fn scene(rng: &mut Rng) -> Draft {
    let draft = if rng.chance(3) { fullest(rng) } else { SCENES[rng.below(SCENES.len())](rng) };
    Draft { year: rng.chance(60) as u8, ..draft }
}

/// So many, or by chance 9, 10 or 11.
pub fn or_about_ten(rng: &mut Rng, usual: usize) -> usize {
    if rng.chance(25) {
        9 + rng.below(3)
    } else {
        usual
    }
}

fn minimum(rng: &mut Rng) -> u32 {
    rng.pick(&[2, 2, 3, 5, 8, 9, 9, 10, 10, 11, 11, 12])
}

/// A that allows this aggregate alone.
fn stage(aggregate: u8, minimum: u32) -> u32 {
    A | 1 << (16 + aggregate) | minimum
}

/// Rows of a key, a value and a sheet number, each key with so many sheets, in so many
/// rows more. The label of the values is put in later.
fn of_sheets(rng: &mut Rng, sheets: &[i64], more: i64) -> RawTable {
    let mut rows = Vec::new();
    for (key, &different) in sheets.iter().enumerate() {
        for row in 0..different + more {
            let sheet = if row < different { row } else { rng.between(0, different - 1) };
            rows.push([(key as i64, 0), (rng.between(-9, 99), 0), (sheet, 0)]);
        }
    }
    if rng.chance(50) {
        shuffle(rng, &mut rows);
    }
    // Without sheet numbers each row is a sheet.
    RawTable { sheets: if rng.chance(70) { 3 } else { 0 }, ..RawTable::new(3, rows.concat()) }
}

/// One group, seldom two or three, of 8 to 12 sheets each.
fn ballots(rng: &mut Rng) -> RawTable {
    let keys = rng.pick(&[1, 1, 1, 1, 2, 3]);
    let sheets: Vec<i64> =
        (0..keys).map(|_| rng.pick(&[8, 9, 9, 9, 10, 10, 10, 11, 11, 12])).collect();
    let more = rng.pick(&[0, 0, 1, 4, 10]);
    of_sheets(rng, &sheets, more)
}

/// One label for all values, for some, or two different ones; answers the aggregate.
fn put_stage(rng: &mut Rng, table: &mut RawTable) -> u8 {
    let aggregate = rng.below(5) as u8;
    let (one, two) = (stage(aggregate, minimum(rng)), stage(aggregate, minimum(rng)));
    let other = rng.pick(&[one, one, one, two, 0]);
    for cell in table.cells.iter_mut().skip(VALUE).step_by(3) {
        cell.1 = rng.pick(&[one, other]);
    }
    aggregate
}

fn about_ten(rng: &mut Rng) -> Draft {
    let mut table = ballots(rng);
    let aggregate = put_stage(rng, &mut table);
    let taken = if rng.chance(92) { aggregate } else { rng.below(5) as u8 };
    let steps = [vec![scan(0)], between(rng), vec![group(1, taken, VALUE)]].concat();
    draft(rng, vec![table], steps, vec![])
}

/// The label of one row alone decides, the first, the last or another.
fn one_label(rng: &mut Rng) -> Draft {
    let sheets = rng.pick(&[8, 9, 9, 10]);
    let mut table = of_sheets(rng, &[sheets], 0);
    let (aggregate, any) = (rng.below(5) as u8, rng.below(table.rows()));
    let row = rng.pick(&[0, any, table.rows() - 1, table.rows() - 1]);
    table.cells[3 * row + VALUE].1 = stage(aggregate, rng.pick(&[2, 3, 8, 9, 10]));
    draft(rng, vec![table], vec![scan(0), group(1, aggregate, VALUE)], vec![])
}

/// The last cell alone has a label: of 256 rows, of eight columns, of eight tables, or
/// of fewer. The rows before the last ones have another key.
fn last_cell(rng: &mut Rng) -> Draft {
    let (sheets, columns) = (rng.pick(&[8, 9, 10]), rng.pick(&[2, 8]));
    let before = rng.pick(&[0, 256 - sheets]);
    let mut cells = Vec::new();
    for row in 0..before + sheets {
        cells.push(((row < before) as i64, 0));
        cells.extend((1..columns).map(|_| (rng.between(-9, 99), 0)));
    }
    let aggregate = rng.below(5) as u8;
    let last = cells.len() - 1;
    cells[last].1 = stage(aggregate, rng.pick(&[2, 3, 8, 9]));
    let mut tables = vec![clear(rng, 1, 1); rng.pick(&[0, 1, 7])];
    let mut steps = vec![scan(tables.len() as u8)];
    if rng.chance(50) {
        steps.push(step(4, KEY as u8, 0, 0, 0, 0));
    }
    steps.push(group(1, aggregate, columns - 1));
    tables.push(RawTable::new(columns, cells));
    draft(rng, tables, steps, vec![])
}

/// The aggregate is read by a further step, which takes it where it is clear; perhaps
/// there is then no draw for another.
fn read_later(rng: &mut Rng) -> Draft {
    let sheets = rng.pick(&[8, 9, 9, 10, 10, 11]);
    let mut tables = vec![of_sheets(rng, &[sheets], 0), clear(rng, 1, 2)];
    let aggregate = rng.below(5) as u8;
    put(&mut tables[0], VALUE, stage(aggregate, rng.pick(&[2, 3, 8, 9, 9, 10])));
    let (grouped, comparison) = (group(1, aggregate, VALUE), rng.below(6) as u8);
    let mut steps = vec![scan(0), grouped];
    match rng.below(11) {
        0 => steps.push(step(4, 1, comparison, 0, 0, 5)),
        1 => steps.push(step(4, 0, comparison, 1, 1, 0)),
        2 => steps.extend([scan(1), step(3, 1, 0, 0, 0, 0)]),
        3 => steps = vec![scan(1), scan(0), grouped, step(3, 0, 1, 0, 0, 0)],
        4 => steps.push(group(2, rng.below(5) as u8, KEY)),
        5..=8 => steps.push(step(6, 0, rng.below(2) as u8, 1, 1, 0)),
        9 => steps.push(noise(1)),
        _ => steps.push(step(6, 1, rng.below(4) as u8, 0, 0, 3)),
    }
    if rng.chance(30) {
        steps.push(keep(1));
    }
    let mut made = draft(rng, tables, steps, vec![]);
    if rng.chance(25) {
        made.steps.push(noise(KEY));
        made.draws.clear();
    }
    made
}

/// The steps that take off T, if there is one, then A, then N, and release.
fn taken_off(word: u32, code: u8, digits: i64, aggregate: u8) -> Vec<RawStep> {
    let mut steps = vec![scan(0)];
    let mut column = VALUE;
    if word & T != 0 {
        steps.push(step(6, VALUE as u8, code, 0, 0, digits));
        column = 3;
    }
    steps.push(group(1, aggregate, column));
    if word & N != 0 {
        steps.extend([noise(1), keep(0b101)]);
    }
    steps
}

/// T above A above N, or two of them, in the container or divided among overlays.
fn chain(rng: &mut Rng) -> Draft {
    let mut tables = vec![ballots(rng)];
    let (code, aggregate) = (rng.below(4) as u8, rng.below(5) as u8);
    let digits = rng.between(1, 5);
    let mut word = stage(aggregate, minimum(rng));
    if rng.chance(80) {
        word |= T | 1 << (24 + code);
        word |= if code == 2 { (digits as u32) << 10 } else { 0 };
    }
    if rng.chance(80) {
        word |= NOISY;
    }
    let mut labels: Vec<RawOverlay> = vec![];
    put(&mut tables[0], VALUE, word);
    if rng.chance(40) {
        let whole = in_column(&tables, VALUE, || word);
        let count = 1 + rng.below(4);
        labels = divided(rng, &whole, count);
        let own = labels.remove(0);
        put_labels(&mut tables[0], &own[0]);
    }
    draft(rng, tables, taken_off(word, code, digits, aggregate), labels)
}

/// Minima of the container and of overlays; and an A that they bring to a label that
/// has none, or to a clear cell.
fn under_overlays(rng: &mut Rng) -> Draft {
    let mut tables = vec![ballots(rng)];
    let (code, aggregate) = (rng.below(2) as u8, rng.below(5) as u8);
    let transform = if rng.chance(30) { T | 1 << (24 + code) } else { 0 };
    let below = if rng.chance(30) { NOISY } else { 0 };
    let own = if rng.chance(50) { stage(aggregate, minimum(rng)) } else { 0 };
    put(&mut tables[0], VALUE, own | transform | below);
    let mut overlays: Vec<RawOverlay> = Vec::new();
    for _ in 0..rng.pick(&[1, 1, 1, 2, 2, 3, 4]) {
        let word = match rng.below(8) {
            0 => 0,
            1 => transform | below,
            2 => stage(aggregate, minimum(rng)) | transform,
            _ => stage(aggregate, minimum(rng)),
        };
        let often = rng.pick(&[100, 100, 100, 50]);
        overlays.push(in_column(&tables, VALUE, || rng.chance(often) as u32 * word));
    }
    let steps = taken_off(transform | below, code, 3, aggregate);
    draft(rng, tables, steps, overlays)
}

/// A table with itself, or two that share sheets or not.
fn united(rng: &mut Rng) -> Draft {
    let itself = rng.chance(50);
    let mut tables = if itself {
        let sheets = rng.pick(&[9, 9, 10, 10, 11]);
        vec![of_sheets(rng, &[sheets], 0)]
    } else {
        [0, 1]
            .map(|_| rng.pick(&[4, 5, 5, 5, 6]))
            .map(|sheets| of_sheets(rng, &[sheets], 0))
            .to_vec()
    };
    if rng.chance(50) {
        tables.iter_mut().for_each(|table| table.sheets = 0);
    }
    if rng.chance(60) {
        // Other numbers than the first table's.
        for table in &mut tables[1..] {
            table.cells.iter_mut().skip(2).step_by(3).for_each(|cell| cell.0 += 100);
        }
    }
    let aggregate = put_stage(rng, &mut tables[0]);
    if !itself && rng.chance(70) {
        let word = stage(aggregate, minimum(rng));
        put(&mut tables[1], VALUE, word);
    }
    let mut steps = vec![scan(0), scan(1 - itself as u8), step(2, 0, 0, 0, 0, 0)];
    steps.extend(between(rng));
    steps.push(group(1, aggregate, VALUE));
    draft(rng, tables, steps, vec![])
}

/// A GROUP that discharges nothing, and a second one over its rows.
fn groups_of_groups(rng: &mut Rng) -> Draft {
    let groups = 8 + rng.below(5) as i64;
    let rows = (0..groups).flat_map(|part| vec![[(0, 0), (part, 0), (part, 0)]; 2]);
    let mut table = RawTable::new(3, rows.collect::<Vec<_>>().concat());
    let aggregate = put_stage(rng, &mut table);
    let other = (aggregate + 1 + rng.below(4) as u8) % 5;
    // Key, part and value.
    let steps = vec![scan(0), group(0b101, other, VALUE), group(1, aggregate, 2)];
    draft(rng, vec![table], steps, vec![])
}

/// Up to eight tables, each under the floor, of which one or two are scanned.
fn many_tables(rng: &mut Rng) -> Draft {
    let count = rng.pick(&[2, 3, 8, 8]);
    let aggregate = rng.below(5) as u8;
    let mut tables: Vec<RawTable> = (0..count).map(|_| ballots(rng)).collect();
    for table in &mut tables {
        let word = stage(aggregate, minimum(rng));
        put(table, VALUE, word);
    }
    let scanned = if rng.chance(50) { count - 1 } else { rng.below(count) };
    let mut steps = vec![scan(scanned as u8)];
    if rng.chance(25) {
        steps.extend([scan(rng.below(count) as u8), step(2, 0, 0, 0, 0, 0)]);
    }
    steps.push(group(1, aggregate, VALUE));
    draft(rng, tables, steps, vec![])
}

/// Minima whose low byte alone is below ten.
fn large_minima(rng: &mut Rng) -> Draft {
    let mut table = ballots(rng);
    let aggregate = rng.below(5) as u8;
    let minimum = rng.pick(&[256, 512, 768]) + rng.below(11) as u32;
    put(&mut table, VALUE, stage(aggregate, minimum));
    draft(rng, vec![table], vec![scan(0), group(1, aggregate, VALUE)], vec![])
}

/// Labels without A, taken off where that is allowed, and then aggregated over a few
/// sheets.
fn without_a(rng: &mut Rng) -> Draft {
    let rows = 1 + rng.below(4);
    let mut table = clear(rng, 3, rows);
    let code = rng.below(2) as u8;
    let (apply, aggregate) = (step(6, 1, code, 0, 0, 3), rng.below(5) as u8);
    let (word, steps) = match rng.below(4) {
        0 => (T | 1 << (24 + code), vec![apply, group(1, aggregate, 3)]),
        1 => (NOISY, vec![noise(1), group(1, aggregate, 3)]),
        2 => (T | 1 << (24 + code) | NOISY, vec![apply, noise(3), group(1, aggregate, 4)]),
        _ => (rng.pick(&[H, N, T]), vec![group(rng.below(2) as u8, aggregate, 2)]),
    };
    put(&mut table, VALUE, word);
    draft(rng, vec![table], [vec![scan(0)], steps].concat(), vec![])
}

/// Cells that nothing of the plan unlocks, beside an aggregate of clear ones over a few
/// sheets or of labelled ones over about ten.
fn beside_locked(rng: &mut Rng) -> Draft {
    let mut table = if rng.chance(50) { ballots(rng) } else { of_sheets(rng, &[3, 2], 1) };
    let aggregate = if rng.chance(60) { put_stage(rng, &mut table) } else { rng.below(5) as u8 };
    // A fourth column, which the plan drops.
    let other = A | (0x1F << 16 & !(1 << (16 + aggregate))) | minimum(rng);
    let any = label(rng, 3) | H;
    let secret = rng.pick(&[H, other, other, any]);
    let rows = table.cells.chunks(3).map(|row| [row, &[(number(rng), secret)]].concat());
    let table = RawTable { columns: 4, cells: rows.collect::<Vec<_>>().concat(), ..table };
    let mut steps = vec![scan(0)];
    match rng.below(5) {
        0 => steps.push(keep(0b0111)),
        1 => steps.extend([noise(KEY), keep(0b0111)]),
        2 if secret == other => steps.push(step(6, 3, 0, 0, 0, 1)),
        _ => (),
    }
    steps.push(group(1, aggregate, VALUE));
    draft(rng, vec![table], steps, vec![])
}

/// As many cells as a container holds beside one step, in 65,534 bytes, or beside two,
/// each under the floor.
fn fullest(rng: &mut Rng) -> Draft {
    let aggregate = rng.below(5) as u8;
    let mut steps = vec![scan(rng.below(3) as u8)];
    if rng.chance(50) {
        steps.push(group(0, aggregate, rng.below(8)));
    }
    let tables = [256, 256, 171 - steps.len()].map(|rows| {
        let cell = |place: usize| (place as i64, stage(aggregate, 2 + rng.below(8) as u32));
        RawTable::new(8, (0..8 * rows).map(cell).collect())
    });
    draft(rng, tables.to_vec(), steps, vec![])
}
