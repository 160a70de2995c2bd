//! Small containers whose overlays decide: they bring the labels that the plan is
//! about, and take operations away or raise a minimum around what the plan does.

use crate::draft::{step, Draft, RawOverlay, RawStep, RawTable};
use crate::generate::{number, table, Theme};
use crate::labels::{label, A, H, N, T};
use crate::noise::NOISY;
use crate::overlays::{divided, one_on_top, placed, put_labels, zeros};
use crate::rng::Rng;
use crate::scenes::{clear, keep, noise, scan};
use crate::sheet_scenes::{ballots, between, group, sheets_of_key_0, KEY, VALUE};
use crate::year_scenes::or_about_ten;

const SCENES: [fn(&mut Rng) -> Draft; 17] = [
    minima,
    minima,
    minima,
    aggregates,
    aggregates,
    transforms,
    transforms,
    noises,
    labels_that_are_read,
    labels_that_are_read,
    chains,
    chains,
    a_stage_from_each,
    beside_a_release,
    locked_together,
    many_tables,
    longest,
];

pub fn scene(rng: &mut Rng) -> Draft {
    SCENES[rng.below(SCENES.len())](rng)
}

pub fn draft(
    rng: &mut Rng,
    tables: Vec<RawTable>,
    steps: Vec<RawStep>,
    overlays: Vec<RawOverlay>,
) -> Draft {
    let draws = (0..120).map(|_| rng.between(-20, 20)).collect();
    Draft { tables, steps, draws, overlays: placed(rng, overlays), ..Draft::default() }
}

/// An overlay of labels in one column of table 0.
pub fn in_column(tables: &[RawTable], column: usize, mut label: impl FnMut() -> u32) -> RawOverlay {
    let mut overlay = zeros(tables);
    for word in overlay[0].iter_mut().skip(column).step_by(tables[0].columns) {
        *word = label();
    }
    overlay
}

pub fn put(table: &mut RawTable, column: usize, word: u32) {
    let columns = table.columns;
    table.cells.iter_mut().skip(column).step_by(columns).for_each(|cell| cell.1 = word);
}

/// Mostly one key for all rows, so that they are one group.
fn one_key(rng: &mut Rng, table: &mut RawTable) {
    if rng.chance(80) {
        let columns = table.columns;
        table.cells.iter_mut().skip(KEY).step_by(columns).for_each(|cell| cell.0 = 3);
    }
}

/// Minima around the sheets of a group, from the container and from overlays.
fn minima(rng: &mut Rng) -> Draft {
    let mut tables = vec![ballots(rng)];
    let sheets = sheets_of_key_0(&tables) as i64;
    let aggregate = rng.below(5) as u8;
    let word = |minimum: i64| A | 1 << (16 + aggregate) | minimum.clamp(2, 1023) as u32;
    put(&mut tables[0], VALUE, rng.pick(&[0, word(2), word(sheets), word(sheets + 1)]));
    let mut overlays = Vec::new();
    for _ in 0..1 + rng.below(4) {
        let asked = if rng.chance(5) { 1023 } else { sheets + rng.pick(&[-1, 0, 0, 0, 1]) };
        let often = rng.pick(&[100, 100, 40, 0]);
        let labels = || rng.chance(often) as u32 * word(asked);
        overlays.push(in_column(&tables, VALUE, labels));
    }
    let mut steps = vec![scan(0)];
    if rng.chance(25) {
        steps.extend([scan(0), step(2, 0, 0, 0, 0, 0)]);
    }
    steps.extend(between(rng));
    steps.push(group(1, aggregate, VALUE));
    draft(rng, tables, steps, overlays)
}

/// Some of these bits, each as often as this.
fn some_bits(rng: &mut Rng, bits: std::ops::RangeInclusive<u32>, often: usize) -> u32 {
    bits.fold(0, |word, place| word | (rng.chance(often) as u32) << place)
}

/// Aggregates that the container and its overlays allow, and one that is taken.
fn aggregates(rng: &mut Rng) -> Draft {
    let few = 2 + rng.below(4);
    let rows = or_about_ten(rng, few);
    let mut tables = vec![clear(rng, 2, rows)];
    let word = |rng: &mut Rng| A | some_bits(rng, 16..=20, 75) | 2 + rng.below(rows - 1) as u32;
    let own = word(rng);
    put(&mut tables[0], VALUE, if rng.chance(60) { own } else { 0 });
    let overlays = 1 + rng.below(3);
    let mut labels = || {
        let one = word(rng);
        in_column(&tables, VALUE, || one)
    };
    let overlays = (0..overlays).map(|_| labels()).collect();
    let steps = vec![scan(0), group(0, rng.below(5) as u8, VALUE)];
    draft(rng, tables, steps, overlays)
}

/// Operations and digits that the container and its overlays allow, and an APPLY.
fn transforms(rng: &mut Rng) -> Draft {
    let rows = 1 + rng.below(4);
    let mut tables = vec![clear(rng, 2, rows)];
    let often = rng.pick(&[80, 100]);
    let word = |rng: &mut Rng| {
        let allowed = some_bits(rng, 24..=27, often);
        let digits = if allowed & 1 << 26 != 0 { 1 + rng.below(4) as u32 } else { 0 };
        T | allowed | digits << 10
    };
    let own = word(rng);
    put(&mut tables[0], VALUE, if rng.chance(60) { own } else { 0 });
    let count = 1 + rng.below(3);
    let mut labels = || {
        let one = word(rng);
        in_column(&tables, VALUE, || one)
    };
    let overlays = (0..count).map(|_| labels()).collect();
    let operation = rng.pick(&[0, 1, 2, 2, 2, 2, 2, 3]);
    let apply = step(6, VALUE as u8, operation, 0, 0, 1 + rng.below(5) as i64);
    draft(rng, tables, vec![scan(0), apply, keep(0b101)], overlays)
}

/// N with its bit and without it, from the container and from overlays.
fn noises(rng: &mut Rng) -> Draft {
    let rows = 1 + rng.below(4);
    let mut tables = vec![clear(rng, 2, rows)];
    put(&mut tables[0], VALUE, rng.pick(&[0, NOISY, NOISY, N]));
    let count = 1 + rng.below(3);
    let mut labels = || {
        let one = rng.pick(&[NOISY, NOISY, NOISY, N, 0x2002_0002, H]);
        in_column(&tables, VALUE, || one)
    };
    let overlays = (0..count).map(|_| labels()).collect();
    draft(rng, tables, vec![scan(0), noise(VALUE), keep(0b101)], overlays)
}

/// Labels that an overlay alone brings, in a column that the plan reads somewhere.
fn labels_that_are_read(rng: &mut Rng) -> Draft {
    let (rows, others) = (1 + rng.below(4), 1 + rng.below(3));
    let mut tables = vec![clear(rng, 3, rows), clear(rng, 2, others)];
    let one = if rng.chance(50) { H } else { label(rng, rows) };
    let often = rng.pick(&[100, 50, 30]);
    let column = rng.below(3);
    let mut overlays = vec![in_column(&tables, column, || rng.chance(often) as u32 * one)];
    if rng.chance(40) {
        overlays.push(zeros(&tables));
    }
    if rng.chance(20) {
        overlays.push(one_on_top(rng, &tables));
    }
    if rng.chance(20) {
        tables[0].cells.iter_mut().for_each(|cell| cell.0 = rng.between(0, 1));
    }
    let (read, other) = (column as u8, (column as u8 + 1) % 3);
    let comparison = rng.below(6) as u8;
    let steps = match rng.below(12) {
        0 => vec![scan(0), step(4, read, comparison, 0, 0, 1)],
        1 => vec![scan(0), step(4, other, comparison, 1, read, 0)],
        2 => vec![scan(0), scan(1), step(3, read, 0, 0, 0, 0)],
        3 => vec![scan(1), scan(0), step(3, 0, read, 0, 0, 0)],
        4 => vec![scan(0), scan(1), keep(1), step(3, other, 0, 0, 0, 0)],
        5 => vec![scan(0), group(1 << read, 0, other as usize)],
        6 => vec![scan(0), group(1 << other, rng.below(5) as u8, column)],
        7 => vec![scan(0), step(6, read, rng.below(4) as u8, 0, 0, 2)],
        8 => vec![scan(0), step(6, other, rng.below(2) as u8, 1, read, 0)],
        9 => vec![scan(0), noise(column)],
        10 => vec![scan(0)],
        _ => vec![scan(0), keep(7 & !(1 << column)), step(4, 0, comparison, 0, 0, 1)],
    };
    draft(rng, tables, steps, overlays)
}

/// T over A over N, or some of them, divided among overlays and perhaps the
/// container, taken off stage by stage.
fn chains(rng: &mut Rng) -> Draft {
    let few = 2 + rng.below(4);
    let rows = or_about_ten(rng, few);
    let (code, aggregate) = (rng.below(4) as u8, rng.below(5) as u8);
    let digits = rng.between(1, 5);
    let most = rows + rng.chance(15) as usize;
    let minimum = rng.between(2, most as i64) as u32;
    let [transformed, noised] = [0, 1].map(|_| rng.chance(75));
    let mut word = A | 1 << (16 + aggregate) | minimum;
    word |= if transformed { T | 1 << (24 + code) } else { 0 };
    word |= if transformed && code == 2 { (digits as u32) << 10 } else { 0 };
    word |= if noised { NOISY } else { 0 };
    let mut tables = vec![clear(rng, 2, rows)];
    one_key(rng, &mut tables[0]);
    let whole = in_column(&tables, VALUE, || word);
    let count = 1 + rng.below(4);
    let mut labels = divided(rng, &whole, count);
    let own = labels.remove(0);
    put_labels(&mut tables[0], &own[0]);
    if rng.chance(12) && labels.len() < 4 {
        labels.push(one_on_top(rng, &tables));
    }
    let mut steps = vec![scan(0)];
    if transformed {
        steps.push(step(6, VALUE as u8, code, 0, 0, digits));
    }
    steps.push(group(1 << KEY, aggregate, steps.len()));
    if noised {
        steps.extend([noise(1), keep(0b101)]);
    }
    draft(rng, tables, steps, labels)
}

/// One stage from each overlay, onto clear cells, taken off as far as H allows or
/// dropped.
fn a_stage_from_each(rng: &mut Rng) -> Draft {
    let few = 2 + rng.below(3);
    let rows = or_about_ten(rng, few);
    let mut tables = vec![clear(rng, 2, rows)];
    one_key(rng, &mut tables[0]);
    let (code, aggregate) = (rng.below(2) as u8, rng.below(5) as u8);
    let words = [T | 1 << (24 + code), A | 1 << (16 + aggregate) | 2, NOISY, H];
    let labels = |word: &u32| in_column(&tables, VALUE, || *word);
    let overlays = words[..2 + rng.below(3)].iter().map(labels).collect();
    let steps = if rng.chance(60) {
        let apply = step(6, VALUE as u8, code, 0, 0, 5);
        vec![scan(0), apply, group(1, aggregate, 2), noise(1), keep(0b101)]
    } else {
        vec![scan(0), keep(1)]
    };
    draft(rng, tables, steps, overlays)
}

/// A release beside cells that overlays alone label, which the plan drops or never
/// scans.
fn beside_a_release(rng: &mut Rng) -> Draft {
    let rows = 1 + rng.below(6);
    let mut tables = vec![clear(rng, 3, rows), clear(rng, 1, rows)];
    for cell in tables[0].cells.iter_mut().skip(2).step_by(3) {
        *cell = (number(rng), 0);
    }
    let count = 1 + rng.below(3);
    let mut labels = || {
        let one = if rng.chance(30) { H } else { label(rng, rows) };
        in_column(&tables, 2, || one)
    };
    let mut overlays: Vec<RawOverlay> = (0..count).map(|_| labels()).collect();
    overlays[0][1].fill(rng.pick(&[0, H, NOISY]));
    let on_the_way = match rng.below(5) {
        0 => vec![step(6, 2, rng.below(2) as u8, 0, 0, number(rng)), keep(0b0111)],
        1 => vec![noise(2), keep(0b0111)],
        2 => vec![step(4, 0, 3, 1, 1, 0)],
        _ => vec![],
    };
    let end = if rng.chance(40) { group(1, rng.below(5) as u8, 1) } else { keep(1) };
    let steps = [vec![scan(0)], on_the_way, vec![keep(3), end]].concat();
    draft(rng, tables, steps, overlays)
}

/// Labels that lock a cell together and not alone: each allows one of two
/// operations that the plan has.
fn locked_together(rng: &mut Rng) -> Draft {
    let rows = 1 + rng.below(4);
    let mut tables = vec![clear(rng, 2, rows)];
    tables[0].cells.iter_mut().skip(1).step_by(2).for_each(|cell| cell.0 = number(rng));
    let (words, steps) = if rng.chance(50) {
        let (one, two) = (rng.below(2) as u8, 2 + rng.below(2) as u8);
        let digits = if two == 2 { 1 << 10 } else { 0 };
        let words = [T | 1 << (24 + one), T | 1 << (24 + two) | digits];
        let apply = |code: u8, constant: i64| step(6, 0, code, 0, 0, constant);
        (words, vec![keep(1), apply(one, 3), apply(two, 2)])
    } else {
        let one = rng.below(5) as u8;
        let two = (one + 1 + rng.below(4) as u8) % 5;
        let words = [one, two].map(|code| A | 1 << (16 + code) | 2);
        (words, vec![keep(1), group(1, one, 0), group(1, two, 1)])
    };
    let words = if rng.chance(50) { words } else { [words[1], words[0]] };
    let mut overlays = words.map(|word| in_column(&tables, 1, || word)).to_vec();
    if rng.chance(30) {
        // One of the two from the container.
        put(&mut tables[0], 1, words[0]);
        overlays.remove(0);
    }
    draft(rng, tables, [vec![scan(0)], steps].concat(), overlays)
}

/// Up to eight tables, of few rows or none.
fn many_tables(rng: &mut Rng) -> Draft {
    let count = rng.pick(&[2, 3, 5, 8, 8]);
    let mut tables = Vec::new();
    for _ in 0..count {
        let (columns, rows) = (rng.pick(&[1, 2, 3, 8]), rng.pick(&[0, 0, 1, 2, 5]));
        tables.push(table(rng, Theme::Labels, columns, rows));
    }
    let overlays = 1 + rng.below(4);
    let overlays = (0..overlays).map(|_| one_on_top(rng, &tables)).collect();
    let scanned = rng.below(count);
    let mut steps = vec![scan(scanned as u8)];
    if rng.chance(50) {
        steps.push(keep(1 << rng.below(tables[scanned].columns)));
    }
    draft(rng, tables, steps, overlays)
}

/// A container of 65,534 bytes, and overlays of 21,846.
fn longest(rng: &mut Rng) -> Draft {
    let tables = [(8, 256), (8, 256), (6, 226)].map(|(columns, rows)| clear(rng, columns, rows));
    let count = rng.pick(&[1, 2, 4, 4]);
    let overlays = (0..count).map(|_| one_on_top(rng, &tables)).collect();
    let (scanned, column) = (rng.below(3) as u8, rng.below(6));
    let filter = step(4, column as u8, rng.below(6) as u8, 0, 0, 1);
    let keeps = [keep(0b11_1111), keep(1 << column | 0b1)];
    let steps = match rng.below(3) {
        0 => vec![scan(scanned), keeps[0], keeps[1], keep(1)],
        1 => vec![scan(scanned), keeps[0], filter, keeps[1]],
        _ => vec![scan(scanned), keeps[0], keeps[0], group(1, rng.below(5) as u8, column)],
    };
    draft(rng, tables.to_vec(), steps, overlays)
}
