//! Overlays for generated containers: labels of a table divided among the
//! container and its overlays, and labels that come on top of them.

use crate::draft::{Draft, RawOverlay, RawOverlays, RawTable};
use crate::labels::{label, A, H, N, T};
use crate::rng::Rng;
use crate::sheets::shuffle;

/// The stages, with the bits that each may allow.
const STAGES: [(u32, u32); 4] = [(H, 0), (T, 0x0F00_0000), (A, 0x001F_0000), (N, 0x0080_0000)];
const CUT: u32 = 1 << 26;

/// Gives a container, whose plan was made for its labels, some overlays or none.
pub fn lend(rng: &mut Rng, draft: &mut Draft) {
    match rng.below(100) {
        0..=21 => divide_among(rng, draft),
        22..=39 => draft.overlays = on_top(rng, &draft.tables),
        _ => (),
    }
}

/// How many overlays, mostly one or two.
fn count(rng: &mut Rng) -> usize {
    rng.pick(&[1, 1, 1, 2, 2, 2, 3, 4])
}

/// Leaves a part of the labels in the container, and lends the others.
fn divide_among(rng: &mut Rng, draft: &mut Draft) {
    let overlays = count(rng);
    let whole = draft.tables.iter().map(labels_of).collect();
    let mut divided = divided(rng, &whole, overlays);
    for (table, own) in draft.tables.iter_mut().zip(divided.remove(0)) {
        put_labels(table, &own);
    }
    draft.overlays = placed(rng, divided);
}

/// The labels of a table, row by row.
fn labels_of(table: &RawTable) -> Vec<u32> {
    table.cells.iter().map(|cell| cell.1).collect()
}

pub fn put_labels(table: &mut RawTable, labels: &[u32]) {
    table.cells.iter_mut().zip(labels).for_each(|(cell, &label)| cell.1 = label);
}

/// These labels as the composition of those of a container, which come first, and
/// of so many overlays.
pub fn divided(rng: &mut Rng, whole: &RawOverlay, overlays: usize) -> Vec<RawOverlay> {
    // The container has none of them, all of them, or any part.
    let way = rng.below(4);
    let mut made: Vec<RawOverlay> = vec![Vec::new(); 1 + overlays];
    for table in whole {
        let mut columns: Vec<Vec<u32>> = vec![Vec::with_capacity(table.len()); 1 + overlays];
        for &word in table {
            let words = match way {
                _ if word == 0 => vec![0; 1 + overlays],
                0 => [vec![0], divide(rng, word, overlays)].concat(),
                1 => [vec![word], divide(rng, word, overlays)].concat(),
                _ => divide(rng, word, 1 + overlays),
            };
            columns.iter_mut().zip(words).for_each(|(column, word)| column.push(word));
        }
        made.iter_mut().zip(columns).for_each(|(overlay, column)| overlay.push(column));
    }
    made
}

/// A choice of so many things, one at least.
fn some_of(rng: &mut Rng, count: usize) -> Vec<bool> {
    let mut chosen: Vec<bool> = (0..count).map(|_| rng.chance(45)).collect();
    chosen[rng.below(count)] = true;
    chosen
}

/// So many labels whose composition is this one: each stage in one of them at
/// least; what it does not allow missing in one of those, what it allows in none;
/// its minimum and its digits in one, no larger ones in the others.
fn divide(rng: &mut Rng, word: u32, count: usize) -> Vec<u32> {
    let mut words = vec![0; count];
    for (stage, allowed) in STAGES.into_iter().filter(|(stage, _)| word & stage != 0) {
        let chosen = some_of(rng, count);
        let having: Vec<usize> = (0..count).filter(|&place| chosen[place]).collect();
        having.iter().for_each(|&place| words[place] |= stage | allowed);
        for bit in (0..32).map(|place| 1 << place).filter(|bit| allowed & !word & bit != 0) {
            let without = some_of(rng, having.len());
            for (&place, _) in having.iter().zip(without).filter(|(_, without)| *without) {
                words[place] &= !bit;
            }
        }
        let largest = rng.pick(&having);
        for &place in &having {
            let number = |rng: &mut Rng, least: u32, most: u32| {
                if place == largest {
                    most
                } else {
                    rng.between(least as i64, most as i64) as u32
                }
            };
            if stage == A {
                words[place] |= number(rng, 2, word & 0x3FF);
            }
            if stage == T && words[place] & CUT != 0 {
                let digits = if word & CUT != 0 { word >> 10 & 7 } else { 6 };
                words[place] |= number(rng, 1, digits) << 10;
            }
        }
    }
    words
}

/// Puts overlays into the four slices, in any places.
pub fn placed(rng: &mut Rng, overlays: Vec<RawOverlay>) -> RawOverlays {
    let mut slices: RawOverlays = Default::default();
    for (slice, overlay) in slices.iter_mut().zip(overlays) {
        *slice = Some(overlay);
    }
    shuffle(rng, &mut slices);
    slices
}

/// Zero labels for every cell.
pub fn zeros(tables: &[RawTable]) -> RawOverlay {
    tables.iter().map(|table| vec![0; table.cells.len()]).collect()
}

/// Overlays of labels that the plan was not made for.
fn on_top(rng: &mut Rng, tables: &[RawTable]) -> RawOverlays {
    let mut overlays: Vec<RawOverlay> = (0..count(rng)).map(|_| one_on_top(rng, tables)).collect();
    if overlays.len() > 1 && rng.chance(8) {
        overlays[1] = overlays[0].clone();
    }
    placed(rng, overlays)
}

/// One overlay, of labels that change something or not.
pub fn one_on_top(rng: &mut Rng, tables: &[RawTable]) -> RawOverlay {
    let mut overlay = zeros(tables);
    // Zero labels; some that the cell's own takes up; H; stricter ones; a stage
    // above; one label for all; any.
    let way = rng.below(12);
    // All tables, or one; all columns, or one; all rows, or some.
    let only = if rng.chance(50) { Some(rng.below(tables.len())) } else { None };
    for (number, (table, labels)) in tables.iter().zip(&mut overlay).enumerate() {
        if way == 0 || only.map_or(false, |only| only != number) {
            continue;
        }
        let column = if rng.chance(60) { Some(rng.below(table.columns)) } else { None };
        let often = rng.pick(&[100, 100, 60, 15]);
        let one = label(rng, table.rows());
        for (cell, word) in labels.iter_mut().enumerate() {
            let place = cell % table.columns;
            let meant = column.map_or(true, |column| column == place) && rng.chance(often);
            if !meant || table.sheet_column() == Some(place) {
                continue;
            }
            let own = table.cells[cell].1;
            *word = match way {
                1..=3 => divide(rng, own, 2)[0],
                4 => H,
                5..=7 if own == 0 => 0,
                5 | 6 => stricter(rng, own),
                7 => above(own),
                8 | 9 => one,
                _ => label(rng, table.rows()),
            };
        }
    }
    overlay
}

/// The same stages, with fewer operations, or a larger minimum or more digits.
fn stricter(rng: &mut Rng, word: u32) -> u32 {
    let mut strict = word;
    for (_, allowed) in STAGES {
        if rng.chance(50) {
            let bits: Vec<u32> =
                (0..32).map(|place| 1 << place).filter(|b| b & allowed != 0).collect();
            if !bits.is_empty() {
                strict &= !rng.pick(&bits);
            }
        }
    }
    if strict & A != 0 && rng.chance(50) {
        let minimum = (word & 0x3FF) + rng.below(3) as u32;
        strict = strict & !0x3FF | minimum.min(1023);
    }
    if strict & CUT == 0 {
        strict &= !0x1C00;
    } else if rng.chance(50) {
        let digits = (word >> 10 & 7) + rng.below(3) as u32;
        strict = strict & !0x1C00 | digits.min(6) << 10;
    }
    strict
}

/// A stage above the highest of a label; H above H.
fn above(word: u32) -> u32 {
    match word {
        _ if word & (H | T) != 0 => H,
        _ if word & A != 0 => T | 0x0100_0000,
        _ => 0x2002_0002,
    }
}
