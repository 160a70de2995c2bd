//! Containers of before #107, in which a group minimum of 1 was well-formed: they
//! are "refused until converted".

use crate::draft::{Draft, RawTable};
use crate::labels::A;
use crate::reference::steps::Step;
use crate::rng::Rng;
use crate::scenes::scan;
use crate::sheet_scenes::{ballots, between, group, VALUE};

const MINIMUM: u32 = 0x3FF;

/// A and a group minimum of 1.
pub fn is_one(word: u32) -> bool {
    word & A != 0 && word & MINIMUM == 1
}

/// A group minimum whose low byte alone is 1.
pub fn low_byte_is_one(word: u32) -> bool {
    word & A != 0 && word & MINIMUM != 1 && word & 0xFF == 1
}

/// The label with this group minimum; with a stage A if it has none.
fn with_minimum(rng: &mut Rng, word: u32, minimum: u32) -> u32 {
    let stage = if word & A == 0 { A | (rng.below(32) as u32) << 16 } else { 0 };
    (word | stage) & !MINIMUM | minimum
}

/// A table and a cell of it.
type Place = (usize, usize);

/// The cells that may have a label.
fn free(draft: &Draft) -> Vec<Place> {
    let of_table = |(number, table): (usize, &RawTable)| {
        let sheets = table.sheet_column();
        let (columns, cells) = (table.columns, table.cells.len());
        let beside = move |cell: &usize| Some(cell % columns) != sheets;
        (0..cells).filter(beside).map(move |cell| (number, cell))
    };
    draft.tables.iter().enumerate().flat_map(of_table).collect()
}

/// With one cell at least that may have a label.
fn with_a_cell(draft: &mut Draft) -> Vec<Place> {
    if free(draft).is_empty() {
        let last = draft.tables.len() - 1;
        let columns = draft.tables[last].columns;
        draft.tables[last] = RawTable::new(columns, vec![(3, 0); columns]);
        draft.overlays.iter_mut().flatten().for_each(|labels| labels[last] = vec![0; columns]);
    }
    free(draft)
}

/// Puts minima of 1 into a container that is accepted: where 2 is, in one cell, in
/// some, in all of a table, or in all.
pub fn put(rng: &mut Rng, draft: &mut Draft) {
    let free = with_a_cell(draft);
    let table = rng.pick(&free).0;
    let unused: Vec<usize> = (0..draft.tables.len()).filter(|&at| !scanned(draft, at)).collect();
    let way = rng.below(12);
    let mut chosen = |&(number, cell): &Place| match way {
        0..=4 => with_two(draft.tables[number].cells[cell].1),
        5 => number == table,
        6 => true,
        7 => unused.contains(&number) && rng.chance(50),
        8 => rng.chance(30),
        9 => (number, cell) == free[free.len() - 1],
        _ => false,
    };
    let mut places: Vec<Place> = free.iter().copied().filter(|place| chosen(place)).collect();
    if places.is_empty() {
        places.push(rng.pick(&free));
    }
    if rng.chance(25) {
        beside(rng, draft, &free);
    }
    for (number, cell) in places {
        let word = &mut draft.tables[number].cells[cell].1;
        *word = with_minimum(rng, *word, 1);
    }
}

fn with_two(word: u32) -> bool {
    word & A != 0 && word & MINIMUM == 2
}

fn scanned(draft: &Draft, table: usize) -> bool {
    let scan = |step: Option<Step>| matches!(step, Some(Step::Scan { table: at }) if at == table);
    draft.steps.iter().any(|raw| scan(raw.read()))
}

/// What a conversion might take for a minimum of 1: a value that reads as such a
/// label, and minima whose low byte is 1.
fn beside(rng: &mut Rng, draft: &mut Draft, free: &[Place]) {
    let (number, cell) = rng.pick(free);
    let label = with_minimum(rng, 0, 1) as i64;
    draft.tables[number].cells[cell].0 = rng.pick(&[label, label << 8, label << 16]);
    let (number, cell) = rng.pick(free);
    let minimum = rng.pick(&[257, 513, 769]);
    let word = &mut draft.tables[number].cells[cell].1;
    *word = with_minimum(rng, *word, minimum);
}

/// Groups of one sheet and of more, with labels that let each of them through: "a
/// single ballot .. as a sum".
pub fn single_ballots(rng: &mut Rng) -> Draft {
    let mut table = ballots(rng);
    let aggregate = rng.below(5) as u8;
    let (columns, word) = (table.columns, A | 1 << (16 + aggregate) | 1);
    table.cells.iter_mut().skip(VALUE).step_by(columns).for_each(|cell| cell.1 = word);
    let steps = [vec![scan(0)], between(rng), vec![group(1, aggregate, VALUE)]].concat();
    let draws = (0..80).map(|_| rng.between(-20, 20)).collect();
    Draft { tables: vec![table], steps, draws, ..Draft::default() }
}

/// As many cells as a container holds, in 65,534 bytes; each with a minimum of 1.
pub fn fullest(rng: &mut Rng) -> Draft {
    let tables = [256, 256, 170].map(|rows| {
        let cell = |row: usize| (row as i64, with_minimum(rng, 0, 1));
        RawTable::new(8, (0..8 * rows).map(cell).collect())
    });
    let steps = vec![scan(rng.below(3) as u8)];
    Draft { tables: tables.to_vec(), steps, ..Draft::default() }
}

/// Where the labels with a minimum of 1 stand in the container of a draft.
pub fn offsets(draft: &Draft) -> Vec<usize> {
    let mut start = 2 + 8 * (1 + draft.tables.len()) + 16 * draft.steps.len();
    let mut found = Vec::new();
    for table in &draft.tables {
        let ones = table.cells.iter().enumerate().filter(|(_, cell)| is_one(cell.1));
        found.extend(ones.map(|(cell, _)| start + 4 + 12 * cell + 8));
        start += 4 + 12 * table.cells.len();
    }
    found
}

/// The same of any bytes, as far as they have a directory and parts: where there
/// would be cells of tables.
pub fn offsets_in(bytes: &[u8]) -> Vec<usize> {
    let number = |at: usize| match bytes.get(at..at + 4) {
        Some(field) => u32::from_le_bytes(field.try_into().unwrap()),
        None => 0,
    };
    let count = (number(0) & 0xFF) as usize;
    let mut found = Vec::new();
    for pair in (1..count.min(9)).map(|part| 2 + 8 * part) {
        let start = number(pair) as usize;
        let end = bytes.len().min(start + number(pair + 4) as usize);
        let fields = (start + 12..end.saturating_sub(3)).step_by(12);
        found.extend(fields.filter(|&field| is_one(number(field))));
    }
    found
}
