//! The classes that overlays fall into: accepted ones by what they bring, and
//! refused ones by where they are wrong.

use crate::classes::Classes;
use crate::inputs::Given;
use crate::labels::{lock, Lock};
use crate::overlay_labels::Layers;
use crate::reference::container::{Container, InputFault, InputRefusal};
use crate::reference::label::{Grouping, Label, Transform};
use crate::reference::overlay::composed;
use crate::reference::steps::Step;
use crate::reference::{Overlays, RuleYear};

pub static CLASSES: &[&str] = &[
    "answer: 21",
    "answer: 22",
    "overlays: none",
    "overlays: one",
    "overlays: two",
    "overlays: three",
    "overlays: four",
    "overlays: one, in slice 0",
    "overlays: one, in slice 1",
    "overlays: one, in slice 2",
    "overlays: one, in slice 3",
    "overlays: three, slice 0 empty",
    "overlays: three, slice 1 empty",
    "overlays: three, slice 2 empty",
    "overlays: three, slice 3 empty",
    "overlays: an empty slice between two",
    "overlays: two empty slices between two",
    "overlays: zero labels alone",
    "overlays: one of zero labels, another not",
    "overlays: labels that change nothing",
    "overlays: the same labels twice",
    "overlays: a label onto a clear cell",
    "overlays: a label onto a labelled cell",
    "overlays: several labels onto one cell",
    "overlays: four labels onto one cell",
    "overlays: cells of a clear container labelled",
    "overlays: H brought",
    "overlays: T brought",
    "overlays: A brought",
    "overlays: N brought",
    "overlays: a stage above the container's",
    "overlays: a stage below the container's",
    "overlays: four stages from four labels",
    "overlays: an operation lost at T",
    "overlays: cut lost",
    "overlays: the last operation lost at T",
    "overlays: an aggregate lost at A",
    "overlays: the last aggregate lost at A",
    "overlays: noise lost at N",
    "overlays: digits raised",
    "overlays: a minimum raised",
    "overlays: a minimum of 1023 brought",
    "overlays: over 1 table",
    "overlays: over 8 tables",
    "overlays: over a table of 0 rows",
    "overlays: over tables of 0 rows alone",
    "overlays: over a table of 256 rows",
    "overlays: over a table of 1 column",
    "overlays: over a table of 8 columns",
    "overlays: over a table with sheets",
    "overlays: labels beside sheets",
    "overlays: labels for a table that no step scans",
    "overlays: labels for a table scanned twice",
    "overlays: labels in the last of several tables",
    "overlays: one of 21,846 bytes",
    "overlays: four of 21,846 bytes",
    "overlays: released, labels brought",
    "overlays: released, labels brought to a table scanned",
    "overlays: the same answer without them, released",
    "overlays: the same answer without them, 34",
    "overlays: the same answer without them, 36",
    "overlays: the same answer without them, 37",
    "overlays: the same refusal without them, 31 to 35",
    "overlays: 31, released without them",
    "overlays: 32, released without them",
    "overlays: 33, released without them",
    "overlays: 35, released without them",
    "overlays: refused a step earlier than without them",
    "overlays: refused at another place of the same step",
    "overlays: 51",
    "order: the only one in another slice",
    "order: two exchanged",
    "order: three in another order",
    "order: four in another order",
    "order: released",
    "order: refused because of the state",
    "zero labels added: slice 0",
    "zero labels added: slice 1",
    "zero labels added: slice 2",
    "zero labels added: slice 3",
    "zero labels added: in all four slices",
    "zero labels added: beside others",
    "zero labels added: released",
    "zero labels added: refused because of the state",
    "zero labels added: refused with 21",
    "zero labels added: refused with 22",
    "divided otherwise: released",
    "divided otherwise: refused because of the state",
    "divided otherwise: without overlays in one of the two",
    "divided otherwise: other labels in the container",
    "divided otherwise: the same container",
    "divided otherwise: other values in locked cells",
    "other overlays, refused because of the container",
    "wrong overlays exchanged: the other one is told",
    "pair: an overlay alone locks, by H",
    "pair: an overlay alone locks, by T",
    "pair: an overlay alone locks, by A",
    "pair: an overlay alone locks, by N",
    "pair: an overlay alone locks, a cell clear in the container",
    "pair: an overlay alone locks, a cell labelled in the container",
    "pair: an overlay alone locks, a table that no step scans",
    "pair: labels lock together and not alone",
    "pair: two overlays lock, neither does without the other",
    "pair: an overlay alone locks, released",
    "pair: an overlay alone locks, refused",
    "21 in slice 0",
    "21 in slice 1",
    "21 in slice 2",
    "21 in slice 3",
    "22 in slice 0",
    "22 in slice 1",
    "22 in slice 2",
    "22 in slice 3",
    "21 behind an accepted overlay",
    "22 behind an accepted overlay",
    "21 behind empty slices alone",
    "22 behind empty slices alone",
    "21 before 21 of a later overlay",
    "21 before 22 of a later overlay",
    "22 before 21 of a later overlay",
    "22 before 22 of a later overlay",
    "21 at 0",
    "21 at the first pair",
    "21 at an inner pair",
    "21 at the last pair",
    "21 at the first part",
    "21 at an inner part",
    "21 at the last part",
    "21 at the overlay's end",
    "21 at a part that no step scans",
    "22 in table 0",
    "22 in an inner table",
    "22 in the last table",
    "22 in a table that no step scans",
    "22 in row 0",
    "22 in the last row",
    "22 in row 255",
    "22 in column 0",
    "22 in the last column",
    "22 in a sheet column, well-formed",
    "22 in a sheet column, ill-formed",
    "22 beside a sheet column",
    "11 before 21 or 22",
    "12 before 21 or 22",
    "13 before 21 or 22",
    "14 before 21 or 22",
    "15 before 21 or 22",
    "16 before 21 or 22",
    "17 before 21 or 22",
    "18 before 21 or 22",
    "18 at the plan's end before 21 or 22",
    "19 before 21 or 22",
    "20 before 21 or 22",
    "1 before a refusal of an overlay",
    "other draws, refused because of an overlay",
    "21 with an empty text slice",
    "21 with a long text slice",
    "22 with an empty text slice",
    "22 with a long text slice",
];

/// How often a plan scans this table.
pub fn scans(container: &Container, table: usize) -> usize {
    let scan = |step: &&Step| matches!(step, Step::Scan { table: scanned } if *scanned == table);
    container.plan.iter().filter(scan).count()
}

/// Accepted overlays, and the container with the composed labels.
pub fn accepted(
    overlays: &Overlays,
    layers: &Layers,
    container: &Container,
    released: bool,
    classes: &mut Classes,
) {
    slices(overlays, layers, classes);
    if layers.lent().next().is_none() {
        return;
    }
    let tables = &container.tables;
    classes.hit_if(tables.len() == 1, "overlays: over 1 table");
    classes.hit_if(tables.len() == 8, "overlays: over 8 tables");
    classes.hit_if(tables.iter().all(|t| t.rows() == 0), "overlays: over tables of 0 rows alone");
    let (mut brought, mut shown) = (false, false);
    for (number, table) in tables.iter().enumerate() {
        let (scanned, sheets) = (scans(container, number), container.headers[number][1] > 0);
        classes.hit_if(table.rows() == 0, "overlays: over a table of 0 rows");
        classes.hit_if(table.rows() == 256, "overlays: over a table of 256 rows");
        classes.hit_if(table.columns == 1, "overlays: over a table of 1 column");
        classes.hit_if(table.columns == 8, "overlays: over a table of 8 columns");
        classes.hit_if(sheets, "overlays: over a table with sheets");
        for (cell, content) in table.cells.iter().enumerate() {
            let labels: Vec<Label> = layers.on(number, cell).filter(|l| !l.is_clear()).collect();
            if labels.is_empty() {
                continue;
            }
            classes.hit_if(sheets, "overlays: labels beside sheets");
            classes.hit_if(scanned == 0, "overlays: labels for a table that no step scans");
            classes.hit_if(scanned > 1, "overlays: labels for a table scanned twice");
            let last = number > 0 && number + 1 == tables.len();
            classes.hit_if(last, "overlays: labels in the last of several tables");
            let own = layers.own[number][cell];
            composition(own, &labels, content.label, classes);
            brought |= own != content.label;
            shown |= own != content.label && scanned > 0;
        }
    }
    let clear = layers.own.iter().flatten().all(Label::is_clear);
    classes.hit_if(brought && clear, "overlays: cells of a clear container labelled");
    let some = layers.lent().flatten().flatten().any(|label| !label.is_clear());
    classes.hit_if(some && !brought, "overlays: labels that change nothing");
    classes.hit_if(released && brought, "overlays: released, labels brought");
    classes.hit_if(released && shown, "overlays: released, labels brought to a table scanned");
}

const ONLY: [&str; 4] = [
    "overlays: one, in slice 0",
    "overlays: one, in slice 1",
    "overlays: one, in slice 2",
    "overlays: one, in slice 3",
];
const ALL_BUT: [&str; 4] = [
    "overlays: three, slice 0 empty",
    "overlays: three, slice 1 empty",
    "overlays: three, slice 2 empty",
    "overlays: three, slice 3 empty",
];

/// Which of the four slices are empty, and which overlays have zero labels.
fn slices(overlays: &Overlays, layers: &Layers, classes: &mut Classes) {
    let places: Vec<usize> = (0..4).filter(|&place| !overlays[place].is_empty()).collect();
    classes.hit(match places.len() {
        0 => "overlays: none",
        1 => "overlays: one",
        2 => "overlays: two",
        3 => "overlays: three",
        _ => "overlays: four",
    });
    if let [only] = places[..] {
        classes.hit(ONLY[only]);
    }
    if let [one, two, three] = places[..] {
        classes.hit(ALL_BUT[6 - one - two - three]);
    }
    let apart = |by: usize| places.windows(2).any(|pair| pair[1] - pair[0] == by);
    classes.hit_if(apart(2), "overlays: an empty slice between two");
    classes.hit_if(apart(3), "overlays: two empty slices between two");
    let long = places.iter().filter(|&&place| overlays[place].len() == 21_846).count();
    classes.hit_if(long > 0, "overlays: one of 21,846 bytes");
    classes.hit_if(long == 4, "overlays: four of 21,846 bytes");
    let zero: Vec<bool> =
        layers.lent().map(|grids| grids.iter().flatten().all(Label::is_clear)).collect();
    classes.hit_if(!zero.contains(&false) && !zero.is_empty(), "overlays: zero labels alone");
    let mixed = zero.contains(&true) && zero.contains(&false);
    classes.hit_if(mixed, "overlays: one of zero labels, another not");
    let labelled: Vec<_> = layers.lent().zip(&zero).filter(|(_, zero)| !**zero).collect();
    let twice = (1..labelled.len()).any(|place| labelled[place - 1].0 == labelled[place].0);
    classes.hit_if(twice, "overlays: the same labels twice");
}

/// Labels that are not clear, on a cell with this label of its own.
fn composition(own: Label, labels: &[Label], whole: Label, classes: &mut Classes) {
    classes.hit_if(own.is_clear(), "overlays: a label onto a clear cell");
    classes.hit_if(!own.is_clear(), "overlays: a label onto a labelled cell");
    classes.hit_if(labels.len() > 1, "overlays: several labels onto one cell");
    classes.hit_if(labels.len() == 4, "overlays: four labels onto one cell");
    let spread = own.is_clear() && whole.stages() == 4 && labels.iter().all(|l| l.stages() == 1);
    classes.hit_if(spread, "overlays: four stages from four labels");
    let held = whole.held && !own.held;
    let transform = whole.transform.is_some() && own.transform.is_none();
    let aggregate = whole.aggregate.is_some() && own.aggregate.is_none();
    let noise = whole.noise.is_some() && own.noise.is_none();
    classes.hit_if(held, "overlays: H brought");
    classes.hit_if(transform, "overlays: T brought");
    classes.hit_if(aggregate, "overlays: A brought");
    classes.hit_if(noise, "overlays: N brought");
    let present = |label: Label| {
        [label.held, label.transform.is_some(), label.aggregate.is_some(), label.noise.is_some()]
    };
    let first = |label: Label| present(label).iter().position(|&there| there);
    let last = |label: Label| present(label).iter().rposition(|&there| there);
    if !own.is_clear() {
        classes.hit_if(first(whole) < first(own), "overlays: a stage above the container's");
        classes.hit_if(last(whole) > last(own), "overlays: a stage below the container's");
    }
    if let (Some(a), Some(b)) = (own.transform, whole.transform) {
        let allows = |stage: Transform| [stage.band, stage.cut.is_some(), stage.sub, stage.add];
        let none = allows(b) == [false; 4];
        classes.hit_if(allows(a) != allows(b), "overlays: an operation lost at T");
        classes.hit_if(a.cut.is_some() && b.cut.is_none(), "overlays: cut lost");
        classes.hit_if(none && allows(a) != [false; 4], "overlays: the last operation lost at T");
        classes.hit_if(b.cut.is_some() && a.cut < b.cut, "overlays: digits raised");
    }
    if let (Some(a), Some(b)) = (own.aggregate, whole.aggregate) {
        let allows = |stage: Grouping| [stage.avg, stage.max, stage.min, stage.sum, stage.count];
        let none = allows(b) == [false; 5];
        classes.hit_if(allows(a) != allows(b), "overlays: an aggregate lost at A");
        classes.hit_if(none && allows(a) != [false; 5], "overlays: the last aggregate lost at A");
        classes.hit_if(a.minimum < b.minimum, "overlays: a minimum raised");
    }
    let most = |label: Label| label.aggregate.map_or(false, |stage| stage.minimum == 1023);
    classes.hit_if(most(whole) && !most(own), "overlays: a minimum of 1023 brought");
    let lost = own.noise == Some(true) && whole.noise == Some(false);
    classes.hit_if(lost, "overlays: noise lost at N");
}

/// A pair that differs in a locked cell: whether an overlay locks it and the
/// container's own label does not.
pub fn pair(
    layers: &Layers,
    container: &Container,
    (table, cell): (usize, usize),
    locked: Lock,
    classes: &mut Classes,
) -> bool {
    let own = layers.own[table][cell];
    if lock(&own, &container.plan).any() {
        return false;
    }
    classes.hit(locked.overlay_class());
    classes.hit(match own.is_clear() {
        true => "pair: an overlay alone locks, a cell clear in the container",
        false => "pair: an overlay alone locks, a cell labelled in the container",
    });
    let scanned = scans(container, table) > 0;
    classes.hit_if(!scanned, "pair: an overlay alone locks, a table that no step scans");
    let together = layers.on(table, cell).all(|label| !lock(&label, &container.plan).any());
    classes.hit_if(together, "pair: labels lock together and not alone");
    let mut with_one = layers.on(table, cell).map(|label| own.compose(&label));
    let two = with_one.all(|label| !lock(&label, &container.plan).any());
    classes.hit_if(two, "pair: two overlays lock, neither does without the other");
    true
}

/// A run refused because of the container, perhaps beside a wrong overlay.
pub fn refused_before(given: &Given, answer: [u32; 4], classes: &mut Classes) {
    if !given.wrong {
        return;
    }
    let number = |at: usize| u32::from_le_bytes(given.container[at..at + 4].try_into().unwrap());
    let end = answer[0] == 18 && answer[1] == number(2) + number(6);
    classes.hit_if(end, "18 at the plan's end before 21 or 22");
    classes.hit(match answer[0] {
        11 => "11 before 21 or 22",
        12 => "12 before 21 or 22",
        13 => "13 before 21 or 22",
        14 => "14 before 21 or 22",
        15 => "15 before 21 or 22",
        16 => "16 before 21 or 22",
        17 => "17 before 21 or 22",
        18 => "18 before 21 or 22",
        19 => "19 before 21 or 22",
        _ => "20 before 21 or 22",
    });
}

/// The classes of 21 and of 22, by the slice of the overlay and by what stands
/// before it.
const IN_SLICE: [[&str; 4]; 2] = [
    ["21 in slice 0", "21 in slice 1", "21 in slice 2", "21 in slice 3"],
    ["22 in slice 0", "22 in slice 1", "22 in slice 2", "22 in slice 3"],
];
const BEHIND_ACCEPTED: [&str; 2] =
    ["21 behind an accepted overlay", "22 behind an accepted overlay"];
const BEHIND_EMPTY: [&str; 2] = ["21 behind empty slices alone", "22 behind empty slices alone"];
/// The same by what the next wrong one would be refused with.
const BEFORE: [[&str; 2]; 2] = [
    ["21 before 21 of a later overlay", "21 before 22 of a later overlay"],
    ["22 before 21 of a later overlay", "22 before 22 of a later overlay"],
];

/// A run refused with 21 or 22 over an accepted container.
pub fn refused(container: &Container, overlays: &Overlays, classes: &mut Classes) {
    let alone = |overlay: &&[u8]| composed(container.clone(), &[overlay, &[], &[], &[]]).err();
    let mut wrong = (0..4).filter_map(|slice| Some((slice, alone(&overlays[slice])?)));
    let (slice, refusal) = wrong.next().expect("a wrong overlay");
    let which = |refusal: &InputRefusal| (refusal.fault == InputFault::OverlayLabel) as usize;
    let label = which(&refusal);
    classes.hit(IN_SLICE[label][slice]);
    let accepted = overlays[..slice].iter().any(|overlay| !overlay.is_empty());
    classes.hit_if(accepted, BEHIND_ACCEPTED[label]);
    classes.hit_if(slice > 0 && !accepted, BEHIND_EMPTY[label]);
    if let Some((_, later)) = wrong.next() {
        classes.hit(BEFORE[label][which(&later)]);
    }
    match refusal.fault {
        InputFault::OverlayLabel => {
            label_place(container, overlays[slice], refusal.offset, classes)
        }
        _ => fit_place(container, overlays[slice], refusal.offset, classes),
    }
}

/// Where 21 is.
fn fit_place(container: &Container, overlay: &[u8], offset: usize, classes: &mut Classes) {
    let tables = container.tables.len();
    if overlay.starts_with(&[tables as u8, 1]) {
        classes.hit(match container.year {
            RuleYear::Earlier => "21 count, high byte 1, for the year 0",
            RuleYear::Floor => "21 count, high byte 1, for the year 1",
        });
    }
    if offset < 2 + 8 * tables {
        classes.hit(match (offset, offset / 8 + 1 == tables) {
            (0, _) => "21 at 0",
            (_, true) if tables > 1 => "21 at the last pair",
            (2, _) => "21 at the first pair",
            _ => "21 at an inner pair",
        });
        return;
    }
    let starts =
        |table: usize| u32::from_le_bytes(overlay[2 + 8 * table..][..4].try_into().unwrap());
    let part = (0..tables).find(|&table| starts(table) as usize == offset).expect("a part");
    classes.hit(match part {
        0 => "21 at the first part",
        _ if part + 1 == tables => "21 at the last part",
        _ => "21 at an inner part",
    });
    classes.hit_if(offset == overlay.len(), "21 at the overlay's end");
    classes.hit_if(scans(container, part) == 0, "21 at a part that no step scans");
}

/// Where 22 is.
fn label_place(container: &Container, overlay: &[u8], offset: usize, classes: &mut Classes) {
    let mut start = 2 + 8 * container.tables.len();
    let mut number = 0;
    while offset >= start + 4 + 4 * container.tables[number].cells.len() {
        start += 4 + 4 * container.tables[number].cells.len();
        number += 1;
    }
    let table = &container.tables[number];
    let cell = (offset - start - 4) / 4;
    let (row, column) = (cell / table.columns, cell % table.columns);
    classes.hit(match number {
        0 => "22 in table 0",
        _ if number + 1 == container.tables.len() => "22 in the last table",
        _ => "22 in an inner table",
    });
    classes.hit_if(scans(container, number) == 0, "22 in a table that no step scans");
    classes.hit_if(row == 0, "22 in row 0");
    classes.hit_if(row > 0 && row + 1 == table.rows(), "22 in the last row");
    classes.hit_if(row == 255, "22 in row 255");
    classes.hit_if(column == 0, "22 in column 0");
    classes.hit_if(column > 0 && column + 1 == table.columns, "22 in the last column");
    let sheets = container.headers[number][1] as usize;
    let word = u32::from_le_bytes(overlay[offset..offset + 4].try_into().unwrap());
    let formed = Label::from_word(word).is_some();
    classes.hit_if(sheets == column + 1 && formed, "22 in a sheet column, well-formed");
    classes.hit_if(sheets == column + 1 && !formed, "22 in a sheet column, ill-formed");
    classes.hit_if(sheets > 0 && sheets != column + 1, "22 beside a sheet column");
}
