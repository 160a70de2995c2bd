//! The classes that containers fall into by their rule year: by the labels that the
//! floor reads, by the sheets of their groups, and by what the other year answers.

use crate::classes::Classes;
use crate::labels::Lock;
use crate::lent::Input;
use crate::observe::Seen;
use crate::overlay_checks::NONE;
use crate::overlay_classes::scans;
use crate::overlay_labels::Layers;
use crate::reference::container::Container;
use crate::reference::eval::perform;
use crate::reference::label::{Grouping, Label};
use crate::reference::steps::{columns_of, Aggregate, Step};
use crate::reference::table::{distinct, Mark, Table};
use crate::reference::value::Value;
use crate::reference::year::{RuleYear, FLOOR};
use crate::years::Accepted;
use std::collections::HashMap;

static CLASSES: &[&str] = &[
    "year above 1: 11",
    "15 minimum 1 in the year 1, not converted",
    "both years: check accepts",
    "both years: check refuses",
    "year 1: 2 parts",
    "year 1: 9 parts",
    "year 1: 64 steps",
    "year 1: 65,534 bytes",
    "year 1: no label with A",
    "year 1: H alone",
    "year 1: T alone",
    "year 1: N alone",
    "year 1: T above N, without A",
    "year 1: minima from ten on alone",
    "year 1: a minimum of 2",
    "year 1: a minimum of 9",
    "year 1: a minimum of 10",
    "year 1: a minimum of 11",
    "year 1: a minimum of 1023",
    "year 1: a minimum whose low byte is below ten",
    "year 1: below ten, A alone",
    "year 1: below ten, below T",
    "year 1: below ten, below H",
    "year 1: below ten, above N",
    "year 1: below ten, between T and N",
    "year 1: below ten, four stages",
    "year 1: below ten, no aggregate allowed",
    "year 1: below ten, beside sheet numbers",
    "year 1: below ten, in a table that no step scans",
    "year 1: below ten, in such tables alone",
    "year 1: below ten, in a table scanned twice",
    "year 1: below ten, in the last of several tables",
    "year 1: below ten, in the eighth table",
    "year 1: below ten, in column 7",
    "year 1: below ten, in row 255",
    "year 1: below ten, in each of 5,456 cells",
    "year 1: below ten, in each of 5,448 cells, released",
    "year 1: below ten, released",
    "year 1: below ten in a table scanned, released",
    "year 1, overlays: below ten onto below ten",
    "year 1, overlays: ten or more onto below ten",
    "year 1, overlays: below ten onto ten or more",
    "year 1, overlays: A brought to a clear cell, below ten",
    "year 1, overlays: A brought to a clear cell, ten or more",
    "year 1, overlays: A brought to a label, below ten",
    "year 1, overlays: A brought to a label, ten or more",
    "year 1, overlays: two bring A, below ten",
    "year 1, overlays: A brought below ten, released",
    "year 1, overlays: A brought below ten, 35",
    "year 1, overlays: a minimum raised to ten or more, released",
    "year 1, overlays: a minimum raised to ten or more, 35",
    "21 count, high byte 1, for the year 0",
    "21 count, high byte 1, for the year 1",
    "year 1: ten rows of nine sheets",
    "year 1: more rows of nine sheets",
    "year 1: more rows of ten sheets",
    "year 1: each of nine sheets twice",
    "year 1: each of ten sheets twice",
    "year 1: ten sheets of two tables",
    "year 1: the sheets decide, not the rows",
    "year 1: clear cells of fewer than ten sheets",
    "year 1: clear cells make up ten sheets",
    "year 1: below ten and above ten in a group",
    "year 1: the floor holds what a GROUP left",
    "year 1: ten groups discharge what a GROUP left",
    "year 1: N left below an A that ten sheets discharge",
    "year 1: N left below an A that the floor holds",
    "year 1: T discharged before ten sheets discharge A",
    "year 1: T discharged before the floor holds A",
    "both years: released alike",
    "both years: released alike, A discharged",
    "both years: released alike, T, A and N discharged",
    "both years: released alike, with NOISE",
    "both years: released alike, with overlays",
    "both years: 34 alike",
    "both years: 36 alike",
    "both years: 37 alike",
    "both years: the same refusal, 31",
    "both years: the same refusal, 32",
    "both years: the same refusal, 33",
    "both years: the same refusal, 35",
    "year 1: 31, released in the year 0",
    "year 1: 32, released in the year 0",
    "year 1: 33, released in the year 0",
    "year 1: 35, released in the year 0",
    "year 1: 35, released in the year 0, with overlays",
    "year 1: refused a step earlier than in the year 0",
    "year 1: refused at another place of the same step",
    "floor written: released",
    "floor written: refused with 35",
    "floor written: refused otherwise",
    "floor written: overlays composed before it",
    "divided otherwise: in the year 1",
    "divided otherwise: other minima below ten",
    "pair, year 1: locked by A, below ten before the floor",
    "pair, year 1: an overlay alone locks",
    "pair, year 1: with sheet numbers",
    "pair, year 1: the sheets decide, not the rows",
    "pair, year 1: released, with NOISE",
    "pair in the year 0 of a container of the year 1: released",
    "pair in the year 0 of a container of the year 1: refused",
];

/// The answers in the year 1, by their number.
const ANSWERS: [(u32, &str); 21] = [
    (0, "year 1: released"),
    (11, "year 1: 11"),
    (12, "year 1: 12"),
    (13, "year 1: 13"),
    (14, "year 1: 14"),
    (15, "year 1: 15"),
    (16, "year 1: 16"),
    (17, "year 1: 17"),
    (18, "year 1: 18"),
    (19, "year 1: 19"),
    (20, "year 1: 20"),
    (21, "year 1: 21"),
    (22, "year 1: 22"),
    (31, "year 1: 31"),
    (32, "year 1: 32"),
    (33, "year 1: 33"),
    (34, "year 1: 34"),
    (35, "year 1: 35"),
    (36, "year 1: 36"),
    (37, "year 1: 37"),
    (51, "year 1: 51"),
];

/// Refusals because of the input, from 11 on.
pub const REFUSED_ALIKE: [&str; 12] = [
    "both years: 11 alike",
    "both years: 12 alike",
    "both years: 13 alike",
    "both years: 14 alike",
    "both years: 15 alike",
    "both years: 16 alike",
    "both years: 17 alike",
    "both years: 18 alike",
    "both years: 19 alike",
    "both years: 20 alike",
    "both years: 21 alike",
    "both years: 22 alike",
];

/// Pairs of the year 1, by their answer.
const PAIRS: [(u32, &str); 9] = [
    (0, "pair, year 1: released"),
    (31, "pair, year 1: refused with 31"),
    (32, "pair, year 1: refused with 32"),
    (33, "pair, year 1: refused with 33"),
    (34, "pair, year 1: refused with 34"),
    (35, "pair, year 1: refused with 35"),
    (36, "pair, year 1: refused with 36"),
    (37, "pair, year 1: refused with 37"),
    (51, "pair, year 1: refused with 51"),
];

/// Groups by year, by sheets (9, 10 and 11) and by the minimum of the label before the
/// floor.
const GROUPS: [[[&str; 6]; 3]; 2] = [
    [
        [
            "year 0: 9 sheets, minimum 2",
            "year 0: 9 sheets, minimum 3 to 8",
            "year 0: 9 sheets, minimum 9",
            "year 0: 9 sheets, minimum 10",
            "year 0: 9 sheets, minimum 11",
            "year 0: 9 sheets, minimum above 11",
        ],
        [
            "year 0: 10 sheets, minimum 2",
            "year 0: 10 sheets, minimum 3 to 8",
            "year 0: 10 sheets, minimum 9",
            "year 0: 10 sheets, minimum 10",
            "year 0: 10 sheets, minimum 11",
            "year 0: 10 sheets, minimum above 11",
        ],
        [
            "year 0: 11 sheets, minimum 2",
            "year 0: 11 sheets, minimum 3 to 8",
            "year 0: 11 sheets, minimum 9",
            "year 0: 11 sheets, minimum 10",
            "year 0: 11 sheets, minimum 11",
            "year 0: 11 sheets, minimum above 11",
        ],
    ],
    [
        [
            "year 1: 9 sheets, minimum 2",
            "year 1: 9 sheets, minimum 3 to 8",
            "year 1: 9 sheets, minimum 9",
            "year 1: 9 sheets, minimum 10",
            "year 1: 9 sheets, minimum 11",
            "year 1: 9 sheets, minimum above 11",
        ],
        [
            "year 1: 10 sheets, minimum 2",
            "year 1: 10 sheets, minimum 3 to 8",
            "year 1: 10 sheets, minimum 9",
            "year 1: 10 sheets, minimum 10",
            "year 1: 10 sheets, minimum 11",
            "year 1: 10 sheets, minimum above 11",
        ],
        [
            "year 1: 11 sheets, minimum 2",
            "year 1: 11 sheets, minimum 3 to 8",
            "year 1: 11 sheets, minimum 9",
            "year 1: 11 sheets, minimum 10",
            "year 1: 11 sheets, minimum 11",
            "year 1: 11 sheets, minimum above 11",
        ],
    ],
];

/// Aggregates that the floor holds, and those that it lets through.
const HELD: [[&str; 2]; 5] = [
    ["year 1: count held by the floor", "year 1: count discharges a minimum below ten"],
    ["year 1: sum held by the floor", "year 1: sum discharges a minimum below ten"],
    ["year 1: min held by the floor", "year 1: min discharges a minimum below ten"],
    ["year 1: max held by the floor", "year 1: max discharges a minimum below ten"],
    ["year 1: avg held by the floor", "year 1: avg discharges a minimum below ten"],
];

pub fn names() -> impl Iterator<Item = &'static str> {
    let answers = ANSWERS.iter().chain(&PAIRS).map(|answer| answer.1);
    let groups = GROUPS.iter().flatten().flatten().copied();
    let all = CLASSES.iter().copied().chain(answers).chain(REFUSED_ALIKE);
    all.chain(groups).chain(HELD.into_iter().flatten())
}

fn by_number(names: &[(u32, &'static str)], number: u32, classes: &mut Classes) {
    let name = names.iter().find(|(known, _)| *known == number);
    classes.hit(name.expect("a number of the documents").1);
}

/// Any container, with the number of its answer.
pub fn answered(bytes: &[u8], number: u32, classes: &mut Classes) {
    match bytes.get(1) {
        Some(1) => by_number(&ANSWERS, number, classes),
        Some(2..) => classes.hit_if(number == 11, "year above 1: 11"),
        _ => (),
    }
}

fn minimum(label: &Label) -> Option<u16> {
    label.aggregate.map(|stage| stage.minimum)
}

/// What the floor raises.
fn is_low(label: &Label) -> bool {
    minimum(label).map_or(false, |minimum| minimum < FLOOR)
}

/// An accepted container of the year 1, with its answer.
pub fn accepted(
    bytes: &[u8],
    accepted: &Accepted,
    layers: &Layers,
    number: u32,
    classes: &mut Classes,
) {
    let container = &accepted.composed;
    if container.year != RuleYear::Floor {
        return;
    }
    let count = container.tables.len();
    classes.hit_if(count == 1, "year 1: 2 parts");
    classes.hit_if(count == 8, "year 1: 9 parts");
    classes.hit_if(container.plan.len() == 64, "year 1: 64 steps");
    classes.hit_if(bytes.len() == 65_534, "year 1: 65,534 bytes");
    let (mut with_a, mut low, mut shown) = (0, 0, 0);
    for (at, table) in container.tables.iter().enumerate() {
        let scanned = scans(container, at);
        for (place, cell) in table.cells.iter().enumerate() {
            let label = &cell.label;
            with_a += label.aggregate.is_some() as usize;
            labelled(label, classes);
            if !is_low(label) {
                continue;
            }
            low += 1;
            shown += (scanned > 0) as usize;
            classes.hit_if(scanned == 0, "year 1: below ten, in a table that no step scans");
            classes.hit_if(scanned > 1, "year 1: below ten, in a table scanned twice");
            let last = count > 1 && at + 1 == count;
            classes.hit_if(last, "year 1: below ten, in the last of several tables");
            classes.hit_if(at == 7, "year 1: below ten, in the eighth table");
            classes.hit_if(place % table.columns == 7, "year 1: below ten, in column 7");
            classes.hit_if(place / table.columns == 255, "year 1: below ten, in row 255");
            let sheets = container.headers[at][1] > 0;
            classes.hit_if(sheets, "year 1: below ten, beside sheet numbers");
        }
    }
    classes.hit_if(with_a == 0, "year 1: no label with A");
    classes.hit_if(with_a > 0 && low == 0, "year 1: minima from ten on alone");
    classes.hit_if(low > 0 && shown == 0, "year 1: below ten, in such tables alone");
    classes.hit_if(low == 5_456, "year 1: below ten, in each of 5,456 cells");
    let most = low == 5_448 && number == 0;
    classes.hit_if(most, "year 1: below ten, in each of 5,448 cells, released");
    classes.hit_if(low > 0 && number == 0, "year 1: below ten, released");
    classes.hit_if(shown > 0 && number == 0, "year 1: below ten in a table scanned, released");
    overlaid(container, layers, number, classes);
}

/// A label as the overlays have left it, before the floor.
fn labelled(label: &Label, classes: &mut Classes) {
    let Label { held, transform, aggregate, noise } = *label;
    let (t, n) = (transform.is_some(), noise.is_some());
    let stage = match aggregate {
        Some(stage) => stage,
        None => {
            classes.hit_if(held && !t && !n, "year 1: H alone");
            classes.hit_if(!held && t && !n, "year 1: T alone");
            classes.hit_if(!held && !t && n, "year 1: N alone");
            classes.hit_if(!held && t && n, "year 1: T above N, without A");
            return;
        }
    };
    match stage.minimum {
        2 => classes.hit("year 1: a minimum of 2"),
        9 => classes.hit("year 1: a minimum of 9"),
        10 => classes.hit("year 1: a minimum of 10"),
        11 => classes.hit("year 1: a minimum of 11"),
        1023 => classes.hit("year 1: a minimum of 1023"),
        _ => (),
    }
    let low_byte = stage.minimum >= FLOOR && stage.minimum & 0xFF < FLOOR;
    classes.hit_if(low_byte, "year 1: a minimum whose low byte is below ten");
    if stage.minimum >= FLOOR {
        return;
    }
    classes.hit_if(label.stages() == 1, "year 1: below ten, A alone");
    classes.hit_if(label.stages() == 4, "year 1: below ten, four stages");
    classes.hit_if(!held && t && !n, "year 1: below ten, below T");
    classes.hit_if(!held && !t && n, "year 1: below ten, above N");
    classes.hit_if(!held && t && n, "year 1: below ten, between T and N");
    classes.hit_if(held, "year 1: below ten, below H");
    let Grouping { avg, max, min, sum, count, .. } = stage;
    let none = !avg && !max && !min && !sum && !count;
    classes.hit_if(none, "year 1: below ten, no aggregate allowed");
}

/// The minima that overlays bring in the year 1.
fn overlaid(container: &Container, layers: &Layers, number: u32, classes: &mut Classes) {
    if layers.lent().next().is_none() {
        return;
    }
    let (mut brought, mut raised) = (false, false);
    for (table, made) in container.tables.iter().enumerate() {
        let scanned = scans(container, table) > 0;
        for (cell, content) in made.cells.iter().enumerate() {
            let whole = match minimum(&content.label) {
                Some(whole) => whole,
                None => continue,
            };
            let own = layers.own[table][cell];
            let minima: Vec<u16> =
                layers.on(table, cell).filter_map(|label| minimum(&label)).collect();
            let most = match minima.iter().max() {
                Some(most) => *most,
                None => continue,
            };
            match (minimum(&own), most < FLOOR) {
                (Some(..=9), true) => classes.hit("year 1, overlays: below ten onto below ten"),
                (Some(..=9), false) => classes.hit("year 1, overlays: ten or more onto below ten"),
                (Some(_), true) => classes.hit("year 1, overlays: below ten onto ten or more"),
                (Some(_), false) => (),
                (None, low) => classes.hit(match (own.is_clear(), low) {
                    (true, true) => "year 1, overlays: A brought to a clear cell, below ten",
                    (true, false) => "year 1, overlays: A brought to a clear cell, ten or more",
                    (false, true) => "year 1, overlays: A brought to a label, below ten",
                    (false, false) => "year 1, overlays: A brought to a label, ten or more",
                }),
            }
            let none = minimum(&own).is_none();
            let two = none && minima.len() > 1 && whole < FLOOR;
            classes.hit_if(two, "year 1, overlays: two bring A, below ten");
            brought |= scanned && none && whole < FLOOR;
            raised |= scanned && whole >= FLOOR && minimum(&own).map_or(false, |own| own < whole);
        }
    }
    let released = number == 0;
    classes.hit_if(brought && released, "year 1, overlays: A brought below ten, released");
    classes.hit_if(brought && number == 35, "year 1, overlays: A brought below ten, 35");
    classes
        .hit_if(raised && released, "year 1, overlays: a minimum raised to ten or more, released");
    classes.hit_if(raised && number == 35, "year 1, overlays: a minimum raised to ten or more, 35");
}

/// The groups of a plan: it is followed with the labels as they are read, and as they
/// were before the floor.
pub fn groups(accepted: &Accepted, draws: &[i64], classes: &mut Classes) {
    let Accepted { composed, read, .. } = accepted;
    if !read.plan.iter().any(|step| matches!(step, Step::Group { .. })) {
        return;
    }
    let (mut stack, mut earlier): (Vec<Table>, Vec<Table>) = Default::default();
    let mut draws = [draws.iter(), draws.iter()];
    let (mut transformed, mut grouped) = (false, false);
    for step in &read.plan {
        let tops = stack.last().cloned().zip(earlier.last().cloned());
        let made = match perform(step, &read.tables, &mut stack, &mut draws[0]) {
            Ok(made) => made,
            Err(_) => return,
        };
        let before = perform(step, &composed.tables, &mut earlier, &mut draws[1]);
        match (*step, tops) {
            (Step::Apply { column, .. }, Some((top, _))) => {
                let label = |table: &Table, row: usize, column: usize| table.row(row)[column].label;
                transformed |= (0..top.rows()).any(|row| {
                    let (old, new) = (label(&top, row, column), label(&made, row, top.columns));
                    old != new && new.aggregate.is_some()
                });
            }
            (Step::Group { keys, aggregate, column }, Some((top, low))) => {
                for rows in groups_of(keys, &top) {
                    let group = Group { year: read.year, aggregate, column, transformed, grouped };
                    group.classes(&top, &low, &rows, classes);
                }
                grouped = true;
            }
            _ => (),
        }
        stack.push(made);
        earlier.push(before.expect("what the floor lets through goes through without it"));
    }
}

/// The rows of each group.
fn groups_of(keys: u8, top: &Table) -> Vec<Vec<usize>> {
    let mut groups: HashMap<Vec<Value>, Vec<usize>> = HashMap::new();
    for row in 0..top.rows() {
        let key = columns_of(keys).map(|key| top.row(row)[key].value).collect();
        groups.entry(key).or_default().push(row);
    }
    groups.into_values().collect()
}

/// A GROUP, and what came before it: an APPLY that left A, or another GROUP.
struct Group {
    year: RuleYear,
    aggregate: Aggregate,
    column: usize,
    transformed: bool,
    grouped: bool,
}

impl Group {
    /// One group of it; `low` has the labels before the floor.
    fn classes(&self, top: &Table, low: &Table, rows: &[usize], classes: &mut Classes) {
        let sheets = distinct(rows.iter().map(|&row| top.marks[row]));
        let label = |table: &Table, row: usize| table.row(row)[self.column].label;
        let floor = self.year == RuleYear::Floor;
        let (mut raised, mut large) = (false, false);
        for &row in rows {
            let (read, before) = (label(top, row), label(low, row));
            let (stage, minimum) = match (read.aggregate, minimum(&before)) {
                (Some(stage), Some(minimum)) if stage.allows(self.aggregate) => (stage, minimum),
                _ => continue,
            };
            if (9..=11).contains(&sheets) {
                let column = match minimum {
                    2 => 0,
                    ..=8 => 1,
                    9 => 2,
                    10 => 3,
                    11 => 4,
                    _ => 5,
                };
                classes.hit(GROUPS[floor as usize][sheets - 9][column]);
            }
            raised |= minimum < FLOOR;
            large |= minimum > FLOOR;
            if floor && minimum < FLOOR {
                let enough = sheets >= stage.minimum as usize;
                self.low(sheets >= minimum as usize, enough, read.noise.is_some(), classes);
            }
        }
        if floor {
            classes.hit_if(raised && large, "year 1: below ten and above ten in a group");
            self.sheets(top, rows, sheets, raised, classes);
        }
    }

    /// A label below ten in a group of the year 1 that was large enough for it, or not,
    /// and is large enough for the floor, or not.
    fn low(&self, before: bool, enough: bool, noise: bool, classes: &mut Classes) {
        let names = HELD[self.aggregate as usize];
        if enough {
            classes.hit(names[1]);
            classes.hit_if(noise, "year 1: N left below an A that ten sheets discharge");
            classes.hit_if(self.transformed, "year 1: T discharged before ten sheets discharge A");
            classes.hit_if(self.grouped, "year 1: ten groups discharge what a GROUP left");
        } else if before {
            classes.hit(names[0]);
            classes.hit_if(noise, "year 1: N left below an A that the floor holds");
            classes.hit_if(self.transformed, "year 1: T discharged before the floor holds A");
            classes.hit_if(self.grouped, "year 1: the floor holds what a GROUP left");
        }
    }

    /// The sheets of a group of the year 1, with a label below ten or without.
    fn sheets(
        &self,
        top: &Table,
        rows: &[usize],
        sheets: usize,
        raised: bool,
        classes: &mut Classes,
    ) {
        let clear = |row: &&usize| top.row(**row)[self.column].label.is_clear();
        let count = rows.iter().filter(clear).count();
        let small = count == rows.len() && sheets < FLOOR as usize;
        classes.hit_if(small, "year 1: clear cells of fewer than ten sheets");
        if !raised {
            return;
        }
        let labelled = rows.iter().filter(|row| !clear(row)).map(|&row| top.marks[row]);
        let made_up = sheets == 10 && distinct(labelled) < 10;
        classes.hit_if(made_up, "year 1: clear cells make up ten sheets");
        classes.hit_if(sheets == 9 && rows.len() == 10, "year 1: ten rows of nine sheets");
        classes.hit_if(sheets == 9 && rows.len() > 10, "year 1: more rows of nine sheets");
        classes.hit_if(sheets == 10 && rows.len() > 10, "year 1: more rows of ten sheets");
        let times = |mark: Mark| rows.iter().filter(|&&row| top.marks[row] == mark).count();
        let twice = rows.iter().all(|&row| times(top.marks[row]) == 2);
        classes.hit_if(twice && sheets == 9, "year 1: each of nine sheets twice");
        classes.hit_if(twice && sheets == 10, "year 1: each of ten sheets twice");
        let from = |table: usize| {
            rows.iter()
                .any(|&row| matches!(top.marks[row], Mark::Own { table: t, .. } if t == table))
        };
        let two = (0..8).filter(|&table| from(table)).count() > 1;
        classes.hit_if(two && sheets == 10, "year 1: ten sheets of two tables");
    }
}

/// A container of the year 1 with its answer, and the same in the year 0, with what was
/// seen there.
pub fn in_both_years(
    input: Input,
    answer: [u32; 4],
    second: [u32; 4],
    seen: &Seen,
    classes: &mut Classes,
) {
    let overlays = input.overlays != NONE;
    classes.hit(match (answer[0], second[0]) {
        (0, _) => "both years: released alike",
        (34, _) => "both years: 34 alike",
        (36, _) => "both years: 36 alike",
        (37, _) => "both years: 37 alike",
        (31, _) if answer == second => "both years: the same refusal, 31",
        (32, _) if answer == second => "both years: the same refusal, 32",
        (33, _) if answer == second => "both years: the same refusal, 33",
        _ if answer == second => "both years: the same refusal, 35",
        (31, 0) => "year 1: 31, released in the year 0",
        (32, 0) => "year 1: 32, released in the year 0",
        (33, 0) => "year 1: 33, released in the year 0",
        (_, 0) => "year 1: 35, released in the year 0",
        _ if answer[1] < second[1] => "year 1: refused a step earlier than in the year 0",
        _ => "year 1: refused at another place of the same step",
    });
    if answer[0] == 0 {
        classes.hit_if(seen.discharged_a, "both years: released alike, A discharged");
        let chain = seen.whole_chain();
        classes.hit_if(chain, "both years: released alike, T, A and N discharged");
        classes.hit_if(seen.noises > 0, "both years: released alike, with NOISE");
        classes.hit_if(overlays, "both years: released alike, with overlays");
    }
    let held = answer[0] == 35 && second[0] == 0;
    classes.hit_if(held && overlays, "year 1: 35, released in the year 0, with overlays");
}

/// A cell that differs in a pair of the year 1, and is locked.
pub fn locked(
    layers: &Layers,
    container: &Container,
    (table, cell): (usize, usize),
    lock: Lock,
    classes: &mut Classes,
) {
    if container.year == RuleYear::Floor && lock.by_a() {
        let own = layers.own[table][cell];
        let whole = layers.on(table, cell).fold(own, |label, other| label.compose(&other));
        let low = is_low(&whole);
        classes.hit_if(low, "pair, year 1: locked by A, below ten before the floor");
    }
}

/// A pair, with its answer.
pub fn pair(
    year: RuleYear,
    number: u32,
    by_overlay: bool,
    numbered: bool,
    seen: &Seen,
    classes: &mut Classes,
) {
    if year != RuleYear::Floor {
        return;
    }
    by_number(&PAIRS, number, classes);
    classes.hit_if(by_overlay, "pair, year 1: an overlay alone locks");
    classes.hit_if(numbered, "pair, year 1: with sheet numbers");
    classes.hit_if(number == 0 && seen.noises > 0, "pair, year 1: released, with NOISE");
    classes.hit_if(seen.sheets_decide, "pair, year 1: the sheets decide, not the rows");
}
