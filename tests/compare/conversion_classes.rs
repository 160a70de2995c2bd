//! The classes that conversions fall into: by the labels changed, by the refusals of
//! the old check, and by what a run makes of the new container.

use crate::classes::Classes;
use crate::conversions::OFFSETS;
use crate::old_rule::{is_one, low_byte_is_one, offsets_in};
use crate::reference::container::Container;
use crate::reference::label::Label;
use crate::reference::steps::Step;
use crate::reference::value::Value;

pub static CLASSES: &[&str] = &[
    "conversion: no label changed",
    "conversion: no label changed, minima whose low byte is 1",
    "conversion: one label changed",
    "conversion: several labels changed",
    "conversion: more than 255 labels changed",
    "conversion: all of 5,456 labels changed",
    "conversion: in the first of several tables alone",
    "conversion: in the last of several tables alone",
    "conversion: in an inner table alone",
    "conversion: in several tables",
    "conversion: in the eighth table",
    "conversion: in a table with sheet numbers",
    "conversion: in a table that no step scans",
    "conversion: in a table that no step scans alone",
    "conversion: in a table's first cell",
    "conversion: in the container's last cell",
    "conversion: in row 255",
    "conversion: in column 7",
    "conversion: every cell of a table",
    "conversion: two cells beside each other",
    "conversion: a label of four stages",
    "conversion: a label that allows no aggregate",
    "conversion: below T",
    "conversion: above N",
    "conversion: beside a minimum of 2",
    "conversion: beside minima whose low byte is 1",
    "conversion: beside a value that reads as such a label",
    "conversion: a slice just as long as the container",
    "conversion: a slice one element longer",
    "conversion: a slice longer still",
    "conversion: 8,192 offsets lent",
    "conversion: 8,193 offsets lent",
    "conversion: more offsets lent",
    "conversion: 11",
    "conversion: 12",
    "conversion: 13",
    "conversion: 14",
    "conversion: 15",
    "conversion: 16",
    "conversion: 17",
    "conversion: 18",
    "conversion: 19",
    "conversion: 20",
    "conversion: 11 for 65,537 bytes, as many lent",
    "conversion: 11 for more bytes, as many lent",
    "conversion: 11 for the year 1, accepted by the input checks",
    "conversion: 11 for the year 1, with a minimum of 1",
    "conversion: 11 for the year 1, refused by the input checks otherwise",
    "conversion: 11 for a year above 1",
    "conversion: 1 before 11 for the year 1",
    "conversion: 11 before a minimum of 1",
    "conversion: 12 before a minimum of 1",
    "conversion: 13 before a minimum of 1",
    "conversion: 14 before a minimum of 1",
    "conversion: 15 before a minimum of 1",
    "conversion: 20 before a minimum of 1",
    "conversion: 13 behind a minimum of 1",
    "conversion: 14 behind a minimum of 1",
    "conversion: 15 behind a minimum of 1",
    "conversion: 16 behind a minimum of 1",
    "conversion: 17 behind a minimum of 1",
    "conversion: 18 behind a minimum of 1",
    "conversion: 19 behind a minimum of 1",
    "conversion: 20 behind a minimum of 1",
    "conversion: 1, one element too few for the container",
    "conversion: 1, no element for the container",
    "conversion: 1, 8,191 offsets lent",
    "conversion: 1, no offset lent",
    "conversion: 1, both slices too short",
    "conversion: 1 where labels would be changed",
    "conversion: 1 where none would be changed",
    "conversion: 1 before a refusal of the old check",
    "conversion: 1, answer of 0 and of 1 elements",
    "converted: released",
    "converted: refused because of the state",
    "converted: refused with 21",
    "converted: refused with 22",
    "converted: refused, released by the old rule",
    "converted: refused, and by the old rule",
];

fn at(bytes: &[u8], offset: usize) -> u32 {
    u32::from_le_bytes(bytes[offset..offset + 4].try_into().unwrap())
}

/// The slices for the new container and for the offsets, both long enough.
pub fn lengths(container: usize, [converted, offsets]: [usize; 2], classes: &mut Classes) {
    classes.hit(match converted - container {
        0 => "conversion: a slice just as long as the container",
        1 => "conversion: a slice one element longer",
        _ => "conversion: a slice longer still",
    });
    classes.hit(match offsets - OFFSETS {
        0 => "conversion: 8,192 offsets lent",
        1 => "conversion: 8,193 offsets lent",
        _ => "conversion: more offsets lent",
    });
}

fn words(container: &Container) -> impl Iterator<Item = u32> + '_ {
    container.tables.iter().flat_map(|table| &table.cells).map(|cell| cell.label.word())
}

/// A container without a minimum of 1.
pub fn unchanged(container: &Container, classes: &mut Classes) {
    classes.hit("conversion: no label changed");
    let near = words(container).any(low_byte_is_one);
    classes.hit_if(near, "conversion: no label changed, minima whose low byte is 1");
}

/// Whether the value reads as a label with a minimum of 1 at some byte of it.
fn reads_as_one(value: Value) -> bool {
    match value {
        Value::Known(number) => (0..=4).any(|byte| is_one((number >> (8 * byte)) as u32)),
        Value::Over => false,
    }
}

/// A container of which the labels at these offsets, one at least, were changed.
pub fn changed(bytes: &[u8], container: &Container, offsets: &[usize], classes: &mut Classes) {
    classes.hit_if(offsets.len() == 1, "conversion: one label changed");
    classes.hit_if(offsets.len() > 1, "conversion: several labels changed");
    classes.hit_if(offsets.len() > 255, "conversion: more than 255 labels changed");
    classes.hit_if(offsets.len() == 5_456, "conversion: all of 5,456 labels changed");
    let last = offsets[offsets.len() - 1];
    classes.hit_if(last + 4 == bytes.len(), "conversion: in the container's last cell");
    let near = offsets.windows(2).any(|pair| pair[0] + 12 == pair[1]);
    classes.hit_if(near, "conversion: two cells beside each other");
    let low_byte = words(container).any(low_byte_is_one);
    classes.hit_if(low_byte, "conversion: beside minima whose low byte is 1");
    let minimum = |label: Label| label.aggregate.map(|stage| stage.minimum);
    let cells = || container.tables.iter().flat_map(|table| &table.cells);
    let two = cells().any(|cell| minimum(cell.label) == Some(2));
    classes.hit_if(two, "conversion: beside a minimum of 2");
    let value = cells().any(|cell| reads_as_one(cell.value));
    classes.hit_if(value, "conversion: beside a value that reads as such a label");
    offsets.iter().for_each(|&offset| label(at(bytes, offset), classes));
    tables(bytes, container, offsets, classes);
}

/// A label that was changed.
fn label(word: u32, classes: &mut Classes) {
    classes.hit_if(word >> 28 == 15, "conversion: a label of four stages");
    classes.hit_if(word & 0x001F_0000 == 0, "conversion: a label that allows no aggregate");
    classes.hit_if(word & 1 << 30 != 0, "conversion: below T");
    classes.hit_if(word & 1 << 28 != 0, "conversion: above N");
}

/// The tables that the labels changed stand in.
fn tables(bytes: &[u8], container: &Container, offsets: &[usize], classes: &mut Classes) {
    let mut with = Vec::new();
    for (number, table) in container.tables.iter().enumerate() {
        let start = at(bytes, 2 + 8 * (number + 1)) as usize + 4;
        let end = start + 12 * table.cells.len();
        let inside = offsets.iter().filter(|&&offset| start <= offset && offset < end);
        let cells: Vec<usize> = inside.map(|offset| (offset - start) / 12).collect();
        if cells.is_empty() {
            continue;
        }
        with.push(number);
        classes.hit_if(cells[0] == 0, "conversion: in a table's first cell");
        let all = cells.len() == table.cells.len() && cells.len() > 1;
        classes.hit_if(all, "conversion: every cell of a table");
        let last_row = cells.iter().any(|cell| cell / table.columns == 255);
        classes.hit_if(last_row, "conversion: in row 255");
        let last_column = cells.iter().any(|cell| cell % table.columns == 7);
        classes.hit_if(last_column, "conversion: in column 7");
        let sheets = container.headers[number][1] > 0;
        classes.hit_if(sheets, "conversion: in a table with sheet numbers");
    }
    let count = container.tables.len();
    classes.hit_if(with.contains(&7), "conversion: in the eighth table");
    let unused = with.iter().filter(|&&number| !scanned(container, number)).count();
    classes.hit_if(unused > 0, "conversion: in a table that no step scans");
    classes.hit_if(unused == with.len(), "conversion: in a table that no step scans alone");
    classes.hit_if(with.len() > 1, "conversion: in several tables");
    if let ([only], true) = (&with[..], count > 1) {
        classes.hit(match *only {
            0 => "conversion: in the first of several tables alone",
            _ if only + 1 == count => "conversion: in the last of several tables alone",
            _ => "conversion: in an inner table alone",
        });
    }
}

fn scanned(container: &Container, table: usize) -> bool {
    let mut steps = container.plan.iter();
    steps.any(|step| matches!(step, Step::Scan { table: scanned } if *scanned == table))
}

/// For each number from 11 on its class, and those of a minimum of 1 behind the fault
/// and before it, where there can be one.
const REFUSALS: [(&str, Option<&str>, Option<&str>); 10] = [
    ("conversion: 11", Some("conversion: 11 before a minimum of 1"), None),
    ("conversion: 12", Some("conversion: 12 before a minimum of 1"), None),
    (
        "conversion: 13",
        Some("conversion: 13 before a minimum of 1"),
        Some("conversion: 13 behind a minimum of 1"),
    ),
    (
        "conversion: 14",
        Some("conversion: 14 before a minimum of 1"),
        Some("conversion: 14 behind a minimum of 1"),
    ),
    (
        "conversion: 15",
        Some("conversion: 15 before a minimum of 1"),
        Some("conversion: 15 behind a minimum of 1"),
    ),
    ("conversion: 16", None, Some("conversion: 16 behind a minimum of 1")),
    ("conversion: 17", None, Some("conversion: 17 behind a minimum of 1")),
    ("conversion: 18", None, Some("conversion: 18 behind a minimum of 1")),
    ("conversion: 19", None, Some("conversion: 19 behind a minimum of 1")),
    (
        "conversion: 20",
        Some("conversion: 20 before a minimum of 1"),
        Some("conversion: 20 behind a minimum of 1"),
    ),
];

/// A refusal of the old check; `checked` is what the input checks answer.
pub fn refused(
    bytes: &[u8],
    (number, place): (u32, usize),
    checked: [u32; 2],
    classes: &mut Classes,
) {
    let (class, before, behind) = REFUSALS[number as usize - 11];
    classes.hit(class);
    let first = checked == [number, place as u32];
    let ones = offsets_in(bytes).iter().any(|&offset| offset > place);
    let beside = if first { before.filter(|_| ones) } else { behind };
    if let Some(class) = beside {
        classes.hit(class);
    }
    let much = number == 11 && bytes.len() > 65_536;
    classes.hit_if(much && bytes.len() == 65_537, "conversion: 11 for 65,537 bytes, as many lent");
    classes.hit_if(much && bytes.len() > 65_537, "conversion: 11 for more bytes, as many lent");
    match (bytes.get(1), checked) {
        (Some(1), [0, _]) => {
            classes.hit("conversion: 11 for the year 1, accepted by the input checks")
        }
        (Some(1), [15, at]) if is_one(self::at(bytes, at as usize)) => {
            classes.hit("conversion: 11 for the year 1, with a minimum of 1")
        }
        (Some(1), [12..=20, _]) => {
            classes.hit("conversion: 11 for the year 1, refused by the input checks otherwise")
        }
        (Some(2..), _) => classes.hit("conversion: 11 for a year above 1"),
        _ => (),
    }
}

/// A slice too short for a conversion that has this answer otherwise.
pub fn short(
    bytes: &[u8],
    [converted, offsets]: [usize; 2],
    answer: [u32; 2],
    classes: &mut Classes,
) {
    let container = bytes.len();
    let few = [converted < container, offsets < OFFSETS];
    classes.hit_if(bytes.get(1) == Some(&1), "conversion: 1 before 11 for the year 1");
    if few == [true, false] {
        let one = converted + 1 == container;
        classes.hit_if(one, "conversion: 1, one element too few for the container");
        classes.hit_if(converted == 0, "conversion: 1, no element for the container");
    }
    if few == [false, true] {
        classes.hit_if(offsets + 1 == OFFSETS, "conversion: 1, 8,191 offsets lent");
        classes.hit_if(offsets == 0, "conversion: 1, no offset lent");
    }
    classes.hit_if(few == [true, true], "conversion: 1, both slices too short");
    classes.hit(match answer {
        [0, 0] => "conversion: 1 where none would be changed",
        [0, _] => "conversion: 1 where labels would be changed",
        _ => "conversion: 1 before a refusal of the old check",
    });
}

/// A run of a converted container with this number; `before` if the old rule released
/// the container.
pub fn run(number: u32, before: bool, classes: &mut Classes) {
    classes.hit(match number {
        0 => "converted: released",
        21 => "converted: refused with 21",
        22 => "converted: refused with 22",
        _ => "converted: refused because of the state",
    });
    if number > 22 {
        classes.hit_if(before, "converted: refused, released by the old rule");
        classes.hit_if(!before, "converted: refused, and by the old rule");
    }
}
