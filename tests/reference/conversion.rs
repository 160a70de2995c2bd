//! Document 02, #107: "Stored containers with 1 are refused until converted." The
//! conversion "raises each 1 to 2, leaves all other bytes the same", and tells "the
//! offset of each label changed". "It converts only containers that the old check
//! accepts", which knows no rule year: the part count has 16 bits there.
//!
//! The container is read as it was before, each label is raised, and all of it is
//! written anew.

use super::container::{parse_by, Check, Container, InputRefusal, PAIR_BYTES};
use super::label::SMALLEST_MINIMUM;
use super::table::{Cell, Table};
use super::value::Value;
use super::year::RuleYear;

/// The smallest group minimum of the old check.
pub const OLD_SMALLEST_MINIMUM: u16 = 1;

/// A high byte of the part count other than 0 was no part count.
pub const OLD_CHECK: Check =
    Check { smallest_minimum: OLD_SMALLEST_MINIMUM, years: &[RuleYear::Earlier] };

/// The offsets that a conversion is lent room for.
pub const OFFSETS_LENGTH: usize = 8_192;

/// Bytes, and the offsets of labels in them, in rising order.
pub type WithLabels = (Vec<u8>, Vec<usize>);

/// The new container, and the labels changed.
pub fn converted(bytes: &[u8]) -> Result<WithLabels, InputRefusal> {
    let mut container = parse_by(&OLD_CHECK, bytes)?;
    let mut changed = Vec::new();
    for cell in container.tables.iter_mut().flat_map(|table| &mut table.cells) {
        let label = cell.label.with_minimum_at_least(SMALLEST_MINIMUM);
        changed.push(label != cell.label);
        cell.label = label;
    }
    let (bytes, labels) = written(&container);
    let offsets = labels.into_iter().zip(changed).filter(|(_, changed)| *changed);
    Ok((bytes, offsets.map(|(offset, _)| offset).collect()))
}

/// A container with the labels of all its cells: "First a 16-bit part count, 2 to
/// 9, then a directory with one pair per part", then the parts.
fn written(container: &Container) -> WithLabels {
    let plan: Vec<u8> = container.plan.iter().flat_map(|step| step.bytes()).collect();
    let mut parts = vec![(plan, Vec::new())];
    for (header, table) in container.headers.iter().zip(&container.tables) {
        parts.push(part(header, table));
    }
    let mut bytes = (parts.len() as u16).to_le_bytes().to_vec();
    let mut start = bytes.len() + PAIR_BYTES * parts.len();
    for (part, _) in &parts {
        bytes.extend((start as u32).to_le_bytes());
        bytes.extend((part.len() as u32).to_le_bytes());
        start += part.len();
    }
    let mut labels = Vec::new();
    for (part, places) in parts {
        labels.extend(places.iter().map(|place| bytes.len() + place));
        bytes.extend(part);
    }
    (bytes, labels)
}

/// The part of a table.
fn part(header: &[u8; 4], table: &Table) -> WithLabels {
    let (mut bytes, mut labels) = (header.to_vec(), Vec::new());
    for Cell { value, label } in &table.cells {
        match value {
            Value::Known(number) => bytes.extend(number.to_le_bytes()),
            Value::Over => unreachable!("OVER never stands in a container"),
        }
        labels.push(bytes.len());
        bytes.extend(label.word().to_le_bytes());
    }
    (bytes, labels)
}

#[derive(Clone, Copy, PartialEq, Eq, Debug)]
pub enum Conversion {
    /// With the number of labels changed.
    Converted {
        labels: usize,
    },
    /// 1: "a lent slice is too short".
    ShortSlice,
    Input(InputRefusal),
}

impl Conversion {
    /// 0 and the number of labels changed, or the number of the refusal and the
    /// place.
    pub fn numbers(&self) -> [u32; 2] {
        match *self {
            Conversion::Converted { labels } => [0, labels as u32],
            Conversion::ShortSlice => [1, 0],
            Conversion::Input(refusal) => [refusal.fault.number(), refusal.offset as u32],
        }
    }
}

/// The conversion into lent slices, each written from its start; all else there is
/// unchanged, and everything after a refusal.
pub fn convert(container: &[u8], lent: &mut [u8], lent_offsets: &mut [u32]) -> Conversion {
    // 1 comes "First of all checks".
    if lent.len() < container.len() || lent_offsets.len() < OFFSETS_LENGTH {
        return Conversion::ShortSlice;
    }
    let (bytes, offsets) = match converted(container) {
        Ok(converted) => converted,
        Err(refusal) => return Conversion::Input(refusal),
    };
    lent[..bytes.len()].copy_from_slice(&bytes);
    for (place, &offset) in lent_offsets.iter_mut().zip(&offsets) {
        *place = offset as u32;
    }
    Conversion::Converted { labels: offsets.len() }
}
