//! A container before it is written: its rule year, tables and steps as raw fields,
//! and the draws and overlays that are lent beside it.

use crate::reference::steps::Step;

#[derive(Clone, Default)]
pub struct Draft {
    /// Byte 1.
    pub year: u8,
    pub tables: Vec<RawTable>,
    pub steps: Vec<RawStep>,
    pub draws: Vec<i64>,
    pub overlays: RawOverlays,
}

/// The labels of an overlay: those of each table, row by row.
pub type RawOverlay = Vec<Vec<u32>>;

/// What stands in the four slices for overlays; `None` is an empty one.
pub type RawOverlays = [Option<RawOverlay>; 4];

/// Cells row by row, each a value and a label word; and byte 1, zero or one more
/// than the column of sheet numbers.
#[derive(Clone)]
pub struct RawTable {
    pub columns: usize,
    pub sheets: u8,
    pub cells: Vec<(i64, u32)>,
}

#[derive(Clone, Copy, Default)]
pub struct RawStep {
    pub kind: u8,
    pub a: u8,
    pub b: u8,
    pub c: u8,
    pub d: u8,
    pub zero: [u8; 3],
    pub constant: i64,
}

pub fn step(kind: u8, a: u8, b: u8, c: u8, d: u8, constant: i64) -> RawStep {
    RawStep { kind, a, b, c, d, zero: [0; 3], constant }
}

impl RawStep {
    pub fn bytes(&self) -> [u8; 16] {
        let mut bytes = [0; 16];
        bytes[..5].copy_from_slice(&[self.kind, self.a, self.b, self.c, self.d]);
        bytes[5..8].copy_from_slice(&self.zero);
        bytes[8..].copy_from_slice(&self.constant.to_le_bytes());
        bytes
    }

    pub fn read(&self) -> Option<Step> {
        Step::read(&self.bytes())
    }
}

impl RawTable {
    /// Without a column of sheet numbers.
    pub fn new(columns: usize, cells: Vec<(i64, u32)>) -> RawTable {
        RawTable { columns, sheets: 0, cells }
    }

    pub fn rows(&self) -> usize {
        self.cells.len() / self.columns
    }

    pub fn header(&self) -> Vec<u8> {
        let mut bytes = vec![self.columns as u8, self.sheets];
        bytes.extend((self.rows() as u16).to_le_bytes());
        bytes
    }

    /// The column of sheet numbers.
    pub fn sheet_column(&self) -> Option<usize> {
        (self.sheets as usize).checked_sub(1)
    }

    pub fn bytes(&self) -> Vec<u8> {
        let mut bytes = self.header();
        for (value, label) in &self.cells {
            bytes.extend(value.to_le_bytes());
            bytes.extend(label.to_le_bytes());
        }
        bytes
    }
}

impl Draft {
    /// Part 0 is the plan, the others the tables.
    pub fn parts(&self) -> Vec<Vec<u8>> {
        let plan = self.steps.iter().flat_map(|step| step.bytes()).collect();
        let mut parts = vec![plan];
        parts.extend(self.tables.iter().map(|table| table.bytes()));
        parts
    }

    pub fn bytes(&self) -> Vec<u8> {
        self.assembled(&self.parts())
    }

    /// These parts with the directory they need, in the rule year of this one.
    pub fn assembled(&self, parts: &[Vec<u8>]) -> Vec<u8> {
        let mut bytes = assemble(parts);
        bytes[1] = self.year;
        bytes
    }

    /// The four slices for overlays.
    pub fn overlay_bytes(&self) -> [Vec<u8>; 4] {
        self.overlays.each_ref().map(|overlay| match overlay {
            Some(labels) => assemble(&overlay_parts(&self.tables, labels)),
            None => Vec::new(),
        })
    }

    pub fn widths(&self) -> Vec<usize> {
        self.tables.iter().map(|table| table.columns).collect()
    }
}

/// The parts of an overlay: for each table its header and these labels.
pub fn overlay_parts(tables: &[RawTable], labels: &RawOverlay) -> Vec<Vec<u8>> {
    let part = |(table, labels): (&RawTable, &Vec<u32>)| {
        let mut part = table.header();
        part.extend(labels.iter().flat_map(|label| label.to_le_bytes()));
        part
    };
    tables.iter().zip(labels).map(part).collect()
}

/// A container of the rule year 0, or an overlay, with these parts and the directory
/// they need.
pub fn assemble(parts: &[Vec<u8>]) -> Vec<u8> {
    let mut bytes = (parts.len() as u16).to_le_bytes().to_vec();
    for (index, part) in parts.iter().enumerate() {
        bytes.extend((part_offset(parts, index) as u32).to_le_bytes());
        bytes.extend((part.len() as u32).to_le_bytes());
    }
    bytes.extend(parts.concat());
    bytes
}

pub fn part_offset(parts: &[Vec<u8>], index: usize) -> usize {
    2 + 8 * parts.len() + parts[..index].iter().map(|part| part.len()).sum::<usize>()
}
