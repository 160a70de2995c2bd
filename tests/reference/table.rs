//! A table: "1 to 8" columns, cells "row by row", and a mark for each row.

use super::label::Label;
use super::value::Value;

#[derive(Clone, Copy, PartialEq, Eq, Debug)]
pub struct Cell {
    pub value: Value,
    pub label: Label,
}

/// Document 02, #103: "Each row now carries a sheet mark: that column's value,
/// or, for byte 1 zero, a mark shared with no other table row." The row of the
/// table is such a mark, and it is no sheet number.
#[derive(Clone, Copy, PartialEq, Eq, PartialOrd, Ord, Hash, Debug)]
pub enum Mark {
    Sheet(i64),
    Own { table: usize, row: usize },
}

/// The number of different marks.
pub fn distinct(marks: impl Iterator<Item = Mark>) -> usize {
    let mut marks: Vec<Mark> = marks.collect();
    marks.sort_unstable();
    marks.dedup();
    marks.len()
}

#[derive(Clone, Debug)]
pub struct Table {
    pub columns: usize,
    pub cells: Vec<Cell>,
    pub marks: Vec<Mark>,
}

impl Table {
    pub fn new(columns: usize) -> Table {
        Table { columns, cells: Vec::new(), marks: Vec::new() }
    }

    pub fn rows(&self) -> usize {
        self.marks.len()
    }

    pub fn row(&self, row: usize) -> &[Cell] {
        &self.cells[row * self.columns..(row + 1) * self.columns]
    }

    /// "the sum of present stages over all cells of the table made"
    pub fn stages_left(&self) -> u32 {
        self.cells.iter().map(|cell| cell.label.stages()).sum()
    }
}
