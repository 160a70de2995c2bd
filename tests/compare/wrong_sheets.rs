//! Tables with wrong sheet numbers, or with no column for them, and the offset of
//! the refusal.

use crate::damage::Made;
use crate::draft::{part_offset, Draft, RawStep};
use crate::labels::label;
use crate::reference::value::LOWEST;
use crate::rng::Rng;
use crate::sheets::number;

/// Byte 1 of the first table names no column.
pub fn no_column(rng: &mut Rng, mut d: Draft) -> Draft {
    d.tables[0].sheets = rng.between(9, 255) as u8;
    d
}

/// The container, with the place of this table's part.
pub fn at_table(d: &Draft, table: usize) -> Made {
    let parts = d.parts();
    (d.assembled(&parts), part_offset(&parts, table + 1))
}

/// No column for the sheets of some table, and a wrong plan.
pub fn before_steps(rng: &mut Rng, mut d: Draft, steps: &[RawStep]) -> Made {
    d.steps = steps.to_vec();
    let table = rng.below(d.tables.len());
    d.tables[table].sheets = 255;
    at_table(&d, table)
}

pub enum Row {
    First,
    Last,
    Any,
}

/// A container of which one cell in a column of sheet numbers was changed.
pub struct Spoiled {
    d: Draft,
    table: usize,
    cell: usize,
}

/// Gives some table a column of sheet numbers and changes the one of this row.
pub fn sheet(
    rng: &mut Rng,
    mut d: Draft,
    row: Row,
    change: impl Fn(&mut Rng, &mut (i64, u32)),
) -> Spoiled {
    let index = rng.below(d.tables.len());
    let table = &mut d.tables[index];
    if table.rows() == 0 {
        table.cells = vec![(0, 0); table.columns * (1 + rng.below(3))];
    }
    let column = rng.below(table.columns);
    number(rng, table, column);
    let row = match row {
        Row::First => 0,
        Row::Last => table.rows() - 1,
        Row::Any => rng.below(table.rows()),
    };
    let cell = row * table.columns + column;
    change(rng, &mut table.cells[cell]);
    Spoiled { d, table: index, cell }
}

/// Makes a sheet number negative or labels it.
pub fn spoil(rng: &mut Rng, cell: &mut (i64, u32)) {
    if rng.chance(50) {
        cell.0 = rng.between(LOWEST, -1);
    } else {
        cell.1 = label(rng, 3);
    }
}

impl Spoiled {
    pub fn at_part(&self) -> Made {
        at_table(&self.d, self.table)
    }

    /// At the cell, so many bytes into it.
    pub fn at_cell(&self, field: usize) -> Made {
        let (bytes, part) = self.at_part();
        (bytes, part + 4 + 12 * self.cell + field)
    }

    /// Changes the last cell of the table too, which a further row makes another
    /// one; at that cell, so many bytes into it.
    pub fn behind(mut self, change: impl Fn(&mut (i64, u32)), field: usize) -> Made {
        let table = &mut self.d.tables[self.table];
        if table.rows() == 1 {
            let row = vec![(0, 0); table.columns];
            table.cells.extend(row);
        }
        self.cell = table.cells.len() - 1;
        change(&mut table.cells[self.cell]);
        self.at_cell(field)
    }
}
