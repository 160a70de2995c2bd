//! The labels of an accepted container and of its accepted overlays, one beside
//! the other, and overlays written from labels.

use crate::draft::{assemble, RawOverlay};
use crate::reference::container::Container;
use crate::reference::label::Label;
use crate::reference::Overlays;

/// The labels of each table, row by row.
pub type Grids = Vec<Vec<Label>>;

pub struct Layers {
    pub own: Grids,
    /// `None` for an empty slice.
    pub overlays: [Option<Grids>; 4],
}

impl Layers {
    pub fn new(container: &Container, overlays: &Overlays) -> Layers {
        let read = |overlay: &&[u8]| (!overlay.is_empty()).then(|| grids(overlay, container));
        Layers { own: labels(container), overlays: overlays.each_ref().map(read) }
    }

    /// The overlays that there are.
    pub fn lent(&self) -> impl Iterator<Item = &Grids> {
        self.overlays.iter().flatten()
    }

    /// The labels that the overlays have for a cell.
    pub fn on(&self, table: usize, cell: usize) -> impl Iterator<Item = Label> + '_ {
        self.lent().map(move |grids| grids[table][cell])
    }
}

/// The labels of a container as it is.
pub fn labels(container: &Container) -> Grids {
    let tables = container.tables.iter();
    tables.map(|table| table.cells.iter().map(|cell| cell.label).collect()).collect()
}

/// The labels of an accepted overlay, which stand behind four bytes in each part.
fn grids(overlay: &[u8], container: &Container) -> Grids {
    let mut at = 2 + 8 * container.tables.len();
    let mut read = |cells: usize| {
        let words = overlay[at + 4..at + 4 + 4 * cells].chunks(4);
        at += 4 + 4 * cells;
        let word = |bytes: &[u8]| u32::from_le_bytes(bytes.try_into().unwrap());
        words.map(|bytes| Label::from_word(word(bytes)).expect("accepted")).collect()
    };
    container.tables.iter().map(|table| read(table.cells.len())).collect()
}

/// An overlay of these labels for a container.
pub fn written(container: &Container, labels: &RawOverlay) -> Vec<u8> {
    let part = |(header, labels): (&[u8; 4], &Vec<u32>)| {
        let labels = labels.iter().flat_map(|label| label.to_le_bytes());
        header.iter().copied().chain(labels).collect()
    };
    let parts: Vec<Vec<u8>> = container.headers.iter().zip(labels).map(part).collect();
    assemble(&parts)
}

pub fn words(grids: &Grids) -> RawOverlay {
    grids.iter().map(|grid| grid.iter().map(Label::word).collect()).collect()
}

/// Zero labels for every cell.
pub fn zeros(container: &Container) -> Vec<u8> {
    let none = container.tables.iter().map(|table| vec![0; table.cells.len()]).collect();
    written(container, &none)
}
