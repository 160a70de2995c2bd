//! Document 02, #106: overlays, "composed onto the tables' labels before step 0",
//! and what is refused with 21 and 22: "both come after all other input checks,
//! overlay by overlay, each overlay's 21 before its 22, and the place is the
//! offset in the overlay, found as for 11, 12, 13 and 15".

use super::container::{directory, refuse, u32_at, Container, InputFault, InputRefusal, Misfit};
use super::label::Label;

/// "Up to four overlays", "and an empty slice is no overlay".
pub type Overlays<'a> = [&'a [u8]; 4];

const HEADER_BYTES: usize = 4;
const LABEL_BYTES: usize = 4;

/// The container with the labels of every overlay composed onto its own.
pub fn composed(mut container: Container, overlays: &Overlays) -> Result<Container, InputRefusal> {
    for overlay in overlays.iter().filter(|overlay| !overlay.is_empty()) {
        let labels = labels(overlay, &container)?;
        for (table, labels) in container.tables.iter_mut().zip(labels) {
            for (cell, label) in table.cells.iter_mut().zip(labels) {
                cell.label = cell.label.compose(&label);
            }
        }
    }
    Ok(container)
}

/// The labels of an overlay, those of each table row by row; or its first 22: "a
/// label that is ill-formed or that is not zero in a sheet column".
fn labels(overlay: &[u8], container: &Container) -> Result<Vec<Vec<Label>>, InputRefusal> {
    let mut all = Vec::new();
    for (table, start) in parts(overlay, container)?.into_iter().enumerate() {
        let columns = container.tables[table].columns;
        let sheets = (container.headers[table][1] as usize).checked_sub(1);
        let cells = container.tables[table].cells.len();
        let mut labels = Vec::with_capacity(cells);
        for cell in 0..cells {
            let field = start + HEADER_BYTES + LABEL_BYTES * cell;
            match Label::from_word(u32_at(overlay, field)) {
                Some(label) if label.is_clear() || sheets != Some(cell % columns) => {
                    labels.push(label)
                }
                _ => return refuse(InputFault::OverlayLabel, field),
            }
        }
        all.push(labels);
    }
    Ok(all)
}

/// Where the parts of an overlay begin: "a 16-bit count equal to the number of
/// tables, a directory by the container's rule, one part per table in order, each
/// part the four header bytes of that table and then only labels". Or its first
/// 21: "count, directory, header or length does not fit the container".
fn parts(overlay: &[u8], container: &Container) -> Result<Vec<usize>, InputRefusal> {
    let tables = container.tables.len();
    let count = |bytes: [u8; 2]| (u16::from_le_bytes(bytes) as usize == tables).then_some(tables);
    let parts = match directory(overlay, count) {
        Ok(parts) => parts,
        Err(Misfit::Whole) => return refuse(InputFault::Overlay, 0),
        Err(Misfit::Pair(place)) => return refuse(InputFault::Overlay, place),
    };
    for (table, part) in parts.iter().enumerate() {
        let length = HEADER_BYTES + LABEL_BYTES * container.tables[table].cells.len();
        let header = overlay[part.clone()].starts_with(&container.headers[table]);
        if part.len() != length || !header {
            return refuse(InputFault::Overlay, part.start);
        }
    }
    Ok(parts.into_iter().map(|part| part.start).collect())
}
