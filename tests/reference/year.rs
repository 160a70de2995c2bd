//! Document 02, #108: "The new canvass rule sets at least ten sheets for any
//! aggregate, but earlier elections keep the earlier rule."

use super::container::Container;

/// "The high byte of the part count becomes the rule year: 0 as now, 1 for the
/// floor." "Other high bytes give 11."
#[derive(Clone, Copy, PartialEq, Eq, Hash, Debug)]
pub enum RuleYear {
    Earlier,
    Floor,
}

impl RuleYear {
    /// The high byte of the part count.
    pub fn byte(self) -> u8 {
        match self {
            RuleYear::Earlier => 0,
            RuleYear::Floor => 1,
        }
    }
}

pub const FLOOR: u16 = 10;

/// "Under 1, each A minimum below ten is read as ten after overlays are composed."
/// The container has the composed labels.
pub fn by_year(mut container: Container) -> Container {
    if container.year == RuleYear::Floor {
        for cell in container.tables.iter_mut().flat_map(|table| &mut table.cells) {
            cell.label = cell.label.with_minimum_at_least(FLOOR);
        }
    }
    container
}
