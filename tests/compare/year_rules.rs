//! Wrong rules for the floor. An input that one of them would answer otherwise tells it
//! from the right one: there is a class for each.

use crate::classes::Classes;
use crate::overlay_labels::{labels, Layers};
use crate::overlay_rules::{outcome, Place, Rule};
use crate::reference::container::Container;
use crate::reference::label::{Grouping, Label};
use crate::reference::steps::Step;
use crate::reference::year::{by_year, RuleYear, FLOOR};
use crate::years::Accepted;

/// The label that a cell is read with, in a container of the year 1.
pub static RULES: [(&str, Rule); 20] = [
    ("floor: none would differ", |layers, at| layers.right(at)),
    ("floor: of nine would differ", |layers, at| layers.right(at).with_minimum_at_least(9)),
    ("floor: of eleven would differ", |layers, at| layers.right(at).with_minimum_at_least(11)),
    ("floor: ten for every minimum would differ", |layers, at| {
        with_minimum(layers.right(at), |_| FLOOR)
    }),
    ("floor: ten for minima of 2 alone would differ", |layers, at| {
        with_minimum(layers.right(at), |minimum| if minimum == 2 { FLOOR } else { minimum })
    }),
    ("floor: ten for all minima but 9 would differ", |layers, at| {
        with_minimum(layers.right(at), |minimum| if minimum < 9 { FLOOR } else { minimum })
    }),
    ("floor: the bits of ten set would differ", |layers, at| {
        with_minimum(
            layers.right(at),
            |minimum| {
                if minimum < FLOOR {
                    minimum | FLOOR
                } else {
                    minimum
                }
            },
        )
    }),
    ("floor: by the low byte of a minimum would differ", |layers, at| {
        with_minimum(
            layers.right(at),
            |minimum| {
                if minimum & 0xFF < FLOOR {
                    FLOOR
                } else {
                    minimum
                }
            },
        )
    }),
    ("floor: before the overlays would differ", |layers, at| {
        layers.all(at).fold(floored(layers.own(at)), |label, other| label.compose(&other))
    }),
    ("floor: for the overlays alone would differ", |layers, at| {
        layers.all(at).fold(layers.own(at), |label, other| label.compose(&floored(other)))
    }),
    ("floor: without overlays alone would differ", |layers, at| {
        layers.floored_if(at, layers.lent().next().is_none())
    }),
    ("floor: where the container has A alone would differ", |layers, at| {
        layers.floored_if(at, layers.own(at).aggregate.is_some())
    }),
    ("floor: not below T would differ", |layers, at| {
        layers.floored_if(at, layers.right(at).transform.is_none())
    }),
    ("floor: not above N would differ", |layers, at| {
        layers.floored_if(at, layers.right(at).noise.is_none())
    }),
    ("floor: in table 0 alone would differ", |layers, at| layers.floored_if(at, at.table == 0)),
    ("floor: without the last table would differ", |layers, at| {
        layers.floored_if(at, at.table + 1 < layers.own.len())
    }),
    ("floor: without the eighth table would differ", |layers, at| {
        layers.floored_if(at, at.table != 7)
    }),
    ("floor: without column 7 would differ", |layers, at| {
        layers.floored_if(at, at.cell % at.columns != 7)
    }),
    ("floor: without row 255 would differ", |layers, at| {
        layers.floored_if(at, at.cell / at.columns != 255)
    }),
    ("floor: without the last row would differ", |layers, at| {
        layers.floored_if(at, at.cell + at.columns < at.columns * at.rows)
    }),
];

pub const IN_YEAR_0: &str = "floor: in the year 0 too would differ";

fn floored(label: Label) -> Label {
    label.with_minimum_at_least(FLOOR)
}

fn with_minimum(label: Label, minimum: impl Fn(u16) -> u16) -> Label {
    let change = |stage: Grouping| Grouping { minimum: minimum(stage.minimum), ..stage };
    Label { aggregate: label.aggregate.map(change), ..label }
}

impl Layers {
    fn floored_if(&self, at: Place, floor: bool) -> Label {
        if floor {
            floored(self.right(at))
        } else {
            self.right(at)
        }
    }
}

/// Which rules would answer otherwise. Without a GROUP none of them does.
pub fn tell_apart(accepted: &Accepted, layers: &Layers, draws: &[i64], classes: &mut Classes) {
    let read = &accepted.read;
    if !read.plan.iter().any(|step| matches!(step, Step::Group { .. })) {
        return;
    }
    let right = outcome(read, draws);
    let right_labels = labels(read);
    if read.year == RuleYear::Earlier {
        let wrong = by_year(Container { year: RuleYear::Floor, ..read.clone() });
        let differs = labels(&wrong) != right_labels && outcome(&wrong, draws) != right;
        classes.hit_if(differs, IN_YEAR_0);
        return;
    }
    for &(class, rule) in &RULES {
        let mut wrong = read.clone();
        for (table, made) in wrong.tables.iter_mut().enumerate() {
            let (columns, rows) = (made.columns, made.rows());
            for (cell, content) in made.cells.iter_mut().enumerate() {
                content.label = rule(layers, Place { table, cell, columns, rows });
            }
        }
        let differs = labels(&wrong) != right_labels && outcome(&wrong, draws) != right;
        classes.hit_if(differs, class);
    }
}
