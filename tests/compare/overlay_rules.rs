//! Wrong rules for overlays. An input that one of them would answer otherwise, be
//! it only in the place, tells it from the right one: there is a class for each.
//! The stages left in the trace, which nearly every one would change, do not count.

use crate::classes::Classes;
use crate::overlay_labels::{labels, Grids, Layers};
use crate::reference::container::Container;
use crate::reference::eval::{evaluate, StateRefusal};
use crate::reference::label::{Grouping, Label, Transform};
use crate::reference::value::Value;
use crate::reference::year::by_year;

/// A cell of a table with so many columns and rows.
#[derive(Clone, Copy)]
pub struct Place {
    pub table: usize,
    pub cell: usize,
    pub columns: usize,
    pub rows: usize,
}

/// The label that a cell gets, before the floor of its rule year.
pub type Rule = fn(&Layers, Place) -> Label;

pub static RULES: [(&str, Rule); 20] = [
    ("overlays: to take none would differ", |layers, at| layers.own(at)),
    ("overlays: to pass over slice 0 would differ", |layers, at| layers.but(0, at)),
    ("overlays: to pass over slice 1 would differ", |layers, at| layers.but(1, at)),
    ("overlays: to pass over slice 2 would differ", |layers, at| layers.but(2, at)),
    ("overlays: to pass over slice 3 would differ", |layers, at| layers.but(3, at)),
    ("overlays: to stop at an empty slice would differ", |layers, at| {
        let before = layers.overlays.iter().take_while(|overlay| overlay.is_some()).flatten();
        before.fold(layers.own(at), |label, grids| label.compose(&grids[at.table][at.cell]))
    }),
    ("overlays: to take the first alone would differ", |layers, at| {
        layers.own(at).compose(&layers.all(at).next().unwrap_or_default())
    }),
    ("overlays: to take the last alone would differ", |layers, at| {
        layers.own(at).compose(&layers.all(at).last().unwrap_or_default())
    }),
    ("overlays: to forget the container's labels would differ", |layers, at| {
        layers.all(at).fold(Label::default(), |label, other| label.compose(&other))
    }),
    ("overlays: the last label in place of all would differ", |layers, at| {
        layers.all(at).last().unwrap_or(layers.own(at))
    }),
    ("overlays: onto clear cells alone would differ", |layers, at| {
        let clear = |label: Label, other: Label| if label.is_clear() { other } else { label };
        layers.all(at).fold(layers.own(at), clear)
    }),
    ("overlays: onto labelled cells alone would differ", |layers, at| {
        if layers.own(at).is_clear() {
            layers.own(at)
        } else {
            layers.right(at)
        }
    }),
    ("overlays: onto table 0 alone would differ", |layers, at| {
        if at.table == 0 {
            layers.right(at)
        } else {
            layers.own(at)
        }
    }),
    ("overlays: without the last table would differ", |layers, at| {
        if at.table + 1 < layers.own.len() {
            layers.right(at)
        } else {
            layers.own(at)
        }
    }),
    ("overlays: without the last row would differ", |layers, at| {
        if at.cell + at.columns < at.columns * at.rows {
            layers.right(at)
        } else {
            layers.own(at)
        }
    }),
    ("overlays: labels column by column would differ", |layers, at| {
        let moved = at.cell % at.columns * at.rows + at.cell / at.columns;
        layers.on(at.table, moved).fold(layers.own(at), |label, other| label.compose(&other))
    }),
    ("overlays: to unite what is allowed would differ", |layers, at| {
        layers.all(at).fold(layers.own(at), |one, two| united(one, two))
    }),
    ("overlays: the smaller minimum would differ", |layers, at| {
        let minima = layers.all(at).chain([layers.own(at)]).filter_map(|label| label.aggregate);
        let smallest = minima.map(|stage| stage.minimum).min();
        let mut label = layers.right(at);
        if let (Some(stage), Some(minimum)) = (&mut label.aggregate, smallest) {
            stage.minimum = minimum;
        }
        label
    }),
    ("overlays: the smaller digits would differ", |layers, at| {
        let stages = layers.all(at).chain([layers.own(at)]).filter_map(|label| label.transform);
        let smallest = stages.filter_map(|stage| stage.cut).min();
        let mut label = layers.right(at);
        if let Some(Transform { cut: cut @ Some(_), .. }) = &mut label.transform {
            *cut = smallest;
        }
        label
    }),
    ("overlays: the highest stage alone would differ", |layers, at| {
        let right = layers.right(at);
        match right {
            Label { held: true, .. } => Label { held: true, ..Label::default() },
            Label { transform: stage @ Some(_), .. } => {
                Label { transform: stage, ..Label::default() }
            }
            Label { aggregate: stage @ Some(_), .. } => {
                Label { aggregate: stage, ..Label::default() }
            }
            _ => right,
        }
    }),
];

impl Layers {
    pub fn own(&self, at: Place) -> Label {
        self.own[at.table][at.cell]
    }

    pub fn all(&self, at: Place) -> impl Iterator<Item = Label> + '_ {
        self.on(at.table, at.cell)
    }

    pub fn right(&self, at: Place) -> Label {
        self.all(at).fold(self.own(at), |label, other| label.compose(&other))
    }

    /// Of all slices but this one.
    fn but(&self, slice: usize, at: Place) -> Label {
        let others = self.overlays.iter().enumerate().filter(|(place, _)| *place != slice);
        let others = others.filter_map(|(_, overlay)| overlay.as_ref());
        others.fold(self.own(at), |label, grids| label.compose(&grids[at.table][at.cell]))
    }
}

/// What either allows, where both have a stage.
fn united(one: Label, two: Label) -> Label {
    let mut whole = one.compose(&two);
    if let (Some(a), Some(b)) = (one.transform, two.transform) {
        whole.transform = Some(Transform {
            band: a.band || b.band,
            cut: a.cut.max(b.cut),
            sub: a.sub || b.sub,
            add: a.add || b.add,
        });
    }
    if let (Some(a), Some(b)) = (one.aggregate, two.aggregate) {
        whole.aggregate = Some(Grouping {
            avg: a.avg || b.avg,
            max: a.max || b.max,
            min: a.min || b.min,
            sum: a.sum || b.sum,
            count: a.count || b.count,
            minimum: a.minimum.max(b.minimum),
        });
    }
    if let (Some(a), Some(b)) = (one.noise, two.noise) {
        whole.noise = Some(a || b);
    }
    whole
}

/// The values released, or the refusal.
type Outcome = Result<Vec<Value>, StateRefusal>;

pub fn outcome(container: &Container, draws: &[i64]) -> Outcome {
    let table = evaluate(container, draws).outcome?;
    Ok(table.cells.iter().map(|cell| cell.value).collect())
}

/// Which rules would answer otherwise; `container` has the composed labels.
pub fn tell_apart(container: &Container, layers: &Layers, draws: &[i64], classes: &mut Classes) {
    let outcome = |container: &Container| outcome(&by_year(container.clone()), draws);
    let right = outcome(container);
    let labels: Grids = labels(container);
    for &(class, rule) in &RULES {
        let mut wrong = container.clone();
        let mut differs = false;
        for (table, (made, right)) in wrong.tables.iter_mut().zip(&labels).enumerate() {
            let (columns, rows) = (made.columns, made.rows());
            for (cell, (content, right)) in made.cells.iter_mut().zip(right).enumerate() {
                content.label = rule(layers, Place { table, cell, columns, rows });
                differs |= content.label != *right;
            }
        }
        classes.hit_if(differs && outcome(&wrong) != right, class);
    }
}
