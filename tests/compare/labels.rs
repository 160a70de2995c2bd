//! Random label words, and which cells are locked.

use crate::reference::container::Container;
use crate::reference::label::Label;
use crate::reference::steps::Step;
use crate::rng::Rng;

pub const H: u32 = 1 << 31;
pub const T: u32 = 1 << 30;
pub const A: u32 = 1 << 29;
pub const N: u32 = 1 << 28;

/// A well-formed label that is not clear; labels that a plan can discharge are
/// the most frequent.
pub fn label(rng: &mut Rng, rows: usize) -> u32 {
    let stages = match rng.below(100) {
        0..=31 => A,
        32..=50 => T,
        51..=73 => T | A,
        74..=78 => H,
        79..=85 => N,
        86..=88 => A | N,
        89..=92 => T | A | N,
        93..=94 => H | T | A | N,
        _ => (rng.below(15) as u32 + 1) << 28,
    };
    let mut word = stages;
    let often = if rng.chance(15) { 20 } else { 70 };
    if stages & T != 0 {
        for place in [24, 25, 26, 27] {
            word |= (rng.chance(often) as u32) << place;
        }
        if word & (1 << 26) != 0 {
            word |= (rng.below(6) as u32 + 1) << 10;
        }
    }
    if stages & A != 0 {
        for place in 16..=20 {
            word |= (rng.chance(often) as u32) << place;
        }
        word |= match rng.below(10) {
            0..=5 => rng.pick(&[2, 2, 3]),
            6 | 7 => (rows as u32).clamp(2, 256),
            8 => rng.pick(&[2, 9, 10, 11, 255, 256, 257, 513, 769, 1022, 1023]),
            _ => rng.below(1022) as u32 + 2,
        };
    }
    if stages & N != 0 {
        word |= (rng.chance(65) as u32) << 23;
    }
    word
}

/// Why a cell is locked: the stages that no step of the plan can discharge.
#[derive(Clone, Copy, Default)]
pub struct Lock {
    h: bool,
    t: bool,
    a: bool,
    n: Option<Lacks>,
}

/// What a stage N lacks.
#[derive(Clone, Copy)]
enum Lacks {
    Bit,
    Step,
    Both,
}

impl Lock {
    pub fn any(&self) -> bool {
        self.h || self.t || self.a || self.n.is_some()
    }

    pub fn by_a(&self) -> bool {
        self.a
    }

    /// The class of a pair that differs in such a cell, which an overlay locks and
    /// the container does not.
    pub fn overlay_class(&self) -> &'static str {
        match *self {
            Lock { h: true, .. } => "pair: an overlay alone locks, by H",
            Lock { t: true, .. } => "pair: an overlay alone locks, by T",
            Lock { a: true, .. } => "pair: an overlay alone locks, by A",
            _ => "pair: an overlay alone locks, by N",
        }
    }

    /// The class of a pair that differs in such a cell.
    pub fn class(&self) -> &'static str {
        match (self.h, self.t, self.a, self.n) {
            (true, false, false, None) => "pair: locked by H alone",
            (false, true, false, None) => "pair: locked by T alone",
            (false, false, true, None) => "pair: locked by A alone",
            (false, false, false, Some(Lacks::Bit)) => "pair: locked by N alone, without the bit",
            (false, false, false, Some(Lacks::Step)) => "pair: locked by N alone, without a NOISE",
            (false, false, false, Some(Lacks::Both)) => "pair: locked by N alone, without either",
            _ => "pair: locked by several stages",
        }
    }
}

/// "H is present; or T is present and no APPLY has an allowed operation (cut:
/// enough digits); or A is present and no GROUP has an allowed aggregate; or N
/// is present", this last, by #102, "only if its noise bit is off or the plan has
/// no NOISE".
pub fn lock(label: &Label, plan: &[Step]) -> Lock {
    let applied = |step: &Step| match (step, label.transform) {
        (Step::Apply { operation, .. }, Some(stage)) => stage.allows(operation),
        _ => false,
    };
    let grouped = |step: &Step| match (step, label.aggregate) {
        (Step::Group { aggregate, .. }, Some(stage)) => stage.allows(*aggregate),
        _ => false,
    };
    let noised = plan.iter().any(|step| matches!(step, Step::Noise { .. }));
    Lock {
        h: label.held,
        t: label.transform.is_some() && !plan.iter().any(applied),
        a: label.aggregate.is_some() && !plan.iter().any(grouped),
        n: match (label.noise, noised) {
            (Some(false), true) => Some(Lacks::Bit),
            (Some(true), false) => Some(Lacks::Step),
            (Some(false), false) => Some(Lacks::Both),
            (Some(true), true) | (None, _) => None,
        },
    }
}

/// The labelled cells: the byte offset of each value, its label, why it is locked,
/// and its table and number.
pub fn labelled_cells(
    bytes: &[u8],
    container: &Container,
) -> Vec<(usize, Label, Lock, (usize, usize))> {
    let u32_at = |at: usize| u32::from_le_bytes(bytes[at..at + 4].try_into().unwrap()) as usize;
    let mut found = Vec::new();
    for (index, table) in container.tables.iter().enumerate() {
        let start = u32_at(2 + 8 * (index + 1)) + 4;
        for (cell, content) in table.cells.iter().enumerate() {
            if !content.label.is_clear() {
                let lock = lock(&content.label, &container.plan);
                found.push((start + 12 * cell, content.label, lock, (index, cell)));
            }
        }
    }
    found
}
