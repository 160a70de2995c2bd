//! Containers with columns that are locked whatever the plan is, and plans that do much to
//! them, of which chance alone brings few.

use crate::draft::{step, Draft, RawStep, RawTable};
use crate::generate::{any_step, read};
use crate::labels::{A, H, N, T};
use crate::noise::for_rows;
use crate::overlays::lend;
use crate::reference::eval::perform;
use crate::reference::steps::Step;
use crate::reference::table::Table;
use crate::rng::Rng;
use crate::sheets::number_some;

/// Labels that allow nothing. T forbids GROUP and NOISE, A forbids NOISE, N forbids nothing,
/// and H all three and APPLY.
const LABELS: [u32; 8] = [T, T | A | 2, A | 2, A | 3, A | N | 9, N, N, H];

pub fn locked(rng: &mut Rng) -> Draft {
    let year = rng.chance(34) as u8;
    let mut tables: Vec<RawTable> = (0..1 + rng.below(2)).map(|_| table(rng)).collect();
    if rng.chance(30) {
        number_some(rng, &mut tables, false);
    }
    let mut plan = Plan {
        tables: read(year, &tables),
        widths: tables.iter().map(|table| table.columns).collect(),
        ..Plan::default()
    };
    plan.take(rng, step(1, 0, 0, 0, 0, 0));
    let length = 2 + rng.below(9);
    for _ in 0..60 {
        if plan.steps.len() >= length {
            break;
        }
        let raw = plan.propose(rng);
        plan.take(rng, raw);
    }
    plan.finish(rng);
    let Plan { steps, mut draws, .. } = plan;
    if rng.chance(8) {
        draws.pop();
    }
    let mut draft = Draft { year, tables, steps, draws, ..Draft::default() };
    lend(rng, &mut draft);
    draft
}

/// A clear column of keys, and others that are mostly locked.
fn table(rng: &mut Rng) -> RawTable {
    let columns = 2 + rng.below(4);
    let rows = match rng.below(40) {
        0 => 0,
        1 => 256,
        2..=4 => 20 + rng.below(40),
        _ => 1 + rng.below(12),
    };
    let most = rng.pick(&[0, 1, 3]);
    let words: Vec<u32> = (0..columns)
        .map(|column| if column == 0 || rng.chance(25) { 0 } else { rng.pick(&LABELS) })
        .collect();
    let cells = (0..rows * columns).map(|cell| match words[cell % columns] {
        word if word != 0 && rng.chance(3) => (0, rng.pick(&LABELS)),
        word => (rng.between(0, most), word),
    });
    RawTable::new(columns, cells.collect())
}

#[derive(Default)]
struct Plan {
    tables: Vec<Table>,
    widths: Vec<usize>,
    steps: Vec<RawStep>,
    stack: Vec<Table>,
    draws: Vec<i64>,
}

impl Plan {
    fn shape(&self) -> Vec<usize> {
        self.stack.iter().map(|table| table.columns).collect()
    }

    fn propose(&self, rng: &mut Rng) -> RawStep {
        let kind = rng.pick(&[1, 2, 3, 4, 5, 6, 6, 6, 6, 6, 7, 7, 7, 7, 8, 8]);
        let mut raw = any_step(rng, kind, &self.shape(), self.tables.len());
        match (raw.kind, raw.b) {
            (5, _) => raw.a |= raw.a << rng.below(3) | 1,
            (6, 3) if rng.chance(80) => {
                let exact = 1 << rng.below(47);
                raw.constant = rng.pick(&[1, 2, 3, 7, 10, 100, 4_096, 3 << 30, 1 << 31, exact]);
            }
            (7, _) if rng.chance(60) => raw.a = rng.below(2) as u8,
            _ => (),
        }
        raw
    }

    /// Takes a step if it is accepted and not refused.
    fn take(&mut self, rng: &mut Rng, raw: RawStep) {
        let step = raw.read().expect("a proposed step is well-formed");
        if step.shape(&mut self.shape(), &self.widths).is_err() {
            return;
        }
        let draws = match (&step, self.stack.last()) {
            (Step::Noise { column }, Some(top)) => {
                for_rows(rng, (0..top.rows()).map(|row| top.row(row)[*column].value))
            }
            _ => Vec::new(),
        };
        let mut stack = self.stack.clone();
        if let Ok(made) = perform(&step, &self.tables, &mut stack, &mut draws.iter()) {
            stack.push(made);
            self.stack = stack;
            self.steps.push(raw);
            self.draws.extend(draws);
        }
    }

    /// Leaves one table, of which mostly only what is clear is kept.
    fn finish(&mut self, rng: &mut Rng) {
        while self.stack.len() > 1 {
            let before = self.steps.len();
            self.take(rng, step(2, 0, 0, 0, 0, 0));
            if self.steps.len() == before {
                // KEEP of the keys and JOIN are accepted, though perhaps refused with 34.
                self.take(rng, step(5, 1, 0, 0, 0, 0));
                self.steps.push(step(3, 0, 0, 0, 0, 0));
                self.stack.pop();
            }
        }
        let top = &self.stack[0];
        let clear =
            |column: &usize| (0..top.rows()).all(|row| top.row(row)[*column].label.is_clear());
        let mask = (0..top.columns).filter(clear).fold(0, |mask, column| mask | 1 << column);
        if mask != 0 && rng.chance(85) {
            self.take(rng, step(5, mask, 0, 0, 0, 0));
        }
    }
}
