//! Plans with one wrong step, and the offset of the refusal.

use crate::damage::Made;
use crate::draft::{part_offset, step, Draft, RawStep};
use crate::generate::{any_step, number, shapes};
use crate::reference::value::{HIGHEST, LOWEST};
use crate::rng::Rng;

pub fn byte(rng: &mut Rng) -> u8 {
    rng.between(1, 255) as u8
}

pub fn not_zero(rng: &mut Rng) -> i64 {
    match number(rng) {
        0 => rng.pick(&[1, i64::MIN, i64::MAX]),
        other => other,
    }
}

pub fn outside(rng: &mut Rng) -> i64 {
    if rng.chance(50) {
        rng.between(HIGHEST + 1, i64::MAX)
    } else {
        rng.between(i64::MIN, LOWEST - 1)
    }
}

pub fn constant(step: &mut RawStep, constant: i64) {
    step.c = 0;
    step.d = 0;
    step.constant = constant;
}

/// A column that a table of this width does not have.
pub fn past(rng: &mut Rng, width: usize) -> u8 {
    match rng.below(3) {
        0 => width as u8,
        1 => 255,
        _ => rng.between(width as i64, 255) as u8,
    }
}

/// Cuts the plan to a beginning that leaves this many tables; answers their
/// widths and the steps cut off.
pub fn prefix(rng: &mut Rng, d: &mut Draft, depth: usize) -> (Vec<usize>, Vec<RawStep>) {
    let shapes = shapes(&d.steps, &d.widths());
    let fit: Vec<usize> =
        (0..shapes.len().min(40)).filter(|&at| shapes[at].len() == depth).collect();
    if !fit.is_empty() && rng.chance(90) {
        let at = rng.pick(&fit);
        let rest = d.steps.split_off(at);
        return (shapes[at].clone(), rest);
    }
    let rest = std::mem::take(&mut d.steps);
    let mut shape = Vec::new();
    for _ in 0..depth {
        let table = rng.below(d.tables.len());
        d.steps.push(step(1, table as u8, 0, 0, 0, 0));
        shape.push(d.tables[table].columns);
    }
    (shape, rest)
}

/// Adds the wrong step and, as far as they fit, the steps after it.
pub fn insert(mut d: Draft, wrong: RawStep, rest: Vec<RawStep>) -> Made {
    let parts = d.parts();
    let offset = part_offset(&parts, 0) + parts[0].len();
    d.steps.push(wrong);
    d.steps.extend(rest);
    d.steps.truncate(64);
    (d.bytes(), offset)
}

/// A good step of this kind, made bad, somewhere in the plan.
pub fn bad(rng: &mut Rng, mut d: Draft, kind: u8, change: fn(&mut Rng, &mut RawStep)) -> Made {
    let depth = match kind {
        1 => rng.below(3),
        2 | 3 => 2 + rng.below(2),
        _ => 1 + rng.below(3),
    };
    let (shape, rest) = prefix(rng, &mut d, depth);
    let mut wrong = any_step(rng, kind, &shape, d.tables.len());
    change(rng, &mut wrong);
    insert(d, wrong, rest)
}

pub fn apply(rng: &mut Rng, d: Draft, code: u8, wrong: i64) -> Made {
    with_width(rng, d, |rng, width| step(6, rng.below(width) as u8, code, 0, 0, wrong))
}

pub fn column_operand(rng: &mut Rng, d: Draft, code: u8) -> Made {
    with_width(rng, d, |rng, width| {
        let constant = rng.pick(&[0, 1, 6]);
        step(6, rng.below(width) as u8, code, 1, rng.below(width) as u8, constant)
    })
}

pub fn zero_byte(rng: &mut Rng, mut d: Draft, which: usize) -> Made {
    let kind = 1 + rng.below(8) as u8;
    let (shape, rest) = prefix(rng, &mut d, if kind == 1 { 1 } else { 2 });
    let mut wrong = any_step(rng, kind, &shape, d.tables.len());
    wrong.zero[which] = byte(rng);
    insert(d, wrong, rest)
}

pub fn shallow(rng: &mut Rng, mut d: Draft, kind: u8, depth: usize) -> Made {
    let (shape, rest) = prefix(rng, &mut d, depth);
    let wrong = any_step(rng, kind, &shape, d.tables.len());
    insert(d, wrong, rest)
}

/// A plan that ends with this many tables.
pub fn left_over(rng: &mut Rng, mut d: Draft, depth: usize) -> Made {
    prefix(rng, &mut d, depth);
    let parts = d.parts();
    let end = part_offset(&parts, 1);
    (d.assembled(&parts), end)
}

pub fn with_width(rng: &mut Rng, mut d: Draft, wrong: impl Fn(&mut Rng, usize) -> RawStep) -> Made {
    let depth = 1 + rng.below(3);
    let (shape, rest) = prefix(rng, &mut d, depth);
    let wrong = wrong(rng, shape[depth - 1]);
    insert(d, wrong, rest)
}

/// With a table of one column on top.
pub fn narrow(rng: &mut Rng, mut d: Draft, wrong: fn(&mut Rng) -> RawStep) -> Made {
    let depth = 1 + rng.below(3);
    let (_, rest) = prefix(rng, &mut d, depth);
    d.steps.push(step(5, 1, 0, 0, 0, 0));
    let wrong = wrong(rng);
    insert(d, wrong, rest)
}

/// With a table of eight columns on top.
pub fn wide(rng: &mut Rng, mut d: Draft, wrong: fn(&mut Rng) -> RawStep) -> Made {
    let depth = 1 + rng.below(3);
    let (shape, rest) = prefix(rng, &mut d, depth);
    widen(&mut d, shape[depth - 1], 8);
    let wrong = wrong(rng);
    insert(d, wrong, rest)
}

fn widen(d: &mut Draft, from: usize, to: usize) {
    for _ in from..to {
        d.steps.push(step(6, 0, 0, 0, 0, 1));
    }
}

/// A JOIN that would make this many columns.
pub fn wide_join(rng: &mut Rng, mut d: Draft, columns: usize) -> Made {
    let rest = std::mem::take(&mut d.steps);
    let table = rng.below(d.tables.len());
    let scan = step(1, table as u8, 0, 0, 0, 0);
    let left = (columns - 7).max(rng.below(9).min(columns));
    for to in [left, columns + 1 - left] {
        d.steps.extend([scan, step(5, 1, 0, 0, 0, 0)]);
        widen(&mut d, 1, to);
    }
    insert(d, step(3, 0, 0, 0, 0, 0), rest)
}
