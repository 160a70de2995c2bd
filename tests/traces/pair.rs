//! One pair: two containers that differ only in the values of locked cells, accepted or
//! refused alike.

use crate::classes::Classes;
use crate::damage::DAMAGES;
use crate::draft::Draft;
use crate::labels::{labelled_cells, lock, Lock};
use crate::lent::{Input, Lengths, Lent, NEEDED};
use crate::reference::container::{parse, Container};
use crate::reference::overlay::composed;
use crate::reference::value::{HIGHEST, LOWEST};
use crate::reference::year::by_year;
use crate::rng::Rng;
use crate::values::{self, Numbers};
use crate::watch::{narrow, signs, watch, Watched};
use crate::wrong_overlays::{prepared, WRONG_OVERLAYS};
use crate::{generate, plans, reference, texts};

pub struct Pair {
    /// The two containers; all else is the same in both runs.
    pub sides: [Vec<u8>; 2],
    pub draws: Vec<i64>,
    pub overlays: [Vec<u8>; 4],
    pub lengths: Lengths,
    pub room: usize,
    pub answer: [u32; 4],
    /// The steps of an accepted plan, each in a word or two.
    pub steps: Vec<String>,
    pub classes: Classes,
}

/// More than this, in cells of the container and of the tables made and in rows compared
/// with rows, makes a long trace, which only a few pairs have.
const WORK: usize = 2_000;

/// A pair; `None` where there is no locked cell for it to differ in, or its runs are too
/// long.
pub fn pair(rng: &mut Rng) -> Option<Pair> {
    let most = if rng.chance(2) { usize::MAX } else { WORK };
    let draft = if rng.chance(50) { generate::valid(rng) } else { plans::locked(rng) };
    // What is made wrong needs room for more.
    let way = if draft.bytes().len() > 50_000 { 0 } else { rng.below(100) };
    let pair = match way {
        0..=79 => accepted(rng, draft, most)?,
        80..=89 => damaged(rng, draft)?,
        _ => with_wrong_overlay(rng, draft)?,
    };
    let bytes = pair.sides[0].len() + pair.overlays.iter().map(Vec::len).sum::<usize>();
    (bytes / 12 <= most).then_some(pair)
}

/// A locked cell whose values differ.
struct Differing {
    table: usize,
    cell: usize,
    lock: Lock,
    /// The container's own label does not lock it.
    by_overlay: bool,
    both: [i64; 2],
}

/// The container as its plan reads it.
fn read(container: &[u8], overlays: &[Vec<u8>; 4]) -> Container {
    let overlays = overlays.each_ref().map(|overlay| &overlay[..]);
    let read = parse(container).and_then(|plain| composed(plain, &overlays));
    by_year(read.expect("a generated container is accepted"))
}

/// Other values in the locked cells of a draft, by its labels and its overlays; `None` if
/// none differs.
fn sides(rng: &mut Rng, draft: &Draft) -> Option<([Draft; 2], Vec<Differing>)> {
    let bytes = draft.bytes();
    let own = read(&bytes, &Default::default());
    let container = read(&bytes, &draft.overlay_bytes());
    let numbers = Numbers::of(&container.plan);
    let schemes = values::sides(rng, &draft.widths());
    let mut sides = [draft.clone(), draft.clone()];
    let mut differing = Vec::new();
    let locked = labelled_cells(&bytes, &container).into_iter().filter(|cell| cell.2.any());
    for (_, _, lock_of, (table, cell)) in locked {
        let columns = draft.tables[table].columns;
        let (row, column) = (cell / columns, cell % columns);
        let both = schemes.each_ref().map(|side| side.value(rng, &numbers, table, row, column));
        for (side, value) in sides.iter_mut().zip(both) {
            side.tables[table].cells[cell].0 = value;
        }
        if both[0] != both[1] {
            let by_overlay = !lock(&own.tables[table].cells[cell].label, &own.plan).any();
            differing.push(Differing { table, cell, lock: lock_of, by_overlay, both });
        }
    }
    (!differing.is_empty()).then_some((sides, differing))
}

/// A container that is accepted, at times with too short a slice or too little room for the
/// text.
fn accepted(rng: &mut Rng, draft: Draft, most: usize) -> Option<Pair> {
    let (sides, cells) = sides(rng, &draft)?;
    let mut pair = Pair::new(sides.map(|side| side.bytes()), &draft);
    let containers = pair.sides.each_ref().map(|bytes| read(bytes, &pair.overlays));
    let Watched { scanned, done, work } = watch(&containers, &draft.draws, &mut pair.classes);
    // A plan that reads no cell that differs shows little.
    let read = cells.iter().filter(|cell| scanned[cell.table]);
    if work > most || read.clone().count() == 0 {
        return None;
    }
    pair.steps = containers[0].plan.iter().map(crate::watch::name).collect();
    if rng.chance(2) {
        let slice = rng.below(NEEDED.len());
        pair.lengths[slice] = rng.pick(&[0, NEEDED[slice] - 1]);
        pair.classes = Classes::default();
        return Some(pair.answered());
    }
    read.for_each(|cell| cell.tell(&mut pair.classes));
    pair.classes.hit(if draft.year == 0 { "year 0" } else { "year 1" });
    let lent = pair.overlays.iter().any(|overlay| !overlay.is_empty());
    pair.classes.hit_if(lent, "overlays lent");
    let numbered = draft.tables.iter().any(|table| table.sheets > 0);
    pair.classes.hit_if(numbered, "sheet numbers");
    if rng.chance(10) {
        if let [0, _, columns, length] = pair.by_reference() {
            pair.room = texts::too_little(rng, length as usize, columns as usize);
        }
    }
    let mut pair = pair.answered();
    let released = pair.answer[0] == 0;
    done.into_iter().for_each(|class| pair.classes.hit_if(released, class));
    Some(pair)
}

/// A container with something wrong, the same on both sides.
fn damaged(rng: &mut Rng, draft: Draft) -> Option<Pair> {
    let (sides, cells) = sides(rng, &draft)?;
    let (class, _, make) = DAMAGES[rng.below(DAMAGES.len())];
    let seed = rng.next();
    let wrong = |side: Draft| make(&mut Rng::new(seed), side).0;
    // The same with values of which every byte differs shows where these cells are.
    let [zeros, ones] = [0, -1].map(|value| {
        let mut side = sides[0].clone();
        cells.iter().for_each(|at| side.tables[at.table].cells[at.cell].0 = value);
        wrong(side)
    });
    let sides = sides.map(wrong);
    for side in &sides {
        assert_eq!(side.len(), zeros.len(), "{class}");
        let elsewhere = (0..side.len()).filter(|&at| zeros[at] == ones[at]);
        elsewhere
            .for_each(|at| assert_eq!(side[at], zeros[at], "{class}: no value of a locked cell"));
    }
    // What differs may be gone.
    (sides[0] != sides[1]).then(|| Pair::new(sides, &draft).answered())
}

/// An accepted container with an overlay that is not.
fn with_wrong_overlay(rng: &mut Rng, mut draft: Draft) -> Option<Pair> {
    draft.overlays = Default::default();
    let draft = prepared(rng, draft);
    let (sides, _) = sides(rng, &draft)?;
    let mut pair = Pair::new(sides.map(|side| side.bytes()), &draft);
    let (_, _, make) = WRONG_OVERLAYS[rng.below(WRONG_OVERLAYS.len())];
    pair.overlays[rng.below(4)] = make(rng, &draft.tables).0;
    Some(pair.answered())
}

impl Differing {
    fn tell(&self, classes: &mut Classes) {
        let both = self.both;
        classes.hit(self.lock.class());
        classes.hit_if(self.by_overlay, self.lock.overlay_class());
        classes.hit_if(both.contains(&LOWEST), "value -2^47 on one side");
        classes.hit_if(both.contains(&HIGHEST), "value 2^47 - 1 on one side");
        classes.hit_if(both.contains(&0), "value 0 on one side");
        let ends = both == [LOWEST, HIGHEST] || both == [HIGHEST, LOWEST];
        classes.hit_if(ends, "both ends, one on each side");
        classes.hit_if(signs(both), "both signs, one on each side");
        let [one, two] = both.map(narrow);
        classes.hit_if(one != two, "32 bits on one side, more on the other");
    }
}

impl Pair {
    fn new(sides: [Vec<u8>; 2], draft: &Draft) -> Pair {
        Pair {
            sides,
            draws: draft.draws.clone(),
            overlays: draft.overlay_bytes(),
            lengths: NEEDED,
            room: texts::LONGEST,
            answer: [0; 4],
            steps: Vec::new(),
            classes: Classes::default(),
        }
    }

    /// With its answer.
    fn answered(mut self) -> Pair {
        self.answer = self.by_reference();
        match self.answer[0] {
            0 => self.classes.hit("released"),
            number => self.classes.hit(&format!("refused with {number}")),
        }
        self
    }

    /// What the reference answers to both sides; it leaves the same in the slices of both.
    fn by_reference(&self) -> [u32; 4] {
        let ends = self.sides.each_ref().map(|container| {
            let overlays = self.overlays.each_ref().map(|overlay| &overlay[..]);
            let input = Input { container, draws: &self.draws, overlays };
            let mut lent = Lent::default();
            lent.fill(input, self.lengths, self.room, 1);
            let (Input { container, draws, overlays }, written) = lent.slices();
            let (values, labels, marks, output, trace, text) = written;
            let answer = reference::run(
                container, draws, &overlays, values, labels, marks, output, trace, text,
            );
            (answer.numbers(), lent)
        });
        let [(one, left), (two, other)] = &ends;
        assert_eq!(one, two, "the sides are answered alike");
        assert_eq!(left.difference(other), None, "the sides leave the same");
        *one
    }
}
