//! What document 02's #106 says of two runs: another order of overlays, none of
//! them, one more of zero labels, and the same labels divided otherwise.

use crate::draft::RawOverlay;
use crate::generate;
use crate::inputs::Given;
use crate::labels::labelled_cells;
use crate::lent::{long_enough, Input, Kept};
use crate::overlay_labels::{labels, words, written, zeros};
use crate::overlays::divided;
use crate::reference::container::{parse, Container};
use crate::reference::year::{RuleYear, FLOOR};
use crate::reference::Overlays;
use crate::rng::Rng;
use crate::sheets::shuffle;
use crate::years::Accepted;
use crate::{texts, Harness};

pub const NONE: Overlays = [&[]; 4];

const ZEROS_IN: [&str; 4] = [
    "zero labels added: slice 0",
    "zero labels added: slice 1",
    "zero labels added: slice 2",
    "zero labels added: slice 3",
];

fn lent(overlays: &Overlays) -> usize {
    overlays.iter().filter(|overlay| !overlay.is_empty()).count()
}

impl Harness {
    /// "The order of accepted overlays makes no difference."
    pub fn other_order(
        &mut self,
        rng: &mut Rng,
        input: Input,
        answer: [u32; 4],
    ) -> Result<(), String> {
        if lent(&input.overlays) == 0 || rng.chance(45) {
            return Ok(());
        }
        let mut overlays = input.overlays;
        if overlays.iter().all(|overlay| *overlay == overlays[0]) {
            return Ok(());
        }
        while overlays == input.overlays {
            shuffle(rng, &mut overlays);
        }
        let other = Input { overlays, ..input };
        self.alike(rng, other, answer).map_err(|what| format!("another order: {what}"))?;
        let without_empty = |overlays: &Overlays| -> Vec<Vec<u8>> {
            overlays.iter().filter(|o| !o.is_empty()).map(|overlay| overlay.to_vec()).collect()
        };
        if without_empty(&overlays) != without_empty(&input.overlays) {
            self.classes.hit(match lent(&overlays) {
                2 => "order: two exchanged",
                3 => "order: three in another order",
                _ => "order: four in another order",
            });
        }
        self.classes.hit_if(lent(&overlays) == 1, "order: the only one in another slice");
        self.classes.hit_if(answer[0] == 0, "order: released");
        self.classes.hit_if(answer[0] != 0, "order: refused because of the state");
        Ok(())
    }

    /// An overlay of zero labels in an empty slice, or in all of them, changes
    /// nothing, whatever the answer is.
    pub fn zeros_added(
        &mut self,
        rng: &mut Rng,
        input: Input,
        container: &Container,
        answer: [u32; 4],
    ) -> Result<(), String> {
        let empty: Vec<usize> = (0..4).filter(|&at| input.overlays[at].is_empty()).collect();
        if empty.is_empty() || rng.chance(75) {
            return Ok(());
        }
        let (zeros, all) = (zeros(container), rng.chance(20));
        let chosen = if all { empty.clone() } else { vec![rng.pick(&empty)] };
        let mut overlays = input.overlays;
        chosen.iter().for_each(|&slice| overlays[slice] = &zeros);
        let other = Input { overlays, ..input };
        self.alike(rng, other, answer).map_err(|what| format!("zero labels added: {what}"))?;
        chosen.iter().for_each(|&slice| self.classes.hit(ZEROS_IN[slice]));
        self.classes.hit_if(chosen.len() == 4, "zero labels added: in all four slices");
        self.classes.hit_if(empty.len() < 4, "zero labels added: beside others");
        self.classes.hit(match answer[0] {
            0 => "zero labels added: released",
            21 => "zero labels added: refused with 21",
            22 => "zero labels added: refused with 22",
            _ => "zero labels added: refused because of the state",
        });
        Ok(())
    }

    /// "The secrecy rule speaks of the composed labels": the same ones from another
    /// container and other overlays, perhaps with other values in locked cells.
    pub fn divided_otherwise(
        &mut self,
        rng: &mut Rng,
        input: Input,
        accepted: &Accepted,
        answer: [u32; 4],
    ) -> Result<(), String> {
        if rng.chance(75) {
            return Ok(());
        }
        let container = &accepted.read;
        let mut whole = words(&labels(&accepted.composed));
        let floor = container.year == RuleYear::Floor;
        let others = floor && rng.chance(50) && other_minima(rng, &mut whole);
        let count = 1 + rng.below(4);
        let mut parts = divided(rng, &whole, count);
        let own = parts.remove(0);
        let mut bytes = input.container.to_vec();
        let mut changed = false;
        if rng.chance(50) {
            for (offset, _, lock, _) in labelled_cells(input.container, container) {
                if lock.any() && rng.chance(70) {
                    let value = generate::number(rng).to_le_bytes();
                    changed |= bytes[offset..offset + 8] != value;
                    bytes[offset..offset + 8].copy_from_slice(&value);
                }
            }
        }
        put_labels(&mut bytes, &own);
        let written: Vec<Vec<u8>> = parts.iter().map(|labels| written(container, labels)).collect();
        let mut overlays = NONE;
        overlays.iter_mut().zip(&written).for_each(|(slice, overlay)| *slice = overlay);
        shuffle(rng, &mut overlays);
        let other = Input { container: &bytes, overlays, ..input };
        let second = parse(&bytes).and_then(|plain| Accepted::new(plain, &overlays));
        match second.map(|second| labels(&second.read) == labels(container)) {
            Ok(true) => (),
            Ok(false) => return Err("divided labels do not compose to the same".into()),
            Err(refusal) => return Err(format!("divided labels: {refusal:?}")),
        }
        self.alike(rng, other, answer).map_err(|what| format!("divided otherwise: {what}"))?;
        self.classes.hit_if(answer[0] == 0, "divided otherwise: released");
        self.classes.hit_if(answer[0] != 0, "divided otherwise: refused because of the state");
        let none = lent(&input.overlays) == 0;
        self.classes.hit_if(none, "divided otherwise: without overlays in one of the two");
        let same = bytes == input.container;
        self.classes.hit_if(same && !none, "divided otherwise: the same container");
        let plain = parse(input.container).map(|plain| words(&labels(&plain)) == own);
        self.classes.hit_if(plain == Ok(false), "divided otherwise: other labels in the container");
        self.classes.hit_if(changed, "divided otherwise: other values in locked cells");
        self.classes.hit_if(floor, "divided otherwise: in the year 1");
        self.classes.hit_if(others, "divided otherwise: other minima below ten");
        Ok(())
    }

    /// "If a run with overlays releases, the run without them releases the same
    /// rows."
    pub fn without(
        &mut self,
        rng: &mut Rng,
        input: Input,
        steps: usize,
        answer: [u32; 4],
        kept: &Kept,
    ) -> Result<(), String> {
        if lent(&input.overlays) == 0 {
            return Ok(());
        }
        let other = Input { overlays: NONE, ..input };
        let (second, _) = self
            .less_strict(rng, other, steps, answer, kept)
            .map_err(|what| format!("without overlays: {what}"))?;
        self.classes.hit(match (answer[0], second[0]) {
            (0, _) => "overlays: the same answer without them, released",
            (34, _) => "overlays: the same answer without them, 34",
            (36, _) => "overlays: the same answer without them, 36",
            (37, _) => "overlays: the same answer without them, 37",
            _ if answer == second => "overlays: the same refusal without them, 31 to 35",
            (31, 0) => "overlays: 31, released without them",
            (32, 0) => "overlays: 32, released without them",
            (33, 0) => "overlays: 33, released without them",
            (_, 0) => "overlays: 35, released without them",
            _ if answer[1] < second[1] => "overlays: refused a step earlier than without them",
            _ => "overlays: refused at another place of the same step",
        });
        Ok(())
    }

    /// The same run under labels that are no stricter: what it released is released,
    /// the same rows and the same text. More than that: labels decide 31, 32, 33 and 35
    /// alone, so that every other answer stays, and no step is refused that was
    /// finished. Answers what the second run answers, and what it has written.
    pub fn less_strict(
        &mut self,
        rng: &mut Rng,
        other: Input,
        steps: usize,
        answer: [u32; 4],
        kept: &Kept,
    ) -> Result<([u32; 4], Kept), String> {
        let second = self.both(other, long_enough(rng), texts::LONGEST, rng.next())?;
        let finished = |answer: [u32; 4]| match answer[0] {
            0 => steps,
            _ => answer[1] as usize,
        };
        if (1..31).contains(&second[0]) || finished(second) < finished(answer) {
            return Err(format!("{answer:?}, then {second:?}"));
        }
        let left = self.theirs.kept(second, finished(second));
        // Kind, rows and columns are the same, and no stage is left that was not.
        for (one, two) in kept.lines.chunks(4).zip(left.lines.chunks(4)) {
            if one[..3] != two[..3] || one[3] < two[3] {
                return Err(format!("trace line {one:?}, then {two:?}"));
            }
        }
        let by_labels = matches!(answer[0], 31 | 32 | 33 | 35);
        if !by_labels && (second != answer || left.rows != kept.rows || left.text != kept.text) {
            return Err(format!("{answer:?}, then {second:?} or other contents"));
        }
        Ok((second, left))
    }

    /// Of two wrong overlays the other one is told when they are exchanged.
    pub fn exchanged(&mut self, rng: &mut Rng, given: &Given) -> Result<(), String> {
        let input = given.input();
        let (one, two, (class, number, offset)) = match given.exchanged {
            Some(exchanged) => exchanged,
            None => return Ok(()),
        };
        let mut overlays = input.overlays;
        overlays.swap(one, two);
        let other = Input { overlays, ..input };
        let answer = self.both(other, long_enough(rng), 0, rng.next())?;
        if answer != [number, offset as u32, 0, 0] {
            return Err(format!("{class}, exchanged: {answer:?}, made for {number} at {offset}"));
        }
        self.classes.hit("wrong overlays exchanged: the other one is told");
        Ok(())
    }

    /// A container that is refused is refused with any other overlays.
    pub fn unread(&mut self, rng: &mut Rng, input: Input, answer: [u32; 4]) -> Result<(), String> {
        if rng.chance(70) {
            return Ok(());
        }
        let length = rng.pick(&[0, 1, 2, 10, 60]);
        let any: Vec<u8> = (0..length).map(|_| rng.next() as u8).collect();
        let mut overlays = input.overlays;
        overlays[rng.below(4)] = &any;
        shuffle(rng, &mut overlays);
        let other = Input { overlays, ..input };
        self.alike(rng, other, answer).map_err(|what| format!("other overlays: {what}"))?;
        self.classes.hit("other overlays, refused because of the container");
        Ok(())
    }
}

/// Other minima where the floor reads ten; whether there are any.
fn other_minima(rng: &mut Rng, labels: &mut RawOverlay) -> bool {
    let mut changed = false;
    for word in labels.iter_mut().flatten() {
        let minimum = *word & 0x3FF;
        if (2..=FLOOR as u32).contains(&minimum) {
            *word = *word - minimum + 2 + rng.below(9) as u32;
            changed |= *word & 0x3FF != minimum;
        }
    }
    changed
}

/// Gives the cells of an accepted container these labels.
pub fn put_labels(bytes: &mut [u8], labels: &RawOverlay) {
    for (table, words) in labels.iter().enumerate() {
        let pair = 2 + 8 * (table + 1);
        let start = u32::from_le_bytes(bytes[pair..pair + 4].try_into().unwrap()) as usize + 4;
        for (cell, word) in words.iter().enumerate() {
            let at = start + 12 * cell + 8;
            bytes[at..at + 4].copy_from_slice(&word.to_le_bytes());
        }
    }
}
