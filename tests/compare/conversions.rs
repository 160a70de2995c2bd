//! Conversions, #107: each container is converted by product and reference in equal
//! slices, and what comes out of those with a minimum of 1 is run.

use crate::answers;
use crate::conversion_classes as classes;
use crate::inputs::{Conversion, Given};
use crate::lent::{first, long_enough, refill, Input, MARGIN};
use crate::old_rule::is_one;
use crate::reference::container::{parse_by, Container};
use crate::reference::conversion::OLD_CHECK;
use crate::reference::convert;
use crate::reference::eval::evaluate;
use crate::reference::overlay::composed;
use crate::reference::release::released;
use crate::rng::{mix, Rng};
use crate::{texts, Harness};

/// The elements that a conversion needs for its offsets.
pub const OFFSETS: usize = 8_192;

/// The lengths of the slices for the new container and for the offsets.
type Lengths = [usize; 2];

/// The slices lent to a conversion, filled with a known pattern, each with a margin
/// after it that nothing may touch.
#[derive(Clone, Default)]
pub struct Room {
    lengths: Lengths,
    converted: Vec<u8>,
    offsets: Vec<u32>,
}

#[derive(Default)]
pub struct Rooms {
    before: Room,
    ours: Room,
    theirs: Room,
}

impl Room {
    fn fill(&mut self, lengths: Lengths, seed: u64) {
        self.lengths = lengths;
        let start = mix(seed);
        let numbers = |count: usize| {
            let places = 0..(count + MARGIN) as u64;
            places.map(move |at| start.wrapping_add(at).wrapping_mul(6_364_136_223_846_793_005))
        };
        refill(&mut self.converted, numbers(lengths[0]).map(|n| (n >> 56) as u8));
        refill(&mut self.offsets, numbers(lengths[1]).map(|n| (n >> 32) as u32));
    }

    fn copy_from(&mut self, other: &Room) {
        self.lengths = other.lengths;
        self.converted.clone_from(&other.converted);
        self.offsets.clone_from(&other.offsets);
    }

    pub fn slices(&mut self) -> (&mut [u8], &mut [u32]) {
        (&mut self.converted[..self.lengths[0]], &mut self.offsets[..self.lengths[1]])
    }

    /// Where the contents first differ, from these elements on.
    fn difference(&self, other: &Room, from: Lengths) -> Option<String> {
        let bytes = first(&self.converted[from[0]..], &other.converted[from[0]..]);
        let offsets = first(&self.offsets[from[1]..], &other.offsets[from[1]..]);
        let (name, from, (at, one, two)) = match (bytes, offsets) {
            (Some(found), _) => ("converted", from[0], found),
            (_, found) => ("offsets", from[1], found?),
        };
        Some(format!("{name} element {}: {one} and {two}", from + at))
    }
}

/// As long as needed, one element longer, or longer still.
fn enough(rng: &mut Rng, container: usize) -> Lengths {
    [container, OFFSETS].map(|needed| match rng.below(4) {
        0 | 1 => needed,
        2 => needed + 1,
        _ => needed + 2 + rng.below(80),
    })
}

impl Harness {
    /// Converts the container; `checked` is what the input checks answer of it, and
    /// `plain` the container where they accept it.
    pub fn conversion(
        &mut self,
        rng: &mut Rng,
        given: &Given,
        checked: [u32; 2],
        plain: Option<&Container>,
    ) -> Result<(), String> {
        let bytes = &given.container[..];
        let lengths = enough(rng, bytes.len());
        let answer = self.convert(bytes, lengths, rng.next())?;
        let made = self.made(bytes, answer)?;
        if given.conversion.as_ref().map_or(false, |expected| *expected != made) {
            let expected = &given.conversion;
            return Err(format!("conversion: {made:?}, made for {expected:?}"));
        }
        beside_the_check(bytes, &made, checked)?;
        classes::lengths(bytes.len(), lengths, &mut self.classes);
        match (made, plain) {
            (Err(refusal), _) => classes::refused(bytes, refusal, checked, &mut self.classes),
            (Ok(_), Some(plain)) => classes::unchanged(plain, &mut self.classes),
            (Ok(offsets), None) => self.changed(rng, given, &offsets)?,
        }
        if rng.chance(12) {
            self.short_conversion(rng, bytes, answer)?;
        }
        Ok(())
    }

    /// Converts by both in equal slices, and compares answers and contents.
    fn convert(
        &mut self,
        bytes: &[u8],
        lengths: Lengths,
        pattern: u64,
    ) -> Result<[u32; 2], String> {
        let Rooms { before, ours, theirs } = &mut self.rooms;
        before.fill(lengths, pattern);
        ours.copy_from(before);
        theirs.copy_from(before);
        let (converted, offsets) = ours.slices();
        let one = convert(bytes, converted, offsets).numbers();
        let two = answers::convert(bytes, theirs, pattern)?;
        if one != two {
            return Err(format!("conversion: reference {one:?}, product {two:?}"));
        }
        match ours.difference(theirs, [0, 0]) {
            Some(what) => Err(format!("conversion, reference and product: {what}")),
            None => Ok(one),
        }
    }

    /// What the product's conversion has made, and that it has written no more: the
    /// container with 2 in place of 1 at each offset.
    fn made(&self, bytes: &[u8], answer: [u32; 2]) -> Result<Conversion, String> {
        let Rooms { before, theirs, .. } = &self.rooms;
        let (number, count) = (answer[0], answer[1] as usize);
        let written = if number == 0 { [bytes.len(), count] } else { [0, 0] };
        if let Some(what) = theirs.difference(before, written) {
            return Err(format!("conversion, changed and to stay: {what}"));
        }
        if number != 0 {
            return Ok(Err((number, count)));
        }
        let offsets: Vec<usize> = theirs.offsets[..count].iter().map(|&at| at as usize).collect();
        let mut wanted = bytes.to_vec();
        for &at in &offsets {
            if wanted.get(at) != Some(&1) {
                return Err(format!("conversion: no 1 at {at}"));
            }
            wanted[at] = 2;
        }
        if theirs.converted[..bytes.len()] != wanted {
            return Err("conversion: another byte than 2 in place of 1 changed".into());
        }
        Ok(Ok(offsets))
    }

    /// The new container is past the checks and converted no further, and what a run
    /// of it releases was released before.
    fn changed(&mut self, rng: &mut Rng, given: &Given, offsets: &[usize]) -> Result<(), String> {
        let old = parse_by(&OLD_CHECK, &given.container);
        let old = old.map_err(|refusal| format!("converted in spite of {refusal:?}"))?;
        classes::changed(&given.container, &old, offsets, &mut self.classes);
        let new = self.rooms.theirs.converted[..given.container.len()].to_vec();
        let checked = answers::check(&new, rng.next())?;
        if checked != [0, 0] {
            return Err(format!("check of a converted container: {checked:?}"));
        }
        let again = self.convert(&new, enough(rng, new.len()), rng.next())?;
        if self.made(&new, again)? != Ok(vec![]) {
            return Err("a converted container changed again".into());
        }
        let input = Input { container: &new, ..given.input() };
        let answer = self.both(input, long_enough(rng), texts::LONGEST, rng.next())?;
        // Past the checks of the container, and past those of its overlays, unless one
        // of them is wrong.
        let old = composed(old, &input.overlays);
        let last = if old.is_ok() { 22 } else { 20 };
        if (1..=last).contains(&answer[0]) {
            return Err(format!("run of a converted container: {answer:?}"));
        }
        let rows = (answer[0] == 0).then(|| self.theirs.released(answer).0.to_vec());
        let outcome = |old: Container| evaluate(&old, input.draws).outcome.ok();
        let before = old.ok().and_then(outcome).map(|table| released(&table));
        if rows.is_some() && rows != before {
            return Err("released, and otherwise by the old rule".into());
        }
        classes::run(answer[0], before.is_some(), &mut self.classes);
        Ok(())
    }

    /// Refusal 1, for each of the slices and for both, and for the answer's.
    fn short_conversion(
        &mut self,
        rng: &mut Rng,
        bytes: &[u8],
        answer: [u32; 2],
    ) -> Result<(), String> {
        let needed = [bytes.len(), OFFSETS];
        for short in [[true, false], [false, true], [true, true]] {
            let mut lengths = enough(rng, bytes.len());
            for slice in (0..2).filter(|&slice| short[slice] && needed[slice] > 0) {
                let less = rng.below(needed[slice]);
                lengths[slice] = rng.pick(&[needed[slice] - 1, needed[slice] - 1, less, 0]);
            }
            if lengths[0] >= needed[0] && lengths[1] >= needed[1] {
                continue;
            }
            let refused = self.convert(bytes, lengths, rng.next())?;
            if refused != [1, 0] || self.made(bytes, refused)? != Err((1, 0)) {
                return Err(format!("conversion, slices {lengths:?}: {refused:?}"));
            }
            classes::short(bytes, lengths, answer, &mut self.classes);
            self.short_answer(bytes, lengths, rng.next())?;
        }
        self.short_answer(bytes, enough(rng, bytes.len()), rng.next())?;
        self.classes.hit("conversion: 1, answer of 0 and of 1 elements");
        Ok(())
    }

    /// Answers too short: nothing at all changes.
    fn short_answer(&mut self, bytes: &[u8], lengths: Lengths, seed: u64) -> Result<(), String> {
        let Rooms { before, theirs, .. } = &mut self.rooms;
        before.fill(lengths, seed);
        theirs.copy_from(before);
        answers::short_convert(bytes, theirs, seed)?;
        match theirs.difference(before, [0, 0]) {
            Some(what) => Err(format!("conversion, answer too short: {what}")),
            None => Ok(()),
        }
    }
}

/// The input checks refuse what the conversion changes, at its first label, and accept
/// what it leaves as it is. What it refuses they refuse as well, so or at a minimum of 1
/// that comes before. Of the rule year 1 it refuses everything, and they do not.
fn beside_the_check(bytes: &[u8], made: &Conversion, checked: [u32; 2]) -> Result<(), String> {
    let [number, place] = checked.map(|number| number as usize);
    let floor = bytes.get(1) == Some(&1);
    let one = || {
        let field = bytes.get(place..place + 4);
        number == 15 && field.map_or(false, |f| is_one(u32::from_le_bytes(f.try_into().unwrap())))
    };
    let fits = match made {
        _ if floor => *made == Err((11, 0)),
        Ok(offsets) => match offsets.first() {
            Some(&first) => (number, place) == (15, first),
            None => (number, place) == (0, 0),
        },
        Err((old, at)) if (number, place) == (*old as usize, *at) => true,
        Err((11 | 12, _)) => false,
        Err((13..=15, at)) => one() && place < *at,
        Err(_) => one(),
    };
    if fits {
        Ok(())
    } else {
        Err(format!("conversion: {made:?}, and the input checks {checked:?}"))
    }
}
