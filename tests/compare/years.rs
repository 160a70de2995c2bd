//! What document 02's #108 says of two runs: one in each rule year, and one of the year
//! 0 with the floor written into its labels.

use crate::answers;
use crate::lent::{Input, Kept};
use crate::observe;
use crate::overlay_checks::{put_labels, NONE};
use crate::overlay_labels::{labels, words, Layers};
use crate::reference::container::{Container, InputRefusal};
use crate::reference::overlay::composed;
use crate::reference::year::{by_year, RuleYear};
use crate::reference::Overlays;
use crate::rng::Rng;
use crate::year_classes as classes;
use crate::Harness;

/// An accepted container as it is, with the labels of its overlays, and as the plan
/// reads it, in its rule year.
pub struct Accepted {
    pub plain: Container,
    pub composed: Container,
    pub read: Container,
}

impl Accepted {
    pub fn new(plain: Container, overlays: &Overlays) -> Result<Accepted, InputRefusal> {
        let composed = composed(plain.clone(), overlays)?;
        let read = by_year(composed.clone());
        Ok(Accepted { plain, composed, read })
    }

    /// The same in the year 0.
    fn in_year_0(&self) -> Accepted {
        let of = |container: &Container| Container { year: RuleYear::Earlier, ..container.clone() };
        let [plain, composed] = [&self.plain, &self.composed].map(of);
        Accepted { plain, read: composed.clone(), composed }
    }
}

/// A container with another byte 1.
fn with_year(bytes: &[u8], year: u8) -> Vec<u8> {
    let mut bytes = bytes.to_vec();
    bytes[1] = year;
    bytes
}

/// The same in the other rule year, if it has one of the two.
fn in_the_other_year(bytes: &[u8]) -> Option<Vec<u8>> {
    match *bytes {
        [_, year @ (0 | 1), ..] => Some(with_year(bytes, 1 - year)),
        _ => None,
    }
}

impl Harness {
    /// The input checks answer alike in both years.
    pub fn checked_in_both_years(
        &mut self,
        rng: &mut Rng,
        bytes: &[u8],
        found: [u32; 2],
    ) -> Result<(), String> {
        if let Some(other) = in_the_other_year(bytes) {
            let second = answers::check(&other, rng.next())?;
            if second != found {
                return Err(format!("check: {found:?}, in the other year {second:?}"));
            }
            self.classes.hit_if(found[0] == 0, "both years: check accepts");
            self.classes.hit_if(found[0] != 0, "both years: check refuses");
        }
        Ok(())
    }

    /// A run refused because of the input is refused alike in the other year.
    pub fn refused_in_both_years(
        &mut self,
        rng: &mut Rng,
        input: Input,
        answer: [u32; 4],
    ) -> Result<(), String> {
        let bytes = match in_the_other_year(input.container) {
            Some(bytes) if rng.chance(50) => bytes,
            _ => return Ok(()),
        };
        let other = Input { container: &bytes, ..input };
        self.alike(rng, other, answer).map_err(|what| format!("in the other year: {what}"))?;
        self.classes.hit(classes::REFUSED_ALIKE[answer[0] as usize - 11]);
        Ok(())
    }

    /// "each A minimum below ten is read as ten": a container of the year 1 answers as
    /// one of the year 0 that has these minima, without overlays.
    pub fn floor_written(
        &mut self,
        rng: &mut Rng,
        input: Input,
        accepted: &Accepted,
        answer: [u32; 4],
    ) -> Result<(), String> {
        if accepted.read.year != RuleYear::Floor || rng.chance(40) {
            return Ok(());
        }
        let mut bytes = with_year(input.container, 0);
        put_labels(&mut bytes, &words(&labels(&accepted.read)));
        let other = Input { container: &bytes, overlays: NONE, ..input };
        self.alike(rng, other, answer).map_err(|what| format!("the floor written: {what}"))?;
        let changed = bytes[2..] != input.container[2..];
        self.classes.hit_if(changed && answer[0] == 0, "floor written: released");
        self.classes.hit_if(changed && answer[0] == 35, "floor written: refused with 35");
        let others = changed && answer[0] != 0 && answer[0] != 35;
        self.classes.hit_if(others, "floor written: refused otherwise");
        let overlays = input.overlays != NONE;
        self.classes.hit_if(changed && overlays, "floor written: overlays composed before it");
        Ok(())
    }

    /// What the year 1 releases the year 0 releases, the same rows and the same text;
    /// and two inputs of the year 0 are no less alike.
    pub fn in_year_0(
        &mut self,
        rng: &mut Rng,
        input: Input,
        accepted: &Accepted,
        layers: &Layers,
        answer: [u32; 4],
        kept: &Kept,
    ) -> Result<(), String> {
        if accepted.read.year != RuleYear::Floor {
            return Ok(());
        }
        let (bytes, steps) = (with_year(input.container, 0), accepted.read.plan.len());
        let other = Input { container: &bytes, ..input };
        let (second, left) = self
            .less_strict(rng, other, steps, answer, kept)
            .map_err(|what| format!("in the year 0: {what}"))?;
        // Until a GROUP the floor takes no stage and leaves none.
        for (one, two) in kept.lines.chunks(4).zip(left.lines.chunks(4)) {
            if one[0] == 7 {
                break;
            }
            if one != two {
                return Err(format!("trace line {one:?}, in the year 0 {two:?}"));
            }
        }
        let twin = accepted.in_year_0();
        let seen = observe::observe(other, &twin.plain, &twin.read, &mut self.scratch);
        classes::in_both_years(input, answer, second, &seen, &mut self.classes);
        if rng.chance(40) && self.locked(rng, other, layers, &twin.read, second, &seen)? {
            self.classes.hit(match second[0] {
                0 => "pair in the year 0 of a container of the year 1: released",
                _ => "pair in the year 0 of a container of the year 1: refused",
            });
        }
        Ok(())
    }
}
