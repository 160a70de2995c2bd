//! "A label is a chain of at most four stages in falling order H, T, A, N.
//! Zero means clear."

use super::steps::{Aggregate, Operation};

/// Document 02, #107: "From now on a minimum is 2 to 1,023".
pub const SMALLEST_MINIMUM: u16 = 2;

/// The stages of one label. `Default` is the clear label.
#[derive(Clone, Copy, PartialEq, Eq, Debug, Default)]
pub struct Label {
    /// "H present, never discharged."
    pub held: bool,
    pub transform: Option<Transform>,
    pub aggregate: Option<Grouping>,
    /// N, with "noise allowed at N".
    pub noise: Option<bool>,
}

/// Stage T: "band, cut, sub, add allowed at T"; cut with its digits.
#[derive(Clone, Copy, PartialEq, Eq, Debug)]
pub struct Transform {
    pub band: bool,
    pub cut: Option<u8>,
    pub sub: bool,
    pub add: bool,
}

/// Stage A: "avg, max, min, sum, count allowed at A", and the group minimum.
#[derive(Clone, Copy, PartialEq, Eq, Debug)]
pub struct Grouping {
    pub avg: bool,
    pub max: bool,
    pub min: bool,
    pub sum: bool,
    pub count: bool,
    pub minimum: u16,
}

/// "If the highest stage present is above that level, it is forbidden."
#[derive(Clone, Copy, PartialEq, Eq, Debug)]
pub struct Forbidden;

fn bit(word: u32, place: u32) -> bool {
    word / (1u32 << place) % 2 == 1
}

/// The stages that a word has, well-formed or not, in falling order: "Bit 31: H
/// present", "Bit 30: T", "Bit 29: A", "Bit 28: N".
pub fn present(word: u32) -> [bool; 4] {
    [bit(word, 31), bit(word, 30), bit(word, 29), bit(word, 28)]
}

impl Label {
    /// Reads a word; `None` if it is ill-formed.
    pub fn from_word(word: u32) -> Option<Label> {
        Label::with_minimum_from(SMALLEST_MINIMUM, word)
    }

    /// The same where a group minimum may be as small as this.
    pub fn with_minimum_from(smallest: u16, word: u32) -> Option<Label> {
        // "Bits 22, 21, 15, 14, 13 are zero."
        for place in [22, 21, 15, 14, 13] {
            if bit(word, place) {
                return None;
            }
        }
        let digits = (word / 1024 % 8) as u8;
        let minimum = (word % 1024) as u16;

        let transform = if bit(word, 30) {
            // "digits, 1 to 6 if cut is allowed, else 0"
            let cut = match (bit(word, 26), digits) {
                (true, 1..=6) => Some(digits),
                (false, 0) => None,
                _ => return None,
            };
            Some(Transform { band: bit(word, 27), cut, sub: bit(word, 25), add: bit(word, 24) })
        } else {
            // "An absent stage has no allowed bits."
            if (24..=27).any(|place| bit(word, place)) || digits != 0 {
                return None;
            }
            None
        };

        let aggregate = if bit(word, 29) {
            // "group minimum", up to 1,023, "if A is present, else 0"
            if minimum < smallest {
                return None;
            }
            Some(Grouping {
                avg: bit(word, 20),
                max: bit(word, 19),
                min: bit(word, 18),
                sum: bit(word, 17),
                count: bit(word, 16),
                minimum,
            })
        } else {
            if (16..=20).any(|place| bit(word, place)) || minimum != 0 {
                return None;
            }
            None
        };

        let noise = match (bit(word, 28), bit(word, 23)) {
            (true, allowed) => Some(allowed),
            (false, false) => None,
            (false, true) => return None,
        };
        Some(Label { held: bit(word, 31), transform, aggregate, noise })
    }

    /// The word of this label.
    pub fn word(&self) -> u32 {
        let at = |set: bool, place: u32| if set { 1u32 << place } else { 0 };
        let mut word = at(self.held, 31);
        if let Some(t) = self.transform {
            word += at(true, 30) + at(t.band, 27) + at(t.cut.is_some(), 26);
            word += at(t.sub, 25) + at(t.add, 24) + 1024 * t.cut.unwrap_or(0) as u32;
        }
        if let Some(a) = self.aggregate {
            word += at(true, 29) + at(a.avg, 20) + at(a.max, 19) + at(a.min, 18);
            word += at(a.sum, 17) + at(a.count, 16) + a.minimum as u32;
        }
        if let Some(allowed) = self.noise {
            word += at(true, 28) + at(allowed, 23);
        }
        word
    }

    pub fn is_clear(&self) -> bool {
        self.stages() == 0
    }

    /// Where A is present, with a group minimum of this at least.
    pub fn with_minimum_at_least(&self, least: u16) -> Label {
        let raise = |stage: Grouping| Grouping { minimum: stage.minimum.max(least), ..stage };
        Label { aggregate: self.aggregate.map(raise), ..*self }
    }

    /// The number of stages present.
    pub fn stages(&self) -> u32 {
        self.held as u32
            + self.transform.is_some() as u32
            + self.aggregate.is_some() as u32
            + self.noise.is_some() as u32
    }

    /// Discharge at level T.
    pub fn after_operation(&self, operation: &Operation) -> Result<Label, Forbidden> {
        if self.held {
            return Err(Forbidden);
        }
        match self.transform {
            Some(stage) if stage.allows(operation) => Ok(Label { transform: None, ..*self }),
            _ => Ok(*self),
        }
    }

    /// Discharge at level A, in a group of that many sheets.
    pub fn after_aggregate(&self, aggregate: Aggregate, sheets: usize) -> Result<Label, Forbidden> {
        if self.held || self.transform.is_some() {
            return Err(Forbidden);
        }
        match self.aggregate {
            Some(stage) if stage.allows(aggregate) && sheets >= stage.minimum as usize => {
                Ok(Label { aggregate: None, ..*self })
            }
            _ => Ok(*self),
        }
    }

    /// Discharge at level N, document 02's #102. One operation is of that
    /// level, and N allows it or not: "Bit 23: noise allowed at N."
    pub fn after_noise(&self) -> Result<Label, Forbidden> {
        if self.held || self.transform.is_some() || self.aggregate.is_some() {
            return Err(Forbidden);
        }
        match self.noise {
            Some(true) => Ok(Label { noise: None, ..*self }),
            _ => Ok(*self),
        }
    }

    /// "Composition of two labels: a stage is present if either has it. If one
    /// has it, its fields are kept."
    pub fn compose(&self, other: &Label) -> Label {
        Label {
            held: self.held || other.held,
            transform: either(self.transform, other.transform, Transform::merge),
            aggregate: either(self.aggregate, other.aggregate, Grouping::merge),
            noise: either(self.noise, other.noise, |a, b| a && b),
        }
    }
}

fn either<S>(one: Option<S>, two: Option<S>, merge: impl Fn(S, S) -> S) -> Option<S> {
    match (one, two) {
        (Some(a), Some(b)) => Some(merge(a, b)),
        (Some(a), None) => Some(a),
        (None, b) => b,
    }
}

impl Transform {
    /// "allows the operation (cut: at least the named digits ...)"
    pub fn allows(&self, operation: &Operation) -> bool {
        match *operation {
            Operation::Add(_) => self.add,
            Operation::Sub(_) => self.sub,
            Operation::Cut(k) => self.cut.map_or(false, |digits| k >= digits),
            Operation::Band(_) => self.band,
        }
    }

    /// "allowed bits are intersected and ... the larger digits are taken;
    /// digits become 0 if cut is lost"
    fn merge(a: Transform, b: Transform) -> Transform {
        Transform {
            band: a.band && b.band,
            cut: match (a.cut, b.cut) {
                (Some(x), Some(y)) => Some(x.max(y)),
                _ => None,
            },
            sub: a.sub && b.sub,
            add: a.add && b.add,
        }
    }
}

impl Grouping {
    /// Whether the aggregate is allowed, the minimum aside.
    pub fn allows(&self, aggregate: Aggregate) -> bool {
        match aggregate {
            Aggregate::Count => self.count,
            Aggregate::Sum => self.sum,
            Aggregate::Min => self.min,
            Aggregate::Max => self.max,
            Aggregate::Avg => self.avg,
        }
    }

    /// "allowed bits are intersected and the larger minimum ... taken"
    fn merge(a: Grouping, b: Grouping) -> Grouping {
        Grouping {
            avg: a.avg && b.avg,
            max: a.max && b.max,
            min: a.min && b.min,
            sum: a.sum && b.sum,
            count: a.count && b.count,
            minimum: a.minimum.max(b.minimum),
        }
    }
}
