//! The words that are tested: at the ends of every field, with one bit wrong,
//! and random ones.

use crate::reference::label::Label;
use crate::rng::Rng;
use std::collections::HashSet;

pub const COUNT: usize = 8192;

/// "Bits 22, 21, 15, 14, 13 are zero."
const RESERVED: [u32; 5] = [22, 21, 15, 14, 13];

/// A field, by its lowest bit and its width. Where the bit that it needs is one,
/// a label has there a number from the first to the last of `labels`, and the
/// numbers of `faults` are none; where the bit is zero a label has zero, and the
/// numbers of `without` are none.
struct Field {
    name: &'static str,
    at: u32,
    width: u32,
    needs: u32,
    labels: &'static [u32],
    faults: &'static [u32],
    without: &'static [u32],
}

/// In the order of the bits, so that the bit that a field needs stands in a
/// field before it.
const FIELDS: [Field; 5] = [
    Field {
        name: "transforms",
        at: 24,
        width: 4,
        needs: 30,
        labels: &[0, 1, 15],
        faults: &[],
        without: &[1, 15],
    },
    Field {
        name: "noise",
        at: 23,
        width: 1,
        needs: 28,
        labels: &[0, 1],
        faults: &[],
        without: &[1],
    },
    Field {
        name: "aggregates",
        at: 16,
        width: 5,
        needs: 29,
        labels: &[0, 1, 31],
        faults: &[],
        without: &[1, 31],
    },
    Field {
        name: "digits",
        at: 10,
        width: 3,
        needs: 26,
        labels: &[1, 6],
        faults: &[0, 7],
        without: &[1, 6, 7],
    },
    Field {
        name: "minimum",
        at: 0,
        width: 10,
        needs: 29,
        labels: &[2, 1023],
        faults: &[0, 1],
        without: &[1, 2, 1023],
    },
];

fn bit(word: u32, place: u32) -> bool {
    word >> place & 1 == 1
}

impl Field {
    fn of(&self, word: u32) -> u32 {
        word >> self.at & ((1 << self.width) - 1)
    }

    /// The word with this number in the field.
    fn set(&self, word: u32, number: u32) -> u32 {
        word ^ (self.of(word) ^ number) << self.at
    }

    /// The least and the most that a label has here, with the other fields of the
    /// word.
    fn range(&self, word: u32) -> [u32; 2] {
        if bit(word, self.needs) {
            [self.labels[0], self.labels[self.labels.len() - 1]]
        } else {
            [0, 0]
        }
    }

    /// Whether a label of these stages can have the bit that the field needs, or
    /// can lack it: bit 26, cut, stands in stage T.
    fn possible(&self, stages: u32, needed: bool) -> bool {
        match (self.needs, needed) {
            (26, true) => bit(stages << 28, 30),
            (26, false) => true,
            _ => bit(stages << 28, self.needs) == needed,
        }
    }

    /// Whether the word is ill-formed by this field alone.
    fn alone(&self, word: u32) -> bool {
        !well_formed(word) && well_formed(self.set(word, self.range(word)[0]))
    }
}

fn well_formed(word: u32) -> bool {
    Label::from_word(word).is_some()
}

/// 8,192 different words, always the same ones.
pub fn made() -> Vec<u32> {
    let mut rng = Rng::new(104);
    let mut words = Vec::new();
    let mut seen = HashSet::new();
    let mut add = |word: u32| {
        if words.len() < COUNT && seen.insert(word) {
            words.push(word);
        }
        words.len() < COUNT
    };
    for stages in 0..16 {
        // The label of these stages with the least in every field, and that with the most.
        for end in 0..2 {
            let label = FIELDS.iter().fold(stages << 28, |word, field| {
                field.set(word, field.range(word)[end])
            });
            add(label);
            for field in &FIELDS {
                for number in [field.labels, field.faults, field.without].concat() {
                    add(field.set(label, number));
                }
            }
            for place in 0..32 {
                add(label ^ 1 << place);
            }
        }
    }
    loop {
        let word = rng.next() as u32;
        if !add(word) || !add(repaired(&mut rng, word)) {
            break;
        }
    }
    for last in (1..COUNT).rev() {
        words.swap(last, rng.below(last + 1));
    }
    words
}

/// The word with every field that a label cannot have replaced.
fn repaired(rng: &mut Rng, word: u32) -> u32 {
    let zero = RESERVED
        .iter()
        .fold(word, |word, place| word & !(1 << place));
    FIELDS.iter().fold(zero, |word, field| {
        let [least, most] = field.range(word);
        if (least..=most).contains(&field.of(word)) {
            word
        } else {
            field.set(word, rng.between(least as i64, most as i64) as u32)
        }
    })
}

/// Panics where the words do not reach what they are to reach.
pub fn covered(words: &[u32]) {
    let set: HashSet<u32> = words.iter().copied().collect();
    let (labels, others): (Vec<u32>, Vec<u32>) = words.iter().partition(|word| well_formed(**word));
    assert_eq!(set.len(), COUNT, "different words");
    assert!(labels.len() >= COUNT / 4, "{} labels", labels.len());
    assert!(
        others.len() >= COUNT / 4,
        "{} that are no labels",
        others.len()
    );
    for place in 0..32 {
        let flipped = |word: &u32| set.contains(&(word ^ 1 << place));
        assert!(labels.iter().any(flipped), "bit {place} of a label flipped");
    }
    for stages in 0..16 {
        let of_stages = |words: &[u32]| {
            words
                .iter()
                .copied()
                .filter(|word| word >> 28 == stages)
                .collect()
        };
        ends_covered(stages, of_stages(&labels), of_stages(&others));
    }
}

/// The same for one set of stages, with its labels and its other words.
fn ends_covered(stages: u32, labels: Vec<u32>, others: Vec<u32>) {
    assert!(!labels.is_empty(), "a label of stages {stages:04b}");
    for place in RESERVED {
        let alone = |word: &u32| bit(*word, place) && well_formed(word ^ 1 << place);
        assert!(
            others.iter().any(alone),
            "bit {place} as the only fault, stages {stages:04b}"
        );
    }
    for field in &FIELDS {
        for needed in [true, false] {
            if !field.possible(stages, needed) {
                continue;
            }
            let has = |word: u32, number: u32| {
                bit(word, field.needs) == needed && field.of(word) == number
            };
            let (fit, faults) = if needed {
                (field.labels, field.faults)
            } else {
                (&[0][..], field.without)
            };
            for number in fit {
                let seen = labels.iter().any(|word| has(*word, *number));
                assert!(
                    seen,
                    "{} {number} of a label, stages {stages:04b}",
                    field.name
                );
            }
            for number in faults {
                let seen = others
                    .iter()
                    .any(|word| has(*word, *number) && field.alone(*word));
                assert!(
                    seen,
                    "{} {number} as the only fault, stages {stages:04b}",
                    field.name
                );
            }
        }
    }
}
