//! The slices lent to a run, each with a margin after it that nothing may touch:
//! those for writing, filled with a known pattern, and those for reading.

use crate::reference::Overlays;
use crate::rng::{mix, Rng};

/// The slices that 1 tests, and what a run needs of each: work values, work
/// labels, work marks, output and trace. Of the text's slice it needs nothing.
pub type Lengths = [usize; 5];
pub const NEEDED: Lengths = [8_192, 8_192, MARKS, OUTPUT, 256];
pub const MARKS: usize = 1_024;
pub const OUTPUT: usize = 2_048;
pub const NAMES: [&str; 6] =
    ["work values", "work labels", "work marks", "output", "trace", "text"];
pub const MARGIN: usize = 16;

/// What a run is given to read.
#[derive(Clone, Copy)]
pub struct Input<'a> {
    pub container: &'a [u8],
    pub draws: &'a [i64],
    pub overlays: Overlays<'a>,
}

/// The same with a margin after each.
#[derive(Clone, Default, PartialEq)]
pub struct Read {
    container: Vec<u8>,
    draws: Vec<i64>,
    overlays: [Vec<u8>; 4],
}

#[derive(Clone, Default)]
pub struct Lent {
    pub read: Read,
    lengths: Lengths,
    room: usize,
    values: Vec<i64>,
    labels: Vec<u32>,
    marks: Vec<u64>,
    output: Vec<i64>,
    trace: Vec<u32>,
    text: Vec<u8>,
}

/// What a run left at the start of output, text and trace.
pub struct Kept {
    pub rows: Vec<i64>,
    pub text: Vec<u8>,
    pub lines: Vec<u32>,
}

/// The slices for writing, in the order of `NAMES`.
pub type Slices<'a> =
    (&'a mut [i64], &'a mut [u32], &'a mut [u64], &'a mut [i64], &'a mut [u32], &'a mut [u8]);

/// Longer than needed as a rule, sometimes of just the length needed.
pub fn long_enough(rng: &mut Rng) -> Lengths {
    NEEDED.map(|needed| needed + if rng.chance(25) { 0 } else { 1 + rng.below(80) })
}

impl Read {
    fn fill(&mut self, input: Input) {
        refill(&mut self.container, input.container.iter().copied().chain([0; MARGIN]));
        refill(&mut self.draws, input.draws.iter().copied().chain([1; MARGIN]));
        for (overlay, bytes) in self.overlays.iter_mut().zip(input.overlays) {
            refill(overlay, bytes.iter().copied().chain([1; MARGIN]));
        }
    }

    fn input(&self) -> Input<'_> {
        Input {
            container: before_margin(&self.container),
            draws: before_margin(&self.draws),
            overlays: self.overlays.each_ref().map(|overlay| before_margin(overlay)),
        }
    }
}

impl Lent {
    /// Fills every slice anew, margins included; `room` is the length of the
    /// text's slice. The pattern has no zeros, and in the text's slice no byte
    /// that a text can have. That of the marks is at times one that marks might
    /// have: one number in all places, small ones, or some just above the values.
    pub fn fill(&mut self, input: Input, lengths: Lengths, room: usize, seed: u64) {
        self.read.fill(input);
        self.lengths = lengths;
        self.room = room;
        let start = mix(seed);
        let numbers = |count: usize, salt: u64| {
            let first = start ^ salt << 32;
            (0..(count + MARGIN) as u64).map(move |place| {
                first.wrapping_add(place).wrapping_mul(6_364_136_223_846_793_005) | 1 << 32 | 1
            })
        };
        refill(&mut self.values, numbers(lengths[0], 1).map(|n| n as i64));
        refill(&mut self.labels, numbers(lengths[1], 2).map(|n| (n >> 32) as u32));
        refill(&mut self.output, numbers(lengths[3], 3).map(|n| n as i64));
        refill(&mut self.trace, numbers(lengths[4], 4).map(|n| (n >> 32) as u32));
        refill(&mut self.text, numbers(room, 5).map(|n| (n >> 56) as u8 | 0x80));
        let mark = |n: u64| match start % 4 {
            0 => n,
            1 => 1,
            2 => 1 + (n >> 56),
            _ => (1 << 47) + (n >> 53),
        };
        refill(&mut self.marks, numbers(lengths[2], 6).map(mark));
    }

    /// The slices of another run as it began, with an input of their own.
    pub fn begin_as(&mut self, other: &Lent, input: Input) {
        self.copy_from(other);
        self.read.fill(input);
    }

    pub fn copy_from(&mut self, other: &Lent) {
        self.read.fill(other.read.input());
        self.lengths = other.lengths;
        self.room = other.room;
        self.values.clone_from(&other.values);
        self.labels.clone_from(&other.labels);
        self.marks.clone_from(&other.marks);
        self.output.clone_from(&other.output);
        self.trace.clone_from(&other.trace);
        self.text.clone_from(&other.text);
    }

    pub fn slices(&mut self) -> (Input<'_>, Slices<'_>) {
        let [values, labels, marks, output, trace] = self.lengths;
        let written = (
            &mut self.values[..values],
            &mut self.labels[..labels],
            &mut self.marks[..marks],
            &mut self.output[..output],
            &mut self.trace[..trace],
            &mut self.text[..self.room],
        );
        (self.read.input(), written)
    }

    /// The rows and the text that a run with this answer released.
    pub fn released(&self, answer: [u32; 4]) -> (&[i64], &[u8]) {
        let [_, rows, columns, length] = answer.map(|number| number as usize);
        (&self.output[..rows * columns], &self.text[..length])
    }

    /// What a run with this answer and so many finished steps has written there.
    pub fn kept(&self, answer: [u32; 4], finished: usize) -> Kept {
        let (rows, text) = if answer[0] == 0 { self.released(answer) } else { Default::default() };
        let lines = self.trace[..4 * finished].to_vec();
        Kept { rows: rows.to_vec(), text: text.to_vec(), lines }
    }

    /// Where the contents of the slices for writing first differ, margins
    /// included.
    pub fn difference(&self, other: &Lent) -> Option<String> {
        let places = [
            first(&self.values, &other.values),
            first(&self.labels, &other.labels),
            first(&self.marks, &other.marks),
            first(&self.output, &other.output),
            first(&self.trace, &other.trace),
            first(&self.text, &other.text),
        ];
        let found = places.iter().position(|place| place.is_some())?;
        let (at, one, two) = places[found]?;
        Some(format!("{} element {at}: {one} and {two}", NAMES[found]))
    }

    /// The documents' last words on the slices, tested on their own: what a run
    /// with this answer and this many trace lines may have changed.
    pub fn breach(&self, before: &Lent, answer: [u32; 4], finished: usize) -> Option<String> {
        let released = answer[0] == 0;
        let begun = released || answer[0] >= 31;
        let cells = if released { (answer[1] * answer[2]) as usize } else { 0 };
        let length = if released { answer[3] as usize } else { 0 };
        let cleared = if begun { NEEDED[0] } else { 0 };
        let unmarked = if begun { MARKS } else { 0 };
        let lines = if begun { 4 * finished } else { 0 };
        let zero = self.values[..cleared].iter().all(|&value| value == 0)
            && self.labels[..cleared].iter().all(|&label| label == 0)
            && self.marks[..unmarked].iter().all(|&mark| mark == 0);
        if !zero {
            return Some("a work slice is not zero at the end".into());
        }
        let same = self.values[cleared..] == before.values[cleared..]
            && self.labels[cleared..] == before.labels[cleared..]
            && self.marks[unmarked..] == before.marks[unmarked..]
            && self.output[cells..] == before.output[cells..]
            && self.trace[lines..] == before.trace[lines..]
            && self.text[length..] == before.text[length..];
        if !same {
            return Some("something changed that has to stay".into());
        }
        None
    }
}

fn before_margin<T>(lent: &[T]) -> &[T] {
    &lent[..lent.len() - MARGIN]
}

pub fn refill<T>(vector: &mut Vec<T>, contents: impl Iterator<Item = T>) {
    vector.clear();
    vector.extend(contents);
}

/// The first element in which two slices differ.
pub fn first<T: PartialEq + Copy + Into<i128>>(
    one: &[T],
    two: &[T],
) -> Option<(usize, i128, i128)> {
    if one == two {
        return None;
    }
    let at = one.iter().zip(two).position(|(a, b)| a != b)?;
    Some((at, one[at].into(), two[at].into()))
}
