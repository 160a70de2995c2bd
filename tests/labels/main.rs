//! The label test and the stages left by words, as the product has them, and
//! byte by byte (crates/label_bytes): their answers and their times on 8,192
//! labels, well-formed and ill-formed.
//!
//!     rustc -O --edition 2021 -o labels tests/labels/main.rs \
//!         -L native=DIRECTORY -l static=label_bytes
//!     labels [ROUNDS]              400 if not given
//!
//! DIRECTORY has liblabel_bytes.a, which `tools/library DIRECTORY label_bytes`
//! makes. The versions byte by byte read the same labels in little-endian bytes.
//!
//! The answers of both are compared with each other and with the reference
//! implementation, label by label, and for all labels together: stages in four
//! tables of 256 rows and 8 columns. Then both take turns, ROUNDS times, and
//! the best time of each is printed.
//!
//! The labels have every set of stages and reach the ends of every field, as
//! labels and as words with a fault in this field alone; each reserved bit is
//! seen as the only fault. The program ends with a panic where they do not. The
//! exit status is 1 after a difference, or where a version byte by byte takes
//! less time than the one by words.

#[path = "../reference/lib.rs"]
#[allow(dead_code, unused_imports)]
mod reference;
#[path = "../compare/rng.rs"]
#[allow(dead_code)]
mod rng;

mod words;

use reference::label::{present, Label};
use std::hint::black_box;
use std::time::Instant;
use words::COUNT;

const ROWS: usize = 256;
const COLUMNS: usize = 8;

extern "C" {
    fn labels_by_words(words: *const u32, length: usize) -> u32;
    fn labels_by_bytes(bytes: *const u8, length: usize) -> u32;
    fn stages_by_words(labels: *const u32, length: usize, rows: usize, columns: usize) -> u32;
    fn stages_by_bytes(bytes: *const u8, length: usize, rows: usize, columns: usize) -> u32;
}

/// What is asked of labels: of words, of the same in bytes, and of a single
/// word by the reference.
struct Question {
    name: &'static str,
    by_words: fn(&[u32]) -> u32,
    by_bytes: fn(&[u8]) -> u32,
    reference: fn(u32) -> u32,
}

// Each pointer comes from a slice of the length given with it.
const QUESTIONS: [Question; 2] = [
    Question {
        name: "label test",
        by_words: |words| unsafe { labels_by_words(words.as_ptr(), words.len()) },
        by_bytes: |bytes| unsafe { labels_by_bytes(bytes.as_ptr(), bytes.len()) },
        reference: |word| Label::from_word(word).is_some() as u32,
    },
    Question {
        name: "stages left",
        by_words: |words| {
            let [rows, columns] = shape(words.len());
            let left = |table: &[u32]| unsafe {
                stages_by_words(table.as_ptr(), table.len(), rows, columns)
            };
            words.chunks(rows * columns).map(left).sum()
        },
        by_bytes: |bytes| {
            let [rows, columns] = shape(bytes.len() / 4);
            let left = |table: &[u8]| unsafe {
                stages_by_bytes(table.as_ptr(), table.len(), rows, columns)
            };
            bytes.chunks(4 * rows * columns).map(left).sum()
        },
        reference: |word| present(word).into_iter().map(u32::from).sum(),
    },
];

/// The rows and columns of the tables that so many labels are asked in.
fn shape(labels: usize) -> [usize; 2] {
    if labels == 1 {
        [1, 1]
    } else {
        [ROWS, COLUMNS]
    }
}

fn main() {
    let arguments: Vec<String> = std::env::args().skip(1).collect();
    let rounds = match &arguments[..] {
        [] => Some(400),
        [rounds] => rounds.parse().ok().filter(|rounds| *rounds > 0),
        _ => None,
    };
    let Some(rounds) = rounds else {
        eprintln!("usage: labels [ROUNDS]");
        std::process::exit(2)
    };
    let words = words::made();
    words::covered(&words);
    let mut good = true;
    for question in &QUESTIONS {
        good &= question.same(&words);
        good &= question.timed(&words, rounds);
    }
    std::process::exit(!good as i32)
}

fn bytes_of(words: &[u32]) -> Vec<u8> {
    words.iter().flat_map(|word| word.to_le_bytes()).collect()
}

impl Question {
    /// Whether all three answer the same, of each word and of all together.
    fn same(&self, words: &[u32]) -> bool {
        let name = self.name;
        let same = |what: String, asked: &[u32], reference: u32| {
            let by_words = (self.by_words)(asked);
            let by_bytes = (self.by_bytes)(&bytes_of(asked));
            let same = by_words == reference && by_bytes == reference;
            if !same {
                println!("{name} of {what}: {by_words} by words, {by_bytes} by bytes, {reference} by the reference");
            }
            same
        };
        let mut all = same(
            format!("all {COUNT}"),
            words,
            words.iter().map(|word| (self.reference)(*word)).sum(),
        );
        for word in words {
            all &= same(format!("{word:#010x}"), &[*word], (self.reference)(*word));
        }
        all
    }

    /// Prints the best time of both, and answers whether the one byte by byte is
    /// not the shorter. They take turns, so that what else the machine does
    /// falls on both.
    fn timed(&self, words: &[u32], rounds: usize) -> bool {
        let bytes = bytes_of(words);
        let mut best = [f64::INFINITY; 2];
        for _ in 0..rounds {
            let begin = Instant::now();
            black_box((self.by_words)(black_box(words)));
            let middle = Instant::now();
            black_box((self.by_bytes)(black_box(&bytes)));
            let end = Instant::now();
            best[0] = best[0].min((middle - begin).as_secs_f64());
            best[1] = best[1].min((end - middle).as_secs_f64());
        }
        let [by_words, by_bytes] = best.map(|seconds| seconds * 1e9 / COUNT as f64);
        let (name, times) = (self.name, by_bytes / by_words);
        println!(
            "{name}: {by_words:.2} ns a label by words, {by_bytes:.2} by bytes, {times:.2} times"
        );
        by_words <= by_bytes
    }
}
