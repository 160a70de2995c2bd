//! The lines of crates/label_trials, by the reference. A question is one of
//!
//!     WORD                            the word's test, stages and highest stage
//!     WORD with WORD                  a composition
//!     WORD transform NUMBER digits K  a discharge at level T
//!     WORD aggregate NUMBER sheets K  a discharge at level A
//!     WORD noise                      a discharge at level N
//!
//! with words of eight hexadecimal digits. "b = 0 add, 1 sub, 2 cut, 3 band",
//! "b = 0 count, 1 sum, 2 min, 3 max, 4 avg".

use super::reference::label::{present, Forbidden, Label};
use super::reference::steps::{Aggregate, Operand, Operation};

/// A question with its answer; `None` if it is no question.
pub fn line(question: &str) -> Option<String> {
    let words: Vec<&str> = question.split(' ').collect();
    let answer = match words[..] {
        [word] => return Some(format!("{question} {}", test(hexadecimal(word)?))),
        [left, "with", right] => compose(hexadecimal(left)?, hexadecimal(right)?),
        [word, "transform", number, "digits", digits] => {
            transform(hexadecimal(word)?, number.parse().ok()?, digits.parse().ok()?)
        }
        [word, "aggregate", number, "sheets", sheets] => {
            aggregate(hexadecimal(word)?, number.parse().ok()?, sheets.parse().ok()?)
        }
        [word, "noise"] => noise(hexadecimal(word)?),
        _ => return None,
    };
    Some(format!("{question} gives {answer}"))
}

fn hexadecimal(word: &str) -> Option<u32> {
    let digits = word.len() == 8 && word.bytes().all(|byte| byte.is_ascii_hexdigit());
    digits.then(|| u32::from_str_radix(word, 16).ok()).flatten()
}

/// The count of stages, and "the highest stage present"; "Zero means clear."
fn test(word: u32) -> String {
    let stages = present(word);
    let form = if Label::from_word(word).is_some() { "label" } else { "ill-formed" };
    let highest = match stages.iter().zip(["H", "T", "A", "N"]).find(|(&present, _)| present) {
        Some((_, stage)) => format!("highest {stage}"),
        None => "clear".to_string(),
    };
    let count = stages.iter().filter(|&&present| present).count();
    format!("{form}, stages {count}, {highest}")
}

/// "An ill-formed word there answers 15, then an operation that does not exist
/// 17, at place 0 with no label."
const ILL_FORMED: &str = "15 at 0";
const NO_OPERATION: &str = "17 at 0";

fn compose(left: u32, right: u32) -> String {
    match (Label::from_word(left), Label::from_word(right)) {
        (Some(left), Some(right)) => shown(Ok(left.compose(&right))),
        _ => ILL_FORMED.to_string(),
    }
}

fn transform(word: u32, number: u32, digits: u32) -> String {
    let label = match Label::from_word(word) {
        Some(label) => label,
        None => return ILL_FORMED.to_string(),
    };
    // Of the second operand a discharge reads nothing but the digits of a cut.
    let operation = match (number, digits) {
        (0, _) => Operation::Add(Operand::Constant(0)),
        (1, _) => Operation::Sub(Operand::Constant(0)),
        (2, 1..=6) => Operation::Cut(digits as u8),
        (3, _) => Operation::Band(1),
        _ => return NO_OPERATION.to_string(),
    };
    shown(label.after_operation(&operation))
}

fn aggregate(word: u32, number: u32, sheets: usize) -> String {
    let label = match Label::from_word(word) {
        Some(label) => label,
        None => return ILL_FORMED.to_string(),
    };
    let aggregate = match number {
        0 => Aggregate::Count,
        1 => Aggregate::Sum,
        2 => Aggregate::Min,
        3 => Aggregate::Max,
        4 => Aggregate::Avg,
        _ => return NO_OPERATION.to_string(),
    };
    shown(label.after_aggregate(aggregate, sheets))
}

/// Of level N there is one operation, so none that does not exist.
fn noise(word: u32) -> String {
    match Label::from_word(word) {
        Some(label) => shown(label.after_noise()),
        None => ILL_FORMED.to_string(),
    }
}

fn shown(label: Result<Label, Forbidden>) -> String {
    match label {
        Ok(label) => format!("{:08x}", label.word()),
        Err(Forbidden) => "forbidden".to_string(),
    }
}
