//! Document 01's examples and its printed case.
//!
//!     rustc -O --edition 2021 --test -o reference-tests tests/reference/main.rs

use super::reference::label::{Forbidden, Label};
use super::reference::steps::{Aggregate, Operand, Operation};
use super::reference::value::{aggregate, Value, HIGHEST, LOWEST};
use super::{print_run, NO_DRAWS, NO_OVERLAYS};

fn label(word: u32) -> Label {
    let label = Label::from_word(word).expect("well-formed");
    assert_eq!(label.word(), word);
    label
}

fn compose(a: u32, b: u32) -> u32 {
    let both = label(a).compose(&label(b));
    assert_eq!(both, label(b).compose(&label(a)));
    both.word()
}

#[test]
fn examples_1_to_3_composition() {
    assert_eq!(compose(0x20030014, 0x2002001E), 0x2002001E);
    assert_eq!(compose(0x44000C00, 0x20030014), 0x64030C14);
    assert_eq!(compose(0x45000C00, 0x41000000), 0x41000000);
}

#[test]
fn examples_4_to_6_discharge() {
    let chain = label(0x64030C14);
    assert_eq!(chain.after_operation(&Operation::Cut(3)), Ok(label(0x20030014)));
    assert_eq!(chain.after_operation(&Operation::Cut(2)), Ok(chain));
    let sums = label(0x20030014);
    assert_eq!(sums.after_aggregate(Aggregate::Sum, 20), Ok(label(0)));
    assert_eq!(sums.after_aggregate(Aggregate::Sum, 19), Ok(sums));
    assert_eq!(chain.after_aggregate(Aggregate::Sum, 20), Err(Forbidden));
}

/// By document 02, #107, "20000001 in example 7 moves to the ill-formed ones".
#[test]
fn example_7_well_formed() {
    for word in [0x00000001, 0x20030000, 0x44000000, 0x20000001] {
        assert_eq!(Label::from_word(word), None);
    }
    label(0x80000000);
}

#[test]
fn examples_8_to_10_values() {
    let known = Value::Known;
    assert_eq!(known(-15).cut(1), known(-1));
    assert_eq!(known(-15).band(10), known(-20));
    assert_eq!(aggregate(Aggregate::Avg, &[known(-1), known(0)]), known(0));
    assert_eq!(aggregate(Aggregate::Avg, &[known(1), known(2)]), known(2));
    assert_eq!(known(LOWEST).band(3), Value::Over);
    assert_eq!(known(HIGHEST).add(known(1)), Value::Over);
    let add = Operation::Add(Operand::Constant(1));
    assert_eq!(label(0x80000000).after_operation(&add), Err(Forbidden));
}

/// Document 02, #105: "the nearest whole number, ties to the even one", by
/// trying every number around.
#[test]
fn average_is_the_nearest() {
    for rows in 1..=9i64 {
        for sum in -60..=60i64 {
            let mut group = vec![Value::Known(0); rows as usize];
            group[0] = Value::Known(sum);
            let average = match aggregate(Aggregate::Avg, &group) {
                Value::Known(number) => number,
                Value::Over => panic!("{sum} over {rows} rows"),
            };
            let far = |number: i64| (sum - rows * number).abs();
            for other in (-70..=70).filter(|&other| other != average) {
                assert!(far(average) <= far(other), "{sum} over {rows} rows");
                assert!(far(average) < far(other) || average % 2 == 0, "{sum} over {rows} rows");
            }
        }
    }
}

/// The printed case's container, with the label of the two cells in column 1.
pub fn printed_case(word: u32) -> Vec<u8> {
    let mut bytes = vec![2, 0];
    for number in [18u32, 32, 50, 52] {
        bytes.extend(number.to_le_bytes());
    }
    bytes.extend([1, 0, 0, 0, 0, 0, 0, 0, 0, 0, 0, 0, 0, 0, 0, 0]);
    bytes.extend([7, 1, 1, 1, 0, 0, 0, 0, 0, 0, 0, 0, 0, 0, 0, 0]);
    bytes.extend([2, 0, 2, 0]);
    for (value, label) in [(7i64, 0u32), (3, word), (7, 0), (5, word)] {
        bytes.extend(value.to_le_bytes());
        bytes.extend(label.to_le_bytes());
    }
    assert_eq!(bytes.len(), 102);
    bytes
}

fn printed(word: u32) -> String {
    let mut text = String::new();
    print_run(&printed_case(word), NO_DRAWS, NO_OVERLAYS, &mut text);
    text
}

#[test]
fn the_printed_case() {
    assert_eq!(printed(0x20020002), "S 0 1 2 2 2\nS 1 7 1 2 0\nR 7 8\n");
    assert_eq!(printed(0x20020003), "S 0 1 2 2 2\nS 1 7 1 2 1\nX 35 2 0 1\n");
}
