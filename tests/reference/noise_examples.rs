//! Document 02's sentences on NOISE, #102, as examples.

use super::reference::check;
use super::reference::label::{Forbidden, Label};
use super::reference::value::{Value, HIGHEST, LOWEST};
use super::sheet_examples;
use super::text_examples::lent;
use super::{draws, label_trials, print_run, step_trials, NO_DRAWS, NO_OVERLAYS};

/// N with and without its noise bit, and a chain that add, a sum over two rows
/// and noise take off, stage by stage.
const NOISY: u32 = 0x1080_0000;
const NO_BIT: u32 = 0x1000_0000;
const CHAIN: u32 = 0x7182_0002;
const H: u32 = 0x8000_0000;
const T: u32 = 0x4000_0000;
const A: u32 = 0x2000_0002;

pub type Record = [u8; 16];

pub fn record(kind: u8, a: u8, b: u8, c: u8, constant: i64) -> Record {
    let mut bytes = [0; 16];
    bytes[..4].copy_from_slice(&[kind, a, b, c]);
    bytes[8..].copy_from_slice(&constant.to_le_bytes());
    bytes
}

const SCAN: Record = [1, 0, 0, 0, 0, 0, 0, 0, 0, 0, 0, 0, 0, 0, 0, 0];

pub fn noise(column: u8) -> Record {
    record(8, column, 0, 0, 0)
}

pub fn keep(mask: u8) -> Record {
    record(5, mask, 0, 0, 0)
}

pub fn add(column: u8, constant: i64) -> Record {
    record(6, column, 0, 0, constant)
}

/// A container with this plan and one table of so many columns.
fn container(plan: &[Record], columns: usize, cells: &[(i64, u32)]) -> Vec<u8> {
    sheet_examples::container(plan, &[(columns, 0, cells)])
}

/// What is printed of a plan that begins with SCAN, over a table of one column.
fn printed(plan: &[Record], cells: &[(i64, u32)], draws: &[i64]) -> String {
    let plan = [&[SCAN], plan].concat();
    let mut text = String::new();
    print_run(&container(&plan, 1, cells), draws, NO_OVERLAYS, &mut text);
    text
}

/// The last line alone.
fn answered(plan: &[Record], cells: &[(i64, u32)], draws: &[i64]) -> String {
    printed(plan, cells, draws).lines().last().unwrap_or_default().to_string()
}

fn discharged(word: u32) -> Result<u32, Forbidden> {
    let label = Label::from_word(word).expect("well-formed");
    label.after_noise().map(|label| label.word())
}

/// "discharged at level N": "If the highest stage present is above that level,
/// it is forbidden." "Otherwise the label stays."
#[test]
fn labels_under_noise() {
    assert_eq!(discharged(NOISY), Ok(0));
    assert_eq!(discharged(NO_BIT), Ok(NO_BIT));
    assert_eq!(discharged(0), Ok(0));
    for above in [H, T, A, H + T, H + A, T + A, H + T + A] {
        assert_eq!(discharged(above), Err(Forbidden));
        assert_eq!(discharged(above + NOISY), Err(Forbidden));
    }
}

#[test]
fn lines_of_labels() {
    let line = |question: &str| label_trials::line(question).expect("a question");
    assert_eq!(line("10800000 noise"), "10800000 noise gives 00000000");
    assert_eq!(line("10000000 noise"), "10000000 noise gives 10000000");
    assert_eq!(line("71820002 noise"), "71820002 noise gives forbidden");
    assert_eq!(line("00800000 noise"), "00800000 noise gives 15 at 0");
    assert_eq!(label_trials::line("10800000 noise 1"), None);
}

/// "A draw may be any 64-bit number; a sum outside the value range is OVER."
#[test]
fn sums_with_draws() {
    let sum = |value: i64, draw: i64| Value::Known(value).add_draw(draw);
    for value in [LOWEST, HIGHEST, 0, -1] {
        assert_eq!(sum(value, i64::MIN), Value::Over);
        assert_eq!(sum(value, i64::MAX), Value::Over);
        assert_eq!(sum(value, 0), Value::Known(value));
        assert_eq!(sum(value, HIGHEST - value), Value::Known(HIGHEST));
        assert_eq!(sum(value, HIGHEST - value + 1), Value::Over);
        assert_eq!(sum(value, LOWEST - value), Value::Known(LOWEST));
        assert_eq!(sum(value, LOWEST - value - 1), Value::Over);
    }
    for draw in [i64::MIN, -1, 0, i64::MAX] {
        assert_eq!(Value::Over.add_draw(draw), Value::Over);
    }
}

/// "One draw is used per row, in row order over the whole plan."
#[test]
fn two_steps_use_one_list() {
    let plan = [noise(0), noise(0), keep(6)];
    let cells = [(10, NOISY), (20, NOISY)];
    let finished = "S 0 1 2 1 2\nS 1 8 2 2 2\n";
    let released = format!("{finished}S 2 8 2 3 2\nS 3 5 2 2 0\nR 11 13\nR 22 24\n");
    assert_eq!(printed(&plan, &cells, &[1, 2, 3, 4]), released);
    assert_eq!(printed(&plan, &cells, &[1, 2, 3, 4, 5]), released);
    assert_eq!(printed(&plan, &cells, &[1, 2, 3]), format!("{finished}X 37 2 1 0\n"));
    assert_eq!(printed(&plan, &cells, &[1, 2]), format!("{finished}X 37 2 0 0\n"));
    assert_eq!(printed(&plan, &cells, &[1]), "S 0 1 2 1 2\nX 37 1 1 0\n");
    assert_eq!(printed(&plan, &cells, NO_DRAWS), "S 0 1 2 1 2\nX 37 1 0 0\n");
}

/// Other steps use none, and a step between the two that drops rows leaves fewer
/// to the second.
#[test]
fn only_the_rows_of_noise_use_draws() {
    let at_least_20 = record(4, 0, 5, 0, 20);
    let plan = [add(0, 5), noise(1), at_least_20, noise(0)];
    let released = "R 20 25 27 23\nR 30 35 38 34\n";
    let text = printed(&plan, &[(10, 0), (20, 0), (30, 0)], &[1, 2, 3, 3, 4]);
    assert!(text.ends_with(&format!("S 4 8 2 4 0\n{released}")), "{text}");
}

/// "The step is forbidden with 32 where T, A or H stands highest." "37 at a row
/// for which no draw is left, column a, after 32 in that row."
#[test]
fn refusals_row_by_row() {
    for above in [H, T, A, CHAIN, H + NOISY] {
        let cells = [(1, 0), (2, above), (3, 0)];
        assert_eq!(answered(&[noise(0)], &cells, &[7, 7, 7]), "X 32 1 1 0");
        assert_eq!(answered(&[noise(0)], &cells, &[7]), "X 32 1 1 0");
        assert_eq!(answered(&[noise(0)], &cells, NO_DRAWS), "X 37 1 0 0");
        assert_eq!(answered(&[noise(0)], &cells[1..], NO_DRAWS), "X 32 1 0 0");
    }
    let cells = [(1, NOISY), (2, 0), (3, 0), (4, 0), (5, 0), (6, T)];
    assert_eq!(answered(&[noise(0)], &cells, &[1, 2, 3]), "X 37 1 3 0");
    assert_eq!(answered(&[noise(0)], &cells, &[1, 2, 3, 4, 5]), "X 32 1 5 0");
}

/// "column a": of the table read.
#[test]
fn the_column_of_a_refusal() {
    let refused = |word: u32, draws: &[i64]| {
        let mut text = String::new();
        let cells = [(1, 0), (2, 0), (3, word)];
        let container = container(&[SCAN, noise(2), keep(1)], 3, &cells);
        print_run(&container, draws, NO_OVERLAYS, &mut text);
        text.lines().last().unwrap_or_default().to_string()
    };
    assert_eq!(refused(A, &[0]), "X 32 1 0 2");
    assert_eq!(refused(0, NO_DRAWS), "X 37 1 0 2");
    assert_eq!(refused(NO_BIT, &[0]), "R 1");
}

/// "It appends a column", and the label of the one that it reads stays.
#[test]
fn the_first_column_stays() {
    assert_eq!(printed(&[noise(0)], &[(5, NOISY)], &[2]), "S 0 1 1 1 1\nS 1 8 1 2 1\nX 35 2 0 0\n");
    let text = printed(&[noise(0), keep(2)], &[(5, NOISY)], &[2]);
    assert_eq!(text, "S 0 1 1 1 1\nS 1 8 1 2 1\nS 2 5 1 1 0\nR 7\n");
}

/// N without the bit stays, a clear label stays clear, and both use a draw.
#[test]
fn labels_that_stay() {
    let cells = [(5, NO_BIT), (6, 0), (7, NOISY)];
    let text = printed(&[noise(0), keep(2)], &cells, &[10, 20, 30]);
    assert_eq!(text, "S 0 1 3 1 2\nS 1 8 3 2 3\nS 2 5 3 1 1\nX 35 3 0 0\n");
    assert_eq!(answered(&[noise(0), keep(2)], &cells[1..], &[20, 30]), "R 37");
}

/// "so does any result with an OVER operand"; the row uses its draw.
#[test]
fn over_values() {
    let known = record(4, 2, 5, 0, LOWEST);
    let cells = [(HIGHEST, 0), (1, 0)];
    assert_eq!(answered(&[add(0, 1), noise(1)], &cells, &[-9, 40]), "X 36 3 0 1");
    let text = answered(&[add(0, 1), noise(1), known], &cells, &[-9, 40]);
    assert_eq!(text, "R 1 2 42");
}

/// A sum outside the range is OVER, and the run goes on.
#[test]
fn over_by_a_draw() {
    for draw in [1, i64::MAX, i64::MIN] {
        assert_eq!(answered(&[noise(0)], &[(HIGHEST, 0)], &[draw]), "X 36 2 0 1");
        assert_eq!(
            answered(&[noise(0), keep(1)], &[(HIGHEST, 0)], &[draw]),
            format!("R {HIGHEST}")
        );
    }
    for draw in [-1, i64::MAX, i64::MIN] {
        assert_eq!(answered(&[noise(0)], &[(LOWEST, 0)], &[draw]), "X 36 2 0 1");
    }
    let across = answered(&[noise(0), keep(2)], &[(LOWEST, 0)], &[HIGHEST - LOWEST]);
    assert_eq!(across, format!("R {HIGHEST}"));
}

/// T, then A, then N: each operation takes off the highest stage, in this order
/// alone.
#[test]
fn chains() {
    let (transform, sum) = (add(0, 100), record(7, 0, 1, 1, 0));
    let cells = [(5, CHAIN), (6, CHAIN)];
    let text = printed(&[transform, sum, noise(0), keep(2)], &cells, &[-11]);
    let lines = "S 0 1 2 1 6\nS 1 6 2 2 10\nS 2 7 1 1 1\nS 3 8 1 2 1\nS 4 5 1 1 0\nR 200\n";
    assert_eq!(text, lines);
    assert_eq!(answered(&[noise(0)], &cells, &[0, 0]), "X 32 1 0 0");
    assert_eq!(answered(&[transform, noise(1)], &cells, &[0, 0]), "X 32 2 0 1");
    assert_eq!(answered(&[transform, sum], &cells, &[0, 0]), "X 35 3 0 0");
    // One row is too few for the sum, so A stays and forbids the noise.
    assert_eq!(answered(&[transform, sum, noise(0)], &cells[1..], &[0]), "X 32 3 0 0");
}

/// A table of no rows uses no draw.
#[test]
fn no_rows() {
    assert_eq!(printed(&[noise(0)], &[], NO_DRAWS), "S 0 1 0 1 0\nS 1 8 0 2 0\n");
    let none = record(4, 0, 2, 0, 0);
    let union = record(2, 0, 0, 0, 0);
    let plan = [none, noise(0), SCAN, noise(0), union];
    assert_eq!(answered(&plan, &[(3, 0)], &[4]), "R 3 7");
}

/// 17: "an unused field or one of the three bytes not zero". 18: "too few
/// tables". 19: "a .. column that does not exist", "over 8 columns".
#[test]
fn input_checks() {
    let refused = |plan: &[Record], columns: usize| {
        let checked = check(&container(plan, columns, &vec![(0, 0); columns]));
        checked.err().map(|refusal| (refusal.fault.number(), refusal.offset))
    };
    assert_eq!(refused(&[SCAN, noise(0)], 1), None);
    assert_eq!(refused(&[SCAN, noise(6)], 7), None);
    assert_eq!(refused(&[SCAN, noise(1)], 1), Some((19, 34)));
    assert_eq!(refused(&[SCAN, noise(255)], 1), Some((19, 34)));
    assert_eq!(refused(&[SCAN, noise(0)], 8), Some((19, 34)));
    assert_eq!(refused(&[noise(0)], 1), Some((18, 18)));
    assert_eq!(refused(&[noise(200)], 1), Some((18, 18)));
    for place in 2..16 {
        let mut wrong = noise(200);
        wrong[place] = 1;
        assert_eq!(refused(&[wrong], 1), Some((17, 18)));
        assert_eq!(refused(&[SCAN, wrong], 8), Some((17, 34)));
    }
    let mut nine = noise(0);
    nine[0] = 9;
    assert_eq!(refused(&[SCAN, nine], 1), Some((17, 34)));
}

/// "A run's refusal from 31 on" writes "the trace lines of the finished steps";
/// work memory is zero, and everything else is unchanged.
#[test]
fn lent_slices_after_37() {
    let container = container(&[SCAN, noise(0), noise(1)], 1, &[(5, 0), (6, 0)]);
    for room in [0, 12] {
        let mut left = lent(room);
        assert_eq!(left.run(&container, &[1, 2, 3]), [37, 2, 1, 1]);
        assert_eq!(left, lent(room).ran(&[1, 2, 1, 0, 8, 2, 2, 0]));
        let mut left = lent(room);
        assert_eq!(left.run(&container, NO_DRAWS), [37, 1, 0, 0]);
        assert_eq!(left, lent(room).ran(&[1, 2, 1, 0]));
    }
}

/// 1 does not ask for draws, and comes before 37; so does the input's refusal.
#[test]
fn refusals_before_37() {
    let container = container(&[SCAN, noise(0)], 1, &[(5, 0)]);
    let mut short = lent(0);
    short.output.truncate(2_047);
    assert_eq!(short.run(&container, NO_DRAWS), [1, 0, 0, 0]);
    assert_eq!(lent(0).run(&container[1..], NO_DRAWS), [11, 0, 0, 0]);
    assert_eq!(lent(0).run(&container, &[1]), [51, 2, 0, 0]);
    assert_eq!(lent(0).run(&container, NO_DRAWS), [37, 1, 0, 0]);
}

#[test]
fn lines_of_steps() {
    let line = |case: &str| step_trials::lines(case);
    let case = "NOISE 0 with 5,-3,7: 1| 1:0 / 2:10800000 / 3:0";
    let made = "2| 1:0 6:0 / 2:10800000 -1:0 / 3:0 10:0";
    assert_eq!(line(case), Ok(format!("{case} gives {made}\n")));
    for (case, answer) in [
        ("NOISE 0 with none: 1| 1:0", "37 at row 0 column 0"),
        ("NOISE 1 with 5: 2| 1:0 2:0 / 3:0 4:0", "37 at row 1 column 1"),
        ("NOISE 0 with 5: 1| 1:0 / 3:20000002", "32 at row 1 column 0"),
        ("NOISE 0 with none: 1|", "2|"),
        ("NOISE 0 with 9223372036854775807: 1| 1:0", "2| 1:0 OVER:0"),
        (
            "NOISE 0 with 1,2: 1| OVER:10800000 / 3:10000000",
            "2| OVER:10800000 OVER:0 / 3:10000000 5:10000000",
        ),
        ("NOISE 1 with 5: 1| 1:0", "does not fit"),
        ("NOISE 0 with 5: no tables", "does not fit"),
        ("NOISE 0 with 5: 8191 values, 1| 1:0", "does not fit"),
        ("NOISE 0 with 5: 1| 1:800000", "does not fit"),
        ("NOISE 0 with 5: 8| 1:0 1:0 1:0 1:0 1:0 1:0 1:0 1:0", "does not fit"),
    ] {
        assert_eq!(line(case), Ok(format!("{case} gives {answer}\n")));
    }
    for wrong in [
        "NOISE 0: 1| 1:0",
        "NOISE 0 with : 1| 1:0",
        "NOISE 0 with 5,: 1| 1:0",
        "NOISE 0 with 05: 1| 1:0",
    ] {
        assert_eq!(line(wrong), Err(1));
    }
}

/// Decimal numbers, one a line, each line ended by LF, the last perhaps not.
#[test]
fn files_of_draws() {
    assert_eq!(draws(""), Ok(vec![]));
    assert_eq!(draws("5\n-3\n7\n"), Ok(vec![5, -3, 7]));
    assert_eq!(draws("5\n-3\n7"), Ok(vec![5, -3, 7]));
    let ends = format!("{}\n{}\n", i64::MIN, i64::MAX);
    assert_eq!(draws(&ends), Ok(vec![i64::MIN, i64::MAX]));
    for (wrong, line) in [
        ("\n", 1),
        ("5\n\n", 2),
        ("5\n\n7\n", 2),
        ("+5\n", 1),
        (" 5\n", 1),
        ("5 \n", 1),
        ("5\r\n", 1),
        ("5 7\n", 1),
        ("-\n", 1),
        ("--5\n", 1),
        ("1\n5.0\n", 2),
        ("1\n9223372036854775808\n", 2),
        ("1\n2\n-9223372036854775809", 3),
    ] {
        assert_eq!(draws(wrong), Err(line), "{wrong:?}");
    }
}
