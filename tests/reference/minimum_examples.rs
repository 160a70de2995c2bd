//! Document 02's "From now on a minimum is 2 to 1,023, and 1 is ill-formed under 15
//! and 22", #107, as examples. `conversion_examples` has the conversion.

use super::examples::printed_case;
use super::noise_examples::{record, Record};
use super::overlay_examples::{four, overlay};
use super::reference::check;
use super::reference::conversion::OLD_SMALLEST_MINIMUM;
use super::reference::label::Label;
use super::reference::value::HIGHEST;
use super::sheet_examples::{container, group, on_sheets, scan, union, Given};
use super::{export, label_trials, print_run, step_trials, NO_DRAWS, NO_OVERLAYS};

const SUM: u32 = 0x2002_0000;

/// Labels with minimum 1, which before were well-formed: with no aggregate, with
/// all, below T and H, above N, and with every stage and field.
pub const ONES: [u32; 6] =
    [0x2000_0001, 0x2002_0001, 0x201F_0001, 0xE502_0C01, 0x3082_0001, 0xFF9F_1801];

/// What is printed of a plan without draws and overlays.
fn printed(plan: &[Record], tables: &[Given]) -> String {
    let mut text = String::new();
    print_run(&container(plan, tables), NO_DRAWS, NO_OVERLAYS, &mut text);
    text
}

fn refused(plan: &[Record], tables: &[Given]) -> Option<(u32, usize)> {
    let checked = check(&container(plan, tables));
    checked.err().map(|refusal| (refusal.fault.number(), refusal.offset))
}

/// Every number that the ten bits hold, with A and without.
#[test]
fn minima_of_labels() {
    for minimum in 0..1024 {
        for word in [0x2000_0000, SUM, 0xFF9F_1800].map(|word| word + minimum) {
            assert_eq!(Label::from_word(word).is_some(), minimum >= 2, "{word:x}");
            let before = Label::with_minimum_from(OLD_SMALLEST_MINIMUM, word);
            assert_eq!(before.is_some(), minimum >= 1, "{word:x}");
            assert_eq!(before.map_or(word, |label| label.word()), word);
        }
        for word in [0, 0x8000_0000, 0x4100_0000, 0x1080_0000].map(|word| word + minimum) {
            assert_eq!(Label::from_word(word).is_some(), minimum == 0, "{word:x}");
        }
    }
    for word in ONES {
        assert_eq!(Label::from_word(word), None);
        assert!(Label::from_word(word + 1).is_some());
    }
}

/// Document 01's printed case: its labels stand at 74 and 98.
#[test]
fn the_printed_case() {
    let text = |word: u32| {
        let mut text = String::new();
        print_run(&printed_case(word), NO_DRAWS, NO_OVERLAYS, &mut text);
        text
    };
    assert_eq!(text(0x2002_0001), "X 15 74\n");
    assert_eq!(text(0x2002_0002), "S 0 1 2 2 2\nS 1 7 1 2 0\nR 7 8\n");
    assert_eq!(export(&printed_case(0x2002_0001)), Err("X 15 74".to_string()));
}

/// "A label with minimum 1 lets a single ballot through as a sum": 2 lets none.
#[test]
fn a_single_ballot() {
    let sum = |cells: &[(i64, u32)]| printed(&[scan(0), group(0, 1, 0)], &[(2, 2, cells)]);
    assert_eq!(sum(&on_sheets(SUM + 1, &[7])), "X 15 62\n");
    let stays = |rows: u32| format!("S 0 1 {rows} 2 {rows}\nS 1 7 1 1 1\nX 35 2 0 0\n");
    assert_eq!(sum(&on_sheets(SUM + 2, &[7])), stays(1));
    assert_eq!(sum(&on_sheets(SUM + 2, &[7, 7, 7])), stays(3));
    assert_eq!(sum(&on_sheets(SUM + 2, &[7, 8])), "S 0 1 2 2 2\nS 1 7 1 1 0\nR 3\n");
    assert_eq!(sum(&on_sheets(SUM + 2, &[7, 8, 7])), "S 0 1 3 2 3\nS 1 7 1 1 0\nR 6\n");
}

/// 15 at the first label with minimum 1, also in a table that no step scans. Two
/// tables: the parts are at 42 and 94, the labels at 54, 66, 78 and 90, and at 106.
#[test]
fn places_of_15() {
    let fields = [54, 66, 78, 90, 106];
    let answer = |labels: [u32; 5]| {
        let cells = labels.map(|label| (5, label));
        refused(&[scan(0)], &[(2, 0, &cells[..4]), (1, 0, &cells[4..])])
    };
    assert_eq!(answer([0; 5]), None);
    for word in ONES {
        for first in 0..5 {
            let mut labels = [0; 5];
            labels[first] = word;
            assert_eq!(answer(labels), Some((15, fields[first])));
            labels[first + 1..].fill(SUM + 1);
            assert_eq!(answer(labels), Some((15, fields[first])));
            labels[first] = word + 1;
            assert_eq!(answer(labels), fields.get(first + 1).map(|&field| (15, field)));
        }
    }
    assert_eq!(answer([SUM + 257, SUM + 513, SUM + 769, SUM + 2, SUM + 1_023]), None);
}

/// The order of the checks: of a 1 and another fault the first is told.
#[test]
fn the_order_of_15() {
    let (one, fine) = ([(5, SUM + 1)], [(5, 0)]);
    let wide = |table: &'static [(i64, u32)]| -> Given<'static> { (2, 2, table) };
    // Two tables: the parts are at 42 and 58 where the first has one cell.
    let two = |first: Given, second: Given| refused(&[scan(0)], &[first, second]);
    assert_eq!(two((1, 0, &one), (9, 0, &[])), Some((15, 54)));
    assert_eq!(two((9, 0, &[]), (1, 0, &one)), Some((13, 42)));
    assert_eq!(two((1, 0, &one), (1, 0, &[(HIGHEST + 1, 0)])), Some((15, 54)));
    assert_eq!(two((1, 0, &[(HIGHEST + 1, SUM + 1)]), (1, 0, &fine)), Some((14, 46)));
    assert_eq!(two((1, 0, &one), (1, 0, &[(5, 1)])), Some((15, 54)));
    assert_eq!(two((1, 0, &[(5, 1)]), (1, 0, &one)), Some((15, 54)));
    // 20 comes after all labels of its table; a sheet number has none.
    assert_eq!(two(wide(&[(5, 0), (-1, 0)]), (1, 0, &one)), Some((20, 42)));
    assert_eq!(two(wide(&[(5, SUM + 1), (-1, 0)]), (1, 0, &fine)), Some((15, 54)));
    assert_eq!(two(wide(&[(5, 0), (1, SUM + 1)]), (1, 0, &fine)), Some((15, 66)));
    assert_eq!(two(wide(&[(5, 0), (1, SUM + 2)]), (1, 0, &fine)), Some((20, 42)));
    // 16 to 19 after all tables; without a step the label is at 18 + 4 + 8.
    assert_eq!(refused(&[], &[(1, 0, &one)]), Some((15, 30)));
    for wrong in [record(9, 0, 0, 0, 0), union(), scan(1)] {
        assert_eq!(refused(&[wrong], &[(1, 0, &one)]), Some((15, 46)));
    }
}

/// 22, in an overlay of one table with sheet numbers: the part is at 10, the labels
/// at 14, 18, 22 and 26.
#[test]
fn places_of_22() {
    let cells = on_sheets(SUM + 2, &[1, 2]);
    let text = |labels: [u32; 4]| {
        let mut text = String::new();
        let overlay = overlay(&[(2, 2, &labels)]);
        let container = container(&[scan(0), group(0, 1, 0)], &[(2, 2, &cells)]);
        print_run(&container, NO_DRAWS, &four(&[&[], &overlay]), &mut text);
        text
    };
    let released = "S 0 1 2 2 2\nS 1 7 1 1 0\nR 3\n";
    assert_eq!(text([0; 4]), released);
    assert_eq!(text([SUM + 2, 0, SUM + 2, 0]), released);
    for word in ONES {
        assert_eq!(text([word, 0, SUM + 1, 0]), "X 22 14\n");
        assert_eq!(text([0, word, SUM + 1, 0]), "X 22 18\n");
        assert_eq!(text([SUM + 2, 0, word, SUM + 1]), "X 22 22\n");
        assert_eq!(text([0, 0, 0, word]), "X 22 26\n");
    }
}

/// In the lines of labels and of steps.
#[test]
fn lines() {
    let line = |question: &str| label_trials::line(question).expect("a question");
    assert_eq!(line("20000001"), "20000001 ill-formed, stages 1, highest A");
    assert_eq!(line("20000002"), "20000002 label, stages 1, highest A");
    assert_eq!(
        line("20020001 aggregate 1 sheets 1"),
        "20020001 aggregate 1 sheets 1 gives 15 at 0"
    );
    assert!(line("20020002 aggregate 1 sheets 1").ends_with(" gives 20020002"));
    assert!(line("20020002 aggregate 1 sheets 2").ends_with(" gives 00000000"));
    assert!(line("20020001 with 20020002").ends_with(" gives 15 at 0"));
    assert!(line("20020002 with 20020001").ends_with(" gives 15 at 0"));
    assert!(line("30820001 noise").ends_with(" gives 15 at 0"));
    for (case, answer) in [
        ("GROUP 0 sum 0: 1| 1:20020002 / 2:20020001", "does not fit"),
        ("GROUP 0 sum 0: 1| 1:20020002", "1| 1:20020002"),
        ("GROUP 0 sum 0: 1| 1:20020002 / 2:20020002", "1| 3:0"),
    ] {
        assert_eq!(step_trials::lines(case), Ok(format!("{case} gives {answer}\n")));
    }
}
