//! Document 02's sentences on sheets, #103, as examples.

use super::noise_examples::{add, keep, noise, record, Record};
use super::reference::check;
use super::reference::table::{distinct, Mark};
use super::reference::value::{HIGHEST, LOWEST};
use super::text_examples::lent;
use super::{label_trials, print_run, step_trials, NO_DRAWS, NO_OVERLAYS};

/// Columns, byte 1 and cells.
pub type Given<'a> = (usize, u8, &'a [(i64, u32)]);

pub fn container(plan: &[Record], tables: &[Given]) -> Vec<u8> {
    let mut parts = vec![plan.concat()];
    for &(columns, byte, cells) in tables {
        let mut part = vec![columns as u8, byte];
        part.extend(((cells.len() / columns) as u16).to_le_bytes());
        for (value, label) in cells {
            part.extend(value.to_le_bytes());
            part.extend(label.to_le_bytes());
        }
        parts.push(part);
    }
    let mut bytes = (parts.len() as u16).to_le_bytes().to_vec();
    let mut offset = 2 + 8 * parts.len();
    for part in &parts {
        bytes.extend((offset as u32).to_le_bytes());
        bytes.extend((part.len() as u32).to_le_bytes());
        offset += part.len();
    }
    bytes.extend(parts.concat());
    bytes
}

pub fn scan(table: u8) -> Record {
    record(1, table, 0, 0, 0)
}

pub fn union() -> Record {
    record(2, 0, 0, 0, 0)
}

pub fn join(left: u8, right: u8) -> Record {
    record(3, left, right, 0, 0)
}

/// The group minimum stands alone in the low bits: A with count, sum or avg.
const COUNT: u32 = 0x2001_0000;
const SUM: u32 = 0x2002_0000;
const AVG: u32 = 0x2010_0000;

pub fn group(keys: u8, aggregate: u8, column: u8) -> Record {
    record(7, keys, aggregate, column, 0)
}

/// The sum of column 0, over all rows.
fn sum() -> Record {
    group(0, 1, 0)
}

/// What is printed of a plan.
fn printed(plan: &[Record], tables: &[Given]) -> String {
    let mut text = String::new();
    print_run(&container(plan, tables), &[0; 20], NO_OVERLAYS, &mut text);
    text
}

/// The last line alone.
fn answered(plan: &[Record], tables: &[Given]) -> String {
    printed(plan, tables).lines().last().unwrap_or_default().to_string()
}

/// Values 1, 2, 3 and on with this label, each beside its sheet number.
pub fn on_sheets(label: u32, numbers: &[i64]) -> Vec<(i64, u32)> {
    (1..).zip(numbers).flat_map(|(value, &number)| [(value, label), (number, 0)]).collect()
}

#[test]
fn different_marks() {
    let own = |table, row| Mark::Own { table, row };
    assert_eq!(distinct([].into_iter()), 0);
    assert_eq!(distinct([Mark::Sheet(7)].into_iter()), 1);
    assert_eq!(distinct([Mark::Sheet(7), Mark::Sheet(8), Mark::Sheet(7)].into_iter()), 2);
    assert_eq!(distinct([own(0, 1), own(1, 0), own(0, 0), own(0, 1)].into_iter()), 3);
    assert_eq!(distinct([Mark::Sheet(0), own(0, 0), Mark::Sheet(1), own(0, 1)].into_iter()), 4);
}

/// "The group minimum shall count distinct sheets": five rows, on one sheet less
/// than the minimum of 3, on just three, and on one more.
#[test]
fn sheets_around_the_minimum() {
    let plan = [scan(0), sum()];
    for (numbers, left) in [
        ([1, 1, 2, 2, 2], "S 1 7 1 1 1\nX 35 2 0 0\n"),
        ([2, 1, 2, 1, 2], "S 1 7 1 1 1\nX 35 2 0 0\n"),
        ([1, 2, 3, 3, 3], "S 1 7 1 1 0\nR 15\n"),
        ([3, 1, 3, 2, 3], "S 1 7 1 1 0\nR 15\n"),
        ([1, 2, 3, 4, 4], "S 1 7 1 1 0\nR 15\n"),
        ([0, HIGHEST, 0, 1, HIGHEST], "S 1 7 1 1 0\nR 15\n"),
    ] {
        let cells = on_sheets(SUM + 3, &numbers);
        assert_eq!(printed(&plan, &[(2, 2, &cells)]), format!("S 0 1 5 2 5\n{left}"));
    }
}

/// "Example 5 now speaks of 20 and 19 sheets": in 256 rows, and by the label rule.
#[test]
fn example_5() {
    for (sheets, answer) in [(19, "X 35 2 0 0"), (20, "R 32896"), (256, "R 32896")] {
        let numbers: Vec<i64> = (0..256).map(|row| row % sheets).collect();
        let cells = on_sheets(0x2003_0014, &numbers);
        assert_eq!(answered(&[scan(0), sum()], &[(2, 2, &cells)]), answer);
    }
    let line = |question: &str| label_trials::line(question).expect("a question");
    assert!(line("20030014 aggregate 1 sheets 20").ends_with(" gives 00000000"));
    assert!(line("20030014 aggregate 1 sheets 19").ends_with(" gives 20030014"));
    assert_eq!(label_trials::line("20030014 aggregate 1 rows 20"), None);
}

/// "Byte 1 of a table is zero": each row has a mark of its own, whatever its
/// cells are. Else byte 1 is "one more than the column of sheet numbers".
#[test]
fn byte_1() {
    let cells = on_sheets(SUM + 3, &[4, 4, 4]);
    assert_eq!(answered(&[scan(0), sum()], &[(2, 0, &cells)]), "R 6");
    assert_eq!(answered(&[scan(0), sum()], &[(2, 2, &cells)]), "X 35 2 0 0");
    assert_eq!(answered(&[scan(0), sum()], &[(2, 0, &cells[..4])]), "X 35 2 0 0");
    // Column 0 has the numbers 5, 5 and 6, column 1 has 7, 8 and 9.
    let cells = [5, 7, 5, 8, 6, 9].map(|number| (number, 0));
    let mut wide: Vec<(i64, u32)> = Vec::new();
    cells.chunks(2).for_each(|row| wide.extend([row[0], row[1], (1, SUM + 3)]));
    assert_eq!(answered(&[scan(0), group(0, 1, 2)], &[(3, 1, &wide)]), "X 35 2 0 0");
    assert_eq!(answered(&[scan(0), group(0, 1, 2)], &[(3, 2, &wide)]), "R 3");
}

/// Each group counts the sheets of its own rows: key 0 has two, key 1 has one.
#[test]
fn each_group_by_itself() {
    let row = |key: i64, number: i64| [(key, 0), (10, SUM + 2), (number, 0)];
    let cells = [row(0, 1), row(1, 1), row(0, 2), row(1, 1)].concat();
    let text = printed(&[scan(0), group(1, 1, 1)], &[(3, 3, &cells)]);
    assert_eq!(text, "S 0 1 4 3 4\nS 1 7 2 2 1\nX 35 2 1 1\n");
}

/// "A report united a table with itself and twenty rows came from ten ballots."
/// "Scanning a table twice gives the same marks."
#[test]
fn a_table_united_with_itself() {
    let plan = |aggregate: u8| [scan(0), scan(0), union(), group(0, aggregate, 0)];
    let numbers: Vec<i64> = (100..110).collect();
    for byte in [0, 2] {
        let ten = |label: u32| on_sheets(label, &numbers);
        assert_eq!(answered(&plan(1), &[(2, byte, &ten(SUM + 20))]), "X 35 4 0 0");
        assert_eq!(answered(&plan(1), &[(2, byte, &ten(SUM + 11))]), "X 35 4 0 0");
        assert_eq!(answered(&plan(1), &[(2, byte, &ten(SUM + 10))]), "R 110");
        // The aggregates take rows as before: 20 of them, and 110 / 20, whose
        // nearest even number is 6 (#105).
        assert_eq!(answered(&plan(0), &[(2, byte, &ten(COUNT + 10))]), "R 20");
        assert_eq!(answered(&plan(4), &[(2, byte, &ten(AVG + 10))]), "R 6");
    }
}

/// Two tables that hold the same sheet number speak of the same sheet; a mark
/// for byte 1 zero is "shared with no other table row", and no sheet number is
/// such a mark.
#[test]
fn two_tables() {
    let plan = [scan(0), scan(1), union(), sum()];
    let answer = |minimum: u32, one: (u8, [i64; 2]), two: (u8, [i64; 2])| {
        let cells = [one.1, two.1].map(|numbers| on_sheets(SUM + minimum, &numbers));
        answered(&plan, &[(2, one.0, &cells[0]), (2, two.0, &cells[1])])
    };
    assert_eq!(answer(3, (2, [1, 2]), (2, [2, 3])), "R 6");
    assert_eq!(answer(4, (2, [1, 2]), (2, [2, 3])), "X 35 4 0 0");
    assert_eq!(answer(3, (2, [1, 2]), (2, [2, 1])), "X 35 4 0 0");
    assert_eq!(answer(4, (0, [1, 2]), (0, [1, 2])), "R 6");
    for number in [0, 1, 2, 256, HIGHEST - 1] {
        assert_eq!(answer(4, (0, [1, 2]), (2, [number, number + 1])), "R 6");
        assert_eq!(answer(4, (2, [number, number + 1]), (0, [1, 2])), "R 6");
        assert_eq!(answer(4, (0, [1, 2]), (2, [number, number])), "X 35 4 0 0");
    }
}

/// "A joined row takes the left mark": three rows joined with themselves are nine
/// rows of three sheets.
#[test]
fn joins() {
    let itself = [scan(0), scan(0), join(0, 0), group(1, 1, 1)];
    let three = |minimum: u32| [(7, 0), (10, SUM + minimum)].repeat(3);
    // Column 2 is the right value; column 1, the left one, is summed.
    assert_eq!(answered(&itself, &[(2, 0, &three(3))]), "R 7 90");
    assert_eq!(answered(&itself, &[(2, 0, &three(4))]), "X 35 4 0 1");

    // One row with five, and five with one: five rows either way.
    let (keys, values) = (vec![(7, 0); 5], [(7, 0), (10, SUM + 2)]);
    let one_left = [scan(0), scan(1), join(0, 0), group(1, 1, 1)];
    let one_right = [scan(1), scan(0), join(0, 0), group(1, 1, 1)];
    let tables = [(2, 0, &values[..]), (1, 0, &keys[..])];
    assert_eq!(answered(&one_left, &tables), "X 35 4 0 1");
    assert_eq!(answered(&one_right, &tables), "R 7 50");
    // With sheet numbers: those of the right rows are all the same.
    let tables = [(2, 0, &values[..]), (1, 1, &keys[..])];
    assert_eq!(answered(&one_right, &tables), "X 35 4 0 1");
}

/// "Marks survive FILTER, KEEP, APPLY, NOISE and UNION."
#[test]
fn marks_survive() {
    let on = |numbers: &[i64]| on_sheets(SUM + 3, numbers);
    let answer = |plan: &[Record], numbers: &[i64]| answered(plan, &[(2, 2, &on(numbers))]);
    // Without the column of the numbers.
    assert_eq!(answer(&[scan(0), keep(1), sum()], &[1, 2, 3, 3]), "R 10");
    assert_eq!(answer(&[scan(0), keep(1), sum()], &[1, 2, 2, 2]), "X 35 3 0 0");
    // Three rows of five on three sheets, and three of four on two. The marks of
    // the first three rows would be two, and three.
    let above = |least: i64| [scan(0), record(4, 1, 4, 0, least), keep(1), sum()];
    assert_eq!(answer(&above(1), &[1, 2, 1, 3, 4]), "R 11");
    assert_eq!(answer(&above(1), &[1, 2, 3, 3]), "X 35 4 0 0");
    // The numbers of the container count, whatever APPLY and NOISE add to them.
    let changed = |step: Record| [scan(0), step, keep(5), sum()];
    for step in [add(1, 1), record(6, 1, 2, 0, 6), noise(1)] {
        assert_eq!(answer(&changed(step), &[1, 2, 3, 3]), "R 10");
        assert_eq!(answer(&changed(step), &[1, 2, 2, 2]), "X 35 4 0 0");
    }
    // Of a UNION the left rows and the right ones.
    let both = |mask: u8| [scan(0), scan(0), union(), keep(mask), sum()];
    assert_eq!(answer(&both(1), &[1, 2, 3]), "R 12");
    assert_eq!(answer(&both(1), &[1, 2]), "X 35 5 0 0");
}

/// All rows of the group count, those whose own cell is clear included.
#[test]
fn clear_cells_count() {
    let on = |numbers: [i64; 3]| {
        let mut cells = on_sheets(0, &numbers);
        cells[0].1 = SUM + 3;
        cells
    };
    assert_eq!(answered(&[scan(0), sum()], &[(2, 2, &on([1, 2, 3]))]), "R 6");
    assert_eq!(answered(&[scan(0), sum()], &[(2, 2, &on([1, 2, 1]))]), "X 35 2 0 0");
    assert_eq!(answered(&[scan(0), sum()], &[(2, 0, &on([1, 2, 1]))]), "R 6");
}

/// "A group row takes its first row's mark": max is not allowed, so the first
/// GROUP leaves the labels, and the second sees the marks of its rows.
#[test]
fn a_group_of_groups() {
    let plan = [scan(0), group(1, 3, 1), group(0, 1, 1)];
    let answer = |numbers: [i64; 4]| {
        let row = |(place, &number): (usize, &i64)| {
            [(place as i64 / 2, 0), (place as i64, SUM + 2), (number, 0)]
        };
        answered(&plan, &[(3, 3, &numbers.iter().enumerate().flat_map(row).collect::<Vec<_>>())])
    };
    // Values 0 and 1 of key 0, 2 and 3 of key 1.
    assert_eq!(answer([1, 2, 1, 3]), "X 35 3 0 0");
    assert_eq!(answer([2, 1, 3, 1]), "R 4");
    assert_eq!(answer([1, 1, 2, 2]), "R 4");
    assert_eq!(answer([1, 2, 1, 2]), "X 35 3 0 0");
}

/// The number and the place that the input checks answer.
fn refused(plan: &[Record], tables: &[Given]) -> Option<(u32, usize)> {
    let checked = check(&container(plan, tables));
    checked.err().map(|refusal| (refusal.fault.number(), refusal.offset))
}

/// 20 "when byte 1 names no column or a sheet cell is negative or not clear; the
/// place is the table part", here 2 bytes, two pairs and a step from the start.
#[test]
fn causes_of_20() {
    let answer = |columns: usize, byte: u8, cells: &[(i64, u32)]| {
        refused(&[scan(0)], &[(columns, byte, cells)])
    };
    for columns in 1..=8 {
        let cells = vec![(0, 0); 2 * columns];
        for byte in 0..=255 {
            let wrong = (byte as usize > columns).then_some((20, 34));
            assert_eq!(answer(columns, byte, &cells), wrong);
            assert_eq!(answer(columns, byte, &[]), wrong);
        }
    }
    for good in [0, 1, HIGHEST] {
        assert_eq!(answer(1, 1, &[(good, 0), (good, 0)]), None);
    }
    for bad in [(-1, 0), (LOWEST, 0), (3, 0x8000_0000), (0, 0x2000_0002), (-1, 0x1000_0000)] {
        for (byte, row, column) in [(1, 0, 0), (1, 2, 0), (2, 0, 1), (2, 1, 1)] {
            let mut cells = [(5, 0); 6];
            cells[2 * row + column] = bad;
            assert_eq!(answer(2, byte, &cells), Some((20, 34)));
            assert_eq!(answer(2, 3 - byte, &cells), None);
            assert_eq!(answer(2, 0, &cells), None);
        }
    }
}

/// "after all 14 and 15 of the table", and before the next table and the plan.
#[test]
fn order_of_20() {
    let (fine, negative) = ([(5, 0); 2], [(5, 0), (-1, 0)]);
    let plan = [scan(0)];
    // Two tables: the parts are at 42 and 70.
    let two = |one: Given, two: Given| refused(&plan, &[one, two]);
    assert_eq!(two((2, 2, &negative), (2, 0, &fine)), Some((20, 42)));
    assert_eq!(two((2, 0, &negative), (2, 2, &negative)), Some((20, 70)));
    assert_eq!(two((2, 3, &fine), (2, 3, &fine)), Some((20, 42)));
    assert_eq!(two((2, 2, &negative), (9, 0, &[])), Some((20, 42)));
    assert_eq!(two((2, 2, &negative), (1, 0, &[(LOWEST - 1, 0)])), Some((20, 42)));
    assert_eq!(two((2, 2, &negative), (1, 0, &[(0, 1)])), Some((20, 42)));
    assert_eq!(two((1, 0, &[(0, 1)]), (2, 2, &negative)), Some((15, 54)));

    // In one table 13, then 14 and 15 cell by cell, also in cells behind.
    let one =
        |columns: usize, byte: u8, cells: &[(i64, u32)]| refused(&plan, &[(columns, byte, cells)]);
    assert_eq!(one(9, 10, &[]), Some((13, 34)));
    assert_eq!(one(9, 255, &[]), Some((13, 34)));
    for byte in [1, 3, 255] {
        assert_eq!(one(2, byte, &[(-1, 0), (HIGHEST + 1, 0)]), Some((14, 50)));
        assert_eq!(one(2, byte, &[(-1, 0), (0, 1)]), Some((15, 58)));
        assert_eq!(one(2, byte, &[(LOWEST - 1, 1), (0, 0)]), Some((14, 38)));
        assert_eq!(one(2, byte, &[(-1, 1), (0, 0)]), Some((15, 46)));
    }

    // Before 16 to 19: no step, a wrong kind, too few tables, no such table.
    let negative = (2, 2, &negative[..]);
    assert_eq!(refused(&[], &[negative]), Some((20, 18)));
    for wrong in [record(9, 0, 0, 0, 0), union(), scan(1)] {
        assert_eq!(refused(&[wrong], &[negative]), Some((20, 34)));
    }
}

/// "A further work slice of 1,024 marks is lent, tested under 1 and left zero."
#[test]
fn the_lent_marks() {
    let cells = on_sheets(SUM + 2, &[1, 2]);
    let released = container(&[scan(0), sum()], &[(2, 2, &cells)]);
    let stays = container(&[scan(0), sum()], &[(2, 2, &on_sheets(SUM + 2, &[1, 1]))]);
    let wrong = container(&[scan(0), sum()], &[(2, 3, &cells)]);
    for length in [1_024, 1_025, 2_000] {
        let long = |room: usize| {
            let mut slices = lent(room);
            slices.marks.resize(length, 5);
            slices
        };
        let mut left = long(40);
        assert_eq!(left.run(&released, NO_DRAWS), [0, 1, 1, 7]);
        assert!(left.marks[..1_024].iter().all(|&mark| mark == 0));
        assert!(left.marks[1_024..].iter().all(|&mark| mark == 5));
        for (room, bytes, answer) in [(0, &released, [51, 2, 0, 0]), (40, &stays, [35, 2, 0, 0])] {
            let mut left = long(room);
            assert_eq!(left.run(bytes, NO_DRAWS), answer);
            let after = if answer[0] == 51 { 0 } else { 1 };
            assert_eq!(left, long(room).ran(&[1, 2, 2, 2, 7, 1, 1, after]));
        }
        let mut left = long(40);
        assert_eq!(left.run(&wrong, NO_DRAWS), [20, 50, 0, 0]);
        assert_eq!(left, long(40));
    }
    for length in [0, 1, 1_023] {
        for bytes in [&released, &stays, &wrong, &vec![]] {
            let mut short = lent(40);
            short.marks.truncate(length);
            let mut left = short.clone();
            assert_eq!(left.run(bytes, NO_DRAWS), [1, 0, 0, 0]);
            assert_eq!(left, short);
        }
    }
}

/// In the lines of steps each row has a mark of its own.
#[test]
fn lines_of_steps() {
    for (case, answer) in [
        ("GROUP 0 sum 0: 1| 1:20020002 / 2:20020002", "1| 3:0"),
        ("GROUP 0 sum 0: 1| 1:20020003 / 2:20020003", "1| 3:20020003"),
        ("GROUP 0 sum 0: 1| 9:0; 1| 1:20020002 / 2:20020002", "1| 9:0; 1| 3:0"),
    ] {
        assert_eq!(step_trials::lines(case), Ok(format!("{case} gives {answer}\n")));
    }
}
