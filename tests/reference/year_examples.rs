//! Document 02's floor of ten, #108, as examples. `year_checks` has the input checks.

use super::examples::printed_case;
use super::export;
use super::noise_examples::{add, keep, noise, record, Record};
use super::overlay_examples::{four, overlay};
use super::print_run;
use super::reference::container::parse;
use super::reference::overlay::composed;
use super::reference::year::by_year;
use super::sheet_examples::{container, group, join, on_sheets, scan, union, Given};
use super::text_examples::lent;
use super::NO_DRAWS;

const H: u32 = 0x8000_0000;
/// T with add, and A with sum and with count, whose minimum stands in the low bits.
const ADD: u32 = 0x4100_0000;
const SUM: u32 = 0x2002_0000;
const COUNT: u32 = 0x2001_0000;
const NOISY: u32 = 0x1080_0000;

/// The container with this byte behind its part count.
pub fn in_year(year: u8, mut container: Vec<u8>) -> Vec<u8> {
    container[1] = year;
    container
}

/// What is printed of a plan in a year, with two draws, 1 and 7.
fn printed(year: u8, plan: &[Record], tables: &[Given]) -> String {
    let mut text = String::new();
    let container = in_year(year, container(plan, tables));
    print_run(&container, &[1, 7], &four(&[]), &mut text);
    text
}

/// The last line alone.
fn answered(year: u8, plan: &[Record], tables: &[Given]) -> String {
    printed(year, plan, tables).lines().last().unwrap_or_default().to_string()
}

/// Values 1, 2, 3 and on with this label, in one column.
fn column(label: u32, rows: i64) -> Vec<(i64, u32)> {
    (1..=rows).map(|value| (value, label)).collect()
}

/// A column's sum, over all rows.
fn sum(column: u8) -> Record {
    group(0, 1, column)
}

/// How the label of a cell is read at step 0, with the labels of overlays.
fn read(year: u8, own: u32, labels: &[u32]) -> u32 {
    let overlays: Vec<Vec<u8>> = labels.iter().map(|&word| overlay(&[(1, 0, &[word])])).collect();
    let overlays: Vec<&[u8]> = overlays.iter().map(|overlay| &overlay[..]).collect();
    let container = in_year(year, container(&[scan(0)], &[(1, 0, &[(5, own)])]));
    let whole = parse(&container).and_then(|plain| composed(plain, &four(&overlays)));
    by_year(whole.expect("accepted")).tables[0].cells[0].label.word()
}

/// "each A minimum below ten is read as ten": every minimum, of labels with every
/// set of stages above and below A.
#[test]
fn minima() {
    let tens = [(2, 10), (3, 10), (8, 10), (9, 10), (10, 10), (11, 11), (257, 257), (1_023, 1_023)];
    for (minimum, ten) in tens {
        assert_eq!(read(1, SUM + minimum, &[]), SUM + ten);
        assert_eq!(read(0, SUM + minimum, &[]), SUM + minimum);
    }
    for word in [0x2000_0000, 0x201F_0000, H + SUM, ADD + SUM, SUM + NOISY, 0xFF9F_1800] {
        for minimum in 2..1_024 {
            let ten = if minimum < 10 { 10 } else { minimum };
            assert_eq!(read(1, word + minimum, &[]), word + ten);
            assert_eq!(read(0, word + minimum, &[]), word + minimum);
        }
    }
}

/// A label without A has no minimum, whatever its digits are.
#[test]
fn labels_without_a() {
    for word in [0, H, ADD, 0x4F00_1800, 0x4400_0400, NOISY, 0x1000_0000, H + ADD + NOISY] {
        for year in [0, 1] {
            assert_eq!(read(year, word, &[]), word);
            assert_eq!(read(year, 0, &[word]), word);
            assert_eq!(read(year, word, &[0, word]), word);
        }
    }
}

/// "after overlays are composed": the larger minimum first, then the floor.
#[test]
fn composed_labels() {
    let both = SUM | COUNT;
    let cases: [(u32, &[u32], u32, u32); 15] = [
        (SUM + 2, &[SUM + 9], SUM + 9, SUM + 10),
        (SUM + 9, &[SUM + 2], SUM + 9, SUM + 10),
        (SUM + 2, &[SUM + 10], SUM + 10, SUM + 10),
        (SUM + 2, &[SUM + 11], SUM + 11, SUM + 11),
        (SUM + 11, &[SUM + 2], SUM + 11, SUM + 11),
        (SUM + 3, &[SUM + 4, SUM + 5, SUM + 1_023], SUM + 1_023, SUM + 1_023),
        // No sum of minima, and no floor for each of them.
        (SUM + 5, &[SUM + 5, SUM + 5], SUM + 5, SUM + 10),
        (both + 2, &[SUM + 3], SUM + 3, SUM + 10),
        (SUM + 2, &[COUNT + 2], 0x2000_0002, 0x2000_000A),
        // An overlay brings A to a cell that has none.
        (0, &[SUM + 2], SUM + 2, SUM + 10),
        (0, &[SUM + 12], SUM + 12, SUM + 12),
        (ADD, &[SUM + 2], ADD + SUM + 2, ADD + SUM + 10),
        (NOISY, &[SUM + 9], SUM + 9 + NOISY, SUM + 10 + NOISY),
        (ADD + NOISY, &[SUM + 2], ADD + SUM + 2 + NOISY, ADD + SUM + 10 + NOISY),
        (0, &[ADD, SUM + 3, NOISY, SUM + 4], ADD + SUM + 4 + NOISY, ADD + SUM + 10 + NOISY),
    ];
    for (own, labels, earlier, floor) in cases {
        assert_eq!(read(0, own, labels), earlier);
        assert_eq!(read(1, own, labels), floor);
    }
}

/// Groups of 9, 10 and 11 sheets, under minima about ten.
#[test]
fn groups_about_ten() {
    let plan = [scan(0), sum(0)];
    for (sheets, total, released) in [
        (9, 45, [[2, 3, 9].as_slice(), &[]]),
        (10, 55, [&[2, 3, 9, 10], &[2, 3, 9, 10]]),
        (11, 66, [&[2, 3, 9, 10, 11], &[2, 3, 9, 10, 11]]),
    ] {
        let numbers: Vec<i64> = (20..20 + sheets).collect();
        for year in [0, 1] {
            for minimum in [2, 3, 9, 10, 11, 12, 1_023] {
                let left = match released[year as usize].contains(&minimum) {
                    true => format!("0\nR {total}\n"),
                    false => "1\nX 35 2 0 0\n".to_string(),
                };
                let wanted =
                    |columns: i64| format!("S 0 1 {sheets} {columns} {sheets}\nS 1 7 1 1 {left}");
                let (label, byte) = (SUM + minimum, 2);
                let numbered = on_sheets(label, &numbers);
                assert_eq!(printed(year, &plan, &[(2, byte, &numbered)]), wanted(2));
                assert_eq!(printed(year, &plan, &[(1, 0, &column(label, sheets))]), wanted(1));
            }
        }
    }
}

/// "at least ten sheets": ten rows of nine sheets are too few, and so are twenty
/// that come from nine.
#[test]
fn sheets_and_not_rows() {
    let numbers = |sheets: i64, rows: i64| (0..rows).map(|row| row % sheets).collect::<Vec<i64>>();
    let answer = |year: u8, plan: &[Record], sheets: i64, rows: i64| {
        let cells = on_sheets(SUM + 2, &numbers(sheets, rows));
        answered(year, plan, &[(2, 2, &cells)])
    };
    let (once, twice) = ([scan(0), sum(0)], [scan(0), scan(0), union(), sum(0)]);
    for (sheets, rows, total) in [(9, 10, 55), (9, 20, 210), (9, 256, 32_896)] {
        assert_eq!(answer(0, &once, sheets, rows), format!("R {total}"));
        assert_eq!(answer(1, &once, sheets, rows), "X 35 2 0 0");
    }
    for year in [0, 1] {
        assert_eq!(answer(year, &once, 10, 20), "R 210");
        assert_eq!(answer(year, &once, 10, 256), "R 32896");
        assert_eq!(answer(year, &twice, 10, 10), "R 110");
    }
    assert_eq!(answer(0, &twice, 9, 9), "R 90");
    assert_eq!(answer(1, &twice, 9, 9), "X 35 4 0 0");
    // Five rows of one table, and four or five of the other.
    let two = |year: u8, rows: i64| {
        let (one, other) = (column(SUM + 2, 5), column(SUM + 3, rows));
        answered(year, &[scan(0), scan(1), union(), sum(0)], &[(1, 0, &one), (1, 0, &other)])
    };
    assert_eq!([two(0, 4), two(0, 5)], ["R 25", "R 30"]);
    assert_eq!([two(1, 4), two(1, 5)], ["X 35 4 0 0", "R 30"]);
}

/// "any aggregate": count, sum, min, max and avg, whose nearest even number is 6 of
/// 55 in ten rows.
#[test]
fn every_aggregate() {
    let answer = |year: u8, code: u8, rows: i64| {
        answered(year, &[scan(0), group(0, code, 0)], &[(1, 0, &column(0x201F_0004, rows))])
    };
    let nine = ["R 9", "R 45", "R 1", "R 9", "R 5"];
    let ten = ["R 10", "R 55", "R 1", "R 10", "R 6"];
    for code in 0..5 {
        assert_eq!(answer(0, code, 9), nine[code as usize]);
        assert_eq!(answer(1, code, 9), "X 35 2 0 0");
        assert_eq!(answer(0, code, 10), ten[code as usize]);
        assert_eq!(answer(1, code, 10), ten[code as usize]);
    }
}

/// T above A and N below it, taken off stage by stage; what A keeps forbids NOISE.
#[test]
fn a_chain() {
    let plan = [scan(0), add(0, 100), sum(1), noise(0), keep(2)];
    let text =
        |year: u8, rows: i64| printed(year, &plan, &[(1, 0, &column(ADD + SUM + 2 + NOISY, rows))]);
    let nine = "S 0 1 9 1 27\nS 1 6 9 2 45\n";
    let ten = "S 0 1 10 1 30\nS 1 6 10 2 50\n";
    let rest = "S 2 7 1 1 1\nS 3 8 1 2 1\nS 4 5 1 1 0\n";
    assert_eq!(text(0, 9), format!("{nine}{rest}R 946\n"));
    assert_eq!(text(1, 9), format!("{nine}S 2 7 1 1 2\nX 32 3 0 0\n"));
    assert_eq!(text(0, 10), format!("{ten}{rest}R 1056\n"));
    assert_eq!(text(1, 10), text(0, 10));
    // Under T no sum at all, as before.
    for year in [0, 1] {
        let cells = column(ADD + SUM + 2, 20);
        assert_eq!(answered(year, &[scan(0), sum(0)], &[(1, 0, &cells)]), "X 32 1 0 0");
    }
}

/// The sum of nine sheets and its key, and what may be done with it: 31, 32, 33 and
/// 35 where the floor keeps its stage, and a release in an earlier year.
#[test]
fn what_the_floor_keeps() {
    let cells: Vec<(i64, u32)> = (1..=9).flat_map(|value| [(7, 0), (value, SUM + 4)]).collect();
    let other = [(45, 0)];
    let tables: [Given; 2] = [(2, 0, &cells), (1, 0, &other)];
    let mut with_column_1 = add(0, 0);
    with_column_1[3..5].copy_from_slice(&[1, 1]);
    let steps = [scan(0), group(1, 1, 1)];
    let after = |more: &[Record]| [&steps, more].concat();
    for (plan, earlier, floor) in [
        (after(&[]), "R 7 45", "X 35 2 0 1"),
        (after(&[record(4, 1, 4, 0, 0)]), "R 7 45", "X 31 2 0 1"),
        (after(&[scan(1), join(1, 0)]), "R 7 45", "X 31 3 0 1"),
        ([&[scan(1)], &after(&[join(0, 1)])[..]].concat(), "R 45 7", "X 31 3 1 1"),
        (after(&[group(2, 0, 0)]), "R 45 1", "X 31 2 0 1"),
        (after(&[with_column_1]), "R 7 45 52", "X 33 2 0 1"),
        (after(&[noise(1)]), "R 7 45 46", "X 32 2 0 1"),
        (after(&[add(1, 5)]), "R 7 45 50", "X 35 3 0 1"),
        (after(&[keep(1)]), "R 7", "R 7"),
    ] {
        assert_eq!(answered(0, &plan, &tables), earlier);
        assert_eq!(answered(1, &plan, &tables), floor);
    }
    let finished = "S 0 1 9 2 9\nS 1 7 1 2";
    assert!(printed(0, &steps, &tables).starts_with(&format!("{finished} 0\n")));
    assert!(printed(1, &steps, &tables).starts_with(&format!("{finished} 1\n")));
}

/// A second GROUP counts groups, as many as are asked for after the floor: max is
/// not allowed, so the first one leaves the labels.
#[test]
fn a_group_of_groups() {
    let plan = [scan(0), group(1, 3, 1), sum(1)];
    let answer = |year: u8, groups: i64, label: u32| {
        let cells: Vec<(i64, u32)> =
            (1..=groups).flat_map(|value| [(value, 0), (value, label)].repeat(2)).collect();
        answered(year, &plan, &[(2, 0, &cells)])
    };
    assert_eq!(answer(0, 9, SUM + 2), "R 45");
    assert_eq!(answer(1, 9, SUM + 2), "X 35 3 0 0");
    assert_eq!(answer(1, 10, SUM + 2), "R 55");
    assert_eq!(answer(1, 10, SUM + 11), "X 35 3 0 0");
    assert_eq!(answer(1, 11, SUM + 11), "R 66");
}

/// A group of one label below ten and one above: each is discharged by its own.
#[test]
fn unequal_labels() {
    let answer = |year: u8, rows: i64, large: u32| {
        let mut cells = column(SUM + 2, rows);
        cells[0].1 = SUM + large;
        answered(year, &[scan(0), sum(0)], &[(1, 0, &cells)])
    };
    for year in [0, 1] {
        assert_eq!(answer(year, 11, 12), "X 35 2 0 0");
        assert_eq!(answer(year, 12, 12), "R 78");
        assert_eq!(answer(year, 10, 9), "R 55");
    }
    assert_eq!(answer(0, 9, 9), "R 45");
    assert_eq!(answer(1, 9, 9), "X 35 2 0 0");
}

/// Clear cells have no minimum: their aggregate is released whatever the group is.
/// Beside a labelled one their sheets count.
#[test]
fn clear_cells() {
    for year in [0, 1] {
        for (code, answer) in [(0, "R 2"), (1, "R 3"), (2, "R 1"), (3, "R 2"), (4, "R 2")] {
            let plan = [scan(0), group(0, code, 0)];
            assert_eq!(answered(year, &plan, &[(1, 0, &column(0, 2))]), answer);
        }
        assert_eq!(answered(year, &[scan(0), sum(0)], &[(1, 0, &[(5, 0)])]), "R 5");
        // What an APPLY or a NOISE has cleared is clear.
        let plan = [scan(0), add(0, 1), sum(1)];
        assert_eq!(answered(year, &plan, &[(1, 0, &column(ADD, 2))]), "R 5");
        let plan = [scan(0), noise(0), sum(1)];
        assert_eq!(answered(year, &plan, &[(1, 0, &column(NOISY, 2))]), "R 11");
    }
    let beside = |year: u8, rows: i64| {
        let mut cells = column(0, rows);
        cells[2].1 = SUM + 2;
        answered(year, &[scan(0), sum(0)], &[(1, 0, &cells)])
    };
    assert_eq!([beside(0, 9), beside(0, 10)], ["R 45", "R 55"]);
    assert_eq!([beside(1, 9), beside(1, 10)], ["X 35 2 0 0", "R 55"]);
}

/// Each of eight tables has the floor, and those that no step scans play no part.
#[test]
fn every_table() {
    let (nine, ten) = (column(SUM + 2, 9), column(SUM + 9, 10));
    for table in 0..8 {
        let plan = [scan(table), sum(0)];
        let nines = [(1, 0, &nine[..]); 8];
        assert_eq!(answered(0, &plan, &nines), "R 45");
        assert_eq!(answered(1, &plan, &nines), "X 35 2 0 0");
        let mut tables = nines;
        tables[table as usize].2 = &ten;
        assert_eq!(answered(1, &plan, &tables), "R 55");
    }
}

/// Every cell of a table: where one label of ten rows by eight columns asks for 2 and
/// the others are clear, the sum of its column is held with nine rows.
#[test]
fn every_cell() {
    for place in 0..80 {
        let mut cells = vec![(3, 0); 80];
        cells[place].1 = SUM + 2;
        let plan = [scan(0), sum(place as u8 % 8)];
        assert_eq!(answered(1, &plan, &[(8, 0, &cells)]), "R 30");
        let row = 8 * if place / 8 == 0 { 1 } else { 0 };
        cells.drain(row..row + 8);
        assert_eq!(answered(1, &plan, &[(8, 0, &cells)]), "X 35 2 0 0");
        assert_eq!(answered(0, &plan, &[(8, 0, &cells)]), "R 27");
    }
}

/// Overlays over so many rows of one column: minima below ten and above, and an A
/// that the container does not have.
#[test]
fn overlays_about_ten() {
    let last = |year: u8, plan: &[Record], rows: i64, own: u32, labels: &[u32]| {
        let overlay = |&label: &u32| overlay(&[(1, 0, &vec![label; rows as usize])]);
        let overlays: Vec<Vec<u8>> = labels.iter().map(overlay).collect();
        let overlays: Vec<&[u8]> = overlays.iter().map(|overlay| &overlay[..]).collect();
        let container = in_year(year, container(plan, &[(1, 0, &column(own, rows))]));
        let mut text = String::new();
        print_run(&container, &[1, 7], &four(&overlays), &mut text);
        text.lines().last().unwrap_or_default().to_string()
    };
    let plan = [scan(0), sum(0)];
    let held = "X 35 2 0 0";
    let cases: [(u32, &[u32], i64, &str, &str); 13] = [
        (SUM + 2, &[SUM + 9], 9, "R 45", held),
        (SUM + 2, &[SUM + 9], 10, "R 55", "R 55"),
        (SUM + 2, &[SUM + 10], 9, held, held),
        (SUM + 2, &[SUM + 11], 10, held, held),
        (SUM + 2, &[SUM + 11], 11, "R 66", "R 66"),
        (SUM + 11, &[SUM + 2], 10, held, held),
        (SUM + 11, &[SUM + 2], 11, "R 66", "R 66"),
        (0, &[SUM + 2], 2, "R 3", held),
        (0, &[SUM + 2], 9, "R 45", held),
        (0, &[SUM + 2], 10, "R 55", "R 55"),
        (0, &[SUM + 2, SUM + 9, SUM + 10, SUM + 3], 9, held, held),
        (0, &[SUM + 2, SUM + 9, SUM + 10, SUM + 3], 10, "R 55", "R 55"),
        (0, &[0, 0], 2, "R 3", "R 3"),
    ];
    for (own, labels, rows, earlier, floor) in cases {
        assert_eq!(last(0, &plan, rows, own, labels), earlier);
        assert_eq!(last(1, &plan, rows, own, labels), floor);
    }
    // A between the container's T and N.
    let plan = [scan(0), add(0, 100), sum(1), noise(0), keep(2)];
    assert_eq!(last(0, &plan, 9, ADD + NOISY, &[SUM + 2]), "R 946");
    assert_eq!(last(1, &plan, 9, ADD + NOISY, &[SUM + 2]), "X 32 3 0 0");
    assert_eq!(last(1, &plan, 10, ADD + NOISY, &[SUM + 2]), "R 1056");
}

/// Document 01's printed case has two sheets: under the floor it is the second case.
#[test]
fn the_printed_case() {
    let text = |year: u8, word: u32| {
        let mut text = String::new();
        print_run(&in_year(year, printed_case(word)), NO_DRAWS, &four(&[]), &mut text);
        text
    };
    let stays = "S 0 1 2 2 2\nS 1 7 1 2 1\nX 35 2 0 1\n";
    assert_eq!(text(0, 0x2002_0002), "S 0 1 2 2 2\nS 1 7 1 2 0\nR 7 8\n");
    assert_eq!(text(1, 0x2002_0002), stays);
    assert_eq!(text(0, 0x2002_0003), stays);
    assert_eq!(text(1, 0x2002_0003), stays);
    for year in [0, 1] {
        assert_eq!(text(year, 0), "S 0 1 2 2 0\nS 1 7 1 2 0\nR 7 8\n");
    }
    let one = in_year(1, printed_case(0x2002_0002));
    assert_eq!(export(&one), Err("X 35 2 0 1".to_string()));
    assert_eq!(export(&in_year(1, printed_case(0))).as_deref(), Ok("c0,c1\r\n7,8\r\n"));
}

/// What is lent ends as after 35, and as after a release.
#[test]
fn lent_slices() {
    let held = in_year(1, container(&[scan(0), sum(0)], &[(1, 0, &column(SUM + 2, 9))]));
    let mut left = lent(40);
    assert_eq!(left.run(&held, NO_DRAWS), [35, 2, 0, 0]);
    assert_eq!(left, lent(40).ran(&[1, 9, 1, 9, 7, 1, 1, 1]));
    let plan = [scan(0), sum(0)];
    let of = |year: u8| in_year(year, container(&plan, &[(1, 0, &column(SUM + 2, 10))]));
    let (mut earlier, mut floor) = (lent(40), lent(40));
    // The text is "c0", "55" and two line ends.
    assert_eq!(earlier.run(&of(0), NO_DRAWS), [0, 1, 1, 8]);
    assert_eq!(floor.run(&of(1), NO_DRAWS), [0, 1, 1, 8]);
    assert_eq!(earlier, floor);
}

/// "secrecy for two inputs of one year": count is not allowed by the only GROUP, so
/// that the labels lock, with the floor as without it.
#[test]
fn what_is_locked_stays_secret() {
    for year in [0, 1] {
        let text = |value: i64| {
            let mut cells = column(COUNT + 2, 12);
            cells[5].0 = value;
            printed(year, &[scan(0), sum(0)], &[(1, 0, &cells)])
        };
        let wanted = "S 0 1 12 1 12\nS 1 7 1 1 1\nX 35 2 0 0\n";
        assert_eq!([text(6), text(-9), text(140_737_488_355_327)], [wanted; 3]);
    }
}
