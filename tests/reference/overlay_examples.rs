//! Document 02's sentences on overlays, #106, as examples: what accepted ones do.
//! `overlay_checks` has those that are refused.

use super::noise_examples::{add, keep, noise, record, Record};
use super::reference::Overlays;
use super::sheet_examples::{container, group, join, on_sheets, scan, union, Given};
use super::{print_run, NO_OVERLAYS};

/// Columns, byte 1 and labels.
pub type Labels<'a> = (usize, u8, &'a [u32]);

/// "a 16-bit count equal to the number of tables, a directory by the container's
/// rule, one part per table in order, each part the four header bytes of that
/// table and then only labels"
pub fn overlay(tables: &[Labels]) -> Vec<u8> {
    let mut parts = Vec::new();
    for &(columns, byte, labels) in tables {
        let mut part = vec![columns as u8, byte];
        part.extend(((labels.len() / columns) as u16).to_le_bytes());
        labels.iter().for_each(|label| part.extend(label.to_le_bytes()));
        parts.push(part);
    }
    assembled(&parts)
}

/// These parts behind their count and the directory that they need.
pub fn assembled(parts: &[Vec<u8>]) -> Vec<u8> {
    let mut bytes = (parts.len() as u16).to_le_bytes().to_vec();
    let mut offset = 2 + 8 * parts.len();
    for part in parts {
        bytes.extend((offset as u32).to_le_bytes());
        bytes.extend((part.len() as u32).to_le_bytes());
        offset += part.len();
    }
    bytes.extend(parts.concat());
    bytes
}

/// Four slices, of which these come first.
pub fn four<'a>(overlays: &[&'a [u8]]) -> Overlays<'a> {
    [0, 1, 2, 3].map(|place: usize| overlays.get(place).copied().unwrap_or_default())
}

/// All orders of four things.
fn orders() -> Vec<[usize; 4]> {
    let different =
        |[a, b, c, d]: &[usize; 4]| a != b && a != c && a != d && b != c && b != d && c != d;
    let all = (0..256).map(|n: usize| [n / 64, n / 16 % 4, n / 4 % 4, n % 4]);
    all.filter(different).collect()
}

/// What is printed of a plan over these tables, with two draws, 0 and -11.
fn printed(plan: &[Record], tables: &[Given], overlays: &Overlays) -> String {
    let mut text = String::new();
    print_run(&container(plan, tables), &[0, -11], overlays, &mut text);
    text
}

/// The last line alone.
fn answered(plan: &[Record], tables: &[Given], overlays: &Overlays) -> String {
    printed(plan, tables, overlays).lines().last().unwrap_or_default().to_string()
}

/// Table 0 alone, of one column and with this label in each cell, under overlays
/// that have the same label in each cell too.
fn over_column(plan: &[Record], values: &[i64], own: u32, labels: &[u32]) -> String {
    let cells: Vec<(i64, u32)> = values.iter().map(|&value| (value, own)).collect();
    let overlay = |&label: &u32| overlay(&[(1, 0, &vec![label; values.len()])]);
    let overlays: Vec<Vec<u8>> = labels.iter().map(overlay).collect();
    let overlays: Vec<&[u8]> = overlays.iter().map(|overlay| &overlay[..]).collect();
    printed(plan, &[(1, 0, &cells)], &four(&overlays))
}

const H: u32 = 0x8000_0000;
/// T with add, and A with sum and with count, whose minimum stands in the low bits.
const ADD: u32 = 0x4100_0000;
const SUM: u32 = 0x2002_0000;
const COUNT: u32 = 0x2001_0000;
const NOISY: u32 = 0x1080_0000;

/// A column's sum, over all rows.
fn sum(column: u8) -> Record {
    group(0, 1, column)
}

/// Document 01's printed case: its labels from the container, from an overlay and
/// from both; and the second case, whose minimum an overlay brings.
#[test]
fn the_printed_case() {
    let plan = [scan(0), group(1, 1, 1)];
    let case = |own: u32, label: u32| {
        let cells = [(7, 0), (3, own), (7, 0), (5, own)];
        let overlay = overlay(&[(2, 0, &[0, label, 0, label])]);
        printed(&plan, &[(2, 0, &cells)], &four(&[&overlay]))
    };
    let released = "S 0 1 2 2 2\nS 1 7 1 2 0\nR 7 8\n";
    assert_eq!(case(0x2002_0002, 0), released);
    assert_eq!(case(0, 0x2002_0002), released);
    assert_eq!(case(0x2002_0002, 0x2002_0002), released);
    assert_eq!(case(0x2003_0002, 0x2002_0002), released);
    let refused = "S 0 1 2 2 2\nS 1 7 1 2 1\nX 35 2 0 1\n";
    assert_eq!(case(0x2002_0002, 0x2002_0003), refused);
    assert_eq!(case(0x2002_0003, 0x2002_0002), refused);
    assert_eq!(case(0, 0x2002_0003), refused);
    assert_eq!(case(0, 0), "S 0 1 2 2 0\nS 1 7 1 2 0\nR 7 8\n");
}

/// "Up to four overlays are composed onto the tables' labels", and "an empty
/// slice is no overlay", in any place: of three rows the sum asks for four
/// sheets as soon as one overlay does.
#[test]
fn one_to_four_overlays() {
    let cells = [(1, SUM + 2), (2, SUM + 2), (3, SUM + 2)];
    let of = |minimum: u32| overlay(&[(1, 0, &[SUM + minimum; 3])]);
    let (low, enough, high) = (of(2), of(3), of(4));
    let choices: [&[u8]; 4] = [&[], &low, &enough, &high];
    for number in 0..256usize {
        let places = [number / 64, number / 16 % 4, number / 4 % 4, number % 4];
        let left = if places.contains(&3) { "1\nX 35 2 0 0\n" } else { "0\nR 6\n" };
        let text = printed(&[scan(0), sum(0)], &[(1, 0, &cells)], &places.map(|at| choices[at]));
        assert_eq!(text, format!("S 0 1 3 1 3\nS 1 7 1 1 {left}"));
    }
}

/// A stage from each of four overlays, onto clear cells; "The order of accepted
/// overlays makes no difference."
#[test]
fn a_stage_from_each() {
    let plan = [scan(0), add(0, 100), sum(1), noise(0), keep(2)];
    let chain = "S 0 1 2 1 6\nS 1 6 2 2 10\nS 2 7 1 1 1\nS 3 8 1 2 1\nS 4 5 1 1 0\nR 211\n";
    let held = "S 0 1 2 1 8\nX 32 1 0 0\n";
    for order in orders() {
        let labels = |four: [u32; 4]| order.map(|place| four[place]);
        let text = |four: [u32; 4]| over_column(&plan, &[5, 6], 0, &labels(four));
        assert_eq!(text([ADD, SUM + 2, NOISY, 0]), chain);
        assert_eq!(text([ADD, SUM + 2, NOISY, H]), held);
        assert_eq!(text([ADD + SUM + 2, ADD, SUM + 2 + NOISY, NOISY]), chain);
    }
    assert_eq!(over_column(&plan, &[5, 6], ADD + SUM + 2 + NOISY, &[]), chain);
    assert_eq!(over_column(&plan, &[5, 6], H + ADD + SUM + 2 + NOISY, &[]), held);
}

/// H on the last cell of four, wherever the plan reads it: "The secrecy rule speaks
/// of the composed labels", and so does everything that a label decides.
#[test]
fn an_overlay_locks() {
    let cells = [(1, 0), (10, 0), (2, 0), (20, 0)];
    let held = overlay(&[(2, 0, &[0, 0, 0, H])]);
    let text = |plan: &[Record]| {
        let plan = [&[scan(0)], plan].concat();
        let text = printed(&plan, &[(2, 0, &cells)], &four(&[&held]));
        text.strip_prefix("S 0 1 2 2 1\n").expect("one stage in the table").to_string()
    };
    let mut two_columns = add(0, 0);
    two_columns[3..5].copy_from_slice(&[1, 1]);
    assert_eq!(text(&[]), "X 35 1 1 1\n");
    assert_eq!(text(&[keep(2)]), "S 1 5 2 1 1\nX 35 2 1 0\n");
    assert_eq!(text(&[keep(1)]), "S 1 5 2 1 0\nR 1\nR 2\n");
    assert_eq!(text(&[record(4, 1, 0, 0, 10)]), "X 31 1 1 1\n");
    assert_eq!(text(&[record(4, 0, 0, 0, 1)]), "S 1 4 1 2 0\nR 1 10\n");
    assert_eq!(text(&[scan(0), join(1, 0)]), "S 1 1 2 2 1\nX 31 2 1 1\n");
    assert_eq!(text(&[scan(0), join(0, 1)]), "S 1 1 2 2 1\nX 31 2 3 1\n");
    assert_eq!(text(&[group(2, 0, 0)]), "X 31 1 1 1\n");
    assert_eq!(text(&[sum(1)]), "X 32 1 1 1\n");
    assert_eq!(text(&[add(1, 5)]), "X 32 1 1 1\n");
    assert_eq!(text(&[two_columns]), "X 33 1 1 1\n");
    assert_eq!(text(&[noise(1)]), "X 32 1 1 1\n");
}

/// T above A forbids the sum until it is discharged, A above N the noise.
#[test]
fn an_overlay_forbids() {
    let text = |plan: &[Record], own: u32, label: u32| {
        over_column(&[&[scan(0)], plan].concat(), &[2, 3], own, &[label])
    };
    assert_eq!(text(&[sum(0)], SUM + 2, 0), "S 0 1 2 1 2\nS 1 7 1 1 0\nR 5\n");
    assert_eq!(text(&[sum(0)], SUM + 2, ADD), "S 0 1 2 1 4\nX 32 1 0 0\n");
    assert_eq!(
        text(&[add(0, 1), sum(1)], SUM + 2, ADD),
        "S 0 1 2 1 4\nS 1 6 2 2 6\nS 2 7 1 1 0\nR 7\n"
    );
    assert_eq!(
        text(&[noise(0), keep(2)], NOISY, 0),
        "S 0 1 2 1 2\nS 1 8 2 2 2\nS 2 5 2 1 0\nR 2\nR -8\n"
    );
    assert_eq!(text(&[noise(0), keep(2)], NOISY, SUM + 2), "S 0 1 2 1 4\nX 32 1 0 0\n");
    assert_eq!(text(&[noise(0), keep(2)], NOISY, H), "S 0 1 2 1 4\nX 32 1 0 0\n");
}

/// "allowed bits are intersected and the larger minimum and the larger digits are
/// taken; digits become 0 if cut is lost"
#[test]
fn an_overlay_takes_operations_away() {
    let last = |plan: &[Record], own: u32, labels: &[u32]| {
        let text = over_column(&[&[scan(0)], plan].concat(), &[2_000, 5_000], own, labels);
        text.lines().last().unwrap_or_default().to_string()
    };
    let count = group(0, 0, 0);
    let both = SUM | COUNT;
    assert_eq!(last(&[sum(0)], both + 2, &[SUM + 2]), "R 7000");
    assert_eq!(last(&[count], both + 2, &[SUM + 2]), "X 35 2 0 0");
    assert_eq!(last(&[count], both + 2, &[both + 2, COUNT + 2]), "R 2");
    for step in [sum(0), count] {
        assert_eq!(last(&[step], both + 2, &[SUM + 2, COUNT + 2]), "X 35 2 0 0");
        assert_eq!(last(&[step], SUM + 2, &[COUNT + 2]), "X 35 2 0 0");
        assert_eq!(last(&[step], 0, &[COUNT + 2, SUM + 2]), "X 35 2 0 0");
    }
    // Examples 2 and 3: cut with three digits, and add.
    let cut = |digits: i64| record(6, 0, 2, 0, digits);
    assert_eq!(last(&[cut(3), keep(2)], 0x4400_0C00, &[0x4400_0800]), "R 5");
    assert_eq!(last(&[cut(3), keep(2)], 0x4400_0C00, &[0x4400_1000]), "X 35 3 0 0");
    assert_eq!(last(&[cut(4), keep(2)], 0x4400_0C00, &[0x4400_1000]), "R 0");
    assert_eq!(last(&[cut(3), keep(2)], 0x4500_0C00, &[ADD]), "X 35 3 0 0");
    assert_eq!(last(&[add(0, 1), keep(2)], 0x4500_0C00, &[ADD]), "R 5001");
    // N without its bit; the second draw is -11.
    assert_eq!(last(&[noise(0), keep(2)], NOISY, &[NOISY]), "R 4989");
    assert_eq!(last(&[noise(0), keep(2)], NOISY, &[0x1000_0000]), "X 35 3 0 0");
    assert_eq!(last(&[noise(0), keep(2)], 0x1000_0000, &[NOISY]), "X 35 3 0 0");
}

/// What an overlay allows besides, and a lower minimum, loosen nothing.
#[test]
fn an_overlay_loosens_nothing() {
    let text = |own: u32, label: u32| over_column(&[scan(0), sum(0)], &[1, 2], own, &[label]);
    let stays = "S 0 1 2 1 2\nS 1 7 1 1 1\nX 35 2 0 0\n";
    assert_eq!(text(SUM + 3, 0x201F_0002), stays);
    assert_eq!(text(COUNT + 2, SUM + 2), stays);
    assert_eq!(text(0x2000_0002, SUM + 2), stays);
    assert_eq!(text(SUM + 3, 0), stays);
}

/// A minimum past the sheets of the group: marks come from the cells' values, and
/// zero labels are all that a sheet column takes.
#[test]
fn a_minimum_past_a_group() {
    let plan = [scan(0), group(1, 1, 1)];
    let row = |key: i64, number: i64| [(key, 0), (10, SUM + 2), (number, 0)];
    // Key 0 has three sheets, key 1 has two in three rows.
    let cells = [row(0, 1), row(1, 1), row(0, 2), row(1, 1), row(0, 3), row(1, 9)].concat();
    let raised = |minimum: u32| overlay(&[(3, 3, &[0, SUM + minimum, 0].repeat(6))]);
    let text = |overlays: &Overlays| printed(&plan, &[(3, 3, &cells)], overlays);
    let released = "S 0 1 6 3 6\nS 1 7 2 2 0\nR 0 30\nR 1 30\n";
    assert_eq!(text(NO_OVERLAYS), released);
    assert_eq!(text(&four(&[&raised(2)])), released);
    let one_left = "S 0 1 6 3 6\nS 1 7 2 2 1\nX 35 2 1 1\n";
    assert_eq!(text(&four(&[&raised(3)])), one_left);
    assert_eq!(text(&four(&[&raised(2), &raised(3), &raised(2)])), one_left);
    let both_left = "S 0 1 6 3 6\nS 1 7 2 2 2\nX 35 2 0 1\n";
    assert_eq!(text(&four(&[&raised(4)])), both_left);
    assert_eq!(text(&four(&[&raised(1_023)])), both_left);
    // One cell alone: the others of its group are discharged.
    let mut labels = vec![0; 18];
    labels[3 * 2 + 1] = SUM + 4;
    let one = overlay(&[(3, 3, &labels)]);
    assert_eq!(text(&four(&[&one])), "S 0 1 6 3 6\nS 1 7 2 2 1\nX 35 2 0 1\n");
}

/// "one part per table in order": each label goes to its own cell, of tables of
/// different widths, and stays there through both scans of a table.
#[test]
fn every_cell_has_its_label() {
    let shapes = [(3, 2), (1, 4), (2, 3)];
    let cells = vec![(4, 0); 6];
    let tables: Vec<Given> =
        shapes.iter().map(|&(columns, rows)| (columns, 0, &cells[..columns * rows])).collect();
    for (number, &(columns, rows)) in shapes.iter().enumerate() {
        for cell in 0..columns * rows {
            let mut labels = shapes.map(|(columns, rows)| vec![0; columns * rows]);
            labels[number][cell] = SUM + 2;
            let parts: Vec<Labels> =
                (0..3).map(|table| (shapes[table].0, 0, &labels[table][..])).collect();
            let overlay = overlay(&parts);
            for table in 0..3 {
                let last = answered(&[scan(table as u8)], &tables, &four(&[&overlay]));
                if table == number {
                    assert_eq!(last, format!("X 35 1 {} {}", cell / columns, cell % columns));
                } else {
                    assert!(last.starts_with("R 4"), "{last}");
                }
            }
            let twice = [scan(number as u8), scan(number as u8), union()];
            let text = printed(&twice, &tables, &four(&[&[], &overlay]));
            let lines = format!(
                "S 0 1 {rows} {columns} 1\nS 1 1 {rows} {columns} 1\nS 2 2 {} {columns} 2\n",
                2 * rows
            );
            assert!(text.starts_with(&lines), "{text}");
        }
    }
}

/// Tables of no rows have parts of four bytes; eight tables have eight.
#[test]
fn no_rows_and_eight_tables() {
    let none = overlay(&[(3, 2, &[])]);
    assert_eq!(none, [1, 0, 10, 0, 0, 0, 4, 0, 0, 0, 3, 2, 0, 0]);
    let text = printed(&[scan(0)], &[(3, 2, &[])], &four(&[&none, &none, &none, &none]));
    assert_eq!(text, "S 0 1 0 3 0\n");

    let cell = [(9, 0)];
    let mut tables: Vec<Given> = vec![(1, 0, &cell); 8];
    tables[3] = (2, 1, &[]);
    let mut parts: Vec<Labels> = vec![(1, 0, &[0]); 8];
    parts[3] = (2, 1, &[]);
    parts[7] = (1, 0, &[H]);
    let eight = overlay(&parts);
    for table in [0, 1, 2, 4, 5, 6] {
        assert_eq!(answered(&[scan(table)], &tables, &four(&[&eight])), "R 9");
    }
    assert_eq!(answered(&[scan(3)], &tables, &four(&[&eight])), "S 0 1 0 2 0");
    assert_eq!(answered(&[scan(7)], &tables, &four(&[&eight])), "X 35 1 0 0");
}

/// "If a run with overlays releases, the run without them releases the same rows":
/// the trace tells the stages that the overlays brought.
#[test]
fn the_run_without_overlays() {
    let cells = on_sheets(SUM + 2, &[1, 2, 3]);
    let plan = [scan(0), add(0, 5), sum(2)];
    let label = ADD + SUM + 3;
    let strict = overlay(&[(2, 2, &[label, 0].repeat(3))]);
    let with = printed(&plan, &[(2, 2, &cells)], &four(&[&strict]));
    assert_eq!(with, "S 0 1 3 2 6\nS 1 6 3 3 9\nS 2 7 1 1 0\nR 21\n");
    let without = printed(&plan, &[(2, 2, &cells)], NO_OVERLAYS);
    assert_eq!(without, "S 0 1 3 2 3\nS 1 6 3 3 6\nS 2 7 1 1 0\nR 21\n");
}

/// "The secrecy rule speaks of the composed labels": the value that an overlay
/// alone locks, and where the labels come from, tell nothing.
#[test]
fn what_an_overlay_locks_stays_secret() {
    let plan = [scan(0), add(0, 1), keep(2)];
    let text = |value: i64, own: u32, labels: &[u32]| over_column(&plan, &[value], own, labels);
    // No GROUP discharges A, so that the cell is locked by it.
    let wanted = "S 0 1 1 1 2\nS 1 6 1 2 3\nS 2 5 1 1 1\nX 35 3 0 0\n";
    for value in [5, -7, 140_737_488_355_327] {
        assert_eq!(text(value, ADD, &[SUM + 2]), wanted);
        assert_eq!(text(value, 0, &[SUM + 2, ADD]), wanted);
        assert_eq!(text(value, ADD + SUM + 2, &[0, SUM + 3]), wanted);
        assert_eq!(text(value, ADD + SUM + 2, &[]), wanted);
    }
    assert_ne!(text(5, ADD, &[]), text(-7, ADD, &[]));
}
