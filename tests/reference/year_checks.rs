//! Document 02's rule year, #108, in the input checks, as examples: "Other high bytes
//! give 11", and of the two that there are nothing else is checked.

use super::conversion;
use super::examples::printed_case;
use super::minimum_examples::ONES;
use super::noise_examples::record;
use super::overlay_examples::{four, overlay};
use super::print_run;
use super::reference::check;
use super::reference::conversion::{converted, OFFSETS_LENGTH};
use super::reference::convert;
use super::sheet_examples::{container, group, on_sheets, scan, union, Given};
use super::text_examples::lent;
use super::year_examples::in_year;
use super::NO_DRAWS;

const SUM: u32 = 0x2002_0000;

fn refused(container: &[u8]) -> Option<(u32, usize)> {
    check(container).err().map(|refusal| (refusal.fault.number(), refusal.offset))
}

/// The last line that is printed.
fn answered(container: &[u8], overlays: &[&[u8]]) -> String {
    let mut text = String::new();
    print_run(container, NO_DRAWS, &four(overlays), &mut text);
    text.lines().last().unwrap_or_default().to_string()
}

/// One cell, in 50 bytes.
fn one_cell() -> Vec<u8> {
    container(&[scan(0)], &[(1, 0, &[(5, 0)])])
}

/// 0 and 1 alone.
#[test]
fn years() {
    for year in 0..=255 {
        let wrong = (year > 1).then_some((11, 0));
        assert_eq!(refused(&in_year(year, one_cell())), wrong, "year {year}");
        assert_eq!(refused(&in_year(year, printed_case(SUM + 2))), wrong, "year {year}");
        let answer = if year > 1 { "X 11 0" } else { "R 5" };
        assert_eq!(answered(&in_year(year, one_cell()), &[]), answer);
    }
}

/// Every number of 16 bits. With 3 to 6 parts the directory has room in the 50 bytes,
/// and the first pair is wrong; with 7 and more it has none.
#[test]
fn years_and_counts() {
    for year in 0..=255 {
        for count in 0..=255 {
            let mut bytes = in_year(year, one_cell());
            bytes[0] = count;
            let wrong = match (year, count) {
                (0 | 1, 2) => None,
                (0 | 1, 3..=6) => Some((12, 2)),
                _ => Some((11, 0)),
            };
            assert_eq!(refused(&bytes), wrong, "year {year}, count {count}");
        }
    }
}

/// Too short and too long, in the year 1.
#[test]
fn lengths() {
    let whole = in_year(1, one_cell());
    assert_eq!(refused(&[2]), Some((11, 0)));
    for length in 2..50 {
        let wrong = if length < 18 { (11, 0) } else { (12, 10) };
        assert_eq!(refused(&whole[..length]), Some(wrong), "{length} bytes");
    }
    let long = |length: usize| [&whole[..], &vec![0; length - 50]].concat();
    assert_eq!(refused(&long(65_536)), Some((12, 10)));
    assert_eq!(refused(&long(65_537)), Some((11, 0)));
    // Eight tables, and one more.
    let none: Given = (1, 0, &[]);
    let tables = |count: usize| in_year(1, container(&[scan(0)], &vec![none; count]));
    assert_eq!(refused(&tables(8)), None);
    assert_eq!(refused(&tables(9)), Some((11, 0)));
}

/// Behind the part count each byte is checked as before: two tables, the plan at 26,
/// the parts at 58 and 86.
#[test]
fn other_checks_know_no_year() {
    let plan = [scan(0), group(0, 1, 0)];
    let tables = [(2, 2, &[(5, SUM + 2), (3, 0)][..]), (1, 0, &[(5, SUM + 9); 2])];
    let whole = container(&plan, &tables);
    assert_eq!(whole.len(), 114);
    for at in 2..whole.len() {
        for bit in 0..8 {
            let mut bytes = whole.clone();
            bytes[at] ^= 1 << bit;
            assert_eq!(refused(&bytes), refused(&in_year(1, bytes.clone())), "{at}, bit {bit}");
        }
    }
    let with = |at: usize, byte: u8| {
        let mut bytes = in_year(1, whole.clone());
        bytes[at] = byte;
        refused(&bytes)
    };
    assert_eq!(with(2, 27), Some((12, 2)));
    assert_eq!(with(58, 1), Some((13, 58)));
    assert_eq!(with(69, 1), Some((14, 62)));
    assert_eq!(with(70, 0), Some((15, 70)));
    assert_eq!(with(59, 3), Some((20, 58)));
    assert_eq!(with(26, 0), Some((17, 26)));
    assert_eq!(with(27, 2), Some((19, 26)));
    let planned = |plan: &[[u8; 16]]| refused(&in_year(1, container(plan, &tables)));
    assert_eq!(planned(&[]), Some((16, 26)));
    assert_eq!(planned(&[union()]), Some((18, 26)));
    assert_eq!(planned(&[record(9, 0, 0, 0, 0)]), Some((17, 26)));
}

/// Minima from 2 are well-formed in both years, 1 in none; on a sheet number no label
/// is.
#[test]
fn minima() {
    for year in [0, 1] {
        let of = |word: u32| in_year(year, container(&[scan(0)], &[(1, 0, &[(5, word)])]));
        for minimum in 0..1_024 {
            let wrong = (minimum < 2).then_some((15, 46));
            assert_eq!(refused(&of(SUM + minimum)), wrong);
        }
        for word in ONES {
            assert_eq!(refused(&of(word)), Some((15, 46)));
        }
        let sheets =
            |word: u32| in_year(year, container(&[scan(0)], &[(2, 2, &[(5, 0), (3, word)])]));
        assert_eq!(refused(&sheets(SUM + 2)), Some((20, 34)));
        assert_eq!(refused(&sheets(SUM + 1)), Some((15, 58)));
    }
}

/// An overlay's count has 16 bits, whatever the year of the container is; and its
/// labels are checked as before. Its part is at 10, the labels at 14 and on.
#[test]
fn overlays_have_no_year() {
    let cells = on_sheets(SUM + 2, &[1, 2]);
    for year in [0, 1] {
        let plan = [scan(0), group(0, 1, 0)];
        let whole = in_year(year, container(&plan, &[(2, 2, &cells)]));
        let with = |labels: [u32; 4]| overlay(&[(2, 2, &labels)]);
        let right = if year == 0 { "R 3" } else { "X 35 2 0 0" };
        for high in 0..=255 {
            let zeros = in_year(high, with([0; 4]));
            let answer = if high == 0 { right } else { "X 21 0" };
            assert_eq!(answered(&whole, &[&zeros]), answer);
            assert_eq!(answered(&whole, &[&with([0; 4]), &zeros]), answer);
        }
        assert_eq!(answered(&whole, &[&with([SUM + 2, 0, SUM + 2, 0])]), right);
        assert_eq!(answered(&whole, &[&with([SUM + 2, 0, SUM + 9, 0])]), "X 35 2 0 0");
        for word in ONES {
            assert_eq!(answered(&whole, &[&with([0, 0, word, 0])]), "X 22 22");
        }
        assert_eq!(answered(&whole, &[&with([0, 0, 0, SUM + 2])]), "X 22 26");
    }
}

/// A wrong year before everything of the overlays, and nothing that is lent changes.
#[test]
fn wrong_years_first() {
    for year in [2, 3, 128, 255] {
        let wrong = in_year(year, printed_case(SUM + 2));
        assert_eq!(answered(&wrong, &[&[1, 1], &[0]]), "X 11 0");
        let mut left = lent(40);
        assert_eq!(left.run(&wrong, NO_DRAWS), [11, 0, 0, 0]);
        assert_eq!(left, lent(40));
    }
}

/// #107's conversion goes by "the old check", which had a part count of 16 bits.
#[test]
fn conversions_know_no_year() {
    let (one, two) = (printed_case(SUM + 1), printed_case(SUM + 2));
    assert_eq!(converted(&one), Ok((two.clone(), vec![74, 98])));
    for year in 1..=255 {
        for container in [&one, &two, &printed_case(0), &printed_case(1), &one_cell()] {
            let container = in_year(year, container.clone());
            let refusal = converted(&container).expect_err("no part count");
            assert_eq!((refusal.fault.number(), refusal.offset), (11, 0));
            assert_eq!(conversion(&container), (vec![], "X 11 0\n".to_string()));
            let (mut bytes, mut offsets) = (vec![b'?'; 200], vec![7; OFFSETS_LENGTH]);
            assert_eq!(convert(&container, &mut bytes, &mut offsets).numbers(), [11, 0]);
            assert_eq!((bytes, offsets), (vec![b'?'; 200], vec![7; OFFSETS_LENGTH]));
        }
    }
    // 1 comes first.
    let one = in_year(1, one);
    assert_eq!(convert(&one, &mut [0; 101], &mut [7; OFFSETS_LENGTH]).numbers(), [1, 0]);
    assert_eq!(convert(&one, &mut [0; 102], &mut [7; 8_191]).numbers(), [1, 0]);
}
