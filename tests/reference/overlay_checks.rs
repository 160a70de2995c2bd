//! Document 02's 21 and 22, #106, as examples: each cause with its place, and the
//! order of all checks.

use super::noise_examples::{record, Record};
use super::overlay_examples::{assembled, four, overlay, Labels};
use super::reference::container::parse;
use super::reference::overlay::composed;
use super::reference::Overlays;
use super::sheet_examples::{container, group, scan, union, Given};
use super::text_examples::lent;
use super::{print_run, NO_DRAWS};

/// Two rows with sheet numbers in column 1, and a table of one cell, which no step
/// scans.
const TABLES: [Given; 2] = [(2, 2, &[(5, 0), (1, 0), (6, 0), (2, 0)]), (1, 0, &[(9, 0)])];

fn plain() -> Vec<u8> {
    container(&[scan(0), group(0, 1, 0)], &TABLES)
}

/// The parts of an overlay of these tables, with zero labels. The overlay has its
/// pairs at 2 and 10, its parts at 18 and 38, and 46 bytes.
fn parts() -> Vec<Vec<u8>> {
    let labels = |count: usize| vec![0; 4 * count];
    vec![[vec![2, 2, 2, 0], labels(4)].concat(), [vec![1, 0, 1, 0], labels(1)].concat()]
}

const PAIRS: [usize; 2] = [2, 10];
const PARTS: [usize; 2] = [18, 38];
const END: usize = 46;
/// Where the labels stand, and of these the ones in the sheet column.
const FIELDS: [usize; 5] = [22, 26, 30, 34, 42];
const SHEETS: [usize; 2] = [26, 34];

fn zeros() -> Vec<u8> {
    assembled(&parts())
}

/// The overlay of zero labels, with these bytes in place of its own.
fn changed(at: usize, bytes: &[u8]) -> Vec<u8> {
    let mut overlay = zeros();
    overlay[at..at + bytes.len()].copy_from_slice(bytes);
    overlay
}

fn with_number(at: usize, number: u32) -> Vec<u8> {
    changed(at, &number.to_le_bytes())
}

/// What the input checks answer with these overlays.
fn refused_under(container: &[u8], overlays: &Overlays) -> Option<(u32, usize)> {
    let prepared = parse(container).and_then(|container| composed(container, overlays));
    prepared.err().map(|refusal| (refusal.fault.number(), refusal.offset))
}

fn refused(overlay: &[u8]) -> Option<(u32, usize)> {
    refused_under(&plain(), &four(&[overlay]))
}

/// Well-formed labels that are not zero, and ill-formed words.
const LABELS: [u32; 5] = [0x8000_0000, 0x4000_0000, 0x2000_0002, 0x1080_0000, 0xFF9F_07FF];
const ILL_FORMED: [u32; 10] = [
    0x0000_0001,
    0x2000_0001,
    0x2003_0000,
    0x4400_0000,
    0x0080_0000,
    0x0040_0000,
    0x0000_2000,
    0x4400_1C00,
    0x0100_0000,
    0xFFFF_FFFF,
];

#[test]
fn the_overlay_of_zeros() {
    let labels: [Labels; 2] = [(2, 2, &[0; 4]), (1, 0, &[0])];
    assert_eq!(zeros(), overlay(&labels));
    assert_eq!(zeros().len(), END);
    assert_eq!(refused(&zeros()), None);
    assert_eq!(refused(&[]), None);
}

/// 21 for "count", place 0: all 16 bits of it.
#[test]
fn wrong_counts() {
    for count in 0..=u16::MAX {
        let wrong = (count != 2).then_some((21, 0));
        assert_eq!(refused(&changed(0, &count.to_le_bytes())), wrong);
    }
    // The parts and the directory are right for the count.
    assert_eq!(refused(&assembled(&parts()[..1])), Some((21, 0)));
    assert_eq!(refused(&assembled(&[parts(), parts()].concat())), Some((21, 0)));
    assert_eq!(refused(&assembled(&[])), Some((21, 0)));
    // Before the pairs.
    let mut both = with_number(2, 0);
    both[1] = 1;
    assert_eq!(refused(&both), Some((21, 0)));
}

/// Cut short at each byte: 21 at 0 where the directory has no room, at the last
/// pair where the end is wrong; no byte is no overlay.
#[test]
fn cut_short() {
    for length in 1..END {
        let place = if length < 18 { 0 } else { 10 };
        assert_eq!(refused(&zeros()[..length]), Some((21, place)), "{length} bytes");
    }
    for more in 1..30 {
        let longer = [zeros(), vec![0; more]].concat();
        assert_eq!(refused(&longer), Some((21, 10)));
    }
}

/// "a label container of at most 65,536 bytes": one byte more is 21 at 0, as for
/// 11; so many are too long for the last part.
#[test]
fn the_longest() {
    let long = |length: usize| {
        let mut parts = parts();
        parts[1].resize(length - 38, 0);
        assembled(&parts)
    };
    assert_eq!(refused(&long(END)), None);
    assert_eq!(refused(&long(65_535)), Some((21, 38)));
    assert_eq!(refused(&long(65_536)), Some((21, 38)));
    assert_eq!(refused(&long(65_537)), Some((21, 0)));
    assert_eq!(refused(&long(70_000)), Some((21, 0)));
    // Before the directory.
    let end_wrong = |length: usize| [zeros(), vec![0; length - END]].concat();
    assert_eq!(refused(&end_wrong(65_536)), Some((21, 10)));
    assert_eq!(refused(&end_wrong(65_537)), Some((21, 0)));
}

/// 21 for the "directory", "found as for .. 12": "the first such pair; the last
/// pair if the end is wrong".
#[test]
fn wrong_pairs() {
    for (pair, right) in PAIRS.iter().zip(PARTS) {
        for wrong in [0, 1, right as u32 - 1, right as u32 + 1, 26, 1 << 31, u32::MAX] {
            assert_eq!(refused(&with_number(*pair, wrong)), Some((21, *pair)));
        }
    }
    // A wrong length shows at the next pair, and the last one's at its own.
    for wrong in [0, 1, 4, 19, 21, 1 << 31, u32::MAX] {
        assert_eq!(refused(&with_number(6, wrong)), Some((21, 10)));
        assert_eq!(refused(&with_number(14, wrong)), Some((21, 10)));
    }
    let mut both = with_number(2, 19);
    both[10] = 0;
    assert_eq!(refused(&both), Some((21, 2)));
    // The pairs exchanged.
    let exchanged = changed(2, &[&zeros()[10..18], &zeros()[2..10]].concat());
    assert_eq!(refused(&exchanged), Some((21, 2)));
    // Sums are exact: 2^32 + 1 is not 1, and 2^32 + 46 is not 46.
    let mut wrapped = with_number(6, 1u32.wrapping_sub(18));
    wrapped[10..14].copy_from_slice(&1u32.to_le_bytes());
    assert_eq!(refused(&wrapped), Some((21, 10)));
    let mut wrapped = with_number(6, 0x8000_0000 - 18);
    wrapped[10..14].copy_from_slice(&0x8000_0000u32.to_le_bytes());
    wrapped[14..18].copy_from_slice(&0x8000_002Eu32.to_le_bytes());
    assert_eq!(refused(&wrapped), Some((21, 10)));
    // A directory with room for a plan's pair, as the container has it.
    let shifted = [&zeros()[..18], &[0; 8], &zeros()[18..]].concat();
    assert_eq!(refused(&shifted), Some((21, 10)));
    let mut shifted = shifted;
    shifted[2] = 26;
    shifted[10] = 46;
    assert_eq!(refused(&shifted), Some((21, 2)));
}

/// 21 for the "header": each of its four bytes, whatever the length is.
#[test]
fn wrong_headers() {
    for (table, start) in PARTS.into_iter().enumerate() {
        for place in 0..4 {
            for byte in 0..=255 {
                let right = parts()[table][place];
                let wrong = (byte != right).then_some((21, start));
                assert_eq!(refused(&changed(start + place, &[byte])), wrong);
            }
        }
    }
    // Four labels in one row of four, and in four rows of one.
    for header in [[4, 2, 1, 0], [1, 2, 4, 0], [1, 0, 4, 0], [2, 0, 2, 0]] {
        assert_eq!(refused(&changed(18, &header)), Some((21, 18)));
    }
    // The parts exchanged: both are wrong, and the first one counts.
    let mut exchanged = parts();
    exchanged.reverse();
    assert_eq!(refused(&assembled(&exchanged)), Some((21, 18)));
}

/// 21 for the "length" of a part, under a directory that is right.
#[test]
fn wrong_lengths() {
    for (table, start) in PARTS.into_iter().enumerate() {
        for length in 0..80 {
            let mut parts = parts();
            let right = parts[table].len();
            parts[table].resize(length, 0);
            let wrong = (length != right).then_some((21, start));
            assert_eq!(refused(&assembled(&parts)), wrong, "table {table}, {length} bytes");
        }
    }
    // A row more, header and all; and cells of twelve bytes.
    let mut row_more = parts();
    row_more[0].extend([0; 8]);
    row_more[0][2] = 3;
    assert_eq!(refused(&assembled(&row_more)), Some((21, 18)));
    let mut cells = parts();
    cells[0].resize(4 + 12 * 4, 0);
    assert_eq!(refused(&assembled(&cells)), Some((21, 18)));
    // The first of two, and the pairs before the parts.
    let mut both = parts();
    both[0].pop();
    both[1].pop();
    assert_eq!(refused(&assembled(&both)), Some((21, 18)));
    let mut before = assembled(&both);
    before.pop();
    assert_eq!(refused(&before), Some((21, 10)));
}

/// 22 "at a label that is ill-formed", also in a table that no step scans.
#[test]
fn ill_formed_labels() {
    for field in FIELDS {
        for word in ILL_FORMED {
            assert_eq!(refused(&with_number(field, word)), Some((22, field)));
        }
    }
}

/// 22 at a label "that is not zero in a sheet column".
#[test]
fn labels_of_sheets() {
    for field in FIELDS {
        for word in LABELS {
            let wrong = SHEETS.contains(&field).then_some((22, field));
            assert_eq!(refused(&with_number(field, word)), wrong);
        }
        assert_eq!(refused(&with_number(field, 0)), None);
    }
    // The same overlay, but for byte 1, over tables without sheet numbers.
    let (columns, _, cells) = TABLES[0];
    for sheets in [0, 1, 2] {
        let tables = [(columns, sheets, cells), TABLES[1]];
        let container = container(&[scan(0)], &tables);
        for column in 0..2 {
            let mut labels = [0; 4];
            labels[2 + column] = 0x8000_0000;
            let overlay = overlay(&[(2, sheets, &labels), (1, 0, &[0])]);
            let wrong = (sheets as usize == column + 1).then_some((22, 30 + 4 * column));
            assert_eq!(refused_under(&container, &four(&[&overlay])), wrong);
        }
    }
}

/// "The first cell met row by row, left to right", table by table.
#[test]
fn the_first_label() {
    for (place, &field) in FIELDS.iter().enumerate() {
        for &later in &FIELDS[place + 1..] {
            for (one, two) in [(1, 0x8000_0000u32), (0x8000_0000, 1), (1, 1)] {
                let mut overlay = with_number(field, one);
                overlay[later..later + 4].copy_from_slice(&two.to_le_bytes());
                let wrong = |at: usize, word: u32| word == 1 || SHEETS.contains(&at);
                let first = [(field, one), (later, two)].into_iter().find(|&(at, w)| wrong(at, w));
                assert_eq!(refused(&overlay), first.map(|(at, _)| (22, at)));
            }
        }
    }
}

/// "each overlay's 21 before its 22"
#[test]
fn headers_before_labels() {
    for field in FIELDS {
        let mut overlay = with_number(field, 1);
        overlay[41] = 1;
        assert_eq!(refused(&overlay), Some((21, 38)));
        overlay.push(0);
        assert_eq!(refused(&overlay), Some((21, 10)));
        overlay[1] = 1;
        assert_eq!(refused(&overlay), Some((21, 0)));
    }
}

/// "overlay by overlay": all of one before the next, whichever places they have.
#[test]
fn one_overlay_before_the_next() {
    let wrong = [
        (changed(1, &[1]), (21, 0)),
        (with_number(10, 0), (21, 10)),
        (changed(41, &[1]), (21, 38)),
        (with_number(42, 1), (22, 42)),
        (with_number(26, 0x8000_0000), (22, 26)),
    ];
    let zeros = zeros();
    for first in 0..4 {
        for (one, answer) in &wrong {
            for fine in [&zeros[..], &[]] {
                let mut overlays = [fine; 4];
                overlays[first] = one;
                assert_eq!(refused_under(&plain(), &overlays), Some(*answer));
                for second in first + 1..4 {
                    for (two, _) in &wrong {
                        let mut both = overlays;
                        both[second] = two;
                        assert_eq!(refused_under(&plain(), &both), Some(*answer));
                    }
                }
            }
        }
    }
}

/// Containers that are refused with each number from 11 on.
fn refused_containers() -> Vec<(u32, Vec<u8>)> {
    let with = |plan: &[Record]| container(plan, &TABLES);
    let over = |cells: &[(i64, u32)]| container(&[scan(0)], &[(2, 2, cells), TABLES[1]]);
    let mut directory = plain();
    directory.pop();
    let mut header = plain();
    header[2 + 3 * 8 + 32] = 9;
    vec![
        (11, vec![]),
        (11, plain()[1..].to_vec()),
        (12, directory),
        (13, header),
        (14, over(&[(i64::MAX, 0), (1, 0)])),
        (15, over(&[(5, 1), (1, 0)])),
        (20, over(&[(5, 0), (-1, 0)])),
        (16, with(&[])),
        (17, with(&[record(9, 0, 0, 0, 0)])),
        (18, with(&[union()])),
        (18, with(&[scan(0), scan(0)])),
        (19, with(&[scan(2)])),
    ]
}

/// "both come after all other input checks"
#[test]
fn the_container_first() {
    for (number, container) in refused_containers() {
        let alone = refused_under(&container, &four(&[]));
        assert_eq!(alone.map(|(number, _)| number), Some(number));
        for overlay in [vec![7], zeros(), with_number(10, 0), with_number(42, 1)] {
            for place in 0..4 {
                let mut overlays = four(&[]);
                overlays[place] = &overlay;
                assert_eq!(refused_under(&container, &overlays), alone);
            }
        }
    }
    // What the input checks alone answer has no overlay in it.
    assert!(super::reference::check(&plain()).is_ok());
}

/// "1: .. First of all checks", which tests no overlay.
#[test]
fn slices_too_short_first() {
    for overlay in [vec![7], zeros(), vec![0; 70_000], with_number(42, 1)] {
        let overlays = four(&[&overlay, &overlay, &overlay, &overlay]);
        for container in [plain(), vec![]] {
            let mut short = lent(40);
            short.marks.truncate(1_023);
            let mut left = short.clone();
            assert_eq!(left.run_under(&overlays, &container, NO_DRAWS), [1, 0, 0, 0]);
            assert_eq!(left, short);
        }
    }
}

/// After 21 and 22 "Nothing lent changes"; accepted overlays change what a run
/// writes, and no more.
#[test]
fn lent_slices() {
    let run = |room: usize, overlay: &[u8]| {
        let mut left = lent(room);
        let answer = left.run_under(&four(&[overlay]), &plain(), NO_DRAWS);
        (answer, left)
    };
    for room in [0, 40] {
        assert_eq!(run(room, &changed(1, &[1])), ([21, 0, 0, 0], lent(room)));
        assert_eq!(run(room, &changed(41, &[1])), ([21, 38, 0, 0], lent(room)));
        assert_eq!(run(room, &with_number(30, 1)), ([22, 30, 0, 0], lent(room)));
        let held = lent(room).ran(&[1, 2, 2, 1]);
        assert_eq!(run(room, &with_number(30, 0x8000_0000)), ([32, 1, 1, 0], held));
        let asks_for_3 = changed(22, &[3, 0, 2, 0x20, 0, 0, 0, 0, 3, 0, 2, 0x20]);
        let stays = lent(room).ran(&[1, 2, 2, 2, 7, 1, 1, 1]);
        assert_eq!(run(room, &asks_for_3), ([35, 2, 0, 0], stays));
    }
    let asks_for_2 = changed(22, &[2, 0, 2, 0x20, 0, 0, 0, 0, 2, 0, 2, 0x20]);
    let lines = [1, 2, 2, 2, 7, 1, 1, 0];
    assert_eq!(run(7, &asks_for_2), ([51, 2, 0, 0], lent(7).ran(&lines)));
    let (answer, left) = run(9, &asks_for_2);
    assert_eq!(answer, [0, 1, 1, 8]);
    assert_eq!(left.output[..2], [11, -5]);
}

/// `X`, the number and the offset, and no line of a step.
#[test]
fn printed_refusals() {
    let printed = |overlay: &[u8]| {
        let mut text = String::new();
        print_run(&plain(), NO_DRAWS, &four(&[&zeros(), overlay]), &mut text);
        text
    };
    assert_eq!(printed(&changed(1, &[1])), "X 21 0\n");
    assert_eq!(printed(&changed(39, &[1])), "X 21 38\n");
    assert_eq!(printed(&with_number(34, 0x2000_0002)), "X 22 34\n");
    assert_eq!(printed(&[]), "S 0 1 2 2 0\nS 1 7 1 1 0\nR 11\n");
}
