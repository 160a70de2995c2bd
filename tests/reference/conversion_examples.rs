//! Document 02's sentences on the conversion, #107, as examples.

use super::conversion;
use super::examples::printed_case;
use super::minimum_examples::ONES;
use super::noise_examples::{add, keep, noise, record, Record};
use super::reference::check;
use super::reference::conversion::{converted, OFFSETS_LENGTH};
use super::reference::convert;
use super::reference::value::{HIGHEST, LOWEST};
use super::sheet_examples::{container, group, join, on_sheets, scan, union, Given};

const SUM: u32 = 0x2002_0000;

/// The number and the place that refuse a conversion.
fn refused(container: &[u8]) -> Option<(u32, usize)> {
    let refusal = converted(container).err()?;
    Some((refusal.fault.number(), refusal.offset))
}

/// A container comes back byte for byte, and no label was changed.
fn stays(container: &[u8]) {
    assert_eq!(converted(container), Ok((container.to_vec(), vec![])));
}

/// Every byte, of one cell: the label stands at 46.
#[test]
fn all_bytes() {
    let bytes = |minimum: u8| {
        let mut bytes = vec![2, 0, 18, 0, 0, 0, 16, 0, 0, 0, 34, 0, 0, 0, 16, 0, 0, 0];
        bytes.extend([1, 0, 0, 0, 0, 0, 0, 0, 0, 0, 0, 0, 0, 0, 0, 0]);
        bytes.extend([1, 0, 1, 0, 5, 0, 0, 0, 0, 0, 0, 0, minimum, 0, 2, 0x20]);
        bytes
    };
    assert_eq!(converted(&bytes(1)), Ok((bytes(2), vec![46])));
    stays(&bytes(2));
    stays(&bytes(3));
    assert_eq!(refused(&bytes(0)), Some((15, 46)));
}

/// Document 01's printed case, whose labels stand at 74 and 98.
#[test]
fn the_printed_case() {
    let (one, two) = (printed_case(0x2002_0001), printed_case(0x2002_0002));
    assert_eq!(converted(&one), Ok((two.clone(), vec![74, 98])));
    stays(&two);
    stays(&printed_case(0x2002_0003));
    stays(&printed_case(0));
    assert_eq!(conversion(&one), (two.clone(), "74\n98\n".to_string()));
    assert_eq!(conversion(&two), (two, String::new()));
    assert_eq!(conversion(&one[..101]), (vec![], "X 12 10\n".to_string()));
    assert_eq!(conversion(&[]), (vec![], "X 11 0\n".to_string()));
    assert_eq!(conversion(&printed_case(1)), (vec![], "X 15 74\n".to_string()));
}

/// "raises each 1 to 2, leaves all other bytes the same": labels with every stage,
/// and minima whose low eight bits alone are 1.
#[test]
fn minima() {
    let of = |word: u32| container(&[scan(0)], &[(1, 0, &[(5, word)])]);
    for word in ONES {
        assert_eq!(converted(&of(word)), Ok((of(word + 1), vec![46])));
        for more in 1..1_023 {
            stays(&of(word + more));
        }
        assert_eq!(refused(&of(word - 1)), Some((15, 46)));
    }
    for word in [0, 0x8000_0000, 0x4100_0000, 0x4400_0400, 0x1080_0000, 0xD500_0400] {
        stays(&of(word));
    }
}

/// Three tables: of two columns and two rows, of no rows, and of sheet numbers. The
/// plan has one step, so that the parts are at 34, 50, 102 and 106, and the labels of
/// the first at 62, 74, 86 and 98, those of the last at 118 and 130.
#[test]
fn several_tables() {
    let of = |labels: [u32; 5]| {
        let cells = labels.map(|label| (3, label));
        let last = [(3, labels[4]), (9, 0)];
        container(&[scan(0)], &[(2, 0, &cells[..4]), (5, 1, &[]), (2, 2, &last)])
    };
    let fields = [62, 74, 86, 98, 118];
    for set in 0..32 {
        let chosen = |place: usize| set >> place & 1 == 1;
        let labels = |minimum: u32| {
            [0, 1, 2, 3, 4].map(|place| SUM + if chosen(place) { minimum } else { 257 })
        };
        let offsets = (0..5).filter(|&place| chosen(place)).map(|place| fields[place]);
        assert_eq!(converted(&of(labels(1))), Ok((of(labels(2)), offsets.collect())));
    }
}

/// Values and constants that read as such labels stay.
#[test]
fn values_stay() {
    let (low, high) = (0x2002_0001, 0x2002_0001_i64 << 16);
    let plan = [scan(0), record(4, 0, 0, 0, low), record(4, 0, 1, 0, high), add(0, low)];
    let of = |label: u32| container(&plan, &[(2, 0, &[(low, 0), (1, label), (high, 0), (-1, 0)])]);
    stays(&of(SUM + 2));
    // The part is at 18 + 4 * 16.
    assert_eq!(converted(&of(SUM + 1)), Ok((of(SUM + 2), vec![82 + 4 + 12 + 8])));
}

/// Every kind of step, with every choice.
#[test]
fn plans_stay() {
    let mut plan = vec![scan(0), scan(0), scan(1), join(1, 0), union()];
    plan.extend((0..6).map(|b| record(4, 1, b, 0, LOWEST + b as i64)));
    for (b, constant) in [(0, HIGHEST), (1, -7), (2, 1), (2, 6), (3, 1), (3, HIGHEST)] {
        plan.extend([record(6, 1, b, 0, constant), keep(3)]);
    }
    for (kind, b) in [(4, 5), (6, 0), (6, 1)] {
        let mut with_column_1 = record(kind, 0, b, 1, 0);
        with_column_1[4] = 1;
        plan.extend([with_column_1, keep(3)]);
    }
    plan.extend([noise(1), keep(6)]);
    plan.extend((0..5).map(|b| group(1, b, 1)));
    let of = |label: u32| container(&plan, &[(2, 1, &[(7, 0), (8, label)]), (1, 0, &[(7, 0)])]);
    // Three parts; the first table's part is at 2 + 3 * 8 and 16 bytes a step.
    let field = 26 + 16 * plan.len() + 4 + 12 + 8;
    assert_eq!(converted(&of(SUM + 1)), Ok((of(SUM + 2), vec![field])));
    stays(&of(SUM + 2));
}

/// 256 rows of 8 columns twice, and 226 of 6: as many labels as a container holds.
/// The first is at 50 + 4 + 8, and the last one's four bytes end the container.
#[test]
fn the_most_labels() {
    let of = |label: u32| {
        let cells = vec![(5, label); 2_048];
        let last = &cells[..226 * 6];
        container(&[scan(0)], &[(8, 0, &cells), (8, 0, &cells), (6, 0, last)])
    };
    let (bytes, offsets) = converted(&of(SUM + 1)).expect("converted");
    assert_eq!(bytes, of(SUM + 2));
    assert_eq!((bytes.len(), offsets.len()), (65_486, 5_452));
    assert_eq!(offsets[..2], [62, 74]);
    assert_eq!(offsets[5_451], 65_482);
    // From one table to the next there are four bytes more.
    assert_eq!(offsets[2_048] - offsets[2_047], 16);
    assert!(offsets.windows(2).all(|pair| matches!(pair[1] - pair[0], 12 | 16)));
    assert!(offsets.len() <= OFFSETS_LENGTH);
}

/// "It converts only containers that the old check accepts": each number, in a
/// container with 1s, at the place that it had.
#[test]
fn refusals() {
    let (one, fine) = ([(5, SUM + 1); 2], [(5, 0); 2]);
    let plan = [scan(0), group(0, 1, 0)];
    let whole = container(&plan, &[(2, 2, &[(5, SUM + 1), (3, 0)]), (1, 0, &one)]);
    // Three parts: the plan is at 26, the tables at 58 and 86, and 114 bytes.
    assert_eq!(converted(&whole).map(|(_, offsets)| offsets), Ok(vec![70, 98, 110]));
    let with = |at: usize, byte: u8| {
        let mut bytes = whole.clone();
        bytes[at] = byte;
        refused(&bytes)
    };
    assert_eq!(with(0, 1), Some((11, 0)));
    assert_eq!(with(1, 1), Some((11, 0)));
    assert_eq!(with(2, 27), Some((12, 2)));
    assert_eq!(with(14, 29), Some((12, 18)));
    assert_eq!(with(58, 1), Some((13, 58)));
    assert_eq!(with(88, 1), Some((13, 86)));
    assert_eq!(with(69, 1), Some((14, 62)));
    assert_eq!(with(109, 0x80), Some((14, 102)));
    assert_eq!(with(70, 0), Some((15, 70)));
    assert_eq!(with(111, 0x20), Some((15, 110)));
    assert_eq!(with(59, 3), Some((20, 58)));
    assert_eq!(with(81, 0x80), Some((14, 74)));
    assert_eq!(with(87, 2), Some((20, 86)));
    assert_eq!(with(26, 0), Some((17, 26)));
    assert_eq!(with(42, 2), Some((17, 42)));
    assert_eq!(with(27, 2), Some((19, 26)));
    assert_eq!(with(45, 2), Some((19, 42)));
    let planned = |plan: &[Record]| refused(&container(plan, &[(2, 0, &one), (1, 0, &fine)]));
    assert_eq!(planned(&[]), Some((16, 26)));
    assert_eq!(planned(&[union()]), Some((18, 26)));
    assert_eq!(planned(&[scan(0), scan(1)]), Some((18, 58)));
    // One byte more than a container may have.
    let long = [&whole[..], &[0; 65_537 - 114]].concat();
    assert_eq!(refused(&long), Some((11, 0)));
    assert_eq!(refused(&long[..65_536]), Some((12, 18)));
}

/// A sheet number is "not clear" with minimum 1 as with any label.
#[test]
fn sheet_numbers() {
    let of = |label: u32| container(&[scan(0)], &[(2, 2, &[(5, SUM + 1), (3, label)])]);
    assert_eq!(refused(&of(SUM + 1)), Some((20, 34)));
    assert_eq!(refused(&of(SUM + 2)), Some((20, 34)));
    assert_eq!(refused(&of(1)), Some((15, 58)));
    assert_eq!(converted(&of(0)).map(|(_, offsets)| offsets), Ok(vec![46]));
}

/// What was refused until converted is then accepted, and converted no further.
#[test]
fn accepted_afterwards() {
    let sheets = on_sheets(SUM + 1, &[4, 4, 9]);
    let unused: Given = (1, 0, &[(0, 0xFF9F_1801)]);
    let old = container(&[scan(0), group(0, 1, 0)], &[(2, 2, &sheets), unused]);
    // The parts are at 58 and 134.
    assert_eq!(check(&old).map_err(|refusal| refusal.offset), Err(70));
    let (new, offsets) = converted(&old).expect("converted");
    assert_eq!(offsets, [70, 94, 118, 146]);
    assert_eq!(check(&new), Ok(()));
    stays(&new);
}

/// The conversion into lent slices, each longer than needed by so many elements.
fn lent(container: &[u8], more: usize) -> ([u32; 2], Vec<u8>, Vec<u32>) {
    let mut bytes = vec![b'?'; container.len() + more];
    let mut offsets = vec![7; OFFSETS_LENGTH + more];
    let answer = convert(container, &mut bytes, &mut offsets);
    (answer.numbers(), bytes, offsets)
}

/// The new container and the offsets from the start of their slices, and nothing
/// else; after a refusal nothing.
#[test]
fn lent_slices() {
    let (one, two) = (printed_case(0x2002_0001), printed_case(0x2002_0002));
    for more in [0, 1, 30] {
        let margin = vec![b'?'; more];
        let (answer, bytes, offsets) = lent(&one, more);
        assert_eq!((answer, bytes), ([0, 2], [two.clone(), margin.clone()].concat()));
        assert_eq!(offsets, [vec![74, 98], vec![7; 8_190 + more]].concat());
        let (answer, bytes, offsets) = lent(&two, more);
        assert_eq!((answer, bytes), ([0, 0], [two.clone(), margin].concat()));
        assert_eq!(offsets, vec![7; 8_192 + more]);
        let refusals: [(&[u8], _); 3] =
            [(&one[..101], [12, 10]), (&printed_case(1), [15, 74]), (&[], [11, 0])];
        for (wrong, refusal) in refusals {
            let (answer, bytes, offsets) = lent(wrong, more);
            assert_eq!((answer, bytes), (refusal, vec![b'?'; wrong.len() + more]));
            assert_eq!(offsets, vec![7; 8_192 + more]);
        }
    }
}

/// 1 where the slice for the container is shorter than it, or that for the offsets
/// than 8,192, before the container is read.
#[test]
fn short_slices() {
    let one = printed_case(0x2002_0001);
    for container in [&one[..], &one[..101], &printed_case(1)] {
        let length = container.len();
        let lengths = [(length - 1, 8_192), (length, 8_191), (0, 9_000), (200, 0), (0, 0)];
        for (bytes, offsets) in lengths {
            let (mut bytes, mut offsets) = (vec![b'?'; bytes], vec![7; offsets]);
            let before = (bytes.clone(), offsets.clone());
            assert_eq!(convert(container, &mut bytes, &mut offsets).numbers(), [1, 0]);
            assert_eq!((bytes, offsets), before);
        }
    }
    // No byte is enough for none.
    assert_eq!(convert(&[], &mut [], &mut [7; 8_192]).numbers(), [11, 0]);
    assert_eq!(convert(&[], &mut [], &mut [7; 8_191]).numbers(), [1, 0]);
}
