//! Document 02's sentences on the text of a release, #101, as examples.

use super::examples::printed_case;
use super::reference::release::{
    MARKS_LENGTH, OUTPUT_LENGTH, TEXT_LENGTH, TRACE_LENGTH, WORK_LENGTH,
};
use super::reference::text;
use super::reference::value::{HIGHEST, LOWEST};
use super::reference::{run, Overlays};
use super::{export, print_texts, NO_DRAWS, NO_OVERLAYS};

/// In the printed case the sum needs two rows; with the second it lacks one.
const RELEASED: u32 = 0x2002_0002;
const REFUSED: u32 = 0x2002_0003;

/// "The first line is the header `c0,c1` and so on, one name per column." "A
/// release of no rows gives the header alone."
#[test]
fn a_name_for_each_column() {
    assert_eq!(text::of(1, &[]), "c0\r\n");
    assert_eq!(text::of(2, &[]), "c0,c1\r\n");
    assert_eq!(text::of(8, &[]), "c0,c1,c2,c3,c4,c5,c6,c7\r\n");
}

/// "Every line ends in CR LF."
#[test]
fn a_line_for_each_row() {
    assert_eq!(text::of(1, &[5, 6, 7]), "c0\r\n5\r\n6\r\n7\r\n");
    assert_eq!(text::of(3, &[1, 2, 3, 4, 5, 6]), "c0,c1,c2\r\n1,2,3\r\n4,5,6\r\n");
}

/// "Values are decimal with a minus sign where needed and no leading zeros,
/// zero being `0`; nothing is quoted."
#[test]
fn values_are_decimal() {
    assert_eq!(text::of(2, &[0, -1]), "c0,c1\r\n0,-1\r\n");
    assert_eq!(text::of(4, &[9, 10, -99, -100]), "c0,c1,c2,c3\r\n9,10,-99,-100\r\n");
    let ends = "c0,c1\r\n-140737488355328,140737488355327\r\n";
    assert_eq!(text::of(2, &[LOWEST, HIGHEST]), ends);
}

/// 25 bytes of names, and 137 of each row: 8 values of 16, 7 commas, CR LF.
#[test]
fn the_longest_text() {
    let longest = text::of(8, &vec![LOWEST; 8 * 256]);
    assert_eq!((longest.len(), TEXT_LENGTH), (25 + 256 * 137, longest.len()));
}

#[test]
fn the_text_of_the_printed_case() {
    assert_eq!(export(&printed_case(RELEASED)).as_deref(), Ok("c0,c1\r\n7,8\r\n"));
    assert_eq!(export(&printed_case(REFUSED)), Err("X 35 2 0 1".to_string()));
    assert_eq!(export(&printed_case(1)), Err("X 15 74".to_string()));
    assert_eq!(export(&[]), Err("X 11 0".to_string()));
}

fn answers(container: &[u8]) -> String {
    let mut text = String::new();
    print_texts(container, &mut text);
    text
}

/// "It refuses with 51 when that slice is shorter than the text, after the
/// run's own refusals", "the step are as for 35, row and column 0".
#[test]
fn answers_by_the_room_for_the_text() {
    let released = "T 0 51 2 0 0\nT 11 51 2 0 0\nT 12 0 1 2 12\nT 40000 0 1 2 12\nc0,c1\r\n7,8\r\n";
    assert_eq!(answers(&printed_case(RELEASED)), released);
    assert_eq!(answers(&printed_case(REFUSED)), "T 0 35 2 0 1\nT 40000 35 2 0 1\n");
    assert_eq!(answers(&printed_case(1)), "T 0 15 74 0 0\nT 40000 15 74 0 0\n");
}

/// Slices one element longer than needed, the text's of the length asked for.
#[derive(Clone, PartialEq, Debug)]
pub struct Lent {
    values: Vec<i64>,
    labels: Vec<u32>,
    pub marks: Vec<u64>,
    pub output: Vec<i64>,
    trace: Vec<u32>,
    text: Vec<u8>,
}

pub fn lent(room: usize) -> Lent {
    Lent {
        values: vec![-5; WORK_LENGTH + 1],
        labels: vec![5; WORK_LENGTH + 1],
        marks: vec![5; MARKS_LENGTH + 1],
        output: vec![-5; OUTPUT_LENGTH + 1],
        trace: vec![5; TRACE_LENGTH + 1],
        text: vec![b'?'; room],
    }
}

impl Lent {
    pub fn run(&mut self, container: &[u8], draws: &[i64]) -> [u32; 4] {
        self.run_under(NO_OVERLAYS, container, draws)
    }

    pub fn run_under(&mut self, overlays: &Overlays, container: &[u8], draws: &[i64]) -> [u32; 4] {
        let Lent { values, labels, marks, output, trace, text } = self;
        run(container, draws, overlays, values, labels, marks, output, trace, text).numbers()
    }

    /// Work memory is zero, and the trace begins with these lines.
    pub fn ran(mut self, lines: &[u32]) -> Lent {
        self.values[..WORK_LENGTH].fill(0);
        self.labels[..WORK_LENGTH].fill(0);
        self.marks[..MARKS_LENGTH].fill(0);
        self.trace[..lines.len()].copy_from_slice(lines);
        self
    }
}

/// "The text goes, beside the rows, to a lent byte slice of its own, from its
/// start"; "everything else lent is unchanged".
#[test]
fn lent_slices_after_a_release() {
    for (room, contents) in [(12, "c0,c1\r\n7,8\r\n"), (15, "c0,c1\r\n7,8\r\n???")] {
        let mut left = lent(room);
        assert_eq!(left.run(&printed_case(RELEASED), NO_DRAWS), [0, 1, 2, 12]);
        let mut expected = lent(room).ran(&[1, 2, 2, 2, 7, 1, 2, 0]);
        expected.output[..2].copy_from_slice(&[7, 8]);
        expected.text = contents.as_bytes().to_vec();
        assert_eq!(left, expected);
    }
}

/// "the slice is unchanged, all else and the step are as for 35"
#[test]
fn lent_slices_after_51() {
    for room in [0, 7, 11] {
        let mut left = lent(room);
        assert_eq!(left.run(&printed_case(RELEASED), NO_DRAWS), [51, 2, 0, 0]);
        assert_eq!(left, lent(room).ran(&[1, 2, 2, 2, 7, 1, 2, 0]));
    }
}

#[test]
fn lent_slices_after_35() {
    for room in [0, 11, 12, 15] {
        let mut left = lent(room);
        assert_eq!(left.run(&printed_case(REFUSED), NO_DRAWS), [35, 2, 0, 1]);
        assert_eq!(left, lent(room).ran(&[1, 2, 2, 2, 7, 1, 2, 1]));
    }
}

/// 1 tests five slices, and not the text's.
#[test]
fn short_slices() {
    for room in [0, 12] {
        for slice in 0..5 {
            let mut short = lent(room);
            match slice {
                0 => short.values.truncate(WORK_LENGTH - 1),
                1 => short.labels.truncate(WORK_LENGTH - 1),
                2 => short.marks.truncate(MARKS_LENGTH - 1),
                3 => short.output.truncate(OUTPUT_LENGTH - 1),
                _ => short.trace.truncate(TRACE_LENGTH - 1),
            }
            let mut left = short.clone();
            assert_eq!(left.run(&printed_case(RELEASED), NO_DRAWS), [1, 0, 0, 0]);
            assert_eq!(left, short);
        }
    }
}
