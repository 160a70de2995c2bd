//! Tests of the Rust wrapper on the containers of a folder, on those with overlays of another, and on those to be
//! converted of a third.
//!
//! ```text
//! rustc --edition 2021 --test -L native=out -o wrapper tests/bindings/wrapper.rs
//! CONTAINERS=crates/trials/data OVERLAID=crates/overlay_trials/data CONVERSIONS=crates/convert/data wrapper
//! ```

#[path = "../../bindings/rust/cilunovay.rs"]
mod cilunovay;

use cilunovay::{check, convert, Conversion, InputFault, InputRefusal, Kind, Line};
use cilunovay::{Monitor, Refusal, Release, StateFault, StateRefusal};
use cilunovay::{LONGEST_CONTAINER, LONGEST_OVERLAY, LONGEST_TEXT, MOST_OVERLAYS};

fn containers() -> Vec<(String, Vec<u8>)> {
    let folder = std::env::var("CONTAINERS").expect("CONTAINERS names a folder");
    let files = std::fs::read_dir(folder).unwrap().map(|entry| entry.unwrap().path());
    let mut all: Vec<(String, Vec<u8>)> =
        files.map(|path| (path.display().to_string(), std::fs::read(path).unwrap())).collect();
    all.sort();
    assert!(!all.is_empty());
    all
}

fn named(name: &str) -> Vec<u8> {
    let folder = std::env::var("CONTAINERS").expect("CONTAINERS names a folder");
    std::fs::read(std::path::Path::new(&folder).join(name)).unwrap()
}

fn line(kind: Kind, rows: u32, columns: u32, stages_left: u32) -> Line {
    Line { kind, rows, columns, stages_left }
}

#[test]
fn the_printed_case() {
    let trace = vec![line(Kind::Scan, 2, 2, 2), line(Kind::Group, 1, 2, 0)];
    let text = "c0,c1\r\n7,8\r\n".to_string();
    let release = Release { rows: 1, columns: 2, values: vec![7, 8], text, trace };
    assert_eq!(Monitor::new().run(&named("printed_case"), &[]), Ok(release));
}

#[test]
fn the_printed_case_with_a_minimum_of_3() {
    let refusal = Monitor::new().run(&named("printed_case_minimum_3"), &[]).unwrap_err();
    assert_eq!(refusal.number(), 35);
    assert_eq!(
        refusal.to_string(),
        "refused with 35 at step 2, row 0, column 1: at the release the cell has a stage of its label left"
    );
    assert_eq!(refusal.trace(), [line(Kind::Scan, 2, 2, 2), line(Kind::Group, 1, 2, 1)]);
}

#[test]
fn a_release_is_gone_through_row_by_row() {
    let release = Monitor::new().run(&named("release_256_rows_of_8_columns"), &[]).unwrap();
    let mut rows = 0;
    for row in &release {
        assert_eq!((row.len(), row[0]), (8, rows));
        rows += 1;
    }
    assert_eq!((rows, release.iter().count()), (256, release.rows));
    assert!(release.clone().into_iter().eq(release.iter()));
    let empty = Monitor::new().run(&named("release_no_rows"), &[]).unwrap();
    assert_eq!((&empty).into_iter().count(), 0);
}

/// A line of a text: words with commas between.
fn text_line(words: impl Iterator<Item = String>) -> String {
    words.collect::<Vec<_>>().join(",") + "\r\n"
}

#[test]
fn a_text_has_the_rows_of_its_release() {
    let mut released = 0;
    for (name, container) in containers() {
        if let Ok(release) = Monitor::new().run(&container, &[]) {
            let mut text = text_line((0..release.columns).map(|column| format!("c{column}")));
            for row in &release {
                text += &text_line(row.iter().map(i64::to_string));
            }
            assert_eq!(release.text, text, "{name}");
            released += 1;
        }
    }
    assert!(released > 0);
}

#[test]
fn a_text_of_no_rows_is_its_first_line() {
    assert_eq!(Monitor::new().run(&named("release_no_rows"), &[]).unwrap().text, "c0,c1,c2\r\n");
}

#[test]
fn the_longest_text_has_room() {
    let mut container = vec![2, 0, 18, 0, 0, 0, 16, 0, 0, 0, 34, 0, 0, 0, 4, 0x60, 0, 0];
    container.extend([1, 0, 0, 0, 0, 0, 0, 0, 0, 0, 0, 0, 0, 0, 0, 0]);
    container.extend([8, 0, 0, 1]);
    for _ in 0..256 * 8 {
        container.extend((-(1i64 << 47)).to_le_bytes());
        container.extend([0; 4]);
    }
    let release = Monitor::new().run(&container, &[]).unwrap();
    assert_eq!((release.rows, release.columns, release.text.len()), (256, 8, LONGEST_TEXT));
}

/// A NOISE of column 1 over the rows (1, 10) and (2, 20).
const NOISE: &str = "r37_noise_without_draws";

#[test]
fn noise_adds_the_draws() {
    let mut monitor = Monitor::new();
    for draws in [&[5, -6][..], &[5, -6, 7], &[5, -6, i64::MIN, i64::MAX]] {
        let release = monitor.run(&named(NOISE), draws).unwrap();
        assert_eq!(release.values, [1, 10, 15, 2, 20, 14]);
        assert_eq!(release.trace, [line(Kind::Scan, 2, 2, 0), line(Kind::Noise, 2, 3, 0)]);
    }
    let lowest = monitor.run(&named(NOISE), &[i64::MIN, i64::MAX]).unwrap_err();
    assert_eq!((lowest.number(), lowest.trace().len()), (36, 2));
    assert_eq!(Kind::Noise.number(), 8);
}

#[test]
fn a_row_without_a_draw_is_refused() {
    for draws in [&[][..], &[5]] {
        let refusal = Monitor::new().run(&named(NOISE), draws).unwrap_err();
        let (row, column) = (draws.len(), 1);
        let trace = vec![line(Kind::Scan, 2, 2, 0)];
        assert_eq!(
            refusal,
            Refusal::State(StateRefusal { fault: StateFault::NoDraw, step: 1, row, column, trace })
        );
        let place = format!("step 1, row {row}, column {column}");
        assert_eq!(
            refusal.to_string(),
            format!("refused with 37 at {place}: no draw is left for the row, and NOISE needs new ones")
        );
    }
}

#[test]
fn no_bytes_at_all() {
    let refusal = check(&[]).unwrap_err();
    assert_eq!((refusal.fault, refusal.offset), (InputFault::Container, 0));
    assert_eq!(
        refusal.to_string(),
        "refused with 11 at byte 0: the container is too long or too short, or its rule year or part count is wrong"
    );
    assert_eq!(Monitor::new().run(&[], &[]), Err(Refusal::Input(refusal)));
}

#[test]
fn a_sheet_number_below_zero_is_refused() {
    let refusal = check(&named("input_20_negative")).unwrap_err();
    assert_eq!((refusal.fault, refusal.offset), (InputFault::Sheets, 34));
    assert_eq!(
        refusal.to_string(),
        "refused with 20 at byte 34: a table's sheet numbers stand in none of its columns, or one is negative or \
         not clear"
    );
    assert_eq!(Monitor::new().run(&named("input_20_negative"), &[]), Err(Refusal::Input(refusal)));
}

#[test]
fn twenty_rows_of_ten_sheets_are_ten() {
    let refusal = Monitor::new().run(&named("r35_union_with_itself"), &[]).unwrap_err();
    let scan = line(Kind::Scan, 10, 2, 10);
    let trace = [scan, scan, line(Kind::Union, 20, 2, 20), line(Kind::Group, 1, 2, 1)];
    assert_eq!((refusal.number(), refusal.trace()), (35, &trace[..]));
}

#[test]
fn nothing_of_one_run_shows_in_the_next() {
    let mut used = Monitor::new();
    for (name, container) in containers() {
        assert_eq!(used.run(&container, &[]), Monitor::new().run(&container, &[]), "{name}");
    }
}

#[test]
fn the_input_checks_are_those_of_a_run() {
    for (name, container) in containers() {
        let refused = match Monitor::new().run(&container, &[]) {
            Err(Refusal::Input(refusal)) => Some(refusal),
            _ => None,
        };
        assert_eq!(check(&container).err(), refused, "{name}");
    }
}

#[test]
fn every_number_occurs_and_is_the_fault_s() {
    let mut seen: Vec<u32> = Vec::new();
    for (_, container) in containers() {
        if let Err(refusal) = Monitor::new().run(&container, &[]) {
            seen.push(refusal.number());
        }
    }
    seen.sort();
    seen.dedup();
    assert_eq!(seen, [11, 12, 13, 14, 15, 16, 17, 18, 19, 20, 31, 32, 33, 34, 35, 36, 37]);
    assert_eq!((InputFault::Sheets.number(), StateFault::NoDraw.number()), (20, 37));
}

/// A container of the trials with overlays, and its four.
struct Overlaid {
    name: String,
    container: Vec<u8>,
    overlays: [Vec<u8>; MOST_OVERLAYS],
}

impl Overlaid {
    fn named(name: &str) -> Overlaid {
        let folder = std::env::var("OVERLAID").expect("OVERLAID names a folder");
        let read = |file: String| std::fs::read(std::path::Path::new(&folder).join(file)).unwrap();
        let overlays = std::array::from_fn(|place| read(format!("{name}.overlay{place}")));
        Overlaid { name: name.to_string(), container: read(name.to_string()), overlays }
    }

    fn all() -> Vec<Overlaid> {
        let folder = std::env::var("OVERLAID").expect("OVERLAID names a folder");
        let files = std::fs::read_dir(folder).unwrap().map(|entry| entry.unwrap().file_name().into_string().unwrap());
        let mut names: Vec<String> = files.filter(|name| !name.contains('.')).collect();
        names.sort();
        assert!(!names.is_empty());
        names.iter().map(|name| Overlaid::named(name)).collect()
    }

    /// Runs it with the overlays in these places, one after the other.
    fn run_in_order(&self, monitor: &mut Monitor, order: [usize; MOST_OVERLAYS]) -> Result<Release, Refusal> {
        monitor.run_with_overlays(&self.container, &[], order.map(|place| self.overlays[place].as_slice()))
    }

    fn run(&self) -> Result<Release, Refusal> {
        self.run_in_order(&mut Monitor::new(), [0, 1, 2, 3])
    }
}

#[test]
fn an_overlay_asks_for_more() {
    let overlaid = Overlaid::named("overlay_printed");
    let refusal = overlaid.run().unwrap_err();
    assert_eq!((refusal.number(), refusal.trace()[1]), (35, line(Kind::Group, 1, 2, 1)));
    assert_eq!(Monitor::new().run(&overlaid.container, &[]).unwrap().values, [7, 8]);
}

#[test]
fn four_overlays_are_composed() {
    let release = Overlaid::named("four_overlays_four_stages").run().unwrap();
    assert_eq!((release.values, release.trace[0]), (vec![1], line(Kind::Scan, 1, 2, 4)));
}

#[test]
fn a_wrong_overlay_is_refused() {
    let refusal = Overlaid::named("x21_third_pair").run().unwrap_err();
    assert_eq!(refusal, Refusal::Input(InputRefusal { fault: InputFault::Overlay, offset: 18 }));
    assert_eq!(
        refusal.to_string(),
        "refused with 21 at byte 18 of an overlay: an overlay's length, count, directory or part does not fit the \
         container"
    );
    let refusal = Overlaid::named("x22_on_a_sheet_number").run().unwrap_err();
    assert_eq!(refusal, Refusal::Input(InputRefusal { fault: InputFault::OverlayLabel, offset: 18 }));
    assert_eq!(
        refusal.to_string(),
        "refused with 22 at byte 18 of an overlay: a label of an overlay is ill-formed, or not zero on a sheet number"
    );
    assert_eq!((InputFault::Overlay.number(), InputFault::OverlayLabel.number()), (21, 22));
}

#[test]
fn an_overlay_that_is_too_long_is_refused() {
    let Overlaid { container, .. } = Overlaid::named("no_overlay");
    let long = vec![0; LONGEST_OVERLAY + 1];
    for place in 0..MOST_OVERLAYS {
        let overlays = std::array::from_fn(|at| if at == place { long.as_slice() } else { &[] });
        let refusal = Monitor::new().run_with_overlays(&container, &[], overlays).unwrap_err();
        assert_eq!(refusal, Refusal::Input(InputRefusal { fault: InputFault::Overlay, offset: 0 }));
    }
}

#[test]
fn the_order_of_accepted_overlays_makes_no_difference() {
    let mut monitor = Monitor::new();
    let mut accepted = 0;
    for overlaid in Overlaid::all() {
        let answer = overlaid.run();
        if matches!(&answer, Err(refusal) if refusal.number() == 21 || refusal.number() == 22) {
            continue;
        }
        for order in [[3, 2, 1, 0], [1, 2, 3, 0], [2, 0, 3, 1]] {
            assert_eq!(overlaid.run_in_order(&mut monitor, order), answer, "{}", overlaid.name);
        }
        accepted += 1;
    }
    assert!(accepted > 0);
}

#[test]
fn what_is_released_with_overlays_is_released_without() {
    let mut released = 0;
    for overlaid in Overlaid::all() {
        if let Ok(release) = overlaid.run() {
            let alone = Monitor::new().run(&overlaid.container, &[]).unwrap();
            assert_eq!((alone.values, alone.text), (release.values, release.text), "{}", overlaid.name);
            released += 1;
        }
    }
    assert!(released > 0);
}

#[test]
fn the_checks_of_a_container_take_no_overlays() {
    let mut seen = Vec::new();
    for overlaid in Overlaid::all() {
        match overlaid.run() {
            Err(Refusal::Input(refusal)) if refusal.fault.number() <= 20 => {
                assert_eq!(check(&overlaid.container), Err(refusal), "{}", overlaid.name)
            }
            Err(refusal) => {
                assert_eq!(check(&overlaid.container), Ok(()), "{}", overlaid.name);
                seen.push(refusal.number());
            }
            Ok(_) => assert_eq!(check(&overlaid.container), Ok(()), "{}", overlaid.name),
        }
    }
    seen.sort();
    seen.dedup();
    assert_eq!(seen, [21, 22, 31, 32, 33, 34, 35, 36, 37]);
}

/// A file of the trials of the conversion.
fn to_convert(name: &str) -> Vec<u8> {
    let folder = std::env::var("CONVERSIONS").expect("CONVERSIONS names a folder");
    std::fs::read(std::path::Path::new(&folder).join(name)).unwrap()
}

/// The trials of the conversion: each name, with the container and what it becomes, no bytes where it is refused.
fn conversions() -> Vec<(String, Vec<u8>, Vec<u8>)> {
    let folder = std::env::var("CONVERSIONS").expect("CONVERSIONS names a folder");
    let files = std::fs::read_dir(folder).unwrap().map(|entry| entry.unwrap().file_name().into_string().unwrap());
    let mut names: Vec<String> = files.filter(|name| !name.contains('.')).collect();
    names.sort();
    assert!(!names.is_empty());
    let both = |name: String| {
        let becomes = to_convert(&format!("{name}.converted"));
        (name.clone(), to_convert(&name), becomes)
    };
    names.into_iter().map(both).collect()
}

#[test]
fn the_printed_case_with_a_minimum_of_1_is_converted() {
    let stored = to_convert("printed_case_minimum_1");
    let refusal = InputRefusal { fault: InputFault::Label, offset: 74 };
    assert_eq!(Monitor::new().run(&stored, &[]), Err(Refusal::Input(refusal)));
    let conversion = convert(&stored).unwrap();
    assert_eq!(conversion, Conversion { container: named("printed_case"), offsets: vec![74, 98] });
    assert_eq!(Monitor::new().run(&conversion.container, &[]).unwrap().values, [7, 8]);
}

/// The example of `convert`'s documentation.
#[test]
fn each_label_changed_has_2_for_1() -> Result<(), InputRefusal> {
    let stored = to_convert("among_other_labels");
    let Conversion { container, offsets } = convert(&stored)?;
    for &offset in &offsets {
        assert_eq!((stored[offset], container[offset]), (1, 2));
    }
    assert_eq!(offsets, [58, 106, 154]);
    Ok(())
}

#[test]
fn every_other_byte_stays() {
    let (mut converted, mut refused) = (0, Vec::new());
    for (name, stored, becomes) in conversions() {
        match convert(&stored) {
            Ok(Conversion { container, offsets }) => {
                assert_eq!(container, becomes, "{name}");
                let differ: Vec<usize> = (0..stored.len()).filter(|&at| stored[at] != container[at]).collect();
                assert_eq!(offsets, differ, "{name}");
                assert_eq!(check(&container), Ok(()), "{name}");
                assert_eq!(convert(&container), Ok(Conversion { container, offsets: Vec::new() }), "{name}");
                converted += 1;
            }
            Err(refusal) => {
                assert!(becomes.is_empty(), "{name}: {refusal}");
                refused.push(refusal.fault.number());
            }
        }
    }
    refused.sort();
    refused.dedup();
    assert!(converted > 0);
    assert_eq!(refused, [11, 12, 13, 14, 15, 16, 17, 18, 19, 20]);
}

/// Whether a container has rule year 1, which `check` takes and `convert` does not.
fn of_year_1(container: &[u8]) -> bool {
    container.get(1) == Some(&1)
}

const BAD_CONTAINER: InputRefusal = InputRefusal { fault: InputFault::Container, offset: 0 };

#[test]
fn what_is_accepted_comes_back() {
    let mut years = [0, 0];
    for (name, container) in containers() {
        if check(&container).is_ok() {
            let year_1 = of_year_1(&container);
            years[usize::from(year_1)] += 1;
            let same = Conversion { container: container.clone(), offsets: Vec::new() };
            assert_eq!(convert(&container), if year_1 { Err(BAD_CONTAINER) } else { Ok(same) }, "{name}");
        }
    }
    assert!(years[0] > 0 && years[1] > 0);
}

#[test]
fn what_is_refused_for_another_reason_is_not_converted() {
    let mut refused = 0;
    for (name, container) in containers() {
        if let Err(refusal) = check(&container) {
            if refusal.fault != InputFault::Label || of_year_1(&container) {
                let refusal = if of_year_1(&container) { BAD_CONTAINER } else { refusal };
                assert_eq!(convert(&container), Err(refusal), "{name}");
                refused += 1;
            }
        }
    }
    assert!(refused > 0);
    let behind = to_convert("x14_after_a_1");
    assert_eq!(check(&behind), Err(InputRefusal { fault: InputFault::Label, offset: 46 }));
    assert_eq!(convert(&behind), Err(InputRefusal { fault: InputFault::Value, offset: 50 }));
}

#[test]
fn a_container_of_a_wrong_length_is_not_converted() {
    for length in [0, 1, LONGEST_CONTAINER + 1, 2 * LONGEST_CONTAINER] {
        assert_eq!(convert(&vec![2; length]), Err(BAD_CONTAINER));
    }
}

/// The container under another rule year.
fn under(year: u8, container: &[u8]) -> Vec<u8> {
    let mut other = container.to_vec();
    other[1] = year;
    other
}

#[test]
fn a_minimum_below_ten_is_ten_under_rule_year_1() {
    let mut monitor = Monitor::new();
    let (nine, ten) = (named("nine_ballots"), named("ten_ballots"));
    assert_eq!(under(1, &nine), named("nine_ballots_year_1"));
    assert_eq!(monitor.run(&nine, &[]).unwrap().values, [7, 36]);
    let refusal = monitor.run(&under(1, &nine), &[]).unwrap_err();
    assert_eq!((refusal.number(), refusal.trace()[1]), (35, line(Kind::Group, 1, 2, 1)));
    assert_eq!(monitor.run(&ten, &[]), monitor.run(&under(1, &ten), &[]));
    assert_eq!(monitor.run(&ten, &[]).unwrap().values, [7, 45]);
}

#[test]
fn what_is_released_under_rule_year_1_is_released_under_0() {
    let (mut released, mut refused) = (0, 0);
    for (name, container) in containers() {
        if check(&container).is_err() {
            continue;
        }
        let earlier = Monitor::new().run(&under(0, &container), &[]);
        match Monitor::new().run(&under(1, &container), &[]) {
            Ok(release) => {
                let earlier = earlier.unwrap();
                assert_eq!((earlier.values, earlier.text), (release.values, release.text), "{name}");
                released += 1;
            }
            Err(_) => refused += usize::from(earlier.is_ok()),
        }
    }
    assert!(released > 0 && refused > 0);
}

#[test]
fn an_overlay_s_minimum_has_the_floor_too() {
    for (name, minimum) in [("overlay_on_clear_cells_of_nine", 10), ("overlay_above_ten_of_twelve", 12)] {
        let mut overlaid = Overlaid::named(name);
        let sheets = overlaid.run().unwrap().trace[0].rows;
        overlaid.container = under(1, &overlaid.container);
        assert_eq!(overlaid.run().is_ok(), sheets >= minimum, "{name}");
    }
}

#[test]
fn the_checks_are_the_same_under_both_rule_years() {
    let mut numbers = Vec::new();
    for (name, container) in containers() {
        if container.len() < 2 || container[1] > 1 {
            continue;
        }
        assert_eq!(check(&under(0, &container)), check(&under(1, &container)), "{name}");
        numbers.extend(check(&container).err().map(|refusal| refusal.fault.number()));
    }
    numbers.sort();
    numbers.dedup();
    assert_eq!(numbers, [11, 12, 13, 14, 15, 16, 17, 18, 19, 20]);
}

#[test]
fn every_other_rule_year_is_refused() {
    let container = named("printed_case");
    for year in 2..=255 {
        assert_eq!(check(&under(year, &container)), Err(BAD_CONTAINER), "{year}");
        let answer = Monitor::new().run(&under(year, &container), &[]);
        assert_eq!(answer, Err(Refusal::Input(BAD_CONTAINER)), "{year}");
    }
    for year in 1..=255 {
        assert_eq!(convert(&under(year, &container)), Err(BAD_CONTAINER), "{year}");
    }
}
