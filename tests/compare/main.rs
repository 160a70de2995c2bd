//! Compares the product with the reference implementation on generated
//! containers.
//!
//!     rustc -O --edition 2021 -o compare tests/compare/main.rs \
//!         -L native=DIRECTORY -l static=LIBRARY
//!     compare SEED COUNT          COUNT containers from SEED
//!     compare SEED COUNT INDEX    of these only the one numbered INDEX
//!
//! For each container, of one rule year or the other, with a list of draws and with
//! overlays or without: the answers are equal, and so is every element of the lent
//! slices at the end, which begin with a known pattern and have a margin behind them;
//! what may change has changed and nothing else; containers and overlays made to be
//! refused are refused with the number and the place they were made for; two containers
//! of one year that differ only in locked cells give the same answer and the same
//! contents, and so do other draws behind those that the plan uses, overlays in another
//! order, one more of zero labels, and the same labels divided otherwise among the
//! container and its overlays; what is released with overlays is released without them,
//! and what is released in the year 1 is released in the year 0; with the floor written
//! into its labels a container answers in the year 0 as it did in the year 1; the input
//! checks answer alike in both; the text of a release reads back as its rows, and with
//! too little room for it the release is refused with 51; slices too short are refused
//! with 1 and unchanged, those for the answer too; the product's input checks answer as
//! the reference's do; where no table has sheet numbers, none is scanned twice and none
//! is joined, the answer is that of the rule that counts rows.
//!
//! Each container is converted as well, and what is lent for that is compared in the
//! same way: labels change where they were made to, from 1 to 2, or the refusal is that
//! of the old check, 11 for every container of the year 1; the input checks refuse what is
//! changed, and accept what is not and what came out; a run of the new container is past
//! the input checks, and releases nothing but what the old rule released.
//!
//! Prints how often each class occurred. The exit status is 1 after a
//! difference, or if some class never occurred (not asked for a single INDEX).
//!
//! With `--cfg reference_only` it is built without the product; see product.rs.

#![allow(unexpected_cfgs)]

#[path = "../reference/lib.rs"]
#[allow(dead_code, unused_imports)]
mod reference;

mod answers;
mod classes;
mod conversion_classes;
mod conversions;
mod damage;
mod draft;
mod generate;
mod inputs;
mod labels;
mod lent;
mod noise;
mod observe;
mod old_rule;
mod overlay_checks;
mod overlay_classes;
mod overlay_labels;
mod overlay_rules;
mod overlay_scenes;
mod overlays;
mod product;
mod rng;
mod rules;
mod scenes;
mod sheet_scenes;
mod sheets;
mod texts;
mod wrong_overlays;
mod wrong_sheets;
mod wrong_steps;
mod year_classes;
mod year_rules;
mod year_scenes;
mod years;

use classes::Classes;
use conversions::Rooms;
use inputs::Given;
use lent::{long_enough, Input, Lengths, Lent, MARKS, NEEDED};
use observe::Seen;
use overlay_labels::Layers;
use product::by_reference;
use reference::container::{parse, Container};
use reference::eval::evaluate;
use reference::release::released;
use reference::RuleYear;
use rng::Rng;
use years::Accepted;

fn main() {
    let arguments: Vec<u64> =
        std::env::args().skip(1).map(|text| text.parse().unwrap_or_else(|_| usage())).collect();
    let (seed, count, only) = match arguments[..] {
        [seed, count] => (seed, count, None),
        [seed, count, only] => (seed, count, Some(only)),
        _ => usage(),
    };
    let mut harness = Harness::default();
    for index in 0..count {
        if only.map_or(true, |only| only == index) {
            harness.one(seed, index);
        }
        if harness.failures >= 10 {
            break;
        }
    }
    println!("seed {seed}: {} containers, {} runs compared", harness.containers, harness.runs);
    let missing = harness.classes.print();
    for name in &missing {
        println!("class that never occurred: {name}");
    }
    println!("{} differences, {} classes missing", harness.failures, missing.len());
    if harness.failures > 0 || (only.is_none() && !missing.is_empty()) {
        std::process::exit(1);
    }
}

fn usage() -> ! {
    eprintln!("usage: compare SEED COUNT [INDEX]");
    std::process::exit(2)
}

#[derive(Default)]
struct Harness {
    classes: Classes,
    /// For observations that do not count.
    scratch: Classes,
    containers: u64,
    runs: u64,
    failures: u64,
    before: Lent,
    ours: Lent,
    theirs: Lent,
    pair: Lent,
    rooms: Rooms,
}

impl Harness {
    /// Makes the container with this index, and runs it.
    fn one(&mut self, seed: u64, index: u64) {
        let mut rng = Rng::new(rng::mix(seed) ^ index);
        let given = inputs::make(&mut rng);
        self.containers += 1;
        if let Err(what) = self.compare(&mut rng, &given) {
            self.failures += 1;
            println!("seed {seed} index {index}: {what}");
            write(&format!("compare-{seed}-{index}"), &given);
        }
    }

    fn compare(&mut self, rng: &mut Rng, given: &Given) -> Result<(), String> {
        let input = given.input();
        let bytes = input.container;
        let pattern = rng.next();
        let plain = parse(bytes);
        let accepted = plain.clone().and_then(|plain| Accepted::new(plain, &input.overlays));
        let (finished, length) =
            accepted.as_ref().map_or((0, 0), |accepted| outlook(&accepted.read, input.draws));
        let room = texts::enough(rng, length);
        let lengths = long_enough(rng);
        let answer = self.both(input, lengths, room, pattern)?;
        self.classes.hit(number_class(answer[0]));
        year_classes::answered(bytes, answer[0], &mut self.classes);
        let begun = answer[0] == 0 || answer[0] >= 31;
        self.classes.hit_if(begun && lengths[2] == MARKS, "run in 1,024 marks");
        self.classes.hit_if(begun && lengths[2] > MARKS, "run in more than 1,024 marks");
        texts::refused_before(answer[0], room, &mut self.classes);
        if let Some((class, number, offset)) = given.expected {
            if answer != [number, offset as u32, 0, 0] {
                return Err(format!("{class}: {answer:?}, made for {number} at {offset}"));
            }
            self.classes.hit(class);
        }
        let checked = reference::check(bytes);
        let expected = match checked {
            Ok(()) => [0, 0],
            Err(refusal) => [refusal.fault.number(), refusal.offset as u32],
        };
        let found = answers::check(bytes, pattern)?;
        if found != expected {
            return Err(format!("check: reference {expected:?}, product {found:?}"));
        }
        self.classes.hit(if found[0] == 0 { "check: accepted" } else { "check: refused" });
        self.checked_in_both_years(rng, bytes, found)?;
        if let Some(what) = self.ours.breach(&self.before, answer, finished) {
            return Err(what);
        }
        match (&plain, &accepted) {
            (Ok(_), Ok(accepted)) => {
                if answer[0] == 0 {
                    self.text(answer, room)?;
                }
                self.accepted(rng, input, accepted, answer, finished)?;
            }
            (Ok(plain), Err(refusal)) if refusal.fault.number() == answer[0] => {
                overlay_classes::refused(plain, &input.overlays, &mut self.classes);
                self.unused(rng, input, answer, 0)?;
                self.zeros_added(rng, input, plain, answer)?;
                self.refused_in_both_years(rng, input, answer)?;
                self.exchanged(rng, given)?;
            }
            (Err(refusal), _) if refusal.fault.number() == answer[0] => {
                overlay_classes::refused_before(given, answer, &mut self.classes);
                self.unused(rng, input, answer, 0)?;
                self.unread(rng, input, answer)?;
                self.refused_in_both_years(rng, input, answer)?;
            }
            _ => return Err("check and run differ".into()),
        }
        if rng.chance(10) {
            self.short(rng, input, pattern, answer, length)?;
        }
        self.conversion(rng, given, found, plain.as_ref().ok())
    }

    /// A run that was evaluated.
    fn accepted(
        &mut self,
        rng: &mut Rng,
        input: Input,
        accepted: &Accepted,
        answer: [u32; 4],
        finished: usize,
    ) -> Result<(), String> {
        let Accepted { plain, composed, read } = accepted;
        let kept = self.theirs.kept(answer, finished);
        let mut seen = observe::observe(input, plain, read, &mut self.classes);
        seen.sheets_decide = rules::sheets_decide(read, input.draws, &mut self.classes);
        let layers = Layers::new(plain, &input.overlays);
        let release = answer[0] == 0;
        overlay_classes::accepted(&input.overlays, &layers, composed, release, &mut self.classes);
        year_classes::accepted(input.container, accepted, &layers, answer[0], &mut self.classes);
        year_classes::groups(accepted, input.draws, &mut self.classes);
        let floor = read.year == RuleYear::Floor;
        let sheets = floor && seen.sheets_decide;
        self.classes.hit_if(sheets, "year 1: the sheets decide, not the rows");
        // All the small ones, and some of the others, for the time that it takes.
        let small = |cells: usize| read.tables.iter().all(|table| table.cells.len() < cells);
        if layers.lent().next().is_some() && (small(40) || rng.chance(15)) {
            overlay_rules::tell_apart(composed, &layers, input.draws, &mut self.classes);
        }
        if small(80) || rng.chance(60) {
            year_rules::tell_apart(accepted, &layers, input.draws, &mut self.classes);
        }
        self.as_rows(input, read, answer, &seen)?;
        self.locked(rng, input, &layers, read, answer, &seen)?;
        self.unused(rng, input, answer, seen.used)?;
        self.other_order(rng, input, answer)?;
        self.zeros_added(rng, input, plain, answer)?;
        self.divided_otherwise(rng, input, accepted, answer)?;
        self.floor_written(rng, input, accepted, answer)?;
        if release {
            self.unlocked(rng, input, read, answer)?;
            self.no_room(rng, input, &layers, read, answer, &seen)?;
        }
        self.without(rng, input, read.plan.len(), answer, &kept)?;
        self.in_year_0(rng, input, accepted, &layers, answer, &kept)
    }

    /// A base container, of before #103, answers as it did then.
    fn as_rows(
        &mut self,
        input: Input,
        container: &Container,
        answer: [u32; 4],
        seen: &Seen,
    ) -> Result<(), String> {
        if !sheets::as_rows(input.container, container) {
            return Ok(());
        }
        if seen.sheets_decide {
            return Err("another answer than by the rule that counts rows".into());
        }
        self.classes.hit_if(answer[0] == 0, "as by rows: released");
        self.classes.hit_if(answer[0] == 0 && seen.discharged_a, "as by rows: A discharged");
        self.classes.hit_if(answer[0] == 35, "as by rows: refused with 35");
        self.classes.hit_if(answer[0] != 0 && answer[0] != 35, "as by rows: refused otherwise");
        Ok(())
    }

    /// Runs product and reference on equal slices. `ours` and `theirs` hold
    /// the contents at the end, `before` those at the beginning.
    fn both(
        &mut self,
        input: Input,
        lengths: Lengths,
        room: usize,
        pattern: u64,
    ) -> Result<[u32; 4], String> {
        self.runs += 1;
        self.before.fill(input, lengths, room, pattern);
        self.ours.copy_from(&self.before);
        self.theirs.copy_from(&self.before);
        let ours = by_reference(&mut self.ours);
        let theirs = answers::run(&mut self.theirs, pattern)?;
        if ours != theirs {
            return Err(format!("answers: reference {ours:?}, product {theirs:?}"));
        }
        match self.ours.difference(&self.theirs) {
            Some(what) => Err(format!("contents, reference and product: {what}")),
            None => Ok(ours),
        }
    }

    /// Runs both on another input in the slices of the run before; answer and
    /// contents are to be those of that run.
    fn alike(&mut self, rng: &mut Rng, other: Input, answer: [u32; 4]) -> Result<(), String> {
        self.runs += 1;
        // `pair` now holds the end of the run before, `before` its beginning.
        std::mem::swap(&mut self.pair, &mut self.ours);
        self.ours.begin_as(&self.before, other);
        self.theirs.begin_as(&self.before, other);
        let ours = by_reference(&mut self.ours);
        let theirs = answers::run(&mut self.theirs, rng.next())?;
        if ours != answer || theirs != answer {
            return Err(format!("{answer:?}, reference {ours:?}, product {theirs:?}"));
        }
        for lent in [&self.ours, &self.theirs] {
            if let Some(what) = self.pair.difference(lent) {
                return Err(format!("contents: {what}"));
            }
        }
        Ok(())
    }

    /// Demand 2: the text of a release, read, "yields the rows in order".
    fn text(&mut self, answer: [u32; 4], room: usize) -> Result<(), String> {
        let columns = answer[2] as usize;
        let (rows, text) = self.theirs.released(answer);
        if texts::read(text) != Some((columns, rows.to_vec())) {
            return Err("the text does not read as the rows".into());
        }
        texts::released(columns, rows, text.len(), room, &mut self.classes);
        Ok(())
    }

    /// A release again, with too little room for its text.
    fn no_room(
        &mut self,
        rng: &mut Rng,
        input: Input,
        layers: &Layers,
        container: &Container,
        release: [u32; 4],
        seen: &Seen,
    ) -> Result<(), String> {
        let steps = container.plan.len();
        let room = texts::too_little(rng, release[3] as usize, release[2] as usize);
        let answer = self.both(input, long_enough(rng), room, rng.next())?;
        if answer != [51, steps as u32, 0, 0] {
            return Err(format!("{room} bytes for the text of {release:?}: {answer:?}"));
        }
        if let Some(what) = self.ours.breach(&self.before, answer, steps) {
            return Err(format!("51: {what}"));
        }
        self.classes.hit(number_class(answer[0]));
        year_classes::answered(input.container, answer[0], &mut self.classes);
        texts::refused(release, steps, room, &mut self.classes);
        self.classes.hit_if(layers.lent().next().is_some(), "overlays: 51");
        self.locked(rng, input, layers, container, answer, seen).map(|_| ())
    }

    /// Demand 3: the same container, of the same rule year, with other values in its
    /// locked cells, by the composed labels, and the same draws and overlays. Answers
    /// whether there are such cells.
    fn locked(
        &mut self,
        rng: &mut Rng,
        input: Input,
        layers: &Layers,
        container: &Container,
        answer: [u32; 4],
        seen: &Seen,
    ) -> Result<bool, String> {
        let mut cells = labels::labelled_cells(input.container, container);
        cells.retain(|(_, _, lock, _)| lock.any());
        if cells.is_empty() {
            self.classes.hit("no locked cell");
            return Ok(false);
        }
        let mut other = input.container.to_vec();
        let all = rng.chance(70);
        let mut by_overlay = false;
        for (offset, _, lock, place) in cells {
            if all || rng.chance(40) {
                let value = generate::number(rng);
                other[offset..offset + 8].copy_from_slice(&value.to_le_bytes());
                self.classes.hit(lock.class());
                by_overlay |=
                    overlay_classes::pair(layers, container, place, lock, &mut self.classes);
                year_classes::locked(layers, container, place, lock, &mut self.classes);
            }
        }
        let other = Input { container: &other, ..input };
        self.alike(rng, other, answer).map_err(|what| format!("locked pair: {what}"))?;
        self.classes.hit(match answer[0] {
            0 => "pair: released",
            31 => "pair: refused with 31",
            32 => "pair: refused with 32",
            33 => "pair: refused with 33",
            34 => "pair: refused with 34",
            35 => "pair: refused with 35",
            36 => "pair: refused with 36",
            37 => "pair: refused with 37",
            _ => "pair: refused with 51",
        });
        self.classes.hit_if(answer[0] == 0 && seen.noises > 0, "pair: released, with NOISE");
        let numbered = sheets::any(input.container, container);
        self.classes.hit_if(numbered, "pair: with sheet numbers");
        self.classes.hit_if(numbered && answer[0] == 0, "pair: released, with sheet numbers");
        self.classes.hit_if(seen.sheets_decide, "pair: the sheets decide, not the rows");
        let released = answer[0] == 0;
        self.classes.hit_if(by_overlay && released, "pair: an overlay alone locks, released");
        self.classes.hit_if(by_overlay && !released, "pair: an overlay alone locks, refused");
        year_classes::pair(
            container.year,
            answer[0],
            by_overlay,
            numbered,
            seen,
            &mut self.classes,
        );
        if let Ok(plain) = parse(other.container) {
            let Accepted { plain, read, .. } =
                Accepted::new(plain, &other.overlays).expect("the same overlays");
            let second = observe::observe(other, &plain, &read, &mut self.scratch);
            let by_draw = second.over_by_draw != seen.over_by_draw;
            self.classes.hit_if(second.over != seen.over, "pair: OVER made in one of the two");
            self.classes.hit_if(by_draw, "pair: OVER made by a draw in one of the two");
        }
        Ok(true)
    }

    /// The other direction: N with its bit set is no lock in a plan with a NOISE.
    /// A release with other values in such cells may show them.
    fn unlocked(
        &mut self,
        rng: &mut Rng,
        input: Input,
        container: &Container,
        release: [u32; 4],
    ) -> Result<(), String> {
        let mut cells = labels::labelled_cells(input.container, container);
        cells.retain(|(_, label, lock, _)| label.word() == noise::NOISY && !lock.any());
        if cells.is_empty() {
            return Ok(());
        }
        let rows = self.theirs.released(release).0.to_vec();
        let mut other = input.container.to_vec();
        for (offset, _, _, _) in cells {
            other[offset..offset + 8].copy_from_slice(&rng.between(-99, 99).to_le_bytes());
        }
        let other = Input { container: &other, ..input };
        let answer = self.both(other, long_enough(rng), texts::LONGEST, rng.next())?;
        let differs = answer[0] == 0 && self.theirs.released(answer).0 != rows;
        self.classes.hit_if(differs, "N with the bit, not locked by it: its value shows");
        Ok(())
    }

    /// Draws that the plan does not use play no part: the same run with others
    /// behind the first `used` ones.
    fn unused(
        &mut self,
        rng: &mut Rng,
        input: Input,
        answer: [u32; 4],
        used: usize,
    ) -> Result<(), String> {
        // After 37 the next draw would be used.
        if answer[0] == 37 || rng.chance(60) {
            return Ok(());
        }
        let draws = noise::others_behind(rng, &input.draws[..used]);
        let other = Input { draws: &draws, ..input };
        self.alike(rng, other, answer).map_err(|what| format!("unused draws: {what}"))?;
        noise::unused(answer[0], used, &mut self.classes);
        Ok(())
    }

    /// Refusal 1, for each slice: one element short, and empty.
    fn short(
        &mut self,
        rng: &mut Rng,
        input: Input,
        pattern: u64,
        answer: [u32; 4],
        length: usize,
    ) -> Result<(), String> {
        const CLASSES: [&str; 5] =
            ["1 work values", "1 work labels", "1 work marks", "1 output", "1 trace"];
        for slice in 0..5 {
            let mut lengths = long_enough(rng);
            lengths[slice] = match rng.below(4) {
                0 => 0,
                1 => rng.below(NEEDED[slice]),
                _ => NEEDED[slice] - 1,
            };
            self.refused_short(input, lengths, texts::enough(rng, 0), pattern)?;
            self.classes.hit(CLASSES[slice]);
            self.classes.hit_if(lengths[slice] == 0, "1 with an empty slice");
            self.classes.hit_if(lengths[2] == 0, "1 with no marks");
            self.classes.hit_if(lengths[2] == MARKS - 1, "1 with 1,023 marks");
        }
        self.refused_short(input, NEEDED.map(|needed| needed - 1), length, pattern)?;
        self.refused_short(input, [0; 5], 0, pattern)?;
        self.classes.hit("1 all slices");
        self.before.fill(input, NEEDED, length, pattern);
        self.theirs.copy_from(&self.before);
        answers::short_run(&mut self.theirs, pattern)?;
        if let Some(what) = self.theirs.difference(&self.before) {
            return Err(format!("answer too short: {what}"));
        }
        self.classes.hit("1 answer of a run");
        answers::short_check(input.container, pattern)?;
        self.classes.hit("1 answer of the input checks");
        self.classes.hit_if((11..=20).contains(&answer[0]), "1 before a refusal of the input");
        self.classes.hit_if((21..=22).contains(&answer[0]), "1 before a refusal of an overlay");
        if self.both(input, NEEDED, length, pattern)? != answer {
            return Err("another answer with slices of just the length needed".into());
        }
        self.classes.hit("slices of just the length needed");
        Ok(())
    }

    fn refused_short(
        &mut self,
        input: Input,
        lengths: Lengths,
        room: usize,
        pattern: u64,
    ) -> Result<(), String> {
        let answer = self.both(input, lengths, room, pattern)?;
        if answer != [1, 0, 0, 0] {
            return Err(format!("slices {lengths:?}: {answer:?}"));
        }
        texts::refused_before(answer[0], room, &mut self.classes);
        match self.ours.difference(&self.before) {
            Some(what) => Err(format!("slices {lengths:?}: {what}")),
            None => Ok(()),
        }
    }
}

/// How many steps the evaluation finishes, and the length of the text that it
/// is released with, 0 if it is not.
fn outlook(container: &Container, draws: &[i64]) -> (usize, usize) {
    let evaluation = evaluate(container, draws);
    let text = evaluation
        .outcome
        .map_or(String::new(), |table| reference::text::of(table.columns, &released(&table)));
    (evaluation.trace.len(), text.len())
}

/// Writes the container, its draws as `reference noise` reads them, and its overlays.
fn write(name: &str, given: &Given) {
    let path = std::env::temp_dir().join(name);
    let draws: String = given.draws.iter().map(|draw| format!("{draw}\n")).collect();
    let mut written = std::fs::write(path.with_extension("bin"), &given.container)
        .and_then(|()| std::fs::write(path.with_extension("draws"), draws));
    for (slice, overlay) in given.overlays.iter().enumerate() {
        let file = path.with_extension(format!("overlay{slice}"));
        written = written.and_then(|()| std::fs::write(file, overlay));
    }
    if written.is_ok() {
        let path = path.display();
        println!("    written to {path}.bin, .draws and .overlay0 to .overlay3");
    }
}

fn number_class(number: u32) -> &'static str {
    match number {
        0 => "answer: released",
        11 => "answer: 11",
        12 => "answer: 12",
        13 => "answer: 13",
        14 => "answer: 14",
        15 => "answer: 15",
        16 => "answer: 16",
        17 => "answer: 17",
        18 => "answer: 18",
        19 => "answer: 19",
        20 => "answer: 20",
        21 => "answer: 21",
        22 => "answer: 22",
        31 => "answer: 31",
        32 => "answer: 32",
        33 => "answer: 33",
        34 => "answer: 34",
        35 => "answer: 35",
        36 => "answer: 36",
        37 => "answer: 37",
        51 => "answer: 51",
        _ => "answer: no number of the documents",
    }
}
