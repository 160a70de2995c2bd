//! Makes pairs of containers that differ only in the values of locked cells.
//!
//!     rustc -O --edition 2021 -o pairs tests/traces/pairs.rs
//!     pairs SEED COUNT PAIRS WORDS
//!
//! Writes COUNT pairs to the file PAIRS, which tests/traces/runs.c reads, and to the file
//! WORDS a line for each: its answer, and the steps of its plan, with tabs between. The
//! containers are those of tests/compare, accepted or refused in any way, and those of
//! `plans`. Of all that it makes from SEED it chooses pairs until each class of `classes`
//! has occurred, and then more that do the most where the least was done. What counts is
//! what a plan does to cells whose values differ between the two sides.
//!
//! Both sides are given to the reference implementation as well; the program ends with a
//! panic where it answers them otherwise or leaves other contents, or where two sides differ
//! in anything else. Prints how often each class occurred. The exit status is 1 if some class
//! never did.

#[path = "../reference/lib.rs"]
#[allow(dead_code, unused_imports)]
mod reference;

#[path = "../compare/damage.rs"]
mod damage;
#[path = "../compare/draft.rs"]
#[allow(dead_code)]
mod draft;
#[path = "../compare/generate.rs"]
mod generate;
#[path = "../compare/labels.rs"]
#[allow(dead_code)]
mod labels;
#[path = "../compare/lent.rs"]
#[allow(dead_code)]
mod lent;
#[path = "../compare/noise.rs"]
#[allow(dead_code)]
mod noise;
#[path = "../compare/overlay_scenes.rs"]
mod overlay_scenes;
#[path = "../compare/overlays.rs"]
mod overlays;
#[path = "../compare/rng.rs"]
mod rng;
#[path = "../compare/scenes.rs"]
mod scenes;
#[path = "../compare/sheet_scenes.rs"]
mod sheet_scenes;
#[path = "../compare/sheets.rs"]
#[allow(dead_code)]
mod sheets;
#[path = "../compare/texts.rs"]
#[allow(dead_code)]
mod texts;
#[path = "../compare/wrong_overlays.rs"]
mod wrong_overlays;
#[path = "../compare/wrong_sheets.rs"]
mod wrong_sheets;
#[path = "../compare/wrong_steps.rs"]
mod wrong_steps;
#[path = "../compare/year_scenes.rs"]
mod year_scenes;

// The modules of tests/compare find these classes in place of their own.
mod classes;
mod pair;
mod plans;
mod values;
mod watch;

use classes::{Classes, CLASSES};
use pair::{pair, Pair};
use rng::{mix, Rng};
use std::io::Write;

/// So many containers are made for the choice.
const MADE: u64 = 20_000;

fn main() {
    let arguments: Vec<String> = std::env::args().skip(1).collect();
    let (seed, count, pairs, words) = match &arguments[..] {
        [seed, count, pairs, words] => match (seed.parse(), count.parse()) {
            (Ok(seed), Ok(count)) => (seed, count, pairs, words),
            _ => usage(),
        },
        _ => usage(),
    };
    let (chosen, counts) = choose(seed, count);
    if let Err(fault) = write(&chosen, pairs, words) {
        eprintln!("pairs: {fault}");
        std::process::exit(2);
    }
    for (name, count) in CLASSES.iter().zip(&counts) {
        println!("{count:>9}  {name}");
    }
    let missing = counts.iter().filter(|&&count| count == 0).count();
    for (name, _) in CLASSES.iter().zip(&counts).filter(|(_, &count)| count == 0) {
        println!("class that never occurred: {name}");
    }
    println!("seed {seed}: {} pairs, {missing} classes missing", chosen.len());
    if missing > 0 || chosen.len() != count {
        std::process::exit(1);
    }
}

fn usage() -> ! {
    eprintln!("usage: pairs SEED COUNT PAIRS WORDS");
    std::process::exit(2)
}

/// The pairs, and how often each class occurs in them.
fn choose(seed: u64, count: usize) -> (Vec<Pair>, Vec<usize>) {
    let remade = |index: u64| pair(&mut Rng::new(mix(seed) ^ index));
    let made = (0..MADE).filter_map(|index| Some((index, remade(index)?.classes)));
    let mut made: Vec<(u64, Classes)> = made.collect();
    let mut counts = vec![0; CLASSES.len()];
    let mut chosen = Vec::new();
    while chosen.len() < count && !made.is_empty() {
        let best = best(&made, &counts, chosen.len() % 4 == 3);
        let (index, classes) = made.swap_remove(best);
        classes.places().for_each(|place| counts[place] += 1);
        chosen.push(remade(index).expect("made before"));
    }
    (chosen, counts)
}

/// The place of the pair that does the most where the least was done: a class that has not
/// occurred yet is worth more than all that have. With `rarest` it is one of the class that
/// has occurred the least.
fn best(made: &[(u64, Classes)], counts: &[usize], rarest: bool) -> usize {
    let worth = |place: usize| match counts[place] {
        0 => 1_000.0,
        count => 1.0 / count as f64,
    };
    let least = (0..counts.len()).min_by_key(|&place| counts[place]).filter(|_| rarest);
    let sum = |classes: &Classes| {
        let wanted = least.map_or(false, |least| classes.places().any(|place| place == least));
        classes.places().map(worth).sum::<f64>() + if wanted { 1_000_000.0 } else { 0.0 }
    };
    let sums: Vec<f64> = made.iter().map(|(_, classes)| sum(classes)).collect();
    (0..made.len()).max_by(|&a, &b| sums[a].total_cmp(&sums[b])).expect("some pair is left")
}

fn write(pairs: &[Pair], path: &str, words: &str) -> std::io::Result<()> {
    let mut file = std::io::BufWriter::new(std::fs::File::create(path)?);
    let mut lines = std::io::BufWriter::new(std::fs::File::create(words)?);
    file.write_all(&(pairs.len() as u64).to_le_bytes())?;
    for pair in pairs {
        let mut sizes = pair.lengths.to_vec();
        sizes.extend([pair.room, pair.sides[0].len(), pair.draws.len()]);
        sizes.extend(pair.overlays.iter().map(Vec::len));
        sizes.extend(pair.answer.iter().map(|&number| number as usize));
        for size in sizes {
            file.write_all(&(size as u64).to_le_bytes())?;
        }
        file.write_all(&pair.sides[0])?;
        file.write_all(&pair.sides[1])?;
        for draw in &pair.draws {
            file.write_all(&draw.to_le_bytes())?;
        }
        for overlay in &pair.overlays {
            file.write_all(overlay)?;
        }
        let [number, one, two, three] = pair.answer;
        let answer = match number {
            0 => format!("released {one} rows"),
            1 => "refused with 1".into(),
            11..=22 => format!("refused with {number} at {one}"),
            _ => format!("refused with {number} at step {one}, row {two}, column {three}"),
        };
        writeln!(lines, "{answer}\t{}", pair.steps.join("\t"))?;
    }
    file.flush()?;
    lines.flush()
}
