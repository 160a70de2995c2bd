//! The time of the product beside that of the reference implementation and of
//! SQLite, for each kind of step, for a mixed plan, and for the text of small
//! and of the widest values, at three sizes; for GROUP over 256 rows by keys and
//! sheets; for a full container without overlays, with one and with four; and for a
//! labelled table and a full container in each rule year.
//!
//!     rustc -O --edition 2021 -o bench tests/bench/main.rs \
//!         -L native=DIRECTORY -l static=LIBRARY          (and libsqlite3-dev)
//!     bench [MILLISECONDS]         for each row; 500 if not given
//!     bench once ENGINE CASE ROWS COUNT
//!     bench list
//!
//! Product and reference read the container, evaluate the plan and release rows
//! and text: a release has its text in every case, and there is no run without.
//! SQLite runs a prepared statement with the relational part of the plan over
//! tables already in memory, without labels, and every value of the result is
//! read; the draws of NOISE are a table, joined by row number. It makes a text only
//! in the cases of text, where each value is read as text as well: there all three
//! do the same work, and in the other rows SQLite has rows to make where product and
//! reference have rows and text. In the cases of sheets it counts the distinct ones
//! of each group. It knows no overlays and no rule year, so that its query is the same
//! in these rows. The bytes are those of the container and its overlays. The means of the
//! five sorts of rows are printed apart. Times are the best of all runs.
//! Before anything is measured the results of the three are compared, rows as
//! sets and texts byte by byte.
//!
//! `once` runs one engine (product, reference or sqlite) COUNT times on one
//! case and prints nothing, so that callgrind can count its instructions:
//! (count with COUNT = 30 minus count with COUNT = 10) / 20.
//! `list` prints the cases and sizes, a line for each.
//!
//! With `--cfg reference_only` the reference stands in for the product, to try
//! the benchmark itself.

#![allow(unexpected_cfgs)]

#[path = "../reference/lib.rs"]
#[allow(dead_code, unused_imports)]
mod reference;

#[path = "../compare/draft.rs"]
#[allow(dead_code)]
mod draft;
#[path = "../compare/lent.rs"]
#[allow(dead_code)]
mod lent;
#[path = "../compare/product.rs"]
#[allow(dead_code)]
mod product;
#[path = "../compare/rng.rs"]
#[allow(dead_code)]
mod rng;

mod cases;
mod sqlite;

use cases::{Case, CASES, FULL, OVERLAYS, SHEETS, SIZES, TEXTS, YEARS};
use lent::{Input, Lent, NEEDED, OUTPUT};
use reference::release::TEXT_LENGTH;
use sqlite::Query;
use std::time::{Duration, Instant};

const ENGINES: [&str; 3] = ["product", "reference", "sqlite"];

fn main() {
    let arguments: Vec<String> = std::env::args().skip(1).collect();
    let words: Vec<&str> = arguments.iter().map(String::as_str).collect();
    match words[..] {
        [] => table(500),
        ["once", engine, case, rows, count] => once(engine, case, parse(rows), parse(count)),
        ["list"] => list(),
        [time] => table(parse(time)),
        _ => usage(),
    }
}

fn usage() -> ! {
    eprintln!("usage: bench [MILLISECONDS] | bench once ENGINE CASE ROWS COUNT | bench list");
    std::process::exit(2)
}

fn parse(text: &str) -> usize {
    text.parse().unwrap_or_else(|_| usage())
}

/// Cases whose means are printed together. SQLite makes the text of the last.
#[derive(Clone, Copy, PartialEq)]
enum Sort {
    Steps,
    Sheets,
    Overlays,
    Years,
    Texts,
}

impl Sort {
    fn sizes(self) -> &'static [usize] {
        match self {
            Sort::Sheets | Sort::Overlays | Sort::Years => &FULL,
            Sort::Steps | Sort::Texts => &SIZES,
        }
    }
}

fn cases() -> impl Iterator<Item = (&'static Case, Sort)> {
    let steps = CASES.iter().map(|case| (case, Sort::Steps));
    let sheets = SHEETS.iter().map(|case| (case, Sort::Sheets));
    let overlays = OVERLAYS.iter().map(|case| (case, Sort::Overlays));
    let years = YEARS.iter().map(|case| (case, Sort::Years));
    let texts = TEXTS.iter().map(|case| (case, Sort::Texts));
    steps.chain(sheets).chain(overlays).chain(years).chain(texts)
}

/// Reads an answer, so that no compiler leaves out the run that gave it.
fn keep(answer: [u32; 4]) {
    unsafe { std::ptr::read_volatile(&answer) };
}

/// One case at one size, ready to run with any engine.
struct Bench {
    container: Vec<u8>,
    draws: Vec<i64>,
    overlays: [Vec<u8>; 4],
    lent: Lent,
    query: Query,
    rows: Vec<i64>,
    /// SQLite's, where it makes one.
    text: Option<Vec<u8>>,
}

/// The rows that an engine gives, sorted, and its text.
type Given = (Vec<Vec<i64>>, Option<Vec<u8>>);

impl Bench {
    fn new((case, sort): (&Case, Sort), size: usize) -> Bench {
        let (draft, sql) = (case.make)(size);
        let query = Query::new(&draft.tables, &draft.draws, &sql);
        let mut bench = Bench {
            container: draft.bytes(),
            overlays: draft.overlay_bytes(),
            draws: draft.draws,
            lent: Lent::default(),
            query,
            rows: vec![0; OUTPUT],
            text: (sort == Sort::Texts).then(Vec::new),
        };
        bench.lend(1);
        bench
    }

    fn lend(&mut self, pattern: u64) {
        let input = Input {
            container: &self.container,
            draws: &self.draws,
            overlays: self.overlays.each_ref().map(|overlay| &overlay[..]),
        };
        self.lent.fill(input, NEEDED, TEXT_LENGTH, pattern);
    }

    fn bytes(&self) -> usize {
        self.container.len() + self.overlays.iter().map(Vec::len).sum::<usize>()
    }

    /// Answers the number, rows, columns and the text's length.
    fn run(&mut self, engine: usize) -> [u32; 4] {
        match engine {
            0 => {
                let mut answer = [0; product::RUN_ANSWER];
                product::call_run(&mut self.lent, &mut answer);
                answer.map(|number| number as u32)
            }
            1 => product::by_reference(&mut self.lent),
            _ => {
                let (rows, columns) = self.query.run(&mut self.rows, self.text.as_mut());
                let length = self.text.as_ref().map_or(0, Vec::len);
                [0, rows as u32, columns as u32, length as u32]
            }
        }
    }

    fn result(&mut self, engine: usize) -> Given {
        // Nothing of an earlier engine's result is to be taken for this one's.
        self.lend(engine as u64);
        let answer = self.run(engine);
        assert_eq!(answer[0], 0, "every plan here is released");
        let columns = answer[2] as usize;
        let (cells, text) = match engine {
            2 => (&self.rows[..answer[1] as usize * columns], self.text.clone()),
            _ => {
                let (cells, text) = self.lent.released(answer);
                (cells, Some(text.to_vec()))
            }
        };
        let mut rows: Vec<Vec<i64>> = cells.chunks(columns).map(|row| row.to_vec()).collect();
        rows.sort();
        (rows, text)
    }

    /// The best time of each engine, in microseconds. They take turns, so that
    /// what else the machine does falls on all of them.
    fn best(&mut self, time: Duration) -> [f64; 3] {
        let begin = Instant::now();
        let mut best = [f64::INFINITY; 3];
        while begin.elapsed() < time {
            for engine in 0..3 {
                for _ in 0..4 {
                    let start = Instant::now();
                    keep(self.run(engine));
                    best[engine] = best[engine].min(start.elapsed().as_secs_f64());
                }
            }
        }
        best.map(|seconds| seconds * 1e6)
    }
}

fn once(engine: &str, case: &str, size: usize, count: usize) {
    let found = cases().find(|(known, _)| known.name == case);
    let number = ENGINES.iter().position(|known| *known == engine);
    let (case, engine) = match (found, number) {
        (Some(case), Some(engine)) => (case, engine),
        _ => usage(),
    };
    let mut bench = Bench::new(case, size);
    for _ in 0..count {
        keep(bench.run(engine));
    }
}

fn list() {
    for (case, sort) in cases() {
        for size in sort.sizes() {
            println!("{size} {}", case.name);
        }
    }
}

fn table(milliseconds: usize) {
    let time = Duration::from_millis(milliseconds as u64);
    println!("microseconds, best of all runs, {milliseconds} ms for each row");
    println!(
        "{:<18}{:>5}{:>8}{:>10}{:>11}{:>10}{:>12}{:>10}",
        "plan", "rows", "bytes", "product", "reference", "sqlite", "/reference", "/sqlite"
    );
    let mut ratios: [[Vec<f64>; 2]; 5] = Default::default();
    let mut growth = Vec::new();
    for (case, sort) in cases() {
        let mut times = Vec::new();
        for &size in sort.sizes() {
            let mut bench = Bench::new((case, sort), size);
            let [product, reference, sqlite] = [0, 1, 2].map(|engine| bench.result(engine));
            assert!(product == reference, "{}: product and reference differ", case.name);
            assert!(reference.0 == sqlite.0, "{}: reference and SQLite differ", case.name);
            let text = sort != Sort::Texts || reference.1 == sqlite.1;
            assert!(text, "{}: SQLite's text differs", case.name);
            let best = bench.best(time);
            let ratio = [best[0] / best[1], best[0] / best[2]];
            println!(
                "{:<18}{:>5}{:>8}{:>10.2}{:>11.2}{:>10.2}{:>12.3}{:>10.3}",
                case.name,
                size,
                bench.bytes(),
                best[0],
                best[1],
                best[2],
                ratio[0],
                ratio[1]
            );
            ratios[sort as usize][0].push(ratio[0]);
            ratios[sort as usize][1].push(ratio[1]);
            times.push(best);
        }
        if times.len() == SIZES.len() {
            growth.push((case.name, times));
        }
    }
    println!("product and reference write the text in every row; sqlite does so only in the rows of text");
    println!();
    let names = ["", "sheets: ", "overlays: ", "years: ", "text: "];
    for (rows, ratios) in names.iter().zip(&ratios) {
        for (name, ratios) in ["reference", "sqlite"].iter().zip(ratios) {
            let logarithms = ratios.iter().map(|ratio| ratio.ln()).sum::<f64>();
            let mean = (logarithms / ratios.len() as f64).exp();
            let worst = ratios.iter().fold(0.0, |worst: f64, &ratio| worst.max(ratio));
            println!("{rows}product / {name}: geometric mean {mean:.3}, worst {worst:.3}");
        }
    }
    println!();
    println!("growth: the power of the rows by which the time grows, for {SIZES:?} rows");
    println!("{:<18}{:>16}{:>16}{:>16}", "plan", ENGINES[0], ENGINES[1], ENGINES[2]);
    for (name, times) in growth {
        print!("{name:<18}");
        for engine in 0..3 {
            let power = |from: usize| {
                let rows = SIZES[from + 1] as f64 / SIZES[from] as f64;
                (times[from + 1][engine] / times[from][engine]).ln() / rows.ln()
            };
            print!("{:>16}", format!("{:.2} {:.2}", power(0), power(1)));
        }
        println!();
    }
}
