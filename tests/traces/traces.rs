//! Compares the instructions and the addresses of the two runs of each pair.
//!
//!     rustc -O --edition 2021 -o traces tests/traces/traces.rs
//!     valgrind --tool=lackey --trace-mem=yes --log-fd=9 RUNS PAIRS 9>&1 >/dev/null |
//!         traces RUNS WORDS
//!
//! RUNS is tests/traces/runs.c, built; PAIRS and WORDS are the two files of
//! tests/traces/pairs.rs. A run is what the trace has from the first instruction of
//! `cilunovay_run` to `end_of_run`: a line for each instruction and for each datum read or
//! written, with its address and its size, in order. Both runs of a pair have to have the
//! same lines.
//!
//! For pairs that differ it prints the places where they part, with the instructions about
//! each, and then the pairs, ten of each at most. A place is the last instruction that both
//! runs execute alike, a branch or one that reads or writes at another address; behind it
//! the two are compared again from where they meet. The last line is `N pairs the same, M
//! differ`. The exit status is 1 if a pair differs, and 2 where the trace is not one of all
//! pairs.

use std::collections::BTreeMap;
use std::io::BufRead;
use std::ops::Range;
use std::process::{exit, Command};

/// So many lines have to be equal where two runs meet again, and so far it is looked for.
const MEETING: usize = 40;
const REACH: usize = 1_500;
/// So many times two runs are seen to part.
const PARTINGS: usize = 400;
const SHOWN: usize = 10;

fn main() {
    let arguments: Vec<String> = std::env::args().skip(1).collect();
    let [program, words] = &arguments[..] else {
        fail("usage: traces RUNS WORDS");
    };
    let words = std::fs::read_to_string(words).unwrap_or_else(|fault| fail(&fault.to_string()));
    let pairs: Vec<Words> = words.lines().map(Words::new).collect();
    let symbols = Symbols::of(program);
    let mut report = Report { symbols, places: BTreeMap::new(), pairs: Vec::new() };
    let same = compare(&pairs, &mut report).unwrap_or_else(|fault| fail(&fault));
    report.print(program);
    println!("{same} pairs the same, {} differ", report.pairs.len());
    exit(if report.pairs.is_empty() { 0 } else { 1 });
}

fn fail(what: &str) -> ! {
    println!("traces: {what}");
    exit(2)
}

/// What a line of WORDS says of a pair.
struct Words<'a> {
    answer: &'a str,
    steps: Vec<&'a str>,
}

impl Words<'_> {
    fn new(line: &str) -> Words<'_> {
        let mut words = line.split('\t').filter(|word| !word.is_empty());
        Words { answer: words.next().unwrap_or(""), steps: words.collect() }
    }
}

/// Reads the trace; answers how many pairs are the same.
fn compare(pairs: &[Words], report: &mut Report) -> Result<usize, String> {
    let start = |name| report.symbols.named(name).map(|symbol| symbol.start);
    let begin = format!("I  {:08x},", start("cilunovay_run")?);
    let end = format!("I  {:08x},", start("end_of_run")?);
    let answer = format!(" S {:08x},", start("answer")?);
    let mut input = std::io::BufReader::with_capacity(1 << 20, std::io::stdin());
    let mut line = Vec::new();
    let mut runs = [Vec::new(), Vec::new()];
    let (mut ended, mut within, mut answered) = (0, false, false);
    while input.read_until(b'\n', &mut line).map_err(|fault| fault.to_string())? > 0 {
        if line.starts_with(begin.as_bytes()) {
            if within {
                return Err(format!("run {ended} does not end"));
            }
            (within, answered) = (true, false);
            runs[ended % 2].clear();
        }
        if within && line.starts_with(end.as_bytes()) {
            if !answered {
                return Err(format!("run {ended} writes no answer"));
            }
            within = false;
            ended += 1;
            let [one, two] = &runs;
            if ended % 2 == 0 && one != two {
                let pair = ended / 2 - 1;
                report.differ(pair, pairs.get(pair), &entries(one)?, &entries(two)?);
            }
        }
        if within {
            answered |= line.starts_with(answer.as_bytes());
            runs[ended % 2].extend_from_slice(&line);
        }
        line.clear();
    }
    if within || ended != 2 * pairs.len() {
        return Err(format!("the trace has {ended} whole runs, of {} pairs", pairs.len()));
    }
    if pairs.is_empty() {
        return Err("there are no pairs".into());
    }
    Ok(pairs.len() - report.pairs.len())
}

/// A line of the trace: `I` an instruction, `L` a datum read, `S` written, `M` both.
#[derive(Clone, Copy, PartialEq)]
struct Entry {
    kind: u8,
    address: u64,
    size: u64,
}

/// The lines of a run.
fn entries(run: &[u8]) -> Result<Vec<Entry>, String> {
    let text = std::str::from_utf8(run).map_err(|fault| fault.to_string())?;
    let entry = |line: &str| {
        let (kind, place) = (line.trim_start().bytes().next()?, line.get(3..)?);
        let (address, size) = place.split_once(',')?;
        let address = u64::from_str_radix(address, 16).ok()?;
        Some(Entry { kind, address, size: size.parse().ok()? })
            .filter(|entry| b"ILSM".contains(&entry.kind))
    };
    text.lines().map(|line| entry(line).ok_or(format!("no line of a trace: {line}"))).collect()
}

/// The functions and slices of the program, by their addresses.
struct Symbols(Vec<(Range<u64>, String)>);

impl Symbols {
    fn of(program: &str) -> Symbols {
        let mut found = Vec::new();
        for line in output(Command::new("nm").args(["-S", "-n", program])).lines() {
            let words: Vec<&str> = line.split_whitespace().collect();
            if let [start, size, kind, name @ ..] = &words[..] {
                let number = |text| u64::from_str_radix(text, 16).ok();
                if let (Some(start), Some(size), 1) = (number(start), number(size), kind.len()) {
                    found.push((start..start + size, name.join(" ")));
                }
            }
        }
        Symbols(found)
    }

    fn named(&self, name: &str) -> Result<Range<u64>, String> {
        let found = self.0.iter().find(|symbol| symbol.1 == name);
        found.map(|symbol| symbol.0.clone()).ok_or(format!("the program has no {name}"))
    }

    fn at(&self, address: u64) -> Option<&(Range<u64>, String)> {
        self.0.iter().find(|symbol| symbol.0.contains(&address))
    }

    /// An address as name and offset.
    fn tell(&self, address: u64) -> String {
        match self.at(address) {
            Some((range, name)) => format!("{name}+0x{:x}", address - range.start),
            None => format!("0x{address:x}"),
        }
    }
}

fn output(command: &mut Command) -> String {
    match command.output() {
        Ok(output) if output.status.success() => String::from_utf8_lossy(&output.stdout).into(),
        Ok(output) => fail(&String::from_utf8_lossy(&output.stderr)),
        Err(fault) => fail(&format!("{command:?}: {fault}")),
    }
}

/// Where runs part: the pairs, the steps that they were in, and what came next in the two.
#[derive(Default)]
struct Place {
    pairs: Vec<usize>,
    during: Vec<String>,
    next: [String; 2],
}

/// How far a run has come: each finished step has four numbers in the slice `trace`.
struct Progress {
    trace: Range<u64>,
    values: Range<u64>,
    begun: bool,
    finished: usize,
}

impl Progress {
    fn new(symbols: &Symbols) -> Progress {
        let [trace, values] =
            ["trace", "values"].map(|name| symbols.named(name).unwrap_or_default());
        Progress { trace, values, begun: false, finished: 0 }
    }

    fn pass(&mut self, entries: &[Entry]) {
        for entry in entries.iter().filter(|entry| b"SM".contains(&entry.kind)) {
            self.begun |= self.values.contains(&entry.address);
            if self.trace.contains(&entry.address) {
                let end = entry.address + entry.size - self.trace.start;
                self.finished = self.finished.max(end as usize / 16);
            }
        }
    }

    fn tell(&self, words: &Words) -> String {
        match words.steps.get(self.finished) {
            Some(_) if !self.begun => "in the input checks".into(),
            Some(step) => format!("in step {}, {step}", self.finished),
            None if words.steps.is_empty() => "in the input checks".into(),
            None => "after the last step".into(),
        }
    }
}

struct Report {
    symbols: Symbols,
    /// By the address of the instruction.
    places: BTreeMap<u64, Place>,
    pairs: Vec<String>,
}

impl Report {
    fn differ(&mut self, pair: usize, words: Option<&Words>, one: &[Entry], two: &[Entry]) {
        let none = Words { answer: "", steps: Vec::new() };
        let words = words.unwrap_or(&none);
        let mut progress = Progress::new(&self.symbols);
        let (mut i, mut j) = (0, 0);
        let mut first = String::new();
        for parting in 0..PARTINGS {
            let alike = one[i..].iter().zip(&two[j..]).take_while(|(one, two)| one == two).count();
            progress.pass(&one[i..i + alike]);
            (i, j) = (i + alike, j + alike);
            if i == one.len() && j == two.len() {
                break;
            }
            let last = one[..i].iter().rev().find(|entry| entry.kind == b'I');
            let address = last.map_or(0, |entry| entry.address);
            let during = progress.tell(words);
            if parting == 0 {
                let place = self.symbols.tell(address);
                first = format!("line {}, {during}, behind {place}", i + 1);
            }
            let next = [one.get(i), two.get(j)].map(|entry| self.told(entry));
            let place = self.places.entry(address).or_insert(Place { next, ..Place::default() });
            if place.pairs.last() != Some(&pair) {
                place.pairs.push(pair);
            }
            if !place.during.contains(&during) {
                place.during.push(during);
            }
            let Some((more, others)) = meeting(&one[i..], &two[j..]) else {
                break;
            };
            progress.pass(&one[i..i + more]);
            (i, j) = (i + more, j + others);
        }
        let plan = match words.steps.len() {
            0..=12 => words.steps.join(", "),
            steps => format!("{} and {} more", words.steps[..10].join(", "), steps - 10),
        };
        self.pairs.push(format!("pair {pair} ({}; {plan}): {first}", words.answer));
    }

    fn told(&self, entry: Option<&Entry>) -> String {
        let Some(entry) = entry else {
            return "the end".into();
        };
        let what = match entry.kind {
            b'I' => "goes on at",
            b'L' => "reads",
            b'S' => "writes",
            _ => "changes",
        };
        format!("{what} {}", self.symbols.tell(entry.address))
    }

    fn print(&self, program: &str) {
        let mut places: Vec<(&u64, &Place)> = self.places.iter().collect();
        places.sort_by_key(|(_, place)| std::cmp::Reverse(place.pairs.len()));
        if !places.is_empty() {
            println!("{} places where runs part", places.len());
        }
        for (&address, place) in places.iter().take(SHOWN) {
            let [one, two] = &place.next;
            let name = self.symbols.tell(address);
            println!("{name}: {} pairs; one {one}, the other {two}", place.pairs.len());
            for during in place.during.iter().take(4) {
                println!("    {during}");
            }
            self.instructions(program, address);
        }
        self.pairs.iter().take(SHOWN).for_each(|pair| println!("{pair}"));
    }

    /// The instructions about this one.
    fn instructions(&self, program: &str, address: u64) {
        let Some((range, _)) = self.symbols.at(address) else {
            return;
        };
        let bounds =
            [format!("--start-address={}", range.start), format!("--stop-address={}", range.end)];
        let text = output(
            Command::new("objdump").args(["-d", "--no-show-raw-insn"]).args(bounds).arg(program),
        );
        let lines: Vec<&str> = text.lines().collect();
        let here = format!("{address:x}:");
        if let Some(at) = lines.iter().position(|line| line.trim_start().starts_with(&here)) {
            for line in &lines[at.saturating_sub(8)..(at + 4).min(lines.len())] {
                let mark = if line.trim_start().starts_with(&here) { "->" } else { "  " };
                println!("    {mark} {}", line.trim());
            }
        }
    }
}

/// Where two runs go on alike: how many lines behind in each, as few as possible.
fn meeting(one: &[Entry], two: &[Entry]) -> Option<(usize, usize)> {
    for both in 1..=2 * REACH {
        for more in both.saturating_sub(REACH)..=both.min(REACH) {
            let others = both - more;
            if let (Some(one), Some(two)) = (one.get(more..), two.get(others..)) {
                let length = MEETING.min(one.len()).min(two.len());
                let whole = one.len() == two.len() || length == MEETING;
                if whole && one[..length] == two[..length] {
                    return Some((more, others));
                }
            }
        }
    }
    None
}
