//! Valid containers of both rule years, with draws and overlays. A plan is made step by
//! step over the tables that the steps so far have made, by the labels as the year reads
//! them, so that most plans run far and many are released.

use crate::draft::{step, Draft, RawStep, RawTable};
use crate::labels::label;
use crate::noise::{for_rows, list, NOISY};
use crate::overlay_scenes;
use crate::overlays::lend;
use crate::reference::container::parse;
use crate::reference::eval::perform;
use crate::reference::steps::{Aggregate, Step};
use crate::reference::table::{Cell, Table};
use crate::reference::value::{Value, HIGHEST, LOWEST};
use crate::reference::year::by_year;
use crate::rng::Rng;
use crate::scenes::{scan, scene, Scene};
use crate::sheets::number_some;
use crate::year_scenes;

/// How the tables and the plan of one container are chosen.
#[derive(Clone, Copy, PartialEq)]
pub enum Theme {
    General,
    /// Rows near the limit of 256.
    Rows,
    /// Values near the ends of the range.
    Ends,
    /// Nearly every column labelled.
    Labels,
    /// A container of 65,534 bytes, the longest that can be valid.
    Longest,
}

pub fn valid(rng: &mut Rng) -> Draft {
    let year = rng.chance(34) as u8;
    match rng.below(100) {
        0..=8 => return Draft { year, ..overlay_scenes::scene(rng) },
        9..=21 => return year_scenes::scene(rng),
        _ => (),
    }
    let mut draft = if rng.chance(55) { staged(rng, year) } else { planned(rng, year) };
    lend(rng, &mut draft);
    draft
}

fn planned(rng: &mut Rng, year: u8) -> Draft {
    let theme = match rng.below(200) {
        0..=119 => Theme::General,
        120..=147 => Theme::Ends,
        148..=179 => Theme::Labels,
        180..=198 => Theme::Rows,
        _ => Theme::Longest,
    };
    let mut tables = tables(rng, theme);
    if rng.chance(40) {
        number_some(rng, &mut tables, true);
    }
    let length = match rng.below(100) {
        _ if theme == Theme::Longest => 4,
        0..=4 => 1,
        5..=54 => 2 + rng.below(6),
        55..=89 => 6 + rng.below(14),
        90..=94 => 20 + rng.below(44),
        _ => 64,
    };
    let mut planner = Planner::new(rng, year, &tables, theme, length);
    planner.plan();
    let (steps, used) = planner.done();
    Draft { year, tables, steps, draws: list(rng, used), ..Draft::default() }
}

/// A container that begins with a scene; sometimes the scene comes last, as
/// late as a plan can be.
fn staged(rng: &mut Rng, year: u8) -> Draft {
    let Scene { mut tables, steps } = scene(rng);
    if rng.chance(20) {
        number_some(rng, &mut tables, false);
    }
    let late = rng.chance(8);
    let length = if late { 64 } else { (steps.len() + rng.pick(&[0, 0, 2, 6])).min(64) };
    let mut planner = Planner::new(rng, year, &tables, Theme::General, length);
    let daring = std::mem::replace(&mut planner.daring, 100);
    for (number, raw) in steps.iter().enumerate() {
        let last = number > 0 && number + 1 == steps.len();
        while late && last && planner.steps.len() < 63 {
            let all = planner.keep_all();
            planner.take(all);
        }
        planner.take(*raw);
    }
    planner.daring = daring;
    planner.finish();
    let (steps, used) = planner.done();
    Draft { year, tables, steps, draws: list(rng, used), ..Draft::default() }
}

/// The reference's view of raw tables in a year: those of a container with one step.
pub fn read(year: u8, tables: &[RawTable]) -> Vec<Table> {
    let (tables, steps) = (tables.to_vec(), vec![scan(0)]);
    let draft = Draft { year, tables, steps, ..Draft::default() };
    by_year(parse(&draft.bytes()).expect("generated tables are accepted")).tables
}

fn tables(rng: &mut Rng, theme: Theme) -> Vec<RawTable> {
    if theme == Theme::Longest {
        return [(8, 256), (8, 256), (6, 226)].map(|(c, r)| table(rng, theme, c, r)).to_vec();
    }
    let count = match rng.below(10) {
        0..=2 => 1,
        3..=5 => 2,
        6..=7 => 3,
        8 => 8,
        _ => 4 + rng.below(4),
    };
    let usual = 1 + rng.below(5);
    let mut made: Vec<RawTable> = Vec::new();
    for index in 0..count {
        let columns = match rng.below(10) {
            0..=6 => usual,
            7 => 8,
            8 => 1,
            _ => 1 + rng.below(8),
        };
        let rows = match (theme, rng.below(20)) {
            // Pairs of tables with 255, 256 or 257 rows together, and 16 rows
            // for joins that make 256.
            (Theme::Rows, 0..=8) if index > 0 && made[index - 1].rows() > 0 => {
                255 + rng.below(3) - made[index - 1].rows().min(255)
            }
            (Theme::Rows, 0..=3) => 256,
            (Theme::Rows, 4..=8) => 16 + rng.below(2),
            (Theme::Rows, 9..=16) => rng.below(257),
            (_, 0) => 0,
            (_, 1) => 1,
            (_, 2) => rng.below(60),
            (_, 3) if count == 1 => 256,
            _ => 2 + rng.below(10),
        };
        made.push(table(rng, theme, columns, rows));
    }
    // Six full tables would pass the limit of 65,536 bytes.
    while made.iter().map(|table| 12 * table.cells.len() + 16).sum::<usize>() > 63_000 {
        let last = made.len() - 1;
        made[last].cells.clear();
        if made.len() > 1 {
            made.pop();
        }
    }
    made
}

pub fn table(rng: &mut Rng, theme: Theme, columns: usize, rows: usize) -> RawTable {
    let mut cells = vec![(0, 0); rows * columns];
    for column in 0..columns {
        let values = rng.below(10);
        let labels = if theme == Theme::Labels && rng.chance(60) {
            60 + rng.below(40)
        } else {
            rng.below(100)
        };
        let (one, two) = (label(rng, rows), label(rng, rows));
        let odd = if rows > 0 { rng.below(rows) } else { 0 };
        for row in 0..rows {
            let value = match values {
                _ if theme == Theme::Ends && rng.chance(40) => end(rng),
                0..=3 => rng.between(0, 3),
                4..=5 => rng.between(-20, 20),
                6 => rng.between(-99_999_999, 99_999_999),
                7 => (row as i64) % 17,
                8 => number(rng),
                _ => 5,
            };
            let word = match labels {
                0..=59 => 0,
                60..=79 => one,
                80..=89 => rng.pick(&[one, two]),
                90..=94 => rng.pick(&[one, two, 0]),
                95..=97 => {
                    if row == odd {
                        one
                    } else {
                        0
                    }
                }
                _ => label(rng, rows),
            };
            cells[row * columns + column] = (value, word);
        }
    }
    RawTable::new(columns, cells)
}

/// A value at or near an end of the range.
fn end(rng: &mut Rng) -> i64 {
    match rng.below(6) {
        0 => LOWEST,
        1 => HIGHEST,
        2 => LOWEST + rng.between(0, 12),
        3 => HIGHEST - rng.between(0, 12),
        4 => rng.pick(&[LOWEST / 2, HIGHEST / 2, LOWEST / 2 - 1, HIGHEST / 2 + 1]),
        _ => rng.between(-1, 1),
    }
}

/// Any value in range.
pub fn number(rng: &mut Rng) -> i64 {
    match rng.below(4) {
        0 => end(rng),
        1 => rng.between(-10, 10),
        2 => rng.between(-1_000_000, 1_000_000),
        _ => rng.between(LOWEST, HIGHEST),
    }
}

struct Planner<'r> {
    rng: &'r mut Rng,
    theme: Theme,
    tables: Vec<Table>,
    widths: Vec<usize>,
    length: usize,
    steps: Vec<RawStep>,
    /// The tables made so far; `None` after a refusal because of the state.
    stack: Option<Vec<Table>>,
    /// Their widths, which the input checks go on to follow.
    shape: Vec<usize>,
    /// How often, in percent, a step that will be refused is taken.
    daring: usize,
    /// The draws that the steps so far have used.
    draws: Vec<i64>,
}

impl<'r> Planner<'r> {
    fn new(
        rng: &'r mut Rng,
        year: u8,
        tables: &[RawTable],
        theme: Theme,
        length: usize,
    ) -> Planner<'r> {
        let daring = rng.pick(&[0, 0, 3, 30]);
        Planner {
            rng,
            theme,
            tables: read(year, tables),
            widths: tables.iter().map(|table| table.columns).collect(),
            length,
            steps: Vec::new(),
            stack: Some(Vec::new()),
            shape: Vec::new(),
            daring,
            draws: Vec::new(),
        }
    }

    /// The plan, and the draws that it uses.
    fn done(self) -> (Vec<RawStep>, Vec<i64>) {
        (self.steps, self.draws)
    }

    fn plan(&mut self) {
        let scan = self.scan();
        self.take(scan);
        self.finish();
    }

    /// Goes on to the length of the plan, and leaves one table.
    fn finish(&mut self) {
        let release = self.rng.chance(75);
        // Two steps for each table too many, and two to prepare the release.
        while self.steps.len() + 2 * (self.shape.len() - 1) + 2 < self.length {
            self.some_step();
        }
        while self.shape.len() > 1 {
            self.fold();
        }
        if release && self.steps.len() < self.length && self.steps.len() <= 62 {
            self.prepare_release();
        }
        // KEEP of every column changes nothing and fills the plan.
        while self.steps.len() < self.length.min(64)
            && (self.length == 64 || self.theme == Theme::Longest)
        {
            let all = self.keep_all();
            self.take(all);
        }
    }

    /// The table on top, where it is known.
    fn top(&self) -> Option<&Table> {
        self.stack.as_ref().and_then(|stack| stack.last())
    }

    fn width(&self) -> usize {
        *self.shape.last().expect("a plan begins with SCAN")
    }

    /// Takes a step that the input checks accept; whether it was taken.
    fn take(&mut self, raw: RawStep) -> bool {
        let step = raw.read().expect("a generated step is well-formed");
        let mut shape = self.shape.clone();
        if step.shape(&mut shape, &self.widths).is_err() {
            return false;
        }
        let mut stack = self.stack.clone();
        let mut stopped = false;
        let mut draws = self.draws_for(&step);
        let mut left = draws.iter();
        if let Some(tables) = &mut stack {
            match perform(&step, &self.tables, tables, &mut left) {
                Ok(made) => tables.push(made),
                Err(_) => stopped = true,
            }
        }
        if stopped {
            if !self.rng.chance(self.daring) {
                return false;
            }
            stack = None;
        }
        let used = draws.len() - left.len();
        draws.truncate(used);
        self.draws.append(&mut draws);
        self.stack = stack;
        self.shape = shape;
        self.steps.push(raw);
        true
    }

    /// A draw for each row that the step reads, if it is a NOISE.
    fn draws_for(&mut self, step: &Step) -> Vec<i64> {
        let top = self.stack.as_ref().and_then(|stack| stack.last());
        match (step, top) {
            (Step::Noise { column }, Some(top)) => {
                for_rows(self.rng, (0..top.rows()).map(|row| top.row(row)[*column].value))
            }
            _ => Vec::new(),
        }
    }

    fn some_step(&mut self) {
        for _ in 0..8 {
            let raw = self.propose();
            if self.take(raw) {
                return;
            }
        }
        let all = self.keep_all();
        self.take(all);
    }

    fn propose(&mut self) -> RawStep {
        let depth = self.shape.len();
        let empty = self.top().map_or(false, |table| table.cells.is_empty());
        let room = self.steps.len() + 2 * depth + 4 < self.length;
        if depth < 3 && room && self.rng.chance(if empty { 60 } else { 18 }) {
            return self.scan();
        }
        if depth >= 2 && self.rng.chance(35) {
            return if self.rng.chance(45) { step(2, 0, 0, 0, 0, 0) } else { self.join() };
        }
        if self.width() == 8 && self.rng.chance(60) {
            return self.keep();
        }
        match self.rng.below(100) {
            0..=25 => self.filter(),
            26..=34 => self.keep(),
            35..=68 => self.apply(),
            69..=77 => self.noise(),
            _ => self.group(),
        }
    }

    fn scan(&mut self) -> RawStep {
        let table = self.rng.below(self.widths.len());
        step(1, table as u8, 0, 0, 0, 0)
    }

    fn keep_all(&self) -> RawStep {
        step(5, (0..self.width()).fold(0, |mask, column| mask | 1 << column), 0, 0, 0, 0)
    }

    /// Some column; mostly one whose cells all pass the test, if there is one.
    fn column_where(&mut self, depth: usize, test: impl Fn(&Cell) -> bool) -> u8 {
        let place = self.shape.len() - 1 - depth;
        let width = self.shape[place];
        if let Some(stack) = &self.stack {
            let table = &stack[place];
            let good: Vec<usize> = (0..width)
                .filter(|&column| (0..table.rows()).all(|row| test(&table.row(row)[column])))
                .collect();
            if !good.is_empty() && self.rng.chance(94) {
                return self.rng.pick(&good) as u8;
            }
        }
        self.rng.below(width) as u8
    }

    fn clear_column(&mut self, depth: usize) -> u8 {
        self.column_where(depth, |cell| cell.label.is_clear())
    }

    /// A cell of a column of the table on top.
    fn cell(&mut self, column: u8) -> Option<Cell> {
        let rows = self.top()?.rows();
        if rows == 0 {
            return None;
        }
        let row = self.rng.below(rows);
        Some(self.top()?.row(row)[column as usize])
    }

    fn join(&mut self) -> RawStep {
        let (left, right) = (self.clear_column(1), self.clear_column(0));
        step(3, left, right, 0, 0, 0)
    }

    fn filter(&mut self) -> RawStep {
        let column = self.clear_column(0);
        let comparison = self.rng.below(6) as u8;
        if self.rng.chance(35) {
            let other = self.clear_column(0);
            return step(4, column, comparison, 1, other, 0);
        }
        if self.rng.chance(8) {
            return step(4, column, 5, 0, 0, LOWEST);
        }
        let constant = match self.cell(column).map(|cell| cell.value) {
            Some(Value::Known(number)) if self.rng.chance(85) => {
                (number + self.rng.between(-1, 1)).clamp(LOWEST, HIGHEST)
            }
            _ => number(self.rng),
        };
        step(4, column, comparison, 0, 0, constant)
    }

    fn keep(&mut self) -> RawStep {
        let width = self.width();
        let mut mask = 0;
        for column in 0..width {
            if self.rng.chance(65) {
                mask |= 1 << column;
            }
        }
        if mask == 0 {
            mask = 1 << self.rng.below(width);
        }
        step(5, mask, 0, 0, 0, 0)
    }

    fn apply(&mut self) -> RawStep {
        // A column with T that some operation may discharge, or any not held.
        let column = if self.rng.chance(60) {
            self.column_where(0, |cell| !cell.label.held && cell.label.transform.is_some())
        } else {
            self.column_where(0, |cell| !cell.label.held)
        };
        let mut operation = self.rng.below(4) as u8;
        let mut digits = self.rng.between(1, 6);
        if let Some(stage) = self.cell(column).and_then(|cell| cell.label.transform) {
            let mut allowed = Vec::new();
            let cut = stage.cut.is_some();
            for (code, yes) in [(0, stage.add), (1, stage.sub), (2, cut), (3, stage.band)] {
                if yes {
                    allowed.push(code);
                }
            }
            if !allowed.is_empty() && self.rng.chance(85) {
                operation = self.rng.pick(&allowed);
            }
            if let Some(least) = stage.cut {
                digits = (least as i64 + self.rng.between(-1, 2)).clamp(1, 6);
            }
        }
        match operation {
            2 => step(6, column, 2, 0, 0, digits),
            3 => {
                let width = match self.rng.below(8) {
                    0 => 1,
                    1 => HIGHEST,
                    2 => self.rng.between(1, HIGHEST),
                    3 => 1 << self.rng.below(47),
                    _ => self.rng.between(2, 100),
                };
                step(6, column, 3, 0, 0, width)
            }
            code if self.rng.chance(45) => {
                let other = self.clear_column(0);
                step(6, column, code, 1, other, 0)
            }
            code => {
                let constant = if self.theme == Theme::Ends || self.rng.chance(15) {
                    end(self.rng)
                } else {
                    self.rng.between(-50, 50)
                };
                step(6, column, code, 0, 0, constant)
            }
        }
    }

    fn group(&mut self) -> RawStep {
        let mut keys = 0;
        let most = self.rng.pick(&[0, 1, 1, 1, 2, 2, 3, 7, 7]);
        for _ in 0..most {
            keys |= 1 << self.clear_column(0);
        }
        if u8::count_ones(keys) == 8 {
            keys &= 0x7F;
        }
        let column = self.column_where(0, |cell| {
            !cell.label.held && cell.label.transform.is_none() && cell.label.aggregate.is_some()
        });
        let mut aggregate = self.rng.below(5) as u8;
        if let Some(stage) = self.cell(column).and_then(|cell| cell.label.aggregate) {
            let kinds =
                [Aggregate::Count, Aggregate::Sum, Aggregate::Min, Aggregate::Max, Aggregate::Avg];
            let allowed: Vec<u8> =
                (0..5).filter(|&code| stage.allows(kinds[code as usize])).collect();
            if !allowed.is_empty() && self.rng.chance(80) {
                aggregate = self.rng.pick(&allowed);
            }
        }
        step(7, keys, aggregate, column, 0, 0)
    }

    fn noise(&mut self) -> RawStep {
        // A column with N that NOISE may discharge, or any that it may read.
        let column = if self.rng.chance(60) {
            self.column_where(0, |cell| cell.label.word() == NOISY)
        } else {
            self.column_where(0, |cell| cell.label.after_noise().is_ok())
        };
        step(8, column, 0, 0, 0, 0)
    }

    /// Makes one table of the two on top.
    fn fold(&mut self) {
        let depth = self.shape.len();
        if self.shape[depth - 1] == self.shape[depth - 2] && self.take(step(2, 0, 0, 0, 0, 0)) {
            return;
        }
        let join = self.join();
        if self.take(join) {
            return;
        }
        // KEEP of one column and JOIN always pass the input checks.
        let right = self.clear_column(0);
        self.take(step(5, 1 << right, 0, 0, 0, 0));
        let left = self.clear_column(1);
        let daring = std::mem::replace(&mut self.daring, 100);
        self.take(step(3, left, 0, 0, 0, 0));
        self.daring = daring;
    }

    /// Drops what would be refused at the release, if anything is left then.
    fn prepare_release(&mut self) {
        let table = match self.top() {
            Some(table) => table,
            None => return,
        };
        let good =
            |column: usize| (0..table.rows()).all(|row| table.row(row)[column].label.is_clear());
        let known = |column: usize| {
            (0..table.rows()).all(|row| table.row(row)[column].value != Value::Over)
        };
        let clear: Vec<usize> = (0..table.columns).filter(|&column| good(column)).collect();
        let over = clear.iter().copied().find(|&column| !known(column));
        if let Some(column) = over {
            if self.rng.chance(70) {
                self.take(step(4, column as u8, 5, 0, 0, LOWEST));
            }
        }
        if !clear.is_empty() && clear.len() < self.width() {
            let mask = clear.iter().fold(0, |mask, &column| mask | 1 << column);
            self.take(step(5, mask, 0, 0, 0, 0));
        }
    }
}

/// A step of this kind that the input checks accept on a stack of these widths
/// (on a stack too shallow for it, one with well-formed fields).
pub fn any_step(rng: &mut Rng, kind: u8, shape: &[usize], tables: usize) -> RawStep {
    let width = |depth: usize| if depth < shape.len() { shape[shape.len() - 1 - depth] } else { 1 };
    let top = width(0);
    let (one, two) = (rng.below(top) as u8, rng.below(top) as u8);
    match kind {
        1 => step(1, rng.below(tables) as u8, 0, 0, 0, 0),
        2 => step(2, 0, 0, 0, 0, 0),
        3 => step(3, rng.below(width(1)) as u8, one, 0, 0, 0),
        4 if rng.chance(50) => step(4, one, rng.below(6) as u8, 1, two, 0),
        4 => step(4, one, rng.below(6) as u8, 0, 0, number(rng)),
        5 => step(5, 1 << one, 0, 0, 0, 0),
        6 if rng.chance(30) => step(6, one, rng.below(2) as u8, 1, two, 0),
        6 if rng.chance(30) => step(6, one, 2, 0, 0, rng.between(1, 6)),
        6 if rng.chance(30) => step(6, one, 3, 0, 0, rng.between(1, HIGHEST)),
        6 => step(6, one, rng.below(2) as u8, 0, 0, number(rng)),
        7 => step(7, 1 << one, rng.below(5) as u8, two, 0, 0),
        _ => step(8, one, 0, 0, 0, 0),
    }
}

/// The widths on the stack before each step of a valid plan, and at its end.
pub fn shapes(steps: &[RawStep], widths: &[usize]) -> Vec<Vec<usize>> {
    let mut shape = Vec::new();
    let mut all = vec![shape.clone()];
    for raw in steps {
        let read: Option<Step> = raw.read();
        if !read.map_or(false, |step| step.shape(&mut shape, widths).is_ok()) {
            break;
        }
        all.push(shape.clone());
    }
    all
}
