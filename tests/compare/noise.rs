//! The draws lent for NOISE, and the classes that they and the step fall into.

use crate::classes::Classes;
use crate::reference::eval::{StateFault, Stop};
use crate::reference::label::Label;
use crate::reference::steps::Step;
use crate::reference::table::Table;
use crate::reference::value::{Value, HIGHEST, LOWEST};
use crate::rng::Rng;

/// N with its noise bit, and no other stage.
pub const NOISY: u32 = 0x1080_0000;

/// A draw for each row of a table whose column has these values.
pub fn for_rows(rng: &mut Rng, values: impl Iterator<Item = Value>) -> Vec<i64> {
    let sort = rng.below(10);
    let draw = |value: Value| match sort {
        0..=4 => rng.between(-20, 20),
        5 => rng.pick(&[0, 0, 1, -1]),
        6 | 7 => to_an_end(rng, value),
        8 => any(rng),
        _ => match rng.below(10) {
            0 => any(rng),
            1 | 2 => to_an_end(rng, value),
            _ => rng.between(-99_999, 99_999),
        },
    };
    values.map(draw).collect()
}

/// One that brings the sum to an end of the range, or just past it.
fn to_an_end(rng: &mut Rng, value: Value) -> i64 {
    let sum = rng.pick(&[LOWEST - 1, LOWEST, HIGHEST, HIGHEST + 1]);
    match value {
        Value::Known(number) => sum - number,
        Value::Over => sum,
    }
}

fn any(rng: &mut Rng) -> i64 {
    match rng.below(5) {
        0 => i64::MIN,
        1 => i64::MAX,
        2 => rng.between(i64::MIN, i64::MIN + 99),
        3 => rng.between(i64::MAX - 99, i64::MAX),
        _ => rng.next() as i64 >> rng.below(64),
    }
}

/// The list lent to a plan that uses these draws: just those, fewer, or more.
pub fn list(rng: &mut Rng, mut used: Vec<i64>) -> Vec<i64> {
    match rng.below(20) {
        0..=9 => (),
        10 => used.clear(),
        11 | 12 => {
            used.pop();
        }
        13 | 14 => used.truncate(rng.below(used.len() + 1)),
        _ => return others_behind(rng, &used),
    }
    used
}

/// These draws, and others behind them, perhaps none.
pub fn others_behind(rng: &mut Rng, used: &[i64]) -> Vec<i64> {
    let more = match rng.below(5) {
        0 => 0,
        1 => 1,
        2 => rng.below(300),
        _ => 1 + rng.below(9),
    };
    let mut draws = used.to_vec();
    draws.extend((0..more).map(|_| if rng.chance(50) { any(rng) } else { rng.between(-9, 9) }));
    draws
}

/// How the list lent compares with the draws that a finished plan used.
pub fn finished(plan: &[Step], lent: usize, used: usize, classes: &mut Classes) {
    let noises = plan.iter().filter(|step| matches!(step, Step::Noise { .. })).count();
    classes.hit_if(noises == 0 && lent == 0, "draws: none, no NOISE");
    classes.hit_if(noises == 0 && lent > 0, "draws: some, no NOISE");
    classes.hit_if(noises > 0 && lent == 0, "draws: none, NOISE of no rows");
    classes.hit_if(used > 0 && lent == used, "draws: exactly enough");
    classes
        .hit_if(noises > 1 && used > 0 && lent == used, "draws: exactly enough for several NOISE");
    classes.hit_if(used > 0 && lent > used, "draws: left over");
    classes.hit_if(used > 8_192, "draws: more than 8,192 used");
}

/// A run with other draws in place of those that it did not use.
pub fn unused(number: u32, used: usize, classes: &mut Classes) {
    classes.hit(match (number, used) {
        (11..=20, _) => "other draws, refused because of the input",
        (21 | 22, _) => "other draws, refused because of an overlay",
        (_, 0) => "other draws, none used",
        (0, _) => "other draws behind those used, released",
        (32, _) => "other draws behind those used, refused with 32",
        _ => "other draws behind those used, refused otherwise",
    });
}

/// A NOISE refused when this many draws were left for it, and this many NOISE
/// steps before it had used some.
pub fn stopped(
    column: usize,
    top: &Table,
    stop: Stop,
    left: usize,
    noises: usize,
    classes: &mut Classes,
) {
    let forbidden = |row: usize| top.row(row)[column].label.after_noise().is_err();
    let row = stop.row;
    if stop.fault == StateFault::Forbidden {
        let label = top.row(row)[column].label;
        classes.hit(match label {
            Label { held: true, .. } => "32 NOISE, H",
            Label { transform: Some(_), .. } => "32 NOISE, T",
            _ => "32 NOISE, A",
        });
        classes.hit_if(label.noise == Some(true), "32 NOISE, over an N that allows it");
        classes.hit_if(row > 0, "32 NOISE, past row 0");
        classes.hit_if(left == row, "32 before 37 in the same row");
        classes.hit_if(left == 0 && row == 0 && noises > 0, "32 NOISE, another used every draw");
        return;
    }
    classes.hit_if(row == 0, "37 at row 0");
    classes.hit_if(row > 0, "37 at a later row");
    classes.hit_if(row > 0 && row + 1 == top.rows(), "37 at the last row");
    classes.hit_if(column > 0, "37 past column 0");
    classes.hit_if(noises == 0 && left == 0, "37 with no draws");
    classes.hit_if(noises > 0 && row == 0, "37 at a second NOISE, row 0");
    classes.hit_if(noises > 0 && row > 0, "37 at a second NOISE, a later row");
    classes.hit_if((row + 1..top.rows()).any(forbidden), "37 before 32 in a later row");
}

/// What a finished NOISE did to the labels and the values.
#[derive(Default)]
pub struct Noised {
    pub discharged: bool,
    pub over: bool,
}

/// A NOISE that used these draws.
pub fn made(
    column: usize,
    top: &Table,
    made: &Table,
    draws: &[i64],
    noises: usize,
    classes: &mut Classes,
) -> Noised {
    classes.hit("NOISE");
    classes.hit_if(draws.is_empty(), "NOISE of no rows");
    classes.hit_if(draws.len() == 256, "NOISE of 256 rows");
    classes.hit_if(made.columns == 8, "NOISE to 8 columns");
    classes.hit_if(noises > 0 && !draws.is_empty(), "NOISE, on where another stopped");
    let mut noised = Noised::default();
    let mut stays = false;
    for (row, &draw) in draws.iter().enumerate() {
        let (old, new) = (top.row(row)[column], made.row(row)[made.columns - 1]);
        let last = row + 1 == draws.len();
        labels(old.label, last, classes);
        values(old.value, draw, last, classes);
        noised.discharged |= old.label != new.label;
        noised.over |= new.value == Value::Over && old.value != Value::Over;
        stays |= old.label == new.label;
    }
    classes.hit_if(noised.discharged && stays, "NOISE, some labels discharged, some not");
    noised
}

/// The label of a row, and whether the row is the last.
fn labels(label: Label, last: bool, classes: &mut Classes) {
    classes.hit(match label.noise {
        Some(true) => "noise discharges",
        Some(false) => "noise not allowed",
        None => "noise clear",
    });
    classes.hit_if(label.noise == Some(false) && !last, "noise not allowed, rows behind it");
}

/// The value of a row and its draw.
fn values(value: Value, draw: i64, last: bool, classes: &mut Classes) {
    classes.hit_if(draw == 0, "draw 0");
    classes.hit_if(draw == i64::MIN, "draw -2^63");
    classes.hit_if(draw == i64::MAX, "draw 2^63 - 1");
    let sum = match value {
        Value::Known(number) => number as i128 + draw as i128,
        Value::Over => {
            classes.hit("draw to OVER");
            classes.hit_if(!last, "draw to OVER, rows behind it");
            return;
        }
    };
    classes.hit_if(sum > HIGHEST as i128, "draw makes OVER, above");
    classes.hit_if(sum < LOWEST as i128, "draw makes OVER, below");
    classes.hit_if(sum == HIGHEST as i128 && draw != 0, "draw brings 2^47 - 1");
    classes.hit_if(sum == HIGHEST as i128 + 1, "draw brings 2^47");
    classes.hit_if(sum == LOWEST as i128 && draw != 0, "draw brings -2^47");
    classes.hit_if(sum == LOWEST as i128 - 1, "draw brings -2^47 - 1");
    classes.hit_if(sum > i64::MAX as i128, "draw brings more than 2^63 - 1");
    classes.hit_if(sum < i64::MIN as i128, "draw brings less than -2^63");
}
