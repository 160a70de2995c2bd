//! "A value lies in −2^47 .. 2^47 − 1. A result outside becomes OVER, and so
//! does any result with an OVER operand, count excepted."

use super::steps::{Aggregate, Comparison};

pub const LOWEST: i64 = -140_737_488_355_328;
pub const HIGHEST: i64 = 140_737_488_355_327;

/// A value of a cell. "OVER group keys are equal", so equality is derived.
#[derive(Clone, Copy, PartialEq, Eq, Hash, Debug)]
pub enum Value {
    Known(i64),
    Over,
}

pub fn in_range(number: i64) -> bool {
    (LOWEST..=HIGHEST).contains(&number)
}

/// The value of an exact result.
pub fn exact(number: i128) -> Value {
    match i64::try_from(number) {
        Ok(small) if in_range(small) => Value::Known(small),
        _ => Value::Over,
    }
}

impl Value {
    fn with(self, other: Value, result: impl Fn(i128, i128) -> i128) -> Value {
        match (self, other) {
            (Value::Known(a), Value::Known(b)) => exact(result(a as i128, b as i128)),
            _ => Value::Over,
        }
    }

    pub fn add(self, other: Value) -> Value {
        self.with(other, |a, b| a + b)
    }

    /// Document 02, #102: "A draw may be any 64-bit number; a sum outside the
    /// value range is OVER."
    pub fn add_draw(self, draw: i64) -> Value {
        match self {
            Value::Known(number) => exact(number as i128 + draw as i128),
            Value::Over => Value::Over,
        }
    }

    pub fn sub(self, other: Value) -> Value {
        self.with(other, |a, b| a - b)
    }

    /// "cut k: quotient by 10^k, toward zero"
    pub fn cut(self, k: u8) -> Value {
        self.with(Value::Known(10i64.pow(k as u32)), |a, power| a / power)
    }

    /// "band k: the largest multiple of k not above the value"
    pub fn band(self, k: i64) -> Value {
        self.with(Value::Known(k), |a, k| a - a.rem_euclid(k))
    }

    /// "All six comparisons with OVER are false."
    pub fn satisfies(self, comparison: Comparison, other: Value) -> bool {
        let (a, b) = match (self, other) {
            (Value::Known(a), Value::Known(b)) => (a, b),
            _ => return false,
        };
        match comparison {
            Comparison::Equal => a == b,
            Comparison::NotEqual => a != b,
            Comparison::Less => a < b,
            Comparison::AtMost => a <= b,
            Comparison::Greater => a > b,
            Comparison::AtLeast => a >= b,
        }
    }
}

/// Document 02, #105: "The average becomes the nearest whole number, ties to the
/// even one." A half more and rounded down is the nearest, the upper one of two.
fn nearest(sum: i128, rows: i128) -> i128 {
    let upper = (2 * sum + rows).div_euclid(2 * rows);
    let halfway = (2 * sum + rows) % (2 * rows) == 0;
    if halfway && upper % 2 != 0 {
        upper - 1
    } else {
        upper
    }
}

/// "sum, min and max are of exact values; avg is the exact sum divided by the
/// row count", rounded so; "count is the rows." The group has at least one row.
pub fn aggregate(kind: Aggregate, group: &[Value]) -> Value {
    if kind == Aggregate::Count {
        return exact(group.len() as i128);
    }
    let mut sum: i128 = 0;
    let mut least = i128::MAX;
    let mut greatest = i128::MIN;
    for value in group {
        let number = match *value {
            Value::Known(number) => number as i128,
            Value::Over => return Value::Over,
        };
        sum += number;
        least = least.min(number);
        greatest = greatest.max(number);
    }
    match kind {
        Aggregate::Sum => exact(sum),
        Aggregate::Min => exact(least),
        Aggregate::Max => exact(greatest),
        Aggregate::Avg => exact(nearest(sum, group.len() as i128)),
        Aggregate::Count => unreachable!(),
    }
}
