//! Values for the locked cells of a pair's two sides, drawn by different schemes.

use crate::generate::number;
use crate::reference::steps::{Operand, Operation, Step};
use crate::reference::value::{HIGHEST, LOWEST};
use crate::rng::Rng;

/// How the values of a column are drawn.
#[derive(Clone, Copy, PartialEq)]
enum Scheme {
    /// One value in the whole column.
    Equal,
    Lowest,
    Highest,
    /// Either end of the range, or next to it.
    Ends,
    Zero,
    /// -1, 0 or 1: halves of a group, too.
    Units,
    Small,
    Rising,
    Falling,
    /// Next to 2^31, 2^32 and their negatives: a compiler may test for these before
    /// a division.
    Words,
    /// Positive values that fit 32 bits.
    Narrow,
    /// Values on one side of zero that do not.
    Wide,
    /// A multiple of one of the plan's divisors, or a value next to one.
    Multiples,
    /// Where a constant of the plan brings the result to an end, or just past it.
    Edges,
    Uniform,
    Any,
}

use Scheme::*;

const SCHEMES: [Scheme; 16] = [
    Equal, Lowest, Highest, Ends, Zero, Units, Small, Rising, Falling, Words, Narrow, Wide,
    Multiples, Edges, Uniform, Any,
];

/// The numbers in a plan that decide where a result changes its course.
pub struct Numbers {
    divisors: Vec<i64>,
    terms: Vec<i64>,
}

impl Numbers {
    pub fn of(plan: &[Step]) -> Numbers {
        let mut numbers = Numbers { divisors: vec![2, 10], terms: vec![1] };
        for step in plan {
            match step {
                Step::Apply { operation, .. } => match *operation {
                    Operation::Add(Operand::Constant(term)) => numbers.terms.push(term),
                    Operation::Sub(Operand::Constant(term)) => numbers.terms.push(-term),
                    Operation::Cut(digits) => numbers.divisors.push(10i64.pow(digits as u32)),
                    Operation::Band(width) => numbers.divisors.push(width),
                    _ => (),
                },
                _ => (),
            }
        }
        numbers
    }
}

/// For each table the values of its columns on one side.
pub struct Side {
    columns: Vec<Vec<Column>>,
}

struct Column {
    scheme: Scheme,
    equal: i64,
}

/// Two sides for tables of so many columns: no column has the same scheme on both.
pub fn sides(rng: &mut Rng, columns: &[usize]) -> [Side; 2] {
    let usual = two(rng);
    let mixed = rng.chance(40);
    let mut sides = [0, 1].map(|_| Side { columns: Vec::new() });
    for &count in columns {
        sides.iter_mut().for_each(|side| side.columns.push(Vec::new()));
        for _ in 0..count {
            let schemes = if mixed { two(rng) } else { usual };
            for (side, scheme) in sides.iter_mut().zip(schemes) {
                let column = Column { scheme, equal: number(rng) };
                side.columns.last_mut().expect("just pushed").push(column);
            }
        }
    }
    sides
}

fn two(rng: &mut Rng) -> [Scheme; 2] {
    let one = rng.below(SCHEMES.len());
    let other = (one + 1 + rng.below(SCHEMES.len() - 1)) % SCHEMES.len();
    [SCHEMES[one], SCHEMES[other]]
}

impl Side {
    /// A value for the cell at this place.
    pub fn value(
        &self,
        rng: &mut Rng,
        numbers: &Numbers,
        table: usize,
        row: usize,
        column: usize,
    ) -> i64 {
        let Column { scheme, equal } = self.columns[table][column];
        let sign = rng.pick(&[-1, 1]);
        let value = match scheme {
            Equal => equal,
            Lowest => LOWEST,
            Highest => HIGHEST,
            Ends => rng.pick(&[LOWEST, HIGHEST, LOWEST + 1, HIGHEST - 1]),
            Zero => 0,
            Units => rng.between(-1, 1),
            Small => rng.between(-20, 20),
            Rising => equal / 2 + 3 * row as i64,
            Falling => equal / 2 - 3 * row as i64,
            Words => sign * (rng.pick(&[1 << 31, 1 << 32]) + rng.between(-2, 2)),
            Narrow => rng.between(0, u32::MAX as i64) >> rng.below(32),
            Wide if equal < 0 => rng.between(LOWEST, -(1 << 33)),
            Wide => rng.between(1 << 33, HIGHEST),
            Multiples => {
                let divisor = rng.pick(&numbers.divisors);
                let most = (HIGHEST / divisor).min(rng.pick(&[3, 1_000, HIGHEST]));
                divisor * rng.between(-most, most) + rng.pick(&[0, 0, 0, 1, -1])
            }
            Edges => {
                let term = rng.pick(&numbers.terms);
                rng.pick(&[LOWEST - 1, LOWEST, HIGHEST, HIGHEST + 1]) - term
            }
            Uniform => rng.between(LOWEST, HIGHEST),
            Any => number(rng),
        };
        value.clamp(LOWEST, HIGHEST)
    }
}
