//! "Plan: 1 to 64 steps of 16 bytes: kind, a, b, c, d, three zero bytes, and a
//! signed 64-bit constant in value range. Unused fields are zero."

use super::container::InputFault;
use super::value::{in_range, HIGHEST};

pub const STEP_BYTES: usize = 16;
pub const MOST_TABLES: usize = 3;
pub const MOST_COLUMNS: usize = 8;

#[derive(Clone, Copy, PartialEq, Eq, Debug)]
pub enum Step {
    Scan { table: usize },
    Union,
    Join { left_key: usize, right_key: usize },
    Filter { column: usize, comparison: Comparison, operand: Operand },
    Keep { mask: u8 },
    Apply { column: usize, operation: Operation },
    Group { keys: u8, aggregate: Aggregate, column: usize },
    Noise { column: usize },
}

/// "c = 0: against the constant; c = 1: against column d."
#[derive(Clone, Copy, PartialEq, Eq, Debug)]
pub enum Operand {
    Constant(i64),
    Column(usize),
}

/// In the order of their numbers, as the aggregates are.
#[derive(Clone, Copy, PartialEq, Eq, Debug)]
pub enum Comparison {
    Equal,
    NotEqual,
    Less,
    AtMost,
    Greater,
    AtLeast,
}

/// "cut and band take only a constant: 1 to 6, and 1 to 2^47 − 1."
#[derive(Clone, Copy, PartialEq, Eq, Debug)]
pub enum Operation {
    Add(Operand),
    Sub(Operand),
    Cut(u8),
    Band(i64),
}

#[derive(Clone, Copy, PartialEq, Eq, Debug)]
pub enum Aggregate {
    Count,
    Sum,
    Min,
    Max,
    Avg,
}

/// The columns of a mask, in order: "bit i for column i".
pub fn columns_of(mask: u8) -> impl Iterator<Item = usize> {
    (0..8usize).filter(move |column| mask & (1 << column) != 0)
}

impl Step {
    /// Reads one step; `None` is the refusal 17: "kind, a choice, a constant,
    /// a zero mask in KEEP, or an unused field or one of the three bytes not
    /// zero".
    pub fn read(bytes: &[u8; STEP_BYTES]) -> Option<Step> {
        let [kind, a, b, c, d, x, y, z, ..] = *bytes;
        let constant = i64::from_le_bytes(bytes[8..16].try_into().unwrap());
        if (x, y, z) != (0, 0, 0) || !in_range(constant) {
            return None;
        }
        let column = a as usize;
        let operand = match (c, d, constant) {
            (0, 0, _) => Some(Operand::Constant(constant)),
            (1, _, 0) => Some(Operand::Column(d as usize)),
            _ => None,
        };
        match (kind, b, c, d, constant) {
            (1, 0, 0, 0, 0) => Some(Step::Scan { table: a as usize }),
            (2, 0, 0, 0, 0) if a == 0 => Some(Step::Union),
            (3, _, 0, 0, 0) => Some(Step::Join { left_key: column, right_key: b as usize }),
            (4, ..) => {
                let comparison = match b {
                    0 => Comparison::Equal,
                    1 => Comparison::NotEqual,
                    2 => Comparison::Less,
                    3 => Comparison::AtMost,
                    4 => Comparison::Greater,
                    5 => Comparison::AtLeast,
                    _ => return None,
                };
                Some(Step::Filter { column, comparison, operand: operand? })
            }
            (5, 0, 0, 0, 0) if a != 0 => Some(Step::Keep { mask: a }),
            (6, ..) => {
                let operation = match (b, operand?) {
                    (0, operand) => Operation::Add(operand),
                    (1, operand) => Operation::Sub(operand),
                    (2, Operand::Constant(k)) if (1..=6).contains(&k) => Operation::Cut(k as u8),
                    (3, Operand::Constant(k)) if (1..=HIGHEST).contains(&k) => Operation::Band(k),
                    _ => return None,
                };
                Some(Step::Apply { column, operation })
            }
            (7, _, _, 0, 0) => {
                let aggregate = match b {
                    0 => Aggregate::Count,
                    1 => Aggregate::Sum,
                    2 => Aggregate::Min,
                    3 => Aggregate::Max,
                    4 => Aggregate::Avg,
                    _ => return None,
                };
                Some(Step::Group { keys: a, aggregate, column: c as usize })
            }
            // Document 02, #102: "step kind 8, NOISE, a = column".
            (8, 0, 0, 0, 0) => Some(Step::Noise { column }),
            _ => None,
        }
    }

    /// The bytes that `read` makes this step of.
    pub fn bytes(&self) -> [u8; STEP_BYTES] {
        let ([a, b, c, d], constant) = match *self {
            Step::Scan { table } => ([table as u8, 0, 0, 0], 0),
            Step::Union => ([0; 4], 0),
            Step::Join { left_key, right_key } => ([left_key as u8, right_key as u8, 0, 0], 0),
            Step::Filter { column, comparison, operand } => {
                operand.fields(column as u8, comparison as u8)
            }
            Step::Keep { mask } => ([mask, 0, 0, 0], 0),
            Step::Apply { column, operation } => {
                let (b, operand) = match operation {
                    Operation::Add(operand) => (0, operand),
                    Operation::Sub(operand) => (1, operand),
                    Operation::Cut(k) => (2, Operand::Constant(k as i64)),
                    Operation::Band(k) => (3, Operand::Constant(k)),
                };
                operand.fields(column as u8, b)
            }
            Step::Group { keys, aggregate, column } => {
                ([keys, aggregate as u8, column as u8, 0], 0)
            }
            Step::Noise { column } => ([column as u8, 0, 0, 0], 0),
        };
        let mut bytes = [0; STEP_BYTES];
        bytes[..5].copy_from_slice(&[self.kind() as u8, a, b, c, d]);
        bytes[8..].copy_from_slice(&i64::to_le_bytes(constant));
        bytes
    }

    /// "1. SCAN" to "7. GROUP", and "step kind 8, NOISE".
    pub fn kind(&self) -> u32 {
        match self {
            Step::Scan { .. } => 1,
            Step::Union => 2,
            Step::Join { .. } => 3,
            Step::Filter { .. } => 4,
            Step::Keep { .. } => 5,
            Step::Apply { .. } => 6,
            Step::Group { .. } => 7,
            Step::Noise { .. } => 8,
        }
    }

    /// What the step makes of the widths of the tables on the stack, or 18
    /// ("too few tables, or a SCAN onto three"), or 19 ("a table or column
    /// that does not exist, unequal widths, over 8 columns").
    pub fn shape(&self, stack: &mut Vec<usize>, tables: &[usize]) -> Result<(), InputFault> {
        let fits = match self {
            Step::Scan { .. } => stack.len() < MOST_TABLES,
            Step::Union | Step::Join { .. } => stack.len() >= 2,
            _ => !stack.is_empty(),
        };
        if !fits {
            return Err(InputFault::Tables);
        }
        let made = match *self {
            Step::Scan { table } => tables.get(table).copied(),
            Step::Union => {
                let right = stack.pop().unwrap();
                let left = stack.pop().unwrap();
                (left == right).then_some(left)
            }
            Step::Join { left_key, right_key } => {
                let right = stack.pop().unwrap();
                let left = stack.pop().unwrap();
                (left_key < left && right_key < right).then(|| left + right - 1)
            }
            Step::Filter { column, operand, .. } => {
                let width = stack.pop().unwrap();
                (column < width && operand.exists(width)).then_some(width)
            }
            Step::Keep { mask } => {
                let width = stack.pop().unwrap();
                columns_of(mask).all(|column| column < width).then(|| columns_of(mask).count())
            }
            Step::Apply { column, operation } => {
                let width = stack.pop().unwrap();
                let second = match operation {
                    Operation::Add(operand) | Operation::Sub(operand) => operand.exists(width),
                    Operation::Cut(_) | Operation::Band(_) => true,
                };
                (column < width && second).then_some(width + 1)
            }
            Step::Group { keys, column, .. } => {
                let width = stack.pop().unwrap();
                let exist = columns_of(keys).all(|key| key < width) && column < width;
                exist.then(|| columns_of(keys).count() + 1)
            }
            Step::Noise { column } => {
                let width = stack.pop().unwrap();
                (column < width).then_some(width + 1)
            }
        };
        match made {
            Some(width) if width <= MOST_COLUMNS => {
                stack.push(width);
                Ok(())
            }
            _ => Err(InputFault::Shape),
        }
    }
}

impl Operand {
    /// The fields a, b, c and d, and the constant, of a step with this operand.
    fn fields(self, a: u8, b: u8) -> ([u8; 4], i64) {
        match self {
            Operand::Constant(number) => ([a, b, 0, 0], number),
            Operand::Column(column) => ([a, b, 1, column as u8], 0),
        }
    }

    fn exists(&self, width: usize) -> bool {
        match *self {
            Operand::Constant(_) => true,
            Operand::Column(column) => column < width,
        }
    }
}
