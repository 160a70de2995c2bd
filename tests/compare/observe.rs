//! Which classes an accepted container and its evaluation fall into.

use crate::classes::Classes;
use crate::lent::Input;
use crate::noise;
use crate::reference::container::Container;
use crate::reference::eval::{perform, StateFault, Stop};
use crate::reference::label::Label;
use crate::reference::steps::{columns_of, Aggregate, Operand, Operation, Step};
use crate::reference::table::{distinct, Table};
use crate::reference::value::{Value, HIGHEST, LOWEST};
use crate::sheets;

/// What one evaluation met, for the classes of releases and of pairs.
#[derive(Default)]
pub struct Seen {
    kinds: u16,
    discharged_t: bool,
    discharged_n: bool,
    /// How far chains were followed: T over A and N, then A over N, then N; and
    /// A over N, then N.
    chain: u8,
    short_chain: u8,
    three: bool,
    /// Labels that a GROUP composed, with the unequal labels they are of.
    composed: Vec<(Label, Vec<Label>)>,
    pub over: bool,
    /// A draw made an OVER of a value that was none.
    pub over_by_draw: bool,
    /// Finished NOISE steps that used draws, and the draws used.
    pub noises: usize,
    pub used: usize,
    pub discharged_a: bool,
    /// The rule that counts rows would answer otherwise.
    pub sheets_decide: bool,
}

impl Seen {
    /// T was discharged, then A, then N.
    pub fn whole_chain(&self) -> bool {
        self.chain == 3
    }
}

/// `plain` is the container without its overlays, `container` the one that the plan
/// reads.
pub fn observe(
    input: Input,
    plain: &Container,
    container: &Container,
    classes: &mut Classes,
) -> Seen {
    accepted(input.container, plain, classes);
    let mut seen = Seen::default();
    let mut stack: Vec<Table> = Vec::new();
    let mut draws = input.draws.iter();
    let mut scanned = 0u8;
    for (number, step) in container.plan.iter().enumerate() {
        let before: Vec<Table> = stack[stack.len().saturating_sub(2)..].to_vec();
        let left = draws.as_slice();
        let result = perform(step, &container.tables, &mut stack, &mut draws);
        seen.used = input.draws.len() - draws.len();
        let made = match result {
            Ok(made) => made,
            Err(stop) => {
                stopped(step, &before, stop, left.len(), seen.noises, classes);
                if number == 63 {
                    classes.hit("refused at step 63");
                }
                return seen;
            }
        };
        seen.kinds |= 1 << step.kind();
        if let Step::Scan { table } = *step {
            classes.hit_if(scanned & (1 << table) != 0, "SCAN of a table again");
            classes.hit_if(table == 7, "SCAN of table 7");
            scanned |= 1 << table;
        }
        let used = &left[..left.len() - draws.len()];
        made_by(step, &before, &made, used, &mut seen, classes);
        seen.over |= made.cells.iter().any(|cell| cell.value == Value::Over);
        stack.push(made);
        seen.three |= stack.len() == 3;
    }
    noise::finished(&container.plan, input.draws.len(), seen.used, classes);
    released(container, &stack[0], &seen, classes);
    seen
}

/// Goes on in a chain that was followed as far as this.
fn follow(reached: &mut u8, from: u8, discharged: bool) {
    if discharged && *reached == from {
        *reached += 1;
    }
}

/// Both ends of the ranges in the container.
fn accepted(bytes: &[u8], container: &Container, classes: &mut Classes) {
    classes.hit_if(container.tables.len() == 1, "accepted: 2 parts");
    classes.hit_if(container.tables.len() == 8, "accepted: 9 parts");
    classes.hit_if(container.plan.len() == 1, "accepted: 1 step");
    classes.hit_if(container.plan.len() == 64, "accepted: 64 steps");
    classes.hit_if(bytes.len() == 65_534, "accepted: 65,534 bytes");
    sheets::accepted(bytes, container, classes);
    for table in &container.tables {
        classes.hit_if(table.rows() == 0, "accepted: table of 0 rows");
        classes.hit_if(table.rows() == 256, "accepted: table of 256 rows");
        classes.hit_if(table.columns == 1, "accepted: table of 1 column");
        classes.hit_if(table.columns == 8, "accepted: table of 8 columns");
        for cell in &table.cells {
            classes.hit_if(cell.value == Value::Known(LOWEST), "accepted: value -2^47");
            classes.hit_if(cell.value == Value::Known(HIGHEST), "accepted: value 2^47 - 1");
            if cell.label.is_clear() {
                continue;
            }
            classes.hit_if(cell.label.word() == 1 << 31, "accepted: label H alone");
            classes.hit_if(cell.label.stages() == 4, "accepted: label of four stages");
            if let Some(t) = cell.label.transform {
                let none = !t.band && t.cut.is_none() && !t.sub && !t.add;
                classes.hit_if(none, "accepted: T that allows nothing");
                classes.hit_if(t.cut == Some(1), "accepted: digits 1");
                classes.hit_if(t.cut == Some(6), "accepted: digits 6");
            }
            if let Some(a) = cell.label.aggregate {
                let none = !a.avg && !a.max && !a.min && !a.sum && !a.count;
                classes.hit_if(none, "accepted: A that allows nothing");
                classes.hit_if(a.minimum == 2, "accepted: minimum 2");
                classes.hit_if(a.minimum == 1023, "accepted: minimum 1023");
            }
            classes.hit_if(cell.label.noise == Some(true), "accepted: N that allows noise");
            classes.hit_if(cell.label.noise == Some(false), "accepted: N that allows nothing");
        }
    }
    for step in &container.plan {
        let constant = match *step {
            Step::Filter { operand: Operand::Constant(number), .. } => Some(("FILTER", number)),
            Step::Apply { operation, .. } => match operation {
                Operation::Add(Operand::Constant(number)) => Some(("add", number)),
                Operation::Sub(Operand::Constant(number)) => Some(("sub", number)),
                Operation::Cut(k) => Some(("cut", k as i64)),
                Operation::Band(k) => Some(("band", k)),
                _ => None,
            },
            _ => None,
        };
        match constant {
            Some(("FILTER", LOWEST)) => classes.hit("accepted: FILTER constant -2^47"),
            Some(("FILTER", HIGHEST)) => classes.hit("accepted: FILTER constant 2^47 - 1"),
            Some(("add", LOWEST)) => classes.hit("accepted: add -2^47"),
            Some(("add", HIGHEST)) => classes.hit("accepted: add 2^47 - 1"),
            Some(("sub", LOWEST)) => classes.hit("accepted: sub -2^47"),
            Some(("sub", HIGHEST)) => classes.hit("accepted: sub 2^47 - 1"),
            Some(("cut", 1)) => classes.hit("accepted: cut 1"),
            Some(("cut", 6)) => classes.hit("accepted: cut 6"),
            Some(("band", 1)) => classes.hit("accepted: band 1"),
            Some(("band", HIGHEST)) => classes.hit("accepted: band 2^47 - 1"),
            _ => (),
        }
    }
}

/// With the draws left for the step, and the NOISE steps that used some.
fn stopped(
    step: &Step,
    before: &[Table],
    stop: Stop,
    left: usize,
    noises: usize,
    classes: &mut Classes,
) {
    let top = &before[before.len() - 1];
    let row = stop.row;
    match (*step, stop.fault) {
        (Step::Filter { column, operand, .. }, _) => match operand {
            Operand::Constant(_) => classes.hit("31 FILTER against a constant"),
            Operand::Column(other) => {
                let both = [column, other].iter().all(|&c| !top.row(row)[c].label.is_clear());
                classes.hit_if(both && column != other, "31 FILTER, both operands");
                classes.hit_if(column > other && both, "31 FILTER, both, the second first");
                classes.hit_if(stop.column == column, "31 FILTER, first operand");
                classes.hit_if(stop.column != column, "31 FILTER, second operand");
            }
        },
        (Step::Join { .. }, StateFault::OperandNotClear) => {
            let left = before[0].rows();
            classes.hit_if(row < left, "31 JOIN, left key");
            classes.hit_if(row >= left, "31 JOIN, right key");
            classes.hit_if(row > left, "31 JOIN, right key, not its first row");
        }
        (Step::Group { .. }, StateFault::OperandNotClear) => {
            classes.hit("31 GROUP key");
            classes.hit_if(stop.column > 0, "31 GROUP key, not column 0");
        }
        (Step::Apply { operation, .. }, StateFault::Forbidden) => {
            classes.hit(match operation {
                Operation::Add(_) => "32 add",
                Operation::Sub(_) => "32 sub",
                Operation::Cut(_) => "32 cut",
                Operation::Band(_) => "32 band",
            });
            if let Operation::Add(Operand::Column(other)) | Operation::Sub(Operand::Column(other)) =
                operation
            {
                let both = !top.row(row)[other].label.is_clear();
                classes.hit_if(both, "32 before 33 in the same row");
            }
        }
        (Step::Group { keys, aggregate, column }, StateFault::Forbidden) => {
            let label = top.row(row)[column].label;
            classes.hit_if(label.held, "32 GROUP, H");
            classes.hit_if(!label.held, "32 GROUP, T");
            classes.hit_if(
                label.transform.is_some() && label.aggregate.is_some(),
                "32 GROUP, T over A",
            );
            classes.hit_if(keys == 0, "32 GROUP without keys");
            classes.hit_if(keys != 0, "32 GROUP with keys");
            classes.hit(match aggregate {
                Aggregate::Count => "32 count",
                Aggregate::Sum => "32 sum",
                Aggregate::Min => "32 min",
                Aggregate::Max => "32 max",
                Aggregate::Avg => "32 avg",
            });
        }
        (Step::Apply { column, operation }, StateFault::SecondNotClear) => {
            classes.hit(if matches!(operation, Operation::Add(_)) { "33 add" } else { "33 sub" });
            classes.hit_if(stop.column == column, "33 first column again");
            let later = (row + 1..top.rows()).any(|row| top.row(row)[column].label.held);
            classes.hit_if(later, "33 before 32 in a later row");
        }
        (Step::Union, _) => {
            classes.hit("34 UNION");
            let rows = before[0].rows() + top.rows();
            classes.hit_if(rows == 257, "34 UNION of 257 rows");
        }
        (Step::Join { left_key, right_key }, _) => {
            classes.hit("34 JOIN");
            let rows = matches(&before[0], top, left_key, right_key).iter().sum::<usize>();
            classes.hit_if(rows == 257, "34 JOIN of 257 rows");
        }
        (Step::Noise { column }, _) => noise::stopped(column, top, stop, left, noises, classes),
        other => unreachable!("{other:?}"),
    }
    classes.hit_if(row > 0, "refused past row 0");
}

/// How many right rows match each left row.
fn matches(left: &Table, right: &Table, left_key: usize, right_key: usize) -> Vec<usize> {
    let key = |table: &Table, row: usize, column: usize| table.row(row)[column].value;
    (0..left.rows())
        .map(|row| {
            let one = key(left, row, left_key);
            (0..right.rows())
                .filter(|&other| one != Value::Over && one == key(right, other, right_key))
                .count()
        })
        .collect()
}

/// With the draws that the step used.
fn made_by(
    step: &Step,
    before: &[Table],
    made: &Table,
    used: &[i64],
    seen: &mut Seen,
    classes: &mut Classes,
) {
    let top = match before.last() {
        Some(top) => top,
        None => return,
    };
    match *step {
        Step::Scan { .. } => (),
        Step::Union => {
            classes.hit("UNION");
            classes.hit_if(before[0].rows() == 0 && top.rows() > 0, "UNION, left empty");
            classes.hit_if(top.rows() == 0 && before[0].rows() > 0, "UNION, right empty");
            classes.hit_if(made.rows() == 256, "UNION to 256 rows");
            classes.hit_if(made.stages_left() > 0, "UNION of labelled cells");
            classes.hit_if(sheets::of_itself(&before[0], top), "UNION of a table with itself");
        }
        Step::Join { left_key, right_key } => {
            let left = &before[0];
            let counts = matches(left, top, left_key, right_key);
            let over = |table: &Table, key: usize| {
                (0..table.rows()).any(|row| table.row(row)[key].value == Value::Over)
            };
            let (one, two) = (over(left, left_key), over(top, right_key));
            classes.hit("JOIN");
            classes.hit_if(made.rows() == 0 && left.rows() > 0 && top.rows() > 0, "JOIN, no match");
            classes.hit_if(counts.iter().any(|&count| count > 1), "JOIN, several matches");
            classes.hit_if(counts.contains(&0) && made.rows() > 0, "JOIN, some rows unmatched");
            classes.hit_if(one, "JOIN, left key OVER");
            classes.hit_if(two, "JOIN, right key OVER");
            classes.hit_if(one && two, "JOIN, both keys OVER");
            classes.hit_if(top.columns == 1, "JOIN, right table is its key");
            let last = right_key + 1 == top.columns;
            classes.hit_if(right_key == 0 && top.columns > 1, "JOIN, first column as right key");
            classes.hit_if(right_key > 0 && last, "JOIN, last column as right key");
            classes.hit_if(right_key > 0 && !last, "JOIN, inner column as right key");
            classes.hit_if(made.rows() == 256, "JOIN to 256 rows");
            classes.hit_if(made.columns == 8, "JOIN to 8 columns");
            classes.hit_if(made.stages_left() > 0, "JOIN of labelled cells");
            classes.hit_if(sheets::of_itself(left, top), "JOIN of a table with itself");
        }
        Step::Filter { column, comparison, operand } => {
            let code = comparison as usize;
            let some = made.rows() > 0 && made.rows() < top.rows();
            for row in 0..top.rows() {
                let one = top.row(row)[column].value;
                let two = match operand {
                    Operand::Constant(number) => Value::Known(number),
                    Operand::Column(other) => top.row(row)[other].value,
                };
                classes.hit_if(one == two && one != Value::Over, EQUAL_PAIR[code]);
                classes.hit_if(one == Value::Over, OVER_FIRST[code]);
                classes.hit_if(two == Value::Over, OVER_SECOND[code]);
            }
            match operand {
                Operand::Constant(_) => classes.hit_if(some, AGAINST_CONSTANT[code]),
                Operand::Column(other) => {
                    classes.hit_if(some, AGAINST_COLUMN[code]);
                    classes.hit_if(other == column, "FILTER, a column against itself");
                }
            }
            classes.hit_if(made.rows() == 0 && top.rows() > 0, "FILTER drops every row");
            classes.hit_if(made.rows() == top.rows() && top.rows() > 0, "FILTER keeps every row");
            classes.hit_if(top.rows() == 0, "FILTER of no rows");
            classes.hit_if(made.stages_left() > 0, "FILTER beside labelled cells");
        }
        Step::Keep { mask } => {
            classes.hit_if(made.columns == top.columns, "KEEP of every column");
            classes.hit_if(made.columns == 1 && top.columns > 1, "KEEP of one column");
            classes.hit_if(mask & 0x80 != 0, "KEEP of column 7");
            classes.hit_if(made.stages_left() < top.stages_left(), "KEEP drops labelled cells");
        }
        Step::Apply { column, operation } => {
            classes.hit_if(made.columns == 8, "APPLY to 8 columns");
            for row in 0..top.rows() {
                let first = top.row(row)[column];
                let result = made.row(row)[made.columns - 1];
                let discharged = first.label != result.label;
                let left = result.label.aggregate.is_some() && result.label.noise.is_some();
                seen.discharged_t |= discharged;
                follow(&mut seen.chain, 0, discharged && left);
                applied(operation, top, row, first.label, result.label, classes);
                values(operation, top, row, first.value, result.value, classes);
            }
        }
        Step::Group { keys, aggregate, column } => {
            grouped(keys, aggregate, column, top, made, seen, classes);
        }
        Step::Noise { column } => {
            let noised = noise::made(column, top, made, used, seen.noises, classes);
            seen.noises += !used.is_empty() as usize;
            seen.over_by_draw |= noised.over;
            seen.discharged_n |= noised.discharged;
            follow(&mut seen.chain, 2, noised.discharged);
            follow(&mut seen.short_chain, 1, noised.discharged);
        }
    }
}

const AGAINST_CONSTANT: [&str; 6] = [
    "FILTER = constant",
    "FILTER <> constant",
    "FILTER < constant",
    "FILTER <= constant",
    "FILTER > constant",
    "FILTER >= constant",
];
const AGAINST_COLUMN: [&str; 6] = [
    "FILTER = column",
    "FILTER <> column",
    "FILTER < column",
    "FILTER <= column",
    "FILTER > column",
    "FILTER >= column",
];
const EQUAL_PAIR: [&str; 6] = [
    "FILTER =, equal pair",
    "FILTER <>, equal pair",
    "FILTER <, equal pair",
    "FILTER <=, equal pair",
    "FILTER >, equal pair",
    "FILTER >=, equal pair",
];
const OVER_FIRST: [&str; 6] = [
    "FILTER =, first OVER",
    "FILTER <>, first OVER",
    "FILTER <, first OVER",
    "FILTER <=, first OVER",
    "FILTER >, first OVER",
    "FILTER >=, first OVER",
];
const OVER_SECOND: [&str; 6] = [
    "FILTER =, second OVER",
    "FILTER <>, second OVER",
    "FILTER <, second OVER",
    "FILTER <=, second OVER",
    "FILTER >, second OVER",
    "FILTER >=, second OVER",
];

/// The label that APPLY gives.
fn applied(
    operation: Operation,
    top: &Table,
    row: usize,
    old: Label,
    new: Label,
    classes: &mut Classes,
) {
    let names = match operation {
        Operation::Add(_) => ["add discharges", "add not allowed", "add below T", "add clear"],
        Operation::Sub(_) => ["sub discharges", "sub not allowed", "sub below T", "sub clear"],
        Operation::Cut(_) => ["cut discharges", "cut not allowed", "cut below T", "cut clear"],
        Operation::Band(_) => ["band discharges", "band not allowed", "band below T", "band clear"],
    };
    let which = match old.transform {
        Some(_) if old != new => 0,
        Some(_) => 1,
        None if !old.is_clear() => 2,
        None => 3,
    };
    classes.hit(names[which]);
    classes.hit_if(which == 0 && new.aggregate.is_some(), "T discharged, A left");
    classes.hit_if(which == 0 && new.noise.is_some(), "T discharged, N left");
    if let (Operation::Cut(k), Some(digits)) = (operation, old.transform.and_then(|t| t.cut)) {
        classes.hit_if(k == digits, "cut, just the digits");
        classes.hit_if(k > digits, "cut, more digits");
        classes.hit_if(k + 1 == digits, "cut, one digit too few");
    }
    if let Operation::Add(Operand::Column(other)) | Operation::Sub(Operand::Column(other)) =
        operation
    {
        classes.hit_if(top.row(row)[other].label == old, "APPLY, both operands clear columns");
        classes.hit_if(!old.is_clear(), "APPLY, labelled with a clear column");
    }
}

/// The value that APPLY gives.
fn values(
    operation: Operation,
    top: &Table,
    row: usize,
    first: Value,
    result: Value,
    classes: &mut Classes,
) {
    let over = result == Value::Over;
    let second = |operand: Operand| match operand {
        Operand::Constant(number) => Value::Known(number),
        Operand::Column(other) => top.row(row)[other].value,
    };
    match (operation, first) {
        (Operation::Add(_), Value::Over) => classes.hit("add to OVER"),
        (Operation::Sub(_), Value::Over) => classes.hit("sub from OVER"),
        (Operation::Cut(_), Value::Over) => classes.hit("cut of OVER"),
        (Operation::Band(_), Value::Over) => classes.hit("band of OVER"),
        (Operation::Add(operand), Value::Known(number)) => {
            classes.hit_if(second(operand) == Value::Over, "add of OVER");
            classes.hit_if(over && number > 0, "add makes OVER, above");
            classes.hit_if(over && number < 0, "add makes OVER, below");
        }
        (Operation::Sub(operand), Value::Known(number)) => {
            classes.hit_if(second(operand) == Value::Over, "sub of OVER");
            classes.hit_if(over && number > 0, "sub makes OVER, above");
            classes.hit_if(over && number < 0, "sub makes OVER, below");
        }
        (Operation::Cut(k), Value::Known(number)) => {
            let rest = number % 10i64.pow(k as u32);
            classes.hit_if(number < 0 && rest != 0, "cut of a negative, with remainder");
            classes.hit_if(number > 0 && rest != 0, "cut of a positive, with remainder");
            classes.hit_if(number != 0 && rest == 0, "cut without remainder");
        }
        (Operation::Band(k), Value::Known(number)) => {
            classes.hit_if(over, "band makes OVER");
            classes.hit_if(
                !over && number < 0 && number % k != 0,
                "band of a negative, with remainder",
            );
            classes.hit_if(number > 0 && number % k != 0, "band of a positive, with remainder");
            classes.hit_if(number < 0 && number % k == 0, "band of a negative multiple");
            classes.hit_if(number == LOWEST && !over, "band of -2^47 within range");
            classes.hit_if(number == HIGHEST, "band of 2^47 - 1");
        }
    }
    if let (Operation::Add(_) | Operation::Sub(_), Value::Known(number)) = (operation, result) {
        classes.hit_if(number == LOWEST && first != result, "add or sub gives -2^47");
        classes.hit_if(number == HIGHEST && first != result, "add or sub gives 2^47 - 1");
    }
}

fn grouped(
    mask: u8,
    aggregate: Aggregate,
    column: usize,
    top: &Table,
    made: &Table,
    seen: &mut Seen,
    classes: &mut Classes,
) {
    let keys: Vec<usize> = columns_of(mask).collect();
    classes.hit_if(top.rows() == 0 && mask == 0, "GROUP of no rows, no keys");
    classes.hit_if(top.rows() == 0 && mask != 0, "GROUP of no rows, with keys");
    classes.hit_if(top.rows() > 0 && mask == 0, "GROUP without keys");
    classes.hit_if(keys.len() == 1, "GROUP by one key");
    classes.hit_if(keys.len() == 2, "GROUP by two keys");
    classes.hit_if(keys.len() == 7, "GROUP by seven keys");
    classes.hit_if(keys.contains(&column), "GROUP, a key aggregated");
    classes.hit_if(made.rows() > 1, "GROUP, several groups");
    let key = |row: usize| keys.iter().map(|&key| top.row(row)[key].value).collect::<Vec<_>>();
    let all: Vec<Vec<Value>> = (0..top.rows()).map(key).collect();
    let again =
        (2..all.len()).any(|row| all[row] != all[row - 1] && all[..row - 1].contains(&all[row]));
    classes.hit_if(again, "GROUP, a key comes again after another");
    for group in 0..made.rows() {
        let cells = &made.row(group)[..keys.len()];
        let wanted: Vec<Value> = cells.iter().map(|cell| cell.value).collect();
        let result = made.row(group)[keys.len()];
        let rows: Vec<usize> = (0..all.len()).filter(|&row| all[row] == wanted).collect();
        let many = rows.len() > 1;
        classes.hit_if(many && wanted.contains(&Value::Over), "GROUP, OVER keys are one group");
        classes.hit_if(rows.len() == 256, "GROUP, a group of 256 rows");
        group_labels(aggregate, column, top, &rows, result.label, seen, classes);
        sheets::grouped(aggregate, column, top, &rows, classes);
        let numbers: Vec<i128> = rows
            .iter()
            .filter_map(|&row| match top.row(row)[column].value {
                Value::Known(number) => Some(number as i128),
                Value::Over => None,
            })
            .collect();
        if numbers.len() < rows.len() {
            classes.hit(match aggregate {
                Aggregate::Count => "count with OVER",
                Aggregate::Sum => "sum with OVER",
                Aggregate::Min => "min with OVER",
                Aggregate::Max => "max with OVER",
                Aggregate::Avg => "avg with OVER",
            });
            continue;
        }
        let sum: i128 = numbers.iter().sum();
        let outside = sum < LOWEST as i128 || sum > HIGHEST as i128;
        let (least, greatest) = (numbers.iter().min(), numbers.iter().max());
        match aggregate {
            Aggregate::Count => classes.hit_if(many, "count of several rows"),
            Aggregate::Sum => {
                classes.hit_if(many && !outside, "sum of several rows");
                classes.hit_if(outside && sum > 0, "sum makes OVER, above");
                classes.hit_if(outside && sum < 0, "sum makes OVER, below");
                let mut partial = 0;
                let passed = numbers.iter().any(|number| {
                    partial += number;
                    partial < LOWEST as i128 || partial > HIGHEST as i128
                });
                classes.hit_if(passed && !outside, "sum in range over a partial sum outside");
                classes.hit_if(sum == HIGHEST as i128 && many, "sum of 2^47 - 1");
                classes.hit_if(sum == LOWEST as i128 && many, "sum of -2^47");
            }
            Aggregate::Min => classes.hit_if(least != greatest, "min of unequal values"),
            Aggregate::Max => classes.hit_if(least != greatest, "max of unequal values"),
            Aggregate::Avg => {
                classes.hit_if(outside, "avg of a sum outside the range");
                averaged(sum, rows.len() as i128, classes);
            }
        }
    }
}

/// Where the exact average lies between the two whole numbers beside it.
fn averaged(sum: i128, rows: i128, classes: &mut Classes) {
    let (below, rest) = (sum.div_euclid(rows), sum.rem_euclid(rows));
    classes.hit_if(rows == 1, "avg of one row");
    classes.hit_if(rows == 256, "avg of 256 rows");
    classes.hit_if(rows == 256 && rest != 0, "avg of 256 rows, with remainder");
    classes.hit_if(rows == 256 && rest == 128, "avg of 256 rows, the half");
    classes.hit_if(sum == -1 && rows == 2, "avg of -1/2");
    classes.hit(match (rest, 2 * rest - rows, sum > 0, below % 2 == 0) {
        (0, _, _, _) => "avg with no remainder",
        (_, ..=-1, true, _) => "avg above zero, below the half",
        (_, 1.., true, _) => "avg above zero, past the half",
        (_, ..=-1, false, _) => "avg below zero, below the half",
        (_, 1.., false, _) => "avg below zero, past the half",
        (_, 0, true, true) => "avg above zero, the half above an even number",
        (_, 0, true, false) => "avg above zero, the half above an odd number",
        (_, 0, false, true) => "avg below zero, the half above an even number",
        (_, 0, false, false) => "avg below zero, the half above an odd number",
    });
    let (most, least) = (HIGHEST as i128, LOWEST as i128);
    classes.hit_if(rows > 1 && sum == most * rows, "avg is 2^47 - 1, of several rows");
    classes.hit_if(rows > 1 && sum == least * rows, "avg is -2^47, of several rows");
    classes.hit_if(below == most - 1 && 2 * rest > rows, "avg is rounded to 2^47 - 1");
    classes.hit_if(below == least && rest > 0 && 2 * rest <= rows, "avg is rounded to -2^47");
}

fn group_labels(
    aggregate: Aggregate,
    column: usize,
    top: &Table,
    rows: &[usize],
    made: Label,
    seen: &mut Seen,
    classes: &mut Classes,
) {
    let names = match aggregate {
        Aggregate::Count => ["count discharges", "count not allowed", "count short of the minimum"],
        Aggregate::Sum => ["sum discharges", "sum not allowed", "sum short of the minimum"],
        Aggregate::Min => ["min discharges", "min not allowed", "min short of the minimum"],
        Aggregate::Max => ["max discharges", "max not allowed", "max short of the minimum"],
        Aggregate::Avg => ["avg discharges", "avg not allowed", "avg short of the minimum"],
    };
    let size = distinct(rows.iter().map(|&row| top.marks[row]));
    let mut stages: Vec<Label> = Vec::new();
    let mut discharged = false;
    for &row in rows {
        let label = top.row(row)[column].label;
        let stage = match label.aggregate {
            Some(stage) => stage,
            None => {
                classes.hit_if(!label.is_clear(), "GROUP below A");
                continue;
            }
        };
        let enough = size >= stage.minimum as usize;
        if let Some((_, parts)) = seen.composed.iter().find(|(whole, _)| *whole == label) {
            let parts = || parts.iter().filter_map(|part| part.aggregate);
            let lower = parts().any(|part| size >= part.minimum as usize);
            let allowed = parts().any(|part| part.allows(aggregate));
            let allows = stage.allows(aggregate);
            classes.hit_if(allows && enough, "composed label discharged");
            classes
                .hit_if(allows && !enough && lower, "composed label, the larger minimum decides");
            classes
                .hit_if(!allows && enough && allowed, "composed label, a lost aggregate decides");
        }
        classes.hit(match (stage.allows(aggregate), enough) {
            (true, true) => names[0],
            (false, _) => names[1],
            (true, false) => names[2],
        });
        if stage.allows(aggregate) {
            classes.hit_if(size == stage.minimum as usize, "GROUP of just the minimum");
            classes.hit_if(size + 1 == stage.minimum as usize, "GROUP one short of the minimum");
        }
        if stage.allows(aggregate) && stage.minimum == 2 {
            classes.hit(match (size, rows.len()) {
                (1, 1) => "GROUP, minimum 2: one row, not discharged",
                (1, _) => "GROUP, minimum 2: one sheet in several rows, not discharged",
                (2, 2) => "GROUP, minimum 2: two rows, discharged",
                (2, _) => "GROUP, minimum 2: two sheets in more rows, discharged",
                (3, _) => "GROUP, minimum 2: three sheets, discharged",
                _ => "GROUP, minimum 2: more sheets, discharged",
            });
        }
        if stage.allows(aggregate) && enough {
            discharged = true;
            classes.hit_if(label.noise.is_some(), "A discharged, N left");
            follow(&mut seen.chain, 1, label.noise.is_some());
            follow(&mut seen.short_chain, 0, label.noise.is_some());
        } else if !stages.contains(&label) {
            stages.push(label);
        }
    }
    seen.discharged_a |= discharged;
    classes.hit_if(discharged && !stages.is_empty(), "GROUP, some cells discharged, some not");
    classes.hit_if(stages.len() > 1, "GROUP composes unequal labels");
    classes.hit_if(stages.len() > 1 && !stages.contains(&made), "GROUP makes a label none had");
    let whole = rows
        .iter()
        .fold(Label::default(), |whole, &row| whole.compose(&top.row(row)[column].label));
    let other = whole.after_aggregate(aggregate, size) != Ok(made);
    classes.hit_if(other, "GROUP, to compose before the discharge would differ");
    if stages.len() > 1 {
        seen.composed.push((made, stages));
    }
}

fn released(container: &Container, last: &Table, seen: &Seen, classes: &mut Classes) {
    let stage = last.cells.iter().position(|cell| !cell.label.is_clear());
    let over = last.cells.iter().position(|cell| cell.value == Value::Over);
    if let Some(at) = stage {
        classes.hit("35");
        classes.hit_if(over.map_or(false, |over| over < at), "35, with an OVER before it");
        classes.hit_if(at >= last.columns, "35, past row 0");
        classes.hit_if(at % last.columns > 0, "35, past column 0");
        return;
    }
    if let Some(at) = over {
        classes.hit("36");
        classes.hit_if(at >= last.columns, "36, past row 0");
        classes.hit_if(at % last.columns > 0, "36, past column 0");
        return;
    }
    for (kind, name) in [
        (2, "released: UNION"),
        (3, "released: JOIN"),
        (4, "released: FILTER"),
        (5, "released: KEEP"),
        (6, "released: APPLY"),
        (7, "released: GROUP"),
        (8, "released: NOISE"),
    ] {
        classes.hit_if(seen.kinds & (1 << kind) != 0, name);
    }
    classes.hit_if(seen.kinds == 2, "released: SCAN alone");
    classes.hit_if(seen.kinds == 0x1FE, "released: all eight kinds");
    classes.hit_if(container.plan.len() == 1, "released: 1 step");
    classes.hit_if(container.plan.len() == 64, "released: 64 steps");
    classes.hit_if(seen.three, "released: three tables on the stack");
    classes.hit_if(seen.over, "released: an OVER on the way");
    classes.hit_if(seen.discharged_t, "released: T discharged");
    classes.hit_if(seen.discharged_a, "released: A discharged");
    classes.hit_if(seen.discharged_t && seen.discharged_a, "released: T and A discharged");
    classes.hit_if(seen.discharged_n, "released: N discharged");
    classes.hit_if(seen.short_chain == 2, "released: A, then N discharged");
    classes.hit_if(seen.whole_chain(), "released: T, then A, then N discharged");
    classes.hit_if(seen.noises > 1, "released: two NOISE");
    classes.hit_if(seen.over_by_draw, "released: an OVER by a draw on the way");
    classes.hit_if(last.rows() == 0, "released: 0 rows");
    classes.hit_if(last.rows() == 1, "released: 1 row");
    classes.hit_if(last.rows() == 256, "released: 256 rows");
    classes.hit_if(last.columns == 1, "released: 1 column");
    classes.hit_if(last.columns == 8, "released: 8 columns");
    classes.hit_if(last.cells.len() == 2_048, "released: the whole output");
    let holds = |number| last.cells.iter().any(|cell| cell.value == Value::Known(number));
    classes.hit_if(holds(LOWEST), "released: -2^47");
    classes.hit_if(holds(HIGHEST), "released: 2^47 - 1");
}
