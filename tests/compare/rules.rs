//! Wrong rules for the marks of rows, and the rule before #103, which counted
//! rows. A container that one of them would answer otherwise tells it from the
//! right one: there is a class for each.

use crate::classes::Classes;
use crate::reference::container::Container;
use crate::reference::eval::{evaluate, judge, perform, StateFault, Stop};
use crate::reference::steps::{columns_of, Step};
use crate::reference::table::{Mark, Table};
use crate::reference::value::Value;

/// A step that was taken, and the tables that were on top before it.
struct Turn<'a> {
    plan: &'a [Step],
    number: usize,
    before: &'a [Table],
}

/// What a rule makes of the marks of the table made.
type Rule = fn(&Turn, &mut Table);

/// A rule, and the class of the containers that it would answer otherwise. The
/// first is the rule that counts rows.
const RULES: [(&str, Rule); 14] = [
    ("marks: to count rows would differ", |turn, made| turn.renew(&mut made.marks)),
    ("marks: new ones for a second SCAN would differ", |turn, made| {
        if turn.plan[..turn.number].contains(turn.step()) {
            turn.on_scan(made, |_, row| turn.new(row))
        }
    }),
    ("marks: a number in two tables as two sheets would differ", |turn, made| {
        turn.on_scan(made, |mark, first| match (mark, turn.step()) {
            (Mark::Sheet(_), &Step::Scan { table }) => Mark::Own { table: 8 + table, row: first },
            _ => mark,
        })
    }),
    ("marks: the low 32 bits of sheet numbers would differ", |turn, made| {
        turn.on_scan(made, |mark, _| match mark {
            Mark::Sheet(number) => Mark::Sheet(number & 0xFFFF_FFFF),
            own => own,
        })
    }),
    ("marks: those of two tables alike would differ", |turn, made| {
        turn.on_scan(made, |mark, _| match mark {
            Mark::Own { row, .. } => Mark::Own { table: 0, row },
            sheet => sheet,
        })
    }),
    ("marks: 255 rows to a table would differ", |turn, made| {
        turn.on_scan(made, |mark, _| match mark {
            Mark::Own { table, row } => Mark::Own { table: 0, row: 255 * table + row },
            sheet => sheet,
        })
    }),
    ("marks: those of rows as sheet numbers would differ", |turn, made| {
        turn.on_scan(made, |mark, _| match mark {
            Mark::Own { table, row } => Mark::Sheet(256 * table as i64 + row as i64),
            sheet => sheet,
        })
    }),
    ("marks: new ones for UNION's right rows would differ", |turn, made| {
        if let (Step::Union, [left, _]) = (turn.step(), turn.before) {
            turn.renew(&mut made.marks[left.rows()..])
        }
    }),
    ("marks: JOIN's right ones would differ", right_of_join),
    ("marks: a group's last one would differ", last_of_group),
    ("marks: not moved by FILTER would differ", |turn, made| {
        if let (Step::Filter { .. }, [.., top]) = (turn.step(), turn.before) {
            made.marks = top.marks[..made.rows()].to_vec()
        }
    }),
    ("marks: lost by KEEP would differ", |turn, made| {
        if matches!(turn.step(), Step::Keep { .. }) {
            turn.renew(&mut made.marks)
        }
    }),
    ("marks: lost by APPLY would differ", |turn, made| {
        if matches!(turn.step(), Step::Apply { .. }) {
            turn.renew(&mut made.marks)
        }
    }),
    ("marks: lost by NOISE would differ", |turn, made| {
        if matches!(turn.step(), Step::Noise { .. }) {
            turn.renew(&mut made.marks)
        }
    }),
];

impl Turn<'_> {
    fn step(&self) -> &Step {
        &self.plan[self.number]
    }

    /// A mark that no other step makes.
    fn new(&self, row: usize) -> Mark {
        Mark::Own { table: 16 + self.number, row }
    }

    fn renew(&self, marks: &mut [Mark]) {
        marks.iter_mut().enumerate().for_each(|(row, mark)| *mark = self.new(row));
    }

    /// After a SCAN, each mark by what it is and the first row that has it.
    fn on_scan(&self, made: &mut Table, change: impl Fn(Mark, usize) -> Mark) {
        if matches!(self.step(), Step::Scan { .. }) {
            let old = made.marks.clone();
            let first = |mark| old.iter().position(|&other| other == mark).unwrap();
            made.marks = old.iter().map(|&mark| change(mark, first(mark))).collect();
        }
    }
}

fn right_of_join(turn: &Turn, made: &mut Table) {
    if let (&Step::Join { left_key, right_key }, [left, right]) = (turn.step(), turn.before) {
        let key = |table: &Table, row: usize, column: usize| match table.row(row)[column].value {
            Value::Known(number) => Some(number),
            Value::Over => None,
        };
        made.marks.clear();
        for row in 0..left.rows() {
            let wanted = key(left, row, left_key);
            let same = |&other: &usize| wanted.is_some() && key(right, other, right_key) == wanted;
            made.marks.extend((0..right.rows()).filter(same).map(|other| right.marks[other]));
        }
    }
}

fn last_of_group(turn: &Turn, made: &mut Table) {
    if let (&Step::Group { keys, .. }, [.., top]) = (turn.step(), turn.before) {
        for group in 0..made.rows() {
            let wanted = made.row(group);
            let same = |row: &usize| {
                let mut keys = columns_of(keys).zip(wanted);
                keys.all(|(key, cell)| top.row(*row)[key].value == cell.value)
            };
            let last = (0..top.rows()).rev().find(same).expect("a group has rows");
            made.marks[group] = top.marks[last];
        }
    }
}

/// Trace lines, and the values released or the refusal.
type Outcome = (Vec<[u32; 4]>, Result<Vec<Value>, (StateFault, usize, usize)>);

fn outcome(trace: Vec<[u32; 4]>, last: Result<Table, Stop>) -> Outcome {
    let values = last.map(|table| table.cells.iter().map(|cell| cell.value).collect());
    (trace, values.map_err(|stop| (stop.fault, stop.row, stop.column)))
}

fn by_rule(container: &Container, draws: &[i64], rule: Rule) -> Outcome {
    let plan = &container.plan;
    let (mut stack, mut trace): (Vec<Table>, Vec<_>) = Default::default();
    let mut draws = draws.iter();
    for (number, step) in plan.iter().enumerate() {
        let before = stack[stack.len().saturating_sub(2)..].to_vec();
        match perform(step, &container.tables, &mut stack, &mut draws) {
            Ok(mut made) => {
                rule(&Turn { plan, number, before: &before }, &mut made);
                trace.push([
                    step.kind(),
                    made.rows() as u32,
                    made.columns as u32,
                    made.stages_left(),
                ]);
                stack.push(made);
            }
            Err(stop) => return outcome(trace, Err(stop)),
        }
    }
    outcome(trace, judge(stack.pop().expect("the input checks leave one table")))
}

/// Whether the rule that counts rows would answer otherwise; of all of them the
/// classes.
pub fn sheets_decide(container: &Container, draws: &[i64], classes: &mut Classes) -> bool {
    if !container.plan.iter().any(|step| matches!(step, Step::Group { .. })) {
        return false;
    }
    let right = evaluate(container, draws);
    let last = right.outcome.map_err(|at| Stop { fault: at.fault, row: at.row, column: at.column });
    let right = outcome(right.trace, last);
    let differ = RULES.map(|(class, rule)| {
        let differs = by_rule(container, draws, rule) != right;
        classes.hit_if(differs, class);
        differs
    });
    differ[0]
}
