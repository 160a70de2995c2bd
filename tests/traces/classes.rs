//! The classes that the pairs have to meet together.

use std::collections::HashMap;
use std::sync::OnceLock;

pub static CLASSES: &[&str] = &[
    // What the runs answer.
    "released",
    "released after APPLY",
    "released after GROUP",
    "released after NOISE",
    "refused with 1",
    "refused with 11",
    "refused with 12",
    "refused with 13",
    "refused with 14",
    "refused with 15",
    "refused with 16",
    "refused with 17",
    "refused with 18",
    "refused with 19",
    "refused with 20",
    "refused with 21",
    "refused with 22",
    "refused with 31",
    "refused with 32",
    "refused with 33",
    "refused with 34",
    "refused with 35",
    "refused with 36",
    "refused with 37",
    "refused with 51",
    "31 at a cell that differs",
    "32 at a cell that differs",
    "33 at a cell that differs",
    "35 at a cell that differs",
    "37 at a cell that differs",
    "year 0",
    "year 1",
    "overlays lent",
    "sheet numbers",
    "256 rows",
    // Why a cell is locked, in the words of tests/compare/labels.rs.
    "pair: locked by H alone",
    "pair: locked by T alone",
    "pair: locked by A alone",
    "pair: locked by N alone, without the bit",
    "pair: locked by N alone, without a NOISE",
    "pair: locked by N alone, without either",
    "pair: locked by several stages",
    "pair: an overlay alone locks, by H",
    "pair: an overlay alone locks, by T",
    "pair: an overlay alone locks, by A",
    "pair: an overlay alone locks, by N",
    // The values of locked cells.
    "value -2^47 on one side",
    "value 2^47 - 1 on one side",
    "value 0 on one side",
    "both ends, one on each side",
    "both signs, one on each side",
    "32 bits on one side, more on the other",
    // A finished step that carries a cell that differs.
    "SCAN",
    "UNION",
    "JOIN",
    "FILTER",
    "KEEP",
    // A finished step that reads one.
    "add a constant",
    "add a column",
    "sub a constant",
    "sub a column",
    "cut 1",
    "cut 2",
    "cut 3",
    "cut 4",
    "cut 5",
    "cut 6",
    "band 1",
    "band 2 to 2^31 - 1",
    "band from 2^31",
    "band from 2^32",
    "count",
    "sum",
    "min",
    "max",
    "avg",
    "NOISE",
    "GROUP by keys",
    "GROUP without keys",
    // OVER made from values on one side and not on the other; cut and avg cannot.
    "OVER by add",
    "OVER by sub",
    "OVER by band",
    "OVER by sum",
    "OVER by a draw",
    // OVER read on one side and a value on the other.
    "OVER read by add",
    "OVER read by sub",
    "OVER read by cut",
    "OVER read by band",
    "OVER read by count",
    "OVER read by sum",
    "OVER read by min",
    "OVER read by max",
    "OVER read by avg",
    "OVER read by NOISE",
    // What else may take another course.
    "cut of both signs",
    "cut of 32 bits and of more",
    "band of both signs",
    "band of 32 bits and of more, by 32 bits",
    "band remainder 0 on one side",
    "sum of both signs",
    "sum of 32 bits and of more",
    "avg of both signs",
    "avg of 32 bits and of more",
    "avg tie on one side",
    "avg up on one side, down on the other",
    "avg remainder 0 on one side",
    "min in another row",
    "max in another row",
    "NOISE of both signs",
    "NOISE with a draw out of range",
];

/// A set of classes: bit i for the class at place i.
#[derive(Clone, Copy, Default)]
pub struct Classes(u128);

fn place(name: &str) -> usize {
    static PLACES: OnceLock<HashMap<&str, usize>> = OnceLock::new();
    let of = || CLASSES.iter().enumerate().map(|(place, &name)| (name, place)).collect();
    let places: &HashMap<&str, usize> = PLACES.get_or_init(of);
    *places.get(name).unwrap_or_else(|| panic!("not in the list of classes: {name}"))
}

impl Classes {
    pub fn hit(&mut self, name: &str) {
        self.0 |= 1 << place(name);
    }

    pub fn hit_if(&mut self, condition: bool, name: &str) {
        if condition {
            self.hit(name);
        }
    }

    /// The places of its classes.
    pub fn places(self) -> impl Iterator<Item = usize> {
        (0..CLASSES.len()).filter(move |place| self.0 & 1 << place != 0)
    }
}
