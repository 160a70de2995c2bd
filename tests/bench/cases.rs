//! What is measured: one plan for each kind of step, a mixed one, GROUP by numbers
//! of sheets, a full container with overlays, a labelled table and a full container in
//! both rule years, and releases of small and of the widest values as text, each with
//! the same query in SQL.

use crate::draft::{step, Draft, RawOverlay, RawStep, RawTable};
use crate::reference::value::LOWEST;
use crate::rng::Rng;

pub struct Case {
    pub name: &'static str,
    pub make: fn(usize) -> (Draft, String),
}

/// T (cut 3) over A (sum and count, 2): cut and sum clear it.
const CUT_THEN_SUM: u32 = 0x6403_0C02;
const SUM: u32 = 0x2003_0002;

/// Rows of the largest table.
pub const SIZES: [usize; 3] = [16, 64, 256];
/// Rows of the tables with sheet numbers, of those that fill a container, and of those in
/// both rule years.
pub const FULL: [usize; 1] = [256];

pub static CASES: [Case; 10] = [
    Case {
        name: "SCAN",
        make: |rows| (draft(vec![table(8, rows, 0, 0)], &[scan(0)]), "SELECT * FROM t0".into()),
    },
    Case {
        name: "UNION",
        make: |rows| {
            let tables = vec![table(8, rows / 2, 0, 0), table(8, rows / 2, 1, 0)];
            let steps = [scan(0), scan(1), step(2, 0, 0, 0, 0, 0)];
            (draft(tables, &steps), "SELECT * FROM t0 UNION ALL SELECT * FROM t1".into())
        },
    },
    Case {
        name: "JOIN",
        make: |rows| {
            let tables = vec![table(4, rows, 0, 0), table(5, rows, 1, 0)];
            let steps = [scan(0), scan(1), step(3, 0, 0, 0, 0, 0)];
            let sql = "SELECT t0.*, t1.c1, t1.c2, t1.c3, t1.c4 FROM t0 JOIN t1 ON t0.c0 = t1.c0";
            (draft(tables, &steps), sql.into())
        },
    },
    Case {
        name: "FILTER",
        make: |rows| {
            let steps = [scan(0), step(4, 1, 2, 0, 0, 50)];
            (draft(vec![table(8, rows, 0, 0)], &steps), "SELECT * FROM t0 WHERE c1 < 50".into())
        },
    },
    Case {
        name: "KEEP",
        make: |rows| {
            let steps = [scan(0), step(5, 0b0101_0110, 0, 0, 0, 0)];
            (draft(vec![table(8, rows, 0, 0)], &steps), "SELECT c1, c2, c4, c6 FROM t0".into())
        },
    },
    Case {
        name: "APPLY",
        make: |rows| {
            let steps = [scan(0), step(6, 2, 0, 1, 3, 0)];
            (draft(vec![table(7, rows, 0, 0)], &steps), "SELECT *, c2 + c3 FROM t0".into())
        },
    },
    Case {
        name: "NOISE",
        // As APPLY, with a draw for each row in place of column 3.
        make: |rows| {
            let draws = (0..rows as i64).map(|row| row * 37 % 101 - 50).collect();
            let steps = [scan(0), step(8, 2, 0, 0, 0, 0)];
            let sql = "SELECT t0.*, t0.c2 + draws.c0 FROM t0 JOIN draws ON t0.rowid = draws.rowid";
            (Draft { draws, ..draft(vec![table(7, rows, 0, 0)], &steps) }, sql.into())
        },
    },
    Case {
        name: "GROUP",
        make: |rows| {
            let steps = [scan(0), step(7, 2, 1, 2, 0, 0)];
            let sql = "SELECT c1, sum(c2) FROM t0 GROUP BY c1";
            // Up to 100 keys, each of two rows at least.
            let keys = 100.min(rows as i64 / 2);
            let mut table = table(8, rows, 0, SUM);
            for (row, cells) in table.cells.chunks_mut(8).enumerate() {
                cells[1].0 = row as i64 * keys / rows as i64;
            }
            (draft(vec![table], &steps), sql.into())
        },
    },
    Case {
        name: "GROUP, few keys",
        make: |rows| {
            let steps = [scan(0), step(7, 8, 4, 2, 0, 0)];
            let sql = "SELECT c3, sum(c2) / count(*) FROM t0 GROUP BY c3";
            (draft(vec![table(8, rows, 0, 0)], &steps), sql.into())
        },
    },
    Case { name: "mixed", make: mixed },
];

/// GROUP by many keys, by few and by one, over rows that come from all different
/// sheets, in rising order and in none, from two for each key, and each sheet twice.
/// The label asks for just the sheets that each group has.
pub static SHEETS: [Case; 12] = [
    Case { name: "64 keys, rising", make: |rows| on_sheets(rows, 64, Order::Rising) },
    Case { name: "64 keys, shuffled", make: |rows| on_sheets(rows, 64, Order::Shuffled) },
    Case { name: "64 keys, two", make: |rows| on_sheets(rows, 64, Order::Two) },
    Case { name: "64 keys, twice", make: |rows| on_sheets(rows, 64, Order::Twice) },
    Case { name: "8 keys, rising", make: |rows| on_sheets(rows, 8, Order::Rising) },
    Case { name: "8 keys, shuffled", make: |rows| on_sheets(rows, 8, Order::Shuffled) },
    Case { name: "8 keys, two", make: |rows| on_sheets(rows, 8, Order::Two) },
    Case { name: "8 keys, twice", make: |rows| on_sheets(rows, 8, Order::Twice) },
    Case { name: "1 key, rising", make: |rows| on_sheets(rows, 1, Order::Rising) },
    Case { name: "1 key, shuffled", make: |rows| on_sheets(rows, 1, Order::Shuffled) },
    Case { name: "1 key, two", make: |rows| on_sheets(rows, 1, Order::Two) },
    Case { name: "1 key, twice", make: |rows| on_sheets(rows, 1, Order::Twice) },
];

/// The largest mixed container with none, with one and with four overlays.
pub static OVERLAYS: [Case; 3] = [
    Case { name: "overlays, none", make: |rows| under_overlays(rows, 0) },
    Case { name: "overlays, one", make: |rows| under_overlays(rows, 1) },
    Case { name: "overlays, four", make: |rows| under_overlays(rows, 4) },
];

/// The largest table with labels that the floor of the year 1 raises, scanned, and the
/// largest mixed container, in each rule year.
pub static YEARS: [Case; 4] = [
    Case { name: "year 0, SCAN", make: |rows| in_year(0, labelled(rows)) },
    Case { name: "year 1, SCAN", make: |rows| in_year(1, labelled(rows)) },
    Case { name: "year 0, mixed", make: |rows| in_year(0, mixed(rows)) },
    Case { name: "year 1, mixed", make: |rows| in_year(1, mixed(rows)) },
];

/// A table of 8 columns as it is; SQLite makes its text as well.
pub static TEXTS: [Case; 2] = [
    Case {
        name: "text, small",
        make: |rows| {
            let digits = filled(rows, |cell| cell % 10);
            (draft(vec![digits], &[scan(0)]), "SELECT * FROM t0".into())
        },
    },
    Case {
        name: "text, widest",
        make: |rows| {
            let lowest = filled(rows, |_| LOWEST);
            (draft(vec![lowest], &[scan(0)]), "SELECT * FROM t0".into())
        },
    },
];

fn scan(table: u8) -> RawStep {
    step(1, table, 0, 0, 0, 0)
}

fn draft(tables: Vec<RawTable>, steps: &[RawStep]) -> Draft {
    Draft { tables, steps: steps.to_vec(), ..Draft::default() }
}

fn in_year(year: u8, (draft, sql): (Draft, String)) -> (Draft, String) {
    (Draft { year, ..draft }, sql)
}

/// A minimum of 2 in every column but the first, which alone is released.
fn labelled(rows: usize) -> (Draft, String) {
    let mut table = table(8, rows, 0, 0);
    for cells in table.cells.chunks_mut(8) {
        cells[1..].iter_mut().for_each(|cell| cell.1 = SUM);
    }
    let steps = [scan(0), step(5, 1, 0, 0, 0, 0)];
    (draft(vec![table], &steps), "SELECT c0 FROM t0".into())
}

/// Most kinds of steps. The largest fills the container: 256, 256 and 168 rows of 8
/// columns, and each of its groups has more than ten sheets. The smallest has four keys
/// in place of eight, so that each of its groups has two.
fn mixed(rows: usize) -> (Draft, String) {
    let mut third = table(8, rows * 168 / 256, 0, 0);
    let keys = 8.min(rows as i64 / 4);
    third.cells.iter_mut().skip(3).step_by(8).for_each(|cell| cell.0 %= keys);
    let tables = vec![table(8, rows, 0, CUT_THEN_SUM), table(8, rows, 1, CUT_THEN_SUM), third];
    let steps = [
        scan(0),
        step(4, 1, 2, 0, 0, 50),
        scan(1),
        step(4, 1, 5, 0, 0, 50),
        step(2, 0, 0, 0, 0, 0),
        step(5, 0b0000_1111, 0, 0, 0, 0),
        step(6, 2, 2, 0, 0, 3),
        scan(2),
        step(5, 0b0000_1001, 0, 0, 0, 0),
        step(3, 0, 0, 0, 0, 0),
        // The cut value, and the key from table 2.
        step(5, 0b0011_0000, 0, 0, 0, 0),
        step(7, 2, 1, 0, 0, 0),
    ];
    let sql = "SELECT k, sum(v) FROM (
        SELECT u.c2 / 1000 AS v, t2.c3 AS k FROM (
            SELECT c0, c2 FROM t0 WHERE c1 < 50
            UNION ALL SELECT c0, c2 FROM t1 WHERE c1 >= 50) AS u
        JOIN t2 ON u.c0 = t2.c0)
        GROUP BY k";
    (draft(tables, &steps), sql.into())
}

/// The mixed plan, which is released under each of the overlays: they raise the
/// minimum of the values that are summed and take count away, and label all columns
/// that the plan drops, each with other stages.
fn under_overlays(rows: usize, count: usize) -> (Draft, String) {
    let (mut draft, sql) = mixed(rows);
    let overlay = |number: usize| -> RawOverlay {
        let summed = 0x6402_0C02 + number as u32;
        let dropped = [0x8000_0000, 0x4100_0000, 0x2011_0014, 0x1080_0000][number];
        let label = |cell: usize| match cell % 8 {
            2 => summed,
            4..=7 => dropped,
            _ => 0,
        };
        draft.tables.iter().map(|table| (0..table.cells.len()).map(label).collect()).collect()
    };
    let mut overlays = [0, 1, 2, 3].map(|number| Some(overlay(number)));
    overlays[count..].fill(None);
    draft.overlays = overlays;
    (draft, sql)
}

/// Column 0: every key once, in an order of the table's own. Column 1: from 0
/// to 99, rising. Column 2: large values with the label given. Column 3: eight
/// keys. The others: values that differ.
fn table(columns: usize, rows: usize, number: i64, label: u32) -> RawTable {
    let mut cells = Vec::new();
    for row in 0..rows as i64 {
        for column in 0..columns as i64 {
            cells.push(match column {
                0 => ((row * (2 * number + 1) + 5 * number) % rows as i64, 0),
                1 => (row * 100 / rows as i64, 0),
                2 => (row * 7_919_113 + 1_000 * number + 17, label),
                3 => ((row * 5 + number) % 8, 0),
                _ => (row * 1_000 + column, 0),
            });
        }
    }
    RawTable::new(columns, cells)
}

/// The sheets of a table's rows.
enum Order {
    Rising,
    Shuffled,
    Two,
    Twice,
}

/// Column 0: so many keys in turn. Column 1: values that a sum over the sheets of
/// the group clears. Column 2: the numbers of the sheets.
fn on_sheets(rows: usize, keys: usize, order: Order) -> (Draft, String) {
    let mut numbers: Vec<usize> = (0..rows).collect();
    let members = rows / keys;
    let mut different = members;
    match order {
        Order::Rising => (),
        Order::Shuffled => {
            let mut rng = Rng::new(rows as u64);
            (1..rows).rev().for_each(|place| numbers.swap(place, rng.below(place + 1)));
        }
        Order::Two => {
            numbers = (0..rows).map(|row| 7 + row / keys % 2).collect();
            different = 2;
        }
        // The second half of the rows has the sheets of the first, key by key.
        Order::Twice => {
            numbers = (0..rows).map(|row| row % (rows / 2)).collect();
            different = members / 2;
        }
    }
    let label = 0x2002_0000 + different as u32;
    let row = |(row, &number): (usize, &usize)| {
        [((row % keys) as i64, 0), (row as i64 * 7_919 + 17, label), (number as i64, 0)]
    };
    let table = RawTable::new(3, numbers.iter().enumerate().flat_map(row).collect());
    let steps = [scan(0), step(7, 1, 1, 1, 0, 0)];
    let sql =
        format!("SELECT c0, sum(c1) FROM t0 GROUP BY c0 HAVING count(DISTINCT c2) >= {different}");
    (draft(vec![RawTable { sheets: 3, ..table }], &steps), sql)
}

/// 8 columns of values by the number of the cell.
fn filled(rows: usize, value: fn(i64) -> i64) -> RawTable {
    RawTable::new(8, (0..8 * rows as i64).map(|cell| (value(cell), 0)).collect())
}
