//! Overlays that do not fit a container: one thing is wrong (or two, where the
//! order of the checks is the point), and number and place of the refusal are
//! known.

use crate::damage::{put, Made};
use crate::draft::{assemble, overlay_parts, part_offset, step, Draft, RawTable};
use crate::labels::{label, H};
use crate::noise::NOISY;
use crate::overlays::{one_on_top, zeros};
use crate::rng::Rng;
use crate::wrong_sheets::Row;

/// The class, the number of the refusal, and how to make such an overlay for
/// tables that `prepared` has made ready.
pub type WrongOverlay = (&'static str, u32, fn(&mut Rng, &[RawTable]) -> Made);

const LONGEST: usize = 65_536;

pub static WRONG_OVERLAYS: &[WrongOverlay] = &[
    // 21, the whole
    ("21 one byte", 21, |r, t| cut(r, t, |_, _| 1)),
    ("21 the count alone", 21, |r, t| cut(r, t, |_, _| 2)),
    ("21 directory cut", 21, |r, t| cut(r, t, |r, room| 2 + r.below(room - 2))),
    ("21 directory cut by one byte", 21, |r, t| cut(r, t, |_, room| room - 1)),
    ("21 count 0", 21, |r, t| count(r, t, 0)),
    ("21 count, one less", 21, |r, t| count(r, t, t.len() - 1)),
    ("21 count, one more", 21, |r, t| count(r, t, t.len() + 1)),
    ("21 count 65535", 21, |r, t| count(r, t, 65_535)),
    ("21 count, high byte 1", 21, |r, t| count(r, t, t.len() + 256)),
    ("21 count, high byte", 21, |r, t| {
        let high = 1 + r.below(255);
        count(r, t, t.len() + 256 * high)
    }),
    ("21 a table left out", 21, |r, t| {
        let mut parts = good(r, t);
        parts.remove(r.below(t.len()));
        (assemble(&parts), 0)
    }),
    ("21 a table more", 21, |r, t| {
        let mut parts = good(r, t);
        parts.push(parts[0].clone());
        (assemble(&parts), 0)
    }),
    ("21 a part for the plan", 21, |r, t| {
        let plan = step(1, 0, 0, 0, 0, 0).bytes().to_vec();
        (assemble(&[vec![plan], good(r, t)].concat()), 0)
    }),
    ("21 65,537 bytes", 21, |r, t| (padded(r, t, LONGEST + 1).0, 0)),
    ("21 far too long", 21, |r, t| {
        let length = LONGEST + 1 + r.below(70_000);
        (padded(r, t, length).0, 0)
    }),
    ("21 65,537 bytes, before the pairs", 21, |r, t| {
        let mut bytes = assemble(&good(r, t));
        bytes[2] ^= 1;
        bytes.resize(LONGEST + 1, 0);
        (bytes, 0)
    }),
    ("21 count before the pairs", 21, |r, t| {
        let (mut bytes, place) = count(r, t, t.len() + 256);
        bytes[2] ^= 1;
        (bytes, place)
    }),
    // 21, a pair
    ("21 first offset", 21, |r, t| pair(r, t, 0, 0)),
    ("21 last offset", 21, |r, t| pair(r, t, t.len() - 1, 0)),
    ("21 any offset", 21, |r, t| {
        let index = r.below(t.len());
        pair(r, t, index, 0)
    }),
    ("21 first length", 21, |r, t| pair(r, t, 0, 4)),
    ("21 last length", 21, |r, t| pair(r, t, t.len() - 1, 4)),
    ("21 any length", 21, |r, t| {
        let index = r.below(t.len());
        pair(r, t, index, 4)
    }),
    ("21 offset of zero", 21, |r, t| {
        let index = r.below(t.len());
        changed(r, t, 2 + 8 * index, |bytes| put(bytes, 2 + 8 * index, 0))
    }),
    ("21 offsets of the container", 21, |r, t| {
        // A directory with room for one pair more, as the container has it.
        let parts = good(r, t);
        let mut bytes = assemble(&[vec![vec![]], parts].concat());
        let pairs = bytes[10..10 + 8 * t.len()].to_vec();
        bytes[2..2 + 8 * t.len()].copy_from_slice(&pairs);
        bytes[..2].copy_from_slice(&(t.len() as u16).to_le_bytes());
        (bytes, 2)
    }),
    ("21 a gap before a part", 21, |r, t| {
        let (parts, index) = (good(r, t), r.below(t.len()));
        let mut bytes = assemble(&parts);
        let start = part_offset(&parts, index);
        let gap = 1 + r.below(8);
        bytes.splice(start..start, vec![0; gap]);
        for later in index..t.len() {
            put(&mut bytes, 2 + 8 * later, (part_offset(&parts, later) + gap) as u32);
        }
        (bytes, 2 + 8 * index)
    }),
    ("21 first of two wrong pairs", 21, |r, t| {
        changed(r, t, 2, |bytes| {
            bytes[2] ^= 4;
            bytes[10] ^= 8;
        })
    }),
    ("21 pairs not sorted", 21, |r, t| {
        changed(r, t, 2, |bytes| {
            let (one, two) = (bytes[2..10].to_vec(), bytes[10..18].to_vec());
            bytes[2..10].copy_from_slice(&two);
            bytes[10..18].copy_from_slice(&one);
        })
    }),
    ("21 bytes after the last part", 21, |r, t| {
        let more = 1 + r.below(20);
        changed(r, t, 2 + 8 * (t.len() - 1), |bytes| bytes.resize(bytes.len() + more, 0))
    }),
    ("21 last part cut", 21, |r, t| {
        let parts = good(r, t);
        let mut bytes = assemble(&parts);
        bytes.truncate(bytes.len() - 1 - r.below(parts[t.len() - 1].len()));
        (bytes, 2 + 8 * (t.len() - 1))
    }),
    ("21 cut after the directory", 21, |r, t| {
        changed(r, t, 2 + 8 * (t.len() - 1), |bytes| bytes.truncate(2 + 8 * t.len()))
    }),
    ("21 offset right only modulo 2^32", 21, |r, t| {
        // Part 0 ends at 2^32 + 1, part 1 begins at 1.
        let first = 2 + 8 * t.len() as u32;
        changed(r, t, 10, |bytes| {
            put(bytes, 6, 1u32.wrapping_sub(first));
            put(bytes, 10, 1);
        })
    }),
    ("21 end right only modulo 2^32", 21, |r, t| {
        let parts = good(r, t);
        let mut bytes = assemble(&parts);
        let (first, length) = (2 + 8 * t.len() as u32, bytes.len() as u32);
        put(&mut bytes, 6, 0x8000_0000 - first);
        for index in 1..t.len() {
            put(&mut bytes, 2 + 8 * index, 0x8000_0000);
            put(&mut bytes, 6 + 8 * index, 0);
        }
        let last = 2 + 8 * (t.len() - 1);
        put(&mut bytes, last + 4, length.wrapping_sub(0x8000_0000));
        (bytes, last)
    }),
    ("21 lengths of 2^32 - 1", 21, |r, t| changed(r, t, 10, |bytes| put(bytes, 6, u32::MAX))),
    ("21 in 65,536 bytes", 21, |r, t| padded(r, t, LONGEST)),
    ("21 a pair before a part", 21, |r, t| {
        let mut parts = good(r, t);
        parts[0][0] ^= 1;
        let mut bytes = assemble(&parts);
        bytes.pop();
        (bytes, 2 + 8 * (t.len() - 1))
    }),
    // 21, a part
    ("21 part, columns", 21, |r, t| part(r, t, |r, part| part[0] ^= 1 << r.below(8))),
    ("21 part, byte 1", 21, |r, t| part(r, t, |r, part| part[1] ^= 1 << r.below(8))),
    ("21 part, byte 1 zero", 21, |r, t| last_part(r, t, |_, part| part[1] = 0)),
    ("21 part, byte 1 of another column", 21, |r, t| {
        last_part(r, t, |_, part| part[1] = part[1] % part[0] + 1)
    }),
    ("21 part, rows", 21, |r, t| part(r, t, |r, part| part[2] ^= 1 << r.below(8))),
    ("21 part, rows, high byte", 21, |r, t| part(r, t, |r, part| part[3] ^= 1 << r.below(8))),
    ("21 part, columns and rows exchanged", 21, |r, t| last_part(r, t, |_, part| part.swap(0, 2))),
    ("21 part of no byte", 21, |r, t| part(r, t, |_, part| part.clear())),
    ("21 last part of no byte", 21, |r, t| last_part(r, t, |_, part| part.clear())),
    ("21 part of three bytes", 21, |r, t| part(r, t, |_, part| part.truncate(3))),
    ("21 part without labels", 21, |r, t| last_part(r, t, |_, part| part.truncate(4))),
    ("21 part one byte long", 21, |r, t| part(r, t, |_, part| part.push(0))),
    ("21 part one byte short", 21, |r, t| {
        part(r, t, |_, part| {
            part.pop();
        })
    }),
    ("21 part one label long", 21, |r, t| part(r, t, |_, part| part.extend([0; 4]))),
    ("21 part one label short", 21, |r, t| {
        last_part(r, t, |_, part| part.truncate(part.len() - 4))
    }),
    ("21 part a row long", 21, |r, t| {
        part(r, t, |_, part| part.resize(part.len() + 4 * part[0] as usize, 0))
    }),
    ("21 part of cells", 21, |r, t| last_part(r, t, |_, part| part.resize(3 * part.len() - 8, 0))),
    ("21 part without its header", 21, |r, t| {
        part(r, t, |_, part| {
            part.drain(..4);
        })
    }),
    ("21 first part", 21, |r, t| spoiled_part(r, t, 0)),
    ("21 last part", 21, |r, t| spoiled_part(r, t, t.len() - 1)),
    ("21 first of two wrong parts", 21, |r, t| {
        let mut parts = good(r, t);
        parts[0][2] ^= 1;
        let last = t.len() - 1;
        parts[last].push(0);
        (assemble(&parts), part_offset(&parts, 0))
    }),
    ("21 parts exchanged", 21, |r, t| {
        let mut parts = good(r, t);
        let last = t.len() - 1;
        let other = r.below(last);
        parts.swap(other, last);
        (assemble(&parts), part_offset(&parts, other))
    }),
    ("21 before 22 in an earlier part", 21, |r, t| {
        let last = t.len() - 1;
        let mut parts = good(r, t);
        parts[last - 1][4] = 1;
        parts[last].push(0);
        (assemble(&parts), part_offset(&parts, last))
    }),
    ("21 before 22 in the same part", 21, |r, t| {
        last_part(r, t, |r, part| {
            put(part, 4, 1);
            part[r.below(4)] ^= 1
        })
    }),
    ("21 a pair before 22", 21, |r, t| {
        let last = 2 + 8 * (t.len() - 1);
        changed(r, t, last, |bytes| {
            let end = bytes.len();
            put(bytes, end - 4, 1);
            bytes.push(0)
        })
    }),
    ("21 count before 22", 21, |r, t| {
        changed(r, t, 0, |bytes| {
            let end = bytes.len();
            put(bytes, end - 4, 1);
            bytes[1] = 1
        })
    }),
    // 22, an ill-formed label
    ("22 bit 22", 22, |r, t| word(r, t, 0x0040_0000)),
    ("22 bit 21", 22, |r, t| word(r, t, 0x0020_0000)),
    ("22 bit 15", 22, |r, t| word(r, t, 0x0000_8000)),
    ("22 bit 14", 22, |r, t| word(r, t, 0x0000_4000)),
    ("22 bit 13", 22, |r, t| word(r, t, 0x0000_2000)),
    ("22 bit 13 with every stage", 22, |r, t| word(r, t, 0xFF9F_2402)),
    ("22 operation without T", 22, |r, t| {
        let bit = 1 << (24 + r.below(4));
        word(r, t, bit)
    }),
    ("22 digits without T", 22, |r, t| word(r, t, 0x0000_0400)),
    ("22 cut, digits 0", 22, |r, t| word(r, t, 0x4400_0000)),
    ("22 cut, digits 7", 22, |r, t| word(r, t, 0x4400_1C00)),
    ("22 digits without cut", 22, |r, t| {
        let digits = 1 + r.below(7) as u32;
        word(r, t, 0x4B00_0000 + (digits << 10))
    }),
    ("22 aggregate without A", 22, |r, t| {
        let bit = 1 << (16 + r.below(5));
        word(r, t, bit)
    }),
    ("22 minimum without A", 22, |r, t| {
        let minimum = 1 + r.below(1023) as u32;
        word(r, t, minimum)
    }),
    ("22 A, minimum 0", 22, |r, t| word(r, t, 0x2003_0000)),
    ("22 A, minimum 1", 22, |r, t| word(r, t, 0x2003_0001)),
    ("22 minimum 1, no aggregate", 22, |r, t| word(r, t, 0x2000_0001)),
    ("22 minimum 1 with every stage", 22, |r, t| word(r, t, 0xFF9F_0401)),
    ("22 noise without N", 22, |r, t| word(r, t, 0x0080_0000)),
    ("22 all ones", 22, |r, t| word(r, t, 0xFFFF_FFFF)),
    ("22 ill-formed, the first label", 22, |r, t| labelled(r, t, &[(fields(t)[0], 1)])),
    ("22 ill-formed, the last label", 22, |r, t| {
        let last = fields(t)[fields(t).len() - 1];
        labelled(r, t, &[(last, 1)])
    }),
    ("22 ill-formed in the sheet column", 22, |r, t| sheet(r, t, Row::Any, 1)),
    ("22 minimum 1 in the sheet column", 22, |r, t| sheet(r, t, Row::Any, 0x2001_0001)),
    // 22, a label in a sheet column
    ("22 sheet labelled", 22, |r, t| {
        let any = label(r, 3);
        sheet(r, t, Row::Any, any)
    }),
    ("22 sheet labelled H alone", 22, |r, t| sheet(r, t, Row::Any, H)),
    ("22 sheet labelled A, minimum 2", 22, |r, t| sheet(r, t, Row::Any, 0x2001_0002)),
    ("22 sheet labelled N that allows noise", 22, |r, t| sheet(r, t, Row::Any, NOISY)),
    ("22 sheet of the first row", 22, |r, t| sheet(r, t, Row::First, H)),
    ("22 sheet of the last row", 22, |r, t| sheet(r, t, Row::Last, H)),
    // 22, the first of several
    ("22 first of two ill-formed labels", 22, |r, t| {
        let mut fields = fields(t);
        let later = fields.split_off(1 + r.below(fields.len() - 1));
        let words = [(r.pick(&fields), 1), (r.pick(&later), 0x0020_0000)];
        labelled(r, t, &words)
    }),
    ("22 first of two minima of 1", 22, |r, t| {
        let mut fields = fields(t);
        let later = fields.split_off(1 + r.below(fields.len() - 1));
        let words = [(r.pick(&fields), 0x2002_0001), (r.pick(&later), 0x2001_0001)];
        labelled(r, t, &words)
    }),
    ("22 sheet before an ill-formed label", 22, |r, t| {
        let (mut bytes, place) = sheet(r, t, Row::First, H);
        let end = bytes.len();
        put(&mut bytes, end - 4, 1);
        (bytes, place)
    }),
    ("22 ill-formed before a labelled sheet", 22, |r, t| {
        let (mut bytes, _) = sheet(r, t, Row::Last, H);
        let first = fields(t)[0];
        put(&mut bytes, first, 1);
        (bytes, first)
    }),
];

/// With two tables more, which the wrong overlays need: one of two cells, and a
/// last one with sheet numbers, at least three rows and a header unlike all others.
pub fn prepared(rng: &mut Rng, mut d: Draft) -> Draft {
    if d.tables.len() > 6 {
        d.tables.truncate(1 + rng.below(6));
        d.steps = vec![step(1, 0, 0, 0, 0, 0)];
    }
    d.tables.push(RawTable::new(1 + rng.below(2), vec![(3, 0), (4, 0)]));
    let many = rng.chance(35);
    let columns = if many { 2 } else { 2 + rng.below(7) };
    let free = |rows: &usize| {
        !d.tables.iter().any(|table| (table.columns, table.rows()) == (columns, *rows))
    };
    let rows = if many { (3..=256).rev().find(free) } else { (columns + 1..=256).find(free) };
    let cells = rows.expect("there are fewer than eight tables") * columns;
    let sheets = 1 + rng.below(columns) as u8;
    d.tables.push(RawTable { sheets, ..RawTable::new(columns, vec![(3, 0); cells]) });
    d
}

/// The parts of an overlay that is accepted.
fn good(rng: &mut Rng, tables: &[RawTable]) -> Vec<Vec<u8>> {
    let labels = if rng.chance(40) { zeros(tables) } else { one_on_top(rng, tables) };
    overlay_parts(tables, &labels)
}

/// Cut to a length, which the bytes of count and directory lead to.
fn cut(rng: &mut Rng, tables: &[RawTable], length: fn(&mut Rng, usize) -> usize) -> Made {
    let mut bytes = assemble(&good(rng, tables));
    let length = length(rng, 2 + 8 * tables.len());
    bytes.truncate(length);
    (bytes, 0)
}

fn count(rng: &mut Rng, tables: &[RawTable], count: usize) -> Made {
    changed(rng, tables, 0, |bytes| bytes[..2].copy_from_slice(&(count as u16).to_le_bytes()))
}

fn changed(
    rng: &mut Rng,
    tables: &[RawTable],
    place: usize,
    change: impl Fn(&mut Vec<u8>),
) -> Made {
    let mut bytes = assemble(&good(rng, tables));
    change(&mut bytes);
    (bytes, place)
}

/// Changes the offset of a pair, or its length, 4 bytes into it.
fn pair(rng: &mut Rng, tables: &[RawTable], index: usize, half: usize) -> Made {
    let mut bytes = assemble(&good(rng, tables));
    let change = match rng.below(3) {
        0 => 1,
        1 => u32::MAX,
        _ => 1 + rng.below(1 << 31) as u32,
    };
    let at = 2 + 8 * index + half;
    let old = u32::from_le_bytes(bytes[at..at + 4].try_into().unwrap());
    put(&mut bytes, at, old.wrapping_add(change));
    // A wrong length shows at the next pair, or at the end.
    let shown = if half == 0 { index } else { (index + 1).min(tables.len() - 1) };
    (bytes, 2 + 8 * shown)
}

/// Made this long by its last part, whose offset is the place.
fn padded(rng: &mut Rng, tables: &[RawTable], length: usize) -> Made {
    let mut parts = good(rng, tables);
    let last = parts.len() - 1;
    let size = parts[last].len() + length - assemble(&parts).len();
    parts[last].resize(size, 0);
    (assemble(&parts), part_offset(&parts, last))
}

type Change = fn(&mut Rng, &mut Vec<u8>);

/// Changes the part of one table.
fn part(rng: &mut Rng, tables: &[RawTable], change: Change) -> Made {
    let index = rng.below(tables.len());
    part_of(rng, tables, index, change)
}

fn last_part(rng: &mut Rng, tables: &[RawTable], change: Change) -> Made {
    part_of(rng, tables, tables.len() - 1, change)
}

fn part_of(rng: &mut Rng, tables: &[RawTable], index: usize, change: Change) -> Made {
    let mut parts = good(rng, tables);
    change(rng, &mut parts[index]);
    (assemble(&parts), part_offset(&parts, index))
}

fn spoiled_part(rng: &mut Rng, tables: &[RawTable], index: usize) -> Made {
    part_of(rng, tables, index, |rng, part| match rng.below(3) {
        0 => part.push(0),
        1 => part[rng.below(4)] ^= 1,
        _ => part.clear(),
    })
}

/// Where the labels of an overlay stand.
fn fields(tables: &[RawTable]) -> Vec<usize> {
    let parts = overlay_parts(tables, &zeros(tables));
    let of_part = |index: usize| {
        let start = part_offset(&parts, index) + 4;
        (start..start + parts[index].len() - 4).step_by(4)
    };
    (0..tables.len()).flat_map(of_part).collect()
}

/// With these words at these places, of which the first is wrong.
fn labelled(rng: &mut Rng, tables: &[RawTable], words: &[(usize, u32)]) -> Made {
    changed(rng, tables, words[0].0, |bytes| {
        words.iter().for_each(|&(at, word)| put(bytes, at, word))
    })
}

fn word(rng: &mut Rng, tables: &[RawTable], wrong: u32) -> Made {
    let at = rng.pick(&fields(tables));
    labelled(rng, tables, &[(at, wrong)])
}

/// A label in the sheet column of some table.
fn sheet(rng: &mut Rng, tables: &[RawTable], row: Row, wrong: u32) -> Made {
    let numbered: Vec<usize> =
        (0..tables.len()).filter(|&at| tables[at].sheets > 0 && tables[at].rows() > 0).collect();
    let index = rng.pick(&numbered);
    let table = &tables[index];
    let row = match row {
        Row::First => 0,
        Row::Last => table.rows() - 1,
        Row::Any => rng.below(table.rows()),
    };
    let before: usize = tables[..index].iter().map(|table| table.cells.len()).sum();
    let cell = before + row * table.columns + table.sheets as usize - 1;
    labelled(rng, tables, &[(fields(tables)[cell], wrong)])
}
