//! Near-valid containers: one thing is wrong (or two, where the order of the
//! checks is the point), and number and place of the refusal are known.

use crate::draft::{part_offset, step, Draft, RawStep, RawTable};
use crate::generate::any_step;
use crate::labels::label;
use crate::noise::NOISY;
use crate::reference::value::{HIGHEST, LOWEST};
use crate::rng::Rng;
use crate::wrong_sheets::{at_table, before_steps, no_column, sheet, spoil, Row};
use crate::wrong_steps::{
    apply, bad, byte, column_operand, constant, insert, left_over, narrow, not_zero, outside, past,
    prefix, shallow, wide, wide_join, with_width, zero_byte,
};

/// The bytes of the container and the offset of the refusal.
pub type Made = (Vec<u8>, usize);

/// The class, the number of the refusal, and how to make such a container of a
/// valid one, which has room for a few steps and cells more.
pub type Damage = (&'static str, u32, fn(&mut Rng, Draft) -> Made);

const LONGEST: usize = 65_536;

pub static DAMAGES: &[Damage] = &[
    // 11
    ("11 no byte", 11, |_, _| (vec![], 0)),
    ("11 one byte", 11, |_, d| (d.bytes()[..1].to_vec(), 0)),
    ("11 part count 0", 11, |_, d| count(d, 0, 0)),
    ("11 part count 1", 11, |_, d| count(d, 1, 0)),
    ("11 part count 10", 11, |_, d| count(d, 10, 0)),
    ("11 part count 65535", 11, |_, d| count(d, 255, 255)),
    ("11 part count 0, year 1", 11, |_, d| count(d, 0, 1)),
    ("11 part count 1, year 1", 11, |_, d| count(d, 1, 1)),
    ("11 part count 10, year 1", 11, |_, d| count(d, 10, 1)),
    ("11 part count 255, year 1", 11, |_, d| count(d, 255, 1)),
    ("11 part count and year exchanged", 11, |r, d| {
        let parts = d.tables.len() as u8 + 1;
        count(d, r.below(2) as u8, parts)
    }),
    ("11 year 2", 11, |_, d| year(d, 2)),
    ("11 year 255", 11, |_, d| year(d, 255)),
    ("11 year, any above 1", 11, |r, d| year(d, 2 + r.below(254) as u8)),
    ("11 year above 1, even", 11, |r, d| year(d, 2 + 2 * r.below(127) as u8)),
    ("11 year above 1, odd", 11, |r, d| year(d, 3 + 2 * r.below(127) as u8)),
    ("11 year above 1 and a wrong part count", 11, |r, d| {
        let wrong = r.pick(&[0, 1, 10, 255]);
        count(d, wrong, 2 + r.below(254) as u8)
    }),
    ("11 year above 1, before 12", 11, |r, d| {
        let (mut bytes, place) = year(d, 2 + r.below(254) as u8);
        bytes[2] ^= 1;
        (bytes, place)
    }),
    ("11 year above 1, before 15 and 17", 11, |r, mut d| {
        d.tables[0] = RawTable::new(1, vec![(3, 1)]);
        d.steps[0] = RawStep::default();
        year(d, 2 + r.below(254) as u8)
    }),
    ("11 one part alone", 11, |_, d| (d.assembled(&d.parts()[..1]), 0)),
    ("11 ten parts", 11, |_, mut d| {
        let empty = RawTable::new(1, vec![]);
        d.tables.truncate(2);
        d.tables.resize(9, empty);
        (d.bytes(), 0)
    }),
    ("11 directory cut by one byte", 11, |_, d| {
        let room = 2 + 8 * d.parts().len();
        (d.bytes()[..room - 1].to_vec(), 0)
    }),
    ("11 directory cut", 11, |r, d| {
        let room = 2 + 8 * d.parts().len();
        (d.bytes()[..2 + r.below(room - 2)].to_vec(), 0)
    }),
    ("11 65,537 bytes", 11, |_, d| (padded(d, LONGEST + 1).0, 0)),
    ("11 far too long", 11, |r, d| {
        let length = LONGEST + 1 + r.below(70_000);
        (padded(d, length).0, 0)
    }),
    ("11 before 12", 11, |_, d| {
        let mut bytes = d.bytes();
        bytes[2] ^= 1;
        bytes.resize(LONGEST + 1, 0);
        (bytes, 0)
    }),
    // 12
    ("12 first offset", 12, |r, d| pair(r, d, First, Offset)),
    ("12 middle offset", 12, |r, d| pair(r, three_parts(d), Middle, Offset)),
    ("12 last offset", 12, |r, d| pair(r, d, Last, Offset)),
    ("12 first length", 12, |r, d| pair(r, d, First, Length)),
    ("12 last length", 12, |r, d| pair(r, d, Last, Length)),
    ("12 offset of zero", 12, |_, d| {
        let mut bytes = d.bytes();
        put(&mut bytes, 2, 0);
        (bytes, 2)
    }),
    ("12 first of two wrong pairs", 12, |_, d| {
        let d = three_parts(d);
        let mut bytes = d.bytes();
        bytes[10] ^= 4;
        bytes[18] ^= 8;
        (bytes, 10)
    }),
    ("12 pairs not sorted", 12, |_, d| {
        let mut bytes = d.bytes();
        let (one, two) = (bytes[2..10].to_vec(), bytes[10..18].to_vec());
        bytes[2..10].copy_from_slice(&two);
        bytes[10..18].copy_from_slice(&one);
        (bytes, 2)
    }),
    ("12 bytes after the last part", 12, |r, d| {
        let last = 2 + 8 * d.tables.len();
        let mut bytes = d.bytes();
        bytes.resize((bytes.len() + 1 + r.below(20)).min(LONGEST), 0);
        (bytes, last)
    }),
    ("12 last part cut", 12, |r, d| {
        let parts = d.parts();
        let mut bytes = d.bytes();
        let length = bytes.len() - 1 - r.below(parts[parts.len() - 1].len());
        bytes.truncate(length);
        (bytes, 2 + 8 * d.tables.len())
    }),
    ("12 cut after the directory", 12, |_, d| {
        let room = 2 + 8 * d.parts().len();
        (d.bytes()[..room].to_vec(), 2 + 8 * d.tables.len())
    }),
    ("12 offset right only modulo 2^32", 12, |_, d| {
        // Part 0 ends at 2^32 + 1, part 1 begins at 1.
        let mut bytes = d.bytes();
        let first = 2 + 8 * (d.tables.len() as u32 + 1);
        put(&mut bytes, 6, 1u32.wrapping_sub(first));
        put(&mut bytes, 10, 1);
        (bytes, 10)
    }),
    ("12 end right only modulo 2^32", 12, |_, mut d| {
        d.tables.truncate(1);
        let mut bytes = d.bytes();
        let length = bytes.len() as u32;
        put(&mut bytes, 6, 0x8000_0000 - 18);
        put(&mut bytes, 10, 0x8000_0000);
        put(&mut bytes, 14, length.wrapping_sub(0x8000_0000));
        (bytes, 10)
    }),
    ("12 lengths of 2^32 - 1", 12, |_, d| {
        let mut bytes = d.bytes();
        put(&mut bytes, 6, u32::MAX);
        (bytes, 10)
    }),
    ("12 before 20", 12, |_, d| {
        let mut parts = d.parts();
        let last = parts.len() - 1;
        parts[1][1] = 255;
        let mut bytes = d.assembled(&parts);
        bytes.pop();
        (bytes, 2 + 8 * last)
    }),
    ("12 before 13", 12, |_, d| {
        let mut parts = d.parts();
        let last = parts.len() - 1;
        parts[1][0] = 0;
        let mut bytes = d.assembled(&parts);
        bytes.pop();
        (bytes, 2 + 8 * last)
    }),
    // 13
    ("13 part of no byte", 13, |r, d| part(r, d, |_, part| part.clear())),
    ("13 part of three bytes", 13, |r, d| part(r, d, |_, part| part.truncate(3))),
    ("13 part of four bytes with rows", 13, |r, d| {
        part(r, d, |_, part| {
            part.truncate(4);
            part[2] = 1;
        })
    }),
    ("13 no columns", 13, |r, d| part(r, d, |_, part| part[0] = 0)),
    ("13 no columns, no rows", 13, |r, d| part(r, d, |_, part| *part = vec![0; 4])),
    ("13 no columns, length right", 13, |r, d| part(r, d, |_, part| *part = vec![0, 0, 1, 0])),
    ("13 nine columns", 13, |r, d| part(r, d, |_, part| part[0] = 9)),
    ("13 nine columns, length right", 13, |r, d| {
        part(r, d, |r, part| *part = raw_table(9, r.below(3)))
    }),
    ("13 columns other than the length's", 13, |r, d| {
        part(r, d, |_, part| {
            *part = raw_table(3, 3);
            part[0] = 4;
        })
    }),
    ("13 rows other than the length's", 13, |r, d| part(r, d, |_, part| part[2] ^= 1)),
    ("13 257 rows", 13, |r, d| one_table(r, d, |_, part| *part = raw_table(1, 257))),
    ("13 65,535 rows", 13, |r, d| {
        part(r, d, |_, part| {
            part[2] = 255;
            part[3] = 255;
        })
    }),
    ("13 part one byte long", 13, |r, d| part(r, d, |_, part| part.push(0))),
    ("13 part one byte short", 13, |r, d| {
        part(r, d, |_, part| {
            *part = raw_table(2, 1);
            part.pop();
        })
    }),
    ("13 second table", 13, |_, d| {
        let d = three_parts(d);
        let mut parts = d.parts();
        parts[2][0] = 0;
        (d.assembled(&parts), part_offset(&parts, 2))
    }),
    ("13 in 65,536 bytes", 13, |_, d| padded(d, LONGEST)),
    ("13 before 14", 13, |_, d| {
        let mut d = three_parts(d);
        d.tables[1] = RawTable::new(1, vec![(HIGHEST + 1, 0)]);
        let mut parts = d.parts();
        parts[1][0] = 0;
        (d.assembled(&parts), part_offset(&parts, 1))
    }),
    ("13 before 16", 13, |r, mut d| {
        d.steps.clear();
        part(r, d, |_, part| part[0] = 0)
    }),
    ("13 before 20, no columns", 13, |r, d| {
        part(r, d, |r, part| {
            part[0] = 0;
            part[1] = byte(r)
        })
    }),
    ("13 before 20, nine columns", 13, |r, d| {
        part(r, d, |r, part| {
            *part = raw_table(9, r.below(3));
            part[1] = r.pick(&[1, 9, 10, 255])
        })
    }),
    ("13 before 20, length", 13, |r, d| {
        part(r, d, |r, part| {
            part[1] = byte(r);
            part.push(0)
        })
    }),
    // 14
    ("14 2^47", 14, |r, d| value(r, d, HIGHEST + 1)),
    ("14 -2^47 - 1", 14, |r, d| value(r, d, LOWEST - 1)),
    ("14 2^63 - 1", 14, |r, d| value(r, d, i64::MAX)),
    ("14 -2^63", 14, |r, d| value(r, d, i64::MIN)),
    ("14 beyond 2^47", 14, |r, d| {
        let beyond = r.between(HIGHEST + 1, i64::MAX);
        value(r, d, beyond)
    }),
    ("14 below -2^47", 14, |r, d| {
        let beyond = r.between(i64::MIN, LOWEST - 1);
        value(r, d, beyond)
    }),
    ("14 first cell", 14, |_, d| {
        field(d, 0, |cells| {
            cells[0].0 = HIGHEST + 1;
            0
        })
    }),
    ("14 last cell", 14, |_, d| {
        field(d, 0, |cells| {
            let last = cells.len() - 1;
            cells[last].0 = LOWEST - 1;
            12 * last
        })
    }),
    ("14 before 15 in the same cell", 14, |r, d| {
        field(d, 0, |cells| {
            let place = r.below(cells.len());
            cells[place] = (HIGHEST + 1, 1);
            12 * place
        })
    }),
    ("14 before 15 in a later cell", 14, |_, d| {
        field(d, 0, |cells| {
            cells[1].1 = 1;
            cells[0].0 = LOWEST - 1;
            0
        })
    }),
    ("14 before 13 in a later table", 14, |_, d| {
        let mut d = three_parts(d);
        d.tables[0] = RawTable::new(1, vec![(HIGHEST + 1, 0)]);
        let mut parts = d.parts();
        parts[2][0] = 0;
        (d.assembled(&parts), part_offset(&parts, 1) + 4)
    }),
    ("14 before 16", 14, |r, mut d| {
        d.steps.clear();
        value(r, d, HIGHEST + 1)
    }),
    ("14 before 20, byte 1", 14, |r, d| {
        let beyond = outside(r);
        let d = no_column(r, d);
        value(r, d, beyond)
    }),
    ("14 before 20, the sheet itself", 14, |r, d| {
        let beyond = outside(r);
        sheet(r, d, Row::Any, |_, cell| cell.0 = beyond).at_cell(0)
    }),
    ("14 before 20, a negative sheet before it", 14, |r, d| {
        let beyond = outside(r);
        sheet(r, d, Row::First, |_, cell| cell.0 = -1).behind(|cell| cell.0 = beyond, 0)
    }),
    // 15
    ("15 bit 22", 15, |r, d| word(r, d, 0x0040_0000)),
    ("15 bit 21", 15, |r, d| word(r, d, 0x0020_0000)),
    ("15 bit 15", 15, |r, d| word(r, d, 0x0000_8000)),
    ("15 bit 14", 15, |r, d| word(r, d, 0x0000_4000)),
    ("15 bit 13", 15, |r, d| word(r, d, 0x0000_2000)),
    ("15 bit 13 with every stage", 15, |r, d| word(r, d, 0xFF9F_2402)),
    ("15 band without T", 15, |r, d| word(r, d, 0x0800_0000)),
    ("15 cut without T", 15, |r, d| word(r, d, 0x0400_0400)),
    ("15 sub without T", 15, |r, d| word(r, d, 0x0200_0000)),
    ("15 add without T", 15, |r, d| word(r, d, 0x0100_0000)),
    ("15 digits without T", 15, |r, d| word(r, d, 0x0000_0400)),
    ("15 cut, digits 0", 15, |r, d| word(r, d, 0x4400_0000)),
    ("15 cut, digits 7", 15, |r, d| word(r, d, 0x4400_1C00)),
    ("15 digits without cut", 15, |r, d| {
        let digits = 1 + r.below(7) as u32;
        word(r, d, 0x4B00_0000 + (digits << 10))
    }),
    ("15 avg without A", 15, |r, d| word(r, d, 0x0010_0000)),
    ("15 max without A", 15, |r, d| word(r, d, 0x0008_0000)),
    ("15 min without A", 15, |r, d| word(r, d, 0x0004_0000)),
    ("15 sum without A", 15, |r, d| word(r, d, 0x0002_0000)),
    ("15 count without A", 15, |r, d| word(r, d, 0x0001_0000)),
    ("15 minimum without A", 15, |r, d| {
        let minimum = 1 + r.below(1023) as u32;
        word(r, d, minimum)
    }),
    ("15 A, minimum 0", 15, |r, d| word(r, d, 0x2003_0000)),
    ("15 A alone", 15, |r, d| word(r, d, 0x2000_0000)),
    ("15 noise without N", 15, |r, d| word(r, d, 0x0080_0000)),
    ("15 all ones", 15, |r, d| word(r, d, 0xFFFF_FFFF)),
    ("15 before 14 in a later cell", 15, |_, d| {
        field(d, 0, |cells| {
            cells[1].0 = HIGHEST + 1;
            cells[0].1 = 1;
            8
        })
    }),
    ("15 second table", 15, |r, d| {
        field(d, 1, |cells| {
            let place = r.below(cells.len());
            cells[place].1 = 1;
            12 * place + 8
        })
    }),
    ("15 before 16", 15, |r, mut d| {
        d.steps.clear();
        word(r, d, 1)
    }),
    ("15 before 20, byte 1", 15, |r, d| {
        let d = no_column(r, d);
        word(r, d, 1)
    }),
    ("15 before 20, the sheet itself", 15, |r, d| {
        sheet(r, d, Row::Any, |_, cell| cell.1 = 1).at_cell(8)
    }),
    ("15 before 20, a negative sheet before it", 15, |r, d| {
        sheet(r, d, Row::First, |_, cell| cell.0 = -1).behind(|cell| cell.1 = 1, 8)
    }),
    ("15 before 20, a labelled sheet before it", 15, |r, d| {
        sheet(r, d, Row::First, |_, cell| cell.1 = 1 << 31).behind(|cell| cell.1 = 1, 8)
    }),
    // 20
    ("20 byte 1, one past the columns", 20, |r, d| part(r, d, |_, part| part[1] = part[0] + 1)),
    ("20 byte 1, any past the columns", 20, |r, d| {
        part(r, d, |r, part| part[1] = 1 + past(r, part[0] as usize).min(254))
    }),
    ("20 byte 1, 255", 20, |r, d| part(r, d, |_, part| part[1] = 255)),
    ("20 byte 1, one past the columns, no rows", 20, |r, d| {
        part(r, d, |_, part| *part = vec![part[0], part[0] + 1, 0, 0])
    }),
    ("20 byte 1, 255, no rows", 20, |r, d| part(r, d, |_, part| *part = vec![part[0], 255, 0, 0])),
    ("20 byte 1, 9 of 8 columns", 20, |r, d| {
        part(r, d, |r, part| {
            *part = raw_table(8, r.below(3));
            part[1] = 9
        })
    }),
    ("20 sheet -1", 20, |r, d| sheet(r, d, Row::Any, |_, cell| cell.0 = -1).at_part()),
    ("20 sheet -2^47", 20, |r, d| sheet(r, d, Row::Any, |_, cell| cell.0 = LOWEST).at_part()),
    ("20 sheet below zero", 20, |r, d| {
        sheet(r, d, Row::Any, |r, cell| cell.0 = r.between(LOWEST, -1)).at_part()
    }),
    ("20 sheet labelled", 20, |r, d| {
        sheet(r, d, Row::Any, |r, cell| cell.1 = label(r, 3)).at_part()
    }),
    ("20 sheet labelled H alone", 20, |r, d| {
        sheet(r, d, Row::Any, |_, cell| cell.1 = 1 << 31).at_part()
    }),
    ("20 sheet labelled A, minimum 2", 20, |r, d| {
        sheet(r, d, Row::Any, |_, cell| cell.1 = 0x2001_0002).at_part()
    }),
    ("20 sheet labelled N that allows noise", 20, |r, d| {
        sheet(r, d, Row::Any, |_, cell| cell.1 = NOISY).at_part()
    }),
    ("20 sheet below zero and labelled", 20, |r, d| {
        sheet(r, d, Row::Any, |r, cell| *cell = (-1, label(r, 3))).at_part()
    }),
    ("20 sheet of the first row", 20, |r, d| sheet(r, d, Row::First, spoil).at_part()),
    ("20 sheet of the last row", 20, |r, d| sheet(r, d, Row::Last, spoil).at_part()),
    ("20 sheet of row 255", 20, |r, mut d| {
        let columns = 1 + r.below(3);
        d.tables = vec![RawTable::new(columns, vec![(0, 0); 256 * columns])];
        sheet(r, d, Row::Last, spoil).at_part()
    }),
    ("20 second table", 20, |r, d| {
        let mut d = three_parts(d);
        d.tables[1].sheets = 9 + r.below(247) as u8;
        at_table(&d, 1)
    }),
    ("20 eighth table", 20, |r, mut d| {
        d.tables.truncate(2);
        d.tables.resize(7, RawTable { sheets: 1, ..RawTable::new(1, vec![(3, 0)]) });
        d.tables.push(RawTable { sheets: 1, ..RawTable::new(1, vec![(r.pick(&[-1, -9]), 0)]) });
        at_table(&d, 7)
    }),
    ("20 table that no step scans", 20, |r, mut d| {
        d.steps = vec![step(1, 0, 0, 0, 0, 0)];
        d.tables.truncate(1);
        d.tables.push(RawTable { sheets: 1, ..RawTable::new(1, vec![(r.between(-9, -1), 0)]) });
        at_table(&d, 1)
    }),
    ("20 first of two tables", 20, |r, d| {
        let mut d = three_parts(no_column(r, d));
        d.tables[1].sheets = 255;
        at_table(&d, 0)
    }),
    ("20 before 13 in a later table", 20, |r, d| {
        let d = three_parts(no_column(r, d));
        let mut parts = d.parts();
        parts[2][0] = 0;
        (d.assembled(&parts), part_offset(&parts, 1))
    }),
    ("20 before 14 in a later table", 20, |r, d| {
        let mut d = three_parts(no_column(r, d));
        d.tables[1] = RawTable::new(1, vec![(outside(r), 0)]);
        at_table(&d, 0)
    }),
    ("20 before 15 in a later table", 20, |r, d| {
        let mut d = three_parts(no_column(r, d));
        d.tables[1] = RawTable::new(1, vec![(0, 1)]);
        at_table(&d, 0)
    }),
    ("20 before 16", 20, |r, d| before_steps(r, d, &[])),
    ("20 before 17", 20, |r, d| before_steps(r, d, &[RawStep::default()])),
    ("20 before 18", 20, |r, d| before_steps(r, d, &[step(2, 0, 0, 0, 0, 0)])),
    ("20 before 18 at the plan's end", 20, |r, d| before_steps(r, d, &[step(1, 0, 0, 0, 0, 0); 2])),
    ("20 before 19", 20, |r, d| before_steps(r, d, &[step(1, 255, 0, 0, 0, 0)])),
    // 16
    ("16 no step", 16, |_, mut d| {
        d.steps.clear();
        plan(d, |_| ())
    }),
    ("16 65 steps", 16, |_, mut d| {
        let last = *d.steps.last().unwrap();
        d.steps.resize(65, last);
        plan(d, |_| ())
    }),
    ("16 one byte more", 16, |_, mut d| {
        d.steps.truncate(63);
        plan(d, |part| part.push(0))
    }),
    ("16 one byte less", 16, |_, d| plan(d, |part| part.truncate(part.len() - 1))),
    ("16 fifteen bytes", 16, |_, d| plan(d, |part| part.truncate(15))),
    ("16 64 steps and a byte", 16, |_, mut d| {
        let last = *d.steps.last().unwrap();
        d.steps.resize(64, last);
        plan(d, |part| part.push(0))
    }),
    ("16 before 17", 16, |_, d| {
        plan(d, |part| {
            part[0] = 0;
            part.truncate(part.len() - 1)
        })
    }),
    // 17
    ("17 kind 0", 17, |r, d| bad(r, d, 5, |_, s| s.kind = 0)),
    ("17 kind 9", 17, |r, d| bad(r, d, 8, |_, s| s.kind = 9)),
    ("17 kind 255", 17, |r, d| bad(r, d, 1, |_, s| s.kind = 255)),
    ("17 SCAN b", 17, |r, d| bad(r, d, 1, |r, s| s.b = byte(r))),
    ("17 SCAN c", 17, |r, d| bad(r, d, 1, |r, s| s.c = byte(r))),
    ("17 SCAN d", 17, |r, d| bad(r, d, 1, |r, s| s.d = byte(r))),
    ("17 SCAN constant", 17, |r, d| bad(r, d, 1, |r, s| s.constant = not_zero(r))),
    ("17 UNION a", 17, |r, d| bad(r, d, 2, |r, s| s.a = byte(r))),
    ("17 UNION b", 17, |r, d| bad(r, d, 2, |r, s| s.b = byte(r))),
    ("17 UNION c", 17, |r, d| bad(r, d, 2, |r, s| s.c = byte(r))),
    ("17 UNION d", 17, |r, d| bad(r, d, 2, |r, s| s.d = byte(r))),
    ("17 UNION constant", 17, |r, d| bad(r, d, 2, |r, s| s.constant = not_zero(r))),
    ("17 JOIN c", 17, |r, d| bad(r, d, 3, |r, s| s.c = byte(r))),
    ("17 JOIN d", 17, |r, d| bad(r, d, 3, |r, s| s.d = byte(r))),
    ("17 JOIN constant", 17, |r, d| bad(r, d, 3, |r, s| s.constant = not_zero(r))),
    ("17 FILTER b 6", 17, |r, d| bad(r, d, 4, |_, s| s.b = 6)),
    ("17 FILTER b", 17, |r, d| bad(r, d, 4, |r, s| s.b = r.between(6, 255) as u8)),
    ("17 FILTER c 2", 17, |r, d| bad(r, d, 4, |_, s| s.c = 2)),
    ("17 FILTER c", 17, |r, d| bad(r, d, 4, |r, s| s.c = r.between(2, 255) as u8)),
    ("17 FILTER d unused", 17, |r, d| {
        bad(r, d, 4, |r, s| {
            s.c = 0;
            s.d = byte(r)
        })
    }),
    ("17 FILTER constant unused", 17, |r, d| {
        bad(r, d, 4, |r, s| {
            s.c = 1;
            s.constant = not_zero(r)
        })
    }),
    ("17 FILTER constant 2^47", 17, |r, d| bad(r, d, 4, |_, s| constant(s, HIGHEST + 1))),
    ("17 FILTER constant -2^47 - 1", 17, |r, d| bad(r, d, 4, |_, s| constant(s, LOWEST - 1))),
    ("17 FILTER constant beyond", 17, |r, d| bad(r, d, 4, |r, s| constant(s, outside(r)))),
    ("17 KEEP zero mask", 17, |r, d| bad(r, d, 5, |_, s| s.a = 0)),
    ("17 KEEP b", 17, |r, d| bad(r, d, 5, |r, s| s.b = byte(r))),
    ("17 KEEP c", 17, |r, d| bad(r, d, 5, |r, s| s.c = byte(r))),
    ("17 KEEP d", 17, |r, d| bad(r, d, 5, |r, s| s.d = byte(r))),
    ("17 KEEP constant", 17, |r, d| bad(r, d, 5, |r, s| s.constant = not_zero(r))),
    ("17 APPLY b 4", 17, |r, d| bad(r, d, 6, |_, s| s.b = 4)),
    ("17 APPLY b", 17, |r, d| bad(r, d, 6, |r, s| s.b = r.between(4, 255) as u8)),
    ("17 APPLY c 2", 17, |r, d| bad(r, d, 6, |_, s| s.c = 2)),
    ("17 APPLY c", 17, |r, d| bad(r, d, 6, |r, s| s.c = r.between(2, 255) as u8)),
    ("17 APPLY d unused", 17, |r, d| {
        bad(r, d, 6, |r, s| {
            s.c = 0;
            s.d = byte(r)
        })
    }),
    ("17 APPLY constant unused", 17, |r, d| {
        bad(r, d, 6, |r, s| {
            s.c = 1;
            s.b = r.below(2) as u8;
            s.constant = not_zero(r)
        })
    }),
    ("17 add 2^47", 17, |r, d| apply(r, d, 0, HIGHEST + 1)),
    ("17 add -2^47 - 1", 17, |r, d| apply(r, d, 0, LOWEST - 1)),
    ("17 sub 2^47", 17, |r, d| apply(r, d, 1, HIGHEST + 1)),
    ("17 sub -2^47 - 1", 17, |r, d| apply(r, d, 1, LOWEST - 1)),
    ("17 add or sub beyond", 17, |r, d| {
        let (code, beyond) = (r.below(2) as u8, outside(r));
        apply(r, d, code, beyond)
    }),
    ("17 cut 0", 17, |r, d| apply(r, d, 2, 0)),
    ("17 cut 7", 17, |r, d| apply(r, d, 2, 7)),
    ("17 cut -1", 17, |r, d| apply(r, d, 2, -1)),
    ("17 cut 257", 17, |r, d| apply(r, d, 2, 257)),
    ("17 cut 2^32 + 1", 17, |r, d| apply(r, d, 2, (1 << 32) + 1)),
    ("17 cut 2^63 - 1", 17, |r, d| apply(r, d, 2, i64::MAX)),
    ("17 band 0", 17, |r, d| apply(r, d, 3, 0)),
    ("17 band -1", 17, |r, d| apply(r, d, 3, -1)),
    ("17 band 2^47", 17, |r, d| apply(r, d, 3, HIGHEST + 1)),
    ("17 band -2^63", 17, |r, d| apply(r, d, 3, i64::MIN)),
    ("17 cut with a column", 17, |r, d| column_operand(r, d, 2)),
    ("17 band with a column", 17, |r, d| column_operand(r, d, 3)),
    ("17 GROUP b 5", 17, |r, d| bad(r, d, 7, |_, s| s.b = 5)),
    ("17 GROUP b", 17, |r, d| bad(r, d, 7, |r, s| s.b = r.between(5, 255) as u8)),
    ("17 GROUP d", 17, |r, d| bad(r, d, 7, |r, s| s.d = byte(r))),
    ("17 GROUP constant", 17, |r, d| bad(r, d, 7, |r, s| s.constant = not_zero(r))),
    ("17 NOISE b", 17, |r, d| bad(r, d, 8, |r, s| s.b = byte(r))),
    ("17 NOISE c", 17, |r, d| bad(r, d, 8, |r, s| s.c = byte(r))),
    ("17 NOISE d", 17, |r, d| bad(r, d, 8, |r, s| s.d = byte(r))),
    ("17 NOISE, first zero byte", 17, |r, d| bad(r, d, 8, |r, s| s.zero[0] = byte(r))),
    ("17 NOISE, second zero byte", 17, |r, d| bad(r, d, 8, |r, s| s.zero[1] = byte(r))),
    ("17 NOISE, third zero byte", 17, |r, d| bad(r, d, 8, |r, s| s.zero[2] = byte(r))),
    ("17 NOISE constant", 17, |r, d| bad(r, d, 8, |r, s| s.constant = not_zero(r))),
    ("17 first zero byte, kinds 1 to 8", 17, |r, d| zero_byte(r, d, 0)),
    ("17 second zero byte, kinds 1 to 8", 17, |r, d| zero_byte(r, d, 1)),
    ("17 third zero byte, kinds 1 to 8", 17, |r, d| zero_byte(r, d, 2)),
    ("17 before 18 in the same step", 17, |_, mut d| {
        let rest = std::mem::take(&mut d.steps);
        let mut wrong = step(2, 0, 0, 0, 0, 0);
        wrong.zero[1] = 1;
        insert(d, wrong, rest)
    }),
    ("17 before 19 in the same step", 17, |r, d| {
        bad(r, d, 1, |_, s| {
            s.a = 200;
            s.b = 1
        })
    }),
    ("17 before 18 in the same step, NOISE", 17, |r, mut d| {
        let rest = std::mem::take(&mut d.steps);
        insert(d, step(8, 0, 0, 0, byte(r), 0), rest)
    }),
    ("17 before 19 in the same step, NOISE", 17, |r, d| {
        wide(r, d, |r| step(8, r.below(8) as u8, 0, 0, 0, not_zero(r)))
    }),
    // 18
    ("18 UNION on none", 18, |r, d| shallow(r, d, 2, 0)),
    ("18 UNION on one", 18, |r, d| shallow(r, d, 2, 1)),
    ("18 JOIN on none", 18, |r, d| shallow(r, d, 3, 0)),
    ("18 JOIN on one", 18, |r, d| shallow(r, d, 3, 1)),
    ("18 FILTER on none", 18, |r, d| shallow(r, d, 4, 0)),
    ("18 KEEP on none", 18, |r, d| shallow(r, d, 5, 0)),
    ("18 APPLY on none", 18, |r, d| shallow(r, d, 6, 0)),
    ("18 GROUP on none", 18, |r, d| shallow(r, d, 7, 0)),
    ("18 NOISE on none", 18, |r, d| shallow(r, d, 8, 0)),
    ("18 SCAN onto three", 18, |r, mut d| {
        let (_, rest) = prefix(r, &mut d, 3);
        let scan = any_step(r, 1, &[], d.tables.len());
        insert(d, scan, rest)
    }),
    ("18 two tables left", 18, |r, d| left_over(r, d, 2)),
    ("18 three tables left", 18, |r, d| left_over(r, d, 3)),
    ("18 before 19 in the same step, SCAN", 18, |r, mut d| {
        let (_, rest) = prefix(r, &mut d, 3);
        insert(d, step(1, 200, 0, 0, 0, 0), rest)
    }),
    ("18 before 19 in the same step", 18, |r, mut d| {
        let rest = std::mem::take(&mut d.steps);
        let wrong = r.pick(&[
            step(3, 200, 200, 0, 0, 0),
            step(4, 200, 0, 1, 200, 0),
            step(5, 255, 0, 0, 0, 0),
            step(6, 200, 0, 0, 0, 0),
            step(7, 255, 0, 200, 0, 0),
        ]);
        insert(d, wrong, rest)
    }),
    ("18 before 19 in the same step, NOISE", 18, |r, mut d| {
        let rest = std::mem::take(&mut d.steps);
        insert(d, step(8, past(r, 8), 0, 0, 0, 0), rest)
    }),
    ("18 before 17 in a later step", 18, |_, mut d| {
        d.steps.clear();
        insert(d, step(2, 0, 0, 0, 0, 0), vec![RawStep::default()])
    }),
    // 19
    ("19 SCAN, the table after the last", 19, |r, mut d| {
        let depth = r.below(3);
        let (_, rest) = prefix(r, &mut d, depth);
        let table = d.tables.len() as u8;
        insert(d, step(1, table, 0, 0, 0, 0), rest)
    }),
    ("19 SCAN 255", 19, |r, mut d| {
        let depth = r.below(3);
        let (_, rest) = prefix(r, &mut d, depth);
        insert(d, step(1, 255, 0, 0, 0, 0), rest)
    }),
    ("19 UNION of unequal widths", 19, |r, mut d| {
        let (shape, rest) = prefix(r, &mut d, 2);
        if shape[0] == shape[1] && shape[1] > 1 {
            d.steps.push(step(5, 1, 0, 0, 0, 0));
        } else if shape[0] == shape[1] {
            d.steps.push(step(6, 0, 0, 0, 0, 1));
        }
        insert(d, step(2, 0, 0, 0, 0, 0), rest)
    }),
    ("19 JOIN, left key", 19, |r, mut d| {
        let (shape, rest) = prefix(r, &mut d, 2);
        d.steps.push(step(5, 1, 0, 0, 0, 0));
        let key = past(r, shape[0]);
        insert(d, step(3, key, 0, 0, 0, 0), rest)
    }),
    ("19 JOIN, right key", 19, |r, mut d| {
        let (_, rest) = prefix(r, &mut d, 2);
        d.steps.push(step(5, 1, 0, 0, 0, 0));
        let key = past(r, 1);
        insert(d, step(3, 0, key, 0, 0, 0), rest)
    }),
    ("19 JOIN to nine columns", 19, |r, d| wide_join(r, d, 9)),
    ("19 JOIN to fifteen columns", 19, |r, d| wide_join(r, d, 15)),
    ("19 FILTER column", 19, |r, d| {
        with_width(r, d, |r, w| {
            let c = past(r, w);
            step(4, c, 0, 0, 0, 0)
        })
    }),
    ("19 FILTER second column", 19, |r, d| {
        with_width(r, d, |r, w| {
            let c = past(r, w);
            step(4, 0, 0, 1, c, 0)
        })
    }),
    ("19 KEEP mask", 19, |r, d| narrow(r, d, |r| step(5, 1 | 2 << r.below(7), 0, 0, 0, 0))),
    ("19 KEEP mask, the next column", 19, |r, d| narrow(r, d, |_| step(5, 2, 0, 0, 0, 0))),
    ("19 KEEP mask 255", 19, |r, d| narrow(r, d, |_| step(5, 255, 0, 0, 0, 0))),
    ("19 APPLY column", 19, |r, d| {
        narrow(r, d, |r| {
            let c = past(r, 1);
            step(6, c, r.below(3) as u8, 0, 0, 1)
        })
    }),
    ("19 APPLY second column", 19, |r, d| {
        narrow(r, d, |r| {
            let c = past(r, 1);
            step(6, 0, r.below(2) as u8, 1, c, 0)
        })
    }),
    ("19 APPLY to nine columns", 19, |r, d| wide(r, d, |r| step(6, r.below(8) as u8, 0, 0, 0, 1))),
    ("19 GROUP mask", 19, |r, d| narrow(r, d, |r| step(7, 2 << r.below(7), 1, 0, 0, 0))),
    ("19 GROUP column", 19, |r, d| {
        with_width(r, d, |r, w| {
            let c = past(r, w);
            step(7, 1, 1, c, 0, 0)
        })
    }),
    ("19 GROUP with eight keys", 19, |r, d| {
        wide(r, d, |r| step(7, 255, r.below(5) as u8, r.below(8) as u8, 0, 0))
    }),
    ("19 NOISE column", 19, |r, d| narrow(r, d, |r| step(8, past(r, 1), 0, 0, 0, 0))),
    ("19 NOISE, the next column", 19, |r, d| with_width(r, d, |_, w| step(8, w as u8, 0, 0, 0, 0))),
    ("19 NOISE to nine columns", 19, |r, d| wide(r, d, |r| step(8, r.below(8) as u8, 0, 0, 0, 0))),
    ("19 before 17 in a later step", 19, |_, mut d| {
        d.steps.clear();
        insert(d, step(1, 255, 0, 0, 0, 0), vec![RawStep::default()])
    }),
];

enum Which {
    First,
    Middle,
    Last,
}
enum Half {
    Offset,
    Length,
}
use Half::*;
use Which::*;

pub fn put(bytes: &mut [u8], at: usize, number: u32) {
    bytes[at..at + 4].copy_from_slice(&number.to_le_bytes());
}

fn count(d: Draft, count: u8, year: u8) -> Made {
    let mut bytes = d.bytes();
    bytes[..2].copy_from_slice(&[count, year]);
    (bytes, 0)
}

fn year(d: Draft, year: u8) -> Made {
    (Draft { year, ..d }.bytes(), 0)
}

/// The container made this long by its last table, whose offset is the place.
fn padded(d: Draft, length: usize) -> Made {
    let mut parts = d.parts();
    let last = parts.len() - 1;
    let whole = d.assembled(&parts).len();
    let size = parts[last].len() + length.max(whole + 1) - whole;
    parts[last].resize(size, 0);
    (d.assembled(&parts), part_offset(&parts, last))
}

/// With two tables at least.
fn three_parts(mut d: Draft) -> Draft {
    if d.tables.len() == 1 {
        d.tables.push(RawTable::new(1, vec![(3, 0)]));
    }
    d
}

fn pair(rng: &mut Rng, d: Draft, which: Which, half: Half) -> Made {
    let last = d.tables.len();
    let index = match which {
        First => 0,
        Middle => 1 + rng.below(last - 1),
        Last => last,
    };
    let mut bytes = d.bytes();
    let change = match rng.below(3) {
        0 => 1,
        1 => u32::MAX,
        _ => 1 + rng.below(1 << 31) as u32,
    };
    let at = 2 + 8 * index + if matches!(half, Offset) { 0 } else { 4 };
    let old = u32::from_le_bytes(bytes[at..at + 4].try_into().unwrap());
    put(&mut bytes, at, old.wrapping_add(change));
    // A wrong length shows at the next pair, or at the end.
    let place = if matches!(half, Offset) { index } else { (index + 1).min(last) };
    (bytes, 2 + 8 * place)
}

/// Header and zero cells, clear.
fn raw_table(columns: usize, rows: usize) -> Vec<u8> {
    RawTable::new(columns, vec![(0, 0); rows * columns]).bytes()
}

/// Changes the part of one table.
fn part(rng: &mut Rng, d: Draft, change: fn(&mut Rng, &mut Vec<u8>)) -> Made {
    let mut parts = d.parts();
    let index = 1 + rng.below(d.tables.len());
    change(rng, &mut parts[index]);
    (d.assembled(&parts), part_offset(&parts, index))
}

fn one_table(rng: &mut Rng, mut d: Draft, change: fn(&mut Rng, &mut Vec<u8>)) -> Made {
    d.tables.truncate(1);
    part(rng, d, change)
}

/// Changes cells of a table that has two at least; the change answers the
/// place of the field from the first cell.
fn field(d: Draft, table: usize, change: impl FnOnce(&mut Vec<(i64, u32)>) -> usize) -> Made {
    let mut d = three_parts(d);
    if d.tables[table].cells.len() < 2 {
        d.tables[table].columns = 2;
        d.tables[table].cells = vec![(1, 0), (2, 0), (3, 0), (4, 0)];
    }
    let place = change(&mut d.tables[table].cells);
    let parts = d.parts();
    (d.assembled(&parts), part_offset(&parts, table + 1) + 4 + place)
}

fn value(rng: &mut Rng, d: Draft, wrong: i64) -> Made {
    field(d, 0, |cells| {
        let place = rng.below(cells.len());
        cells[place].0 = wrong;
        12 * place
    })
}

fn word(rng: &mut Rng, d: Draft, wrong: u32) -> Made {
    field(d, 0, |cells| {
        let place = rng.below(cells.len());
        cells[place].1 = wrong;
        12 * place + 8
    })
}

fn plan(d: Draft, change: impl Fn(&mut Vec<u8>)) -> Made {
    let mut parts = d.parts();
    change(&mut parts[0]);
    let offset = part_offset(&parts, 0);
    (d.assembled(&parts), offset)
}
