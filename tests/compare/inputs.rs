//! What a run is given: a container of one rule year or the other, valid, valid before
//! #107, near-valid or damaged, with draws and overlays.

use crate::damage::DAMAGES;
use crate::draft::{assemble, overlay_parts, Draft, RawTable};
use crate::generate;
use crate::lent::Input;
use crate::old_rule;
use crate::overlays::{one_on_top, zeros};
use crate::rng::Rng;
use crate::wrong_overlays::{prepared, WRONG_OVERLAYS};
use crate::wrong_sheets::{sheet, Row};

/// The number and the offset that something was made for, and its class.
pub type Expected = (&'static str, u32, usize);

/// What a conversion answers: the offsets of the labels changed, or the number and
/// the offset of its refusal.
pub type Conversion = Result<Vec<usize>, (u32, usize)>;

pub struct Given {
    pub container: Vec<u8>,
    pub draws: Vec<i64>,
    pub overlays: [Vec<u8>; 4],
    pub expected: Option<Expected>,
    /// One of the overlays is refused where the container is accepted.
    pub wrong: bool,
    /// Two slices for overlays, and what is told when they are exchanged.
    pub exchanged: Option<(usize, usize, Expected)>,
    /// What the conversion of the container is to answer, where that is known.
    pub conversion: Option<Conversion>,
}

impl Given {
    fn of(draft: &Draft) -> Given {
        Given {
            container: draft.bytes(),
            draws: draft.draws.clone(),
            overlays: draft.overlay_bytes(),
            expected: None,
            wrong: false,
            exchanged: None,
            conversion: Some(match draft.year {
                0 => Ok(old_rule::offsets(draft)),
                _ => Err((11, 0)),
            }),
        }
    }

    pub fn input(&self) -> Input<'_> {
        Input {
            container: &self.container,
            draws: &self.draws,
            overlays: self.overlays.each_ref().map(|overlay| &overlay[..]),
        }
    }
}

pub fn make(rng: &mut Rng) -> Given {
    let draft = generate::valid(rng);
    match rng.below(100) {
        0..=48 => Given::of(&draft),
        49..=55 => stored(rng, draft),
        56..=83 => near_valid(rng, draft),
        84..=93 => with_wrong_overlay(rng, draft),
        _ => damaged(rng, draft),
    }
}

/// A draft of no more bytes than these.
fn at_most(rng: &mut Rng, bytes: usize, mut draft: Draft) -> Draft {
    while draft.bytes().len() > bytes {
        draft = generate::valid(rng);
    }
    draft
}

/// A container that was accepted before #107, mostly, and is refused with 15 until it
/// is converted.
fn stored(rng: &mut Rng, mut draft: Draft) -> Given {
    // A few have a rule year, which no container had then.
    draft.year = rng.chance(15) as u8;
    match rng.below(100) {
        0..=1 => with_ones(old_rule::fullest(rng)),
        2..=11 => sheet_with_one(rng, draft),
        12..=24 => with_ones(old_rule::single_ballots(rng)),
        25..=34 => stored_with_wrong_overlay(rng, draft),
        _ => {
            old_rule::put(rng, &mut draft);
            with_ones(draft)
        }
    }
}

fn with_ones(draft: Draft) -> Given {
    let first = old_rule::offsets(&draft)[0];
    let class = match draft.year {
        0 => "15 minimum 1, until converted",
        _ => "15 minimum 1 in the year 1, not converted",
    };
    Given { expected: Some((class, 15, first)), ..Given::of(&draft) }
}

/// Refused with 21 or 22 once it is converted.
fn stored_with_wrong_overlay(rng: &mut Rng, draft: Draft) -> Given {
    let draft = at_most(rng, 50_000, draft);
    let mut draft = prepared(rng, draft);
    let mut given = Given::of(&draft);
    put_wrong(rng, &draft.tables, &mut given);
    old_rule::put(rng, &mut draft);
    Given { overlays: given.overlays, wrong: true, ..with_ones(draft) }
}

/// A label with minimum 1 on a sheet number, which was refused before as well.
fn sheet_with_one(rng: &mut Rng, draft: Draft) -> Given {
    let draft = Draft { year: 0, ..draft };
    let given = Given::of(&draft);
    let spoiled = sheet(rng, draft, Row::Any, |_, cell| cell.1 = 0x2001_0001);
    let ((bytes, field), part) = (spoiled.at_cell(8), spoiled.at_part().1);
    Given {
        container: bytes,
        expected: Some(("15 minimum 1 on a sheet number", 15, field)),
        conversion: Some(Err((20, part))),
        ..given
    }
}

/// A container that is refused, whatever the overlays are. One that has minima of 1
/// besides is refused by the old check as it was made for.
fn near_valid(rng: &mut Rng, draft: Draft) -> Given {
    let mut draft = at_most(rng, 50_000, draft);
    let wrong = rng.chance(40);
    if wrong {
        draft = prepared(rng, draft);
    }
    let mut given = Given::of(&draft);
    if wrong {
        put_wrong(rng, &draft.tables, &mut given);
    }
    let ones = rng.chance(25);
    if ones {
        old_rule::put(rng, &mut draft);
    }
    let (class, number, make) = DAMAGES[rng.below(DAMAGES.len())];
    let year = draft.year;
    let (bytes, offset) = make(rng, draft);
    Given {
        container: bytes,
        expected: if ones { None } else { Some((class, number, offset)) },
        exchanged: None,
        conversion: Some(Err(if year == 0 { (number, offset) } else { (11, 0) })),
        ..given
    }
}

/// An accepted container, of whose overlays one is wrong.
fn with_wrong_overlay(rng: &mut Rng, draft: Draft) -> Given {
    let draft = at_most(rng, 50_000, draft);
    let draft = prepared(rng, draft);
    let mut given = Given::of(&draft);
    put_wrong(rng, &draft.tables, &mut given);
    given
}

fn accepted(rng: &mut Rng, tables: &[RawTable]) -> Vec<u8> {
    let labels = if rng.chance(40) { zeros(tables) } else { one_on_top(rng, tables) };
    assemble(&overlay_parts(tables, &labels))
}

/// A wrong overlay in one of the four slices, before it accepted ones or none, and
/// behind it any.
fn put_wrong(rng: &mut Rng, tables: &[RawTable], given: &mut Given) {
    given.wrong = true;
    let mut first = None;
    let start = rng.below(4);
    for slice in 0..4 {
        let wrong = slice == start || slice > start && rng.chance(35);
        given.overlays[slice] = if wrong {
            let (class, number, make) = WRONG_OVERLAYS[rng.below(WRONG_OVERLAYS.len())];
            let (bytes, offset) = make(rng, tables);
            let expected = (class, number, offset);
            match first {
                None => first = Some(expected),
                Some(_) if given.exchanged.is_none() => {
                    given.exchanged = Some((start, slice, expected))
                }
                Some(_) => (),
            }
            bytes
        } else if rng.chance(45) {
            accepted(rng, tables)
        } else {
            Vec::new()
        };
    }
    given.expected = first;
}

/// A few bytes of the container or of an overlay changed.
fn damaged(rng: &mut Rng, mut draft: Draft) -> Given {
    if rng.chance(25) {
        old_rule::put(rng, &mut draft);
    }
    let mut given = Given { conversion: None, ..Given::of(&draft) };
    let lent: Vec<usize> = (0..4).filter(|&slice| !given.overlays[slice].is_empty()).collect();
    match rng.below(10) {
        0 => given.overlays[rng.below(4)] = (0..rng.below(80)).map(|_| rng.next() as u8).collect(),
        1..=5 if !lent.is_empty() => {
            let slice = rng.pick(&lent);
            damage(rng, &mut given.overlays[slice])
        }
        _ => damage(rng, &mut given.container),
    }
    given
}

/// Changes, cuts, doubles or adds a few bytes anywhere.
fn damage(rng: &mut Rng, bytes: &mut Vec<u8>) {
    for _ in 0..1 + rng.below(4) {
        let at = rng.below(bytes.len().max(1));
        match rng.below(10) {
            0 => bytes.truncate(at),
            1 => bytes.insert(at, rng.next() as u8),
            2 if at + 1 < bytes.len() => {
                bytes.remove(at);
            }
            3 => bytes.extend_from_within(at..),
            4 => *bytes = (0..rng.below(200)).map(|_| rng.next() as u8).collect(),
            // The plan and the directory are small beside the tables.
            5..=7 if !bytes.is_empty() => {
                let near = rng.below(bytes.len().min(200));
                bytes[near] ^= 1 << rng.below(8);
            }
            _ if at < bytes.len() => bytes[at] = rng.next() as u8,
            _ => (),
        }
    }
}
