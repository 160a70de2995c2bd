//! The product's three functions with slices for the answer that begin with a
//! known pattern: long enough, of just the length needed, and too short.

use crate::conversions::Room;
use crate::lent::Lent;
use crate::product::{call_check, call_convert, call_run};
use crate::product::{CHECK_ANSWER, CONVERT_ANSWER, RUN_ANSWER};
use crate::rng::mix;

const MARGIN: usize = 4;

fn patterned(length: usize, pattern: u64) -> Vec<u64> {
    (0..length as u64).map(|place| mix(pattern ^ place) | 1 << 40).collect()
}

/// Calls with an answer of `length` elements. The answer's first `needed` ones
/// are written, the number returned is the first of them, and the others stay.
fn whole(
    needed: usize,
    pattern: u64,
    call: impl FnOnce(&mut [u64]) -> u32,
) -> Result<Vec<u32>, String> {
    let spare = pattern as usize % 3;
    let before = patterned(needed + spare + MARGIN, pattern);
    let mut answer = before.clone();
    let returned = call(&mut answer[..needed + spare]);
    if answer[needed..] != before[needed..] {
        return Err(format!("answer written past its {needed} elements: {answer:?}"));
    }
    if u64::from(returned) != answer[0] {
        return Err(format!("returned {returned}, answer {:?}", &answer[..needed]));
    }
    let numbers = answer[..needed].iter().map(|&number| u32::try_from(number));
    numbers.collect::<Result<_, _>>().map_err(|_| format!("answer {:?}", &answer[..needed]))
}

/// Calls with an answer too short: the number is 1 and the answer stays.
fn short(needed: usize, pattern: u64, mut call: impl FnMut(&mut [u64]) -> u32) -> Result<(), String> {
    for length in 0..needed {
        let before = patterned(length + MARGIN, pattern);
        let mut answer = before.clone();
        let returned = call(&mut answer[..length]);
        if returned != 1 || answer != before {
            return Err(format!("answer of {length} elements: returned {returned}, {answer:?}"));
        }
    }
    Ok(())
}

/// Whatever is lent for reading stays as it is.
fn only_read<R>(
    lent: &mut Lent,
    run: impl FnOnce(&mut Lent) -> Result<R, String>,
) -> Result<R, String> {
    let before = lent.read.clone();
    let result = run(lent)?;
    if lent.read != before {
        return Err("a run changed its container, its draws or its overlays".into());
    }
    Ok(result)
}

pub fn run(lent: &mut Lent, pattern: u64) -> Result<[u32; RUN_ANSWER], String> {
    let numbers =
        only_read(lent, |lent| whole(RUN_ANSWER, pattern, |answer| call_run(lent, answer)))?;
    Ok(numbers.try_into().unwrap())
}

pub fn check(container: &[u8], pattern: u64) -> Result<[u32; CHECK_ANSWER], String> {
    let read = container.to_vec();
    let numbers = whole(CHECK_ANSWER, pattern, |answer| call_check(&read, answer))?;
    if read != container {
        return Err("the input checks changed their container".into());
    }
    Ok(numbers.try_into().unwrap())
}

/// `lent` is to be unchanged afterwards.
pub fn short_run(lent: &mut Lent, pattern: u64) -> Result<(), String> {
    only_read(lent, |lent| short(RUN_ANSWER, pattern, |answer| call_run(lent, answer)))
}

pub fn short_check(container: &[u8], pattern: u64) -> Result<(), String> {
    short(CHECK_ANSWER, pattern, |answer| call_check(container, answer))
}

pub fn convert(
    container: &[u8],
    room: &mut Room,
    pattern: u64,
) -> Result<[u32; CONVERT_ANSWER], String> {
    let read = container.to_vec();
    let (converted, offsets) = room.slices();
    let call = |answer: &mut [u64]| call_convert(&read, converted, offsets, answer);
    let numbers = whole(CONVERT_ANSWER, pattern, call)?;
    if read != container {
        return Err("a conversion changed its container".into());
    }
    Ok(numbers.try_into().unwrap())
}

/// `room` is to be unchanged afterwards.
pub fn short_convert(container: &[u8], room: &mut Room, pattern: u64) -> Result<(), String> {
    let (converted, offsets) = room.slices();
    short(CONVERT_ANSWER, pattern, |answer| call_convert(container, converted, offsets, answer))
}
