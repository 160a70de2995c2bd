//! The product, called as include/cilunovay.h declares it, and the reference on
//! the same slices. This is the one place to change when the interface does.
//!
//! Built with `--cfg reference_only` there is no product: the reference takes
//! its place, so that nothing is compared with anything else. That is of use
//! only to tune the generator and its classes.

use crate::lent::{Input, Lent};

/// The elements that the answer of a run needs, that of the input checks, and that of
/// a conversion.
pub const RUN_ANSWER: usize = 4;
pub const CHECK_ANSWER: usize = 2;
pub const CONVERT_ANSWER: usize = 2;

#[cfg(not(reference_only))]
extern "C" {
    fn cilunovay_run(
        container: *const u8,
        container_len: usize,
        draws: *const i64,
        draws_len: usize,
        overlay_0: *const u8,
        overlay_0_len: usize,
        overlay_1: *const u8,
        overlay_1_len: usize,
        overlay_2: *const u8,
        overlay_2_len: usize,
        overlay_3: *const u8,
        overlay_3_len: usize,
        values: *mut i64,
        values_len: usize,
        labels: *mut u32,
        labels_len: usize,
        marks: *mut u64,
        marks_len: usize,
        output: *mut i64,
        output_len: usize,
        trace: *mut u32,
        trace_len: usize,
        text: *mut u8,
        text_len: usize,
        answer: *mut u64,
        answer_len: usize,
    ) -> u32;

    fn cilunovay_check(
        container: *const u8,
        container_len: usize,
        answer: *mut u64,
        answer_len: usize,
    ) -> u32;

    fn cilunovay_convert(
        container: *const u8,
        container_len: usize,
        converted: *mut u8,
        converted_len: usize,
        offsets: *mut u32,
        offsets_len: usize,
        answer: *mut u64,
        answer_len: usize,
    ) -> u32;
}

/// Runs the product; answers what the function itself answers.
#[cfg(not(reference_only))]
pub fn call_run(lent: &mut Lent, answer: &mut [u64]) -> u32 {
    let (input, (values, labels, marks, output, trace, text)) = lent.slices();
    // Each pointer comes from a slice of the length given with it.
    unsafe {
        cilunovay_run(
            input.container.as_ptr(),
            input.container.len(),
            input.draws.as_ptr(),
            input.draws.len(),
            input.overlays[0].as_ptr(),
            input.overlays[0].len(),
            input.overlays[1].as_ptr(),
            input.overlays[1].len(),
            input.overlays[2].as_ptr(),
            input.overlays[2].len(),
            input.overlays[3].as_ptr(),
            input.overlays[3].len(),
            values.as_mut_ptr(),
            values.len(),
            labels.as_mut_ptr(),
            labels.len(),
            marks.as_mut_ptr(),
            marks.len(),
            output.as_mut_ptr(),
            output.len(),
            trace.as_mut_ptr(),
            trace.len(),
            text.as_mut_ptr(),
            text.len(),
            answer.as_mut_ptr(),
            answer.len(),
        )
    }
}

#[cfg(not(reference_only))]
pub fn call_check(container: &[u8], answer: &mut [u64]) -> u32 {
    // Each pointer comes from a slice of the length given with it.
    unsafe {
        cilunovay_check(container.as_ptr(), container.len(), answer.as_mut_ptr(), answer.len())
    }
}

#[cfg(not(reference_only))]
pub fn call_convert(
    container: &[u8],
    converted: &mut [u8],
    offsets: &mut [u32],
    answer: &mut [u64],
) -> u32 {
    // Each pointer comes from a slice of the length given with it.
    unsafe {
        cilunovay_convert(
            container.as_ptr(),
            container.len(),
            converted.as_mut_ptr(),
            converted.len(),
            offsets.as_mut_ptr(),
            offsets.len(),
            answer.as_mut_ptr(),
            answer.len(),
        )
    }
}

#[cfg(reference_only)]
pub fn call_run(lent: &mut Lent, answer: &mut [u64]) -> u32 {
    if answer.len() < RUN_ANSWER {
        return 1;
    }
    let numbers = by_reference(lent);
    answer[..RUN_ANSWER].copy_from_slice(&numbers.map(u64::from));
    numbers[0]
}

/// Runs the reference in the same slices; answers its numbers.
pub fn by_reference(lent: &mut Lent) -> [u32; RUN_ANSWER] {
    let (input, (values, labels, marks, output, trace, text)) = lent.slices();
    let Input { container, draws, overlays } = input;
    crate::reference::run(container, draws, &overlays, values, labels, marks, output, trace, text)
        .numbers()
}

#[cfg(reference_only)]
pub fn call_check(container: &[u8], answer: &mut [u64]) -> u32 {
    if answer.len() < CHECK_ANSWER {
        return 1;
    }
    let numbers = match crate::reference::check(container) {
        Ok(()) => [0, 0],
        Err(refusal) => [refusal.fault.number(), refusal.offset as u32],
    };
    answer[..CHECK_ANSWER].copy_from_slice(&numbers.map(u64::from));
    numbers[0]
}

#[cfg(reference_only)]
pub fn call_convert(
    container: &[u8],
    converted: &mut [u8],
    offsets: &mut [u32],
    answer: &mut [u64],
) -> u32 {
    if answer.len() < CONVERT_ANSWER {
        return 1;
    }
    let numbers = crate::reference::convert(container, converted, offsets).numbers();
    answer[..CONVERT_ANSWER].copy_from_slice(&numbers.map(u64::from));
    numbers[0]
}
