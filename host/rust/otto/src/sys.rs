//! The calls of `libotto.a`, and over each that takes a pointer a safe one over what is lent. All
//! `unsafe` of the crate is here.
//!
//! What the library asks is that each pointer is aligned, that it points at as many values as the
//! length after it says or at one where no length comes after it, and that no two buffers of a
//! call overlap. References and slices are so by their types, for as long as the call runs, and
//! the library keeps none of them.

#![allow(unsafe_code)]

use crate::values::{OUTPUT_VALUES, RECORD_WORDS};
use crate::{Import, Refusal};

unsafe extern "C" {
    fn otto_reset(record: *mut u32, words: usize) -> u32;
    fn otto_write(record: *mut u32, words: usize, address: u32, value: u8) -> u32;
    fn otto_read(record: *mut u32, words: usize, address: u32, byte: *mut u8) -> u32;
    fn otto_set_pot(record: *mut u32, words: usize, pot: u32) -> u32;
    fn otto_frame(
        record: *mut u32,
        words: usize,
        memory: *const u16,
        memory_words: usize,
        output: *mut i32,
        output_values: usize,
        missing: *mut u32,
    ) -> u32;
    fn otto_waiting(record: *const u32, words: usize, mask: *mut u32) -> u32;
    fn otto_import(
        file: *const u8,
        file_bytes: usize,
        memory: *mut u16,
        memory_words: usize,
        word: usize,
        start: *mut u32,
        end: *mut u32,
        loop_bits: *mut u32,
        samples: *mut u32,
    ) -> u32;

    pub(crate) safe fn otto_compress(sample: i16) -> u8;
    pub(crate) safe fn otto_expand(code: u8) -> i16;
}

/// What a call gives, by its answer.
fn given<T>(answer: u32, value: T) -> Result<T, Refusal> {
    if answer == 0 {
        return Ok(value);
    }
    match Refusal::try_from(answer) {
        Ok(refusal) => Err(refusal),
        Err(unknown) => panic!("the linked libotto is of another version: {unknown}"),
    }
}

pub(crate) fn reset(record: &mut [u32; RECORD_WORDS]) -> Result<(), Refusal> {
    // SAFETY: the pointer is that of an array, with its length.
    let answer = unsafe { otto_reset(record.as_mut_ptr(), record.len()) };

    given(answer, ())
}

pub(crate) fn write(
    record: &mut [u32; RECORD_WORDS],
    address: u32,
    value: u8,
) -> Result<(), Refusal> {
    // SAFETY: the pointer is that of an array, with its length.
    let answer = unsafe { otto_write(record.as_mut_ptr(), record.len(), address, value) };

    given(answer, ())
}

pub(crate) fn read(record: &mut [u32; RECORD_WORDS], address: u32) -> Result<u8, Refusal> {
    let mut byte = 0;
    // SAFETY: the first pointer is that of an array, with its length; the other is to a variable
    // of this function.
    let answer = unsafe { otto_read(record.as_mut_ptr(), record.len(), address, &raw mut byte) };

    given(answer, byte)
}

pub(crate) fn set_pot(record: &mut [u32; RECORD_WORDS], pot: u32) -> Result<(), Refusal> {
    // SAFETY: the pointer is that of an array, with its length.
    let answer = unsafe { otto_set_pot(record.as_mut_ptr(), record.len(), pot) };

    given(answer, ())
}

pub(crate) fn frame(
    record: &mut [u32; RECORD_WORDS],
    memory: &[u16],
    output: &mut [i32; OUTPUT_VALUES],
) -> Result<u32, Refusal> {
    let mut missing = 0;
    // SAFETY: the first three pointers are those of an array, a slice and an array, each with its
    // length, of which those that are written are borrowed for this call alone; the last is to a
    // variable of this function.
    let answer = unsafe {
        otto_frame(
            record.as_mut_ptr(),
            record.len(),
            memory.as_ptr(),
            memory.len(),
            output.as_mut_ptr(),
            output.len(),
            &raw mut missing,
        )
    };

    given(answer, missing)
}

/// Of words of any number: this call only reads them, so it is also what looks at a record that
/// comes from elsewhere.
pub(crate) fn waiting(words: &[u32]) -> Result<u32, Refusal> {
    let mut mask = 0;
    // SAFETY: the first pointer is that of a slice, with its length; the other is to a variable of
    // this function.
    let answer = unsafe { otto_waiting(words.as_ptr(), words.len(), &raw mut mask) };

    given(answer, mask)
}

pub(crate) fn import(file: &[u8], memory: &mut [u16], word: usize) -> Result<Import, Refusal> {
    let mut import = Import::default();
    // SAFETY: the first two pointers are those of slices, each with its length, of which the one
    // that is written is borrowed for this call alone; the last four are to four fields of a
    // variable of this function.
    let answer = unsafe {
        otto_import(
            file.as_ptr(),
            file.len(),
            memory.as_mut_ptr(),
            memory.len(),
            word,
            &raw mut import.start,
            &raw mut import.end,
            &raw mut import.loop_bits,
            &raw mut import.samples,
        )
    };

    given(answer, import)
}

#[cfg(test)]
mod tests {
    use super::given;
    use crate::Refusal;

    #[test]
    fn an_answer_is_a_value_or_a_refusal() {
        assert_eq!(given(0, 5), Ok(5));
        assert_eq!(given(7, 5), Err(Refusal::TooFewVoices));
    }

    #[test]
    #[should_panic = "of another version: 8 is the number of no refusal"]
    fn another_answer_is_that_of_another_library() {
        let _ = given(8, ());
    }
}
