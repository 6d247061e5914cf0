//! Sangolid's C interface.

use crate::compare::Other;

extern "C" {
    fn sangolid_run(
        state: *mut u32,
        state_len: usize,
        code: *const u8,
        code_len: usize,
        constants: *const u8,
        constants_len: usize,
        area: *mut u8,
        area_len: usize,
        budget: u64,
    ) -> u32;
    fn sangolid_check(
        code: *const u8,
        code_len: usize,
        marks: *mut u8,
        marks_len: usize,
        answer: *mut u32,
        answer_len: usize,
    ) -> u32;
    fn sangolid_hex(
        text: *const u8,
        text_len: usize,
        code: *mut u8,
        code_len: usize,
        answer: *mut u32,
        answer_len: usize,
    ) -> u32;
}

/// The linked library.
pub struct Sangolid;

impl Other for Sangolid {
    fn run(&self, state: &mut [u32], code: &[u8], constants: &[u8], area: &mut [u8], budget: u64) -> u32 {
        // Each pointer and length describe one whole slice.
        unsafe {
            sangolid_run(
                state.as_mut_ptr(),
                state.len(),
                code.as_ptr(),
                code.len(),
                constants.as_ptr(),
                constants.len(),
                area.as_mut_ptr(),
                area.len(),
                budget,
            )
        }
    }

    fn check(&self, code: &[u8], marks: &mut [u8], answer: &mut [u32]) -> u32 {
        // Each pointer and length describe one whole slice.
        unsafe {
            sangolid_check(
                code.as_ptr(),
                code.len(),
                marks.as_mut_ptr(),
                marks.len(),
                answer.as_mut_ptr(),
                answer.len(),
            )
        }
    }

    fn hex(&self, text: &[u8], code: &mut [u8], answer: &mut [u32]) -> u32 {
        // Each pointer and length describe one whole slice.
        unsafe {
            sangolid_hex(text.as_ptr(), text.len(), code.as_mut_ptr(), code.len(), answer.as_mut_ptr(), answer.len())
        }
    }
}
