//! Stand-ins for the library.

pub mod faulty;
pub mod second_program;

use std::slice;

/// The words of a pointer that may be NULL where there are none.
pub unsafe fn words_at<'a>(pointer: *const u32, words: usize) -> &'a [u32] {
    if words == 0 {
        &[]
    } else {
        slice::from_raw_parts(pointer, words)
    }
}

/// The same, to be written.
pub unsafe fn lent_at<'a>(pointer: *mut u32, words: usize) -> &'a mut [u32] {
    if words == 0 {
        &mut []
    } else {
        slice::from_raw_parts_mut(pointer, words)
    }
}
