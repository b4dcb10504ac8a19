//! Load, write and the whole match. Safe as the calls beside them.

use super::accepted;
use crate::data::Data;
use crate::peer::file::Loaded;

extern "C" {
    fn matcher_write(
        d: usize,
        b: usize,
        n: usize,
        marks: *const i32,
        marks_len: usize,
        settings: *const u32,
        settings_len: usize,
        components: *const i32,
        components_len: usize,
        bytes: *mut u8,
        bytes_len: usize,
    ) -> u32;
    fn matcher_load(
        bytes: *const u8,
        bytes_len: usize,
        marks: *mut i32,
        marks_len: usize,
        settings: *mut u32,
        settings_len: usize,
        components: *mut i32,
        components_len: usize,
        d: *mut usize,
        b: *mut usize,
        n: *mut usize,
        used: *mut usize,
    ) -> u32;
    fn matcher_match(input: *const u8, input_len: usize, output: *mut u8, output_len: usize, count: *mut usize) -> u32;
}

pub fn write(data: &Data, bytes: &mut [u8]) {
    let &Data { d, b, n, ref marks, ref settings, ref vectors, .. } = data;
    accepted(unsafe {
        matcher_write(
            d,
            b,
            n,
            marks.as_ptr(),
            marks.len(),
            settings.as_ptr(),
            settings.len(),
            vectors.as_ptr(),
            vectors.len(),
            bytes.as_mut_ptr(),
            bytes.len(),
        )
    });
}

pub fn load(bytes: &[u8], loaded: &mut Loaded) {
    let Loaded { d, b, n, used, marks, settings, vectors } = loaded;
    accepted(unsafe {
        matcher_load(
            bytes.as_ptr(),
            bytes.len(),
            marks.as_mut_ptr(),
            marks.len(),
            settings.as_mut_ptr(),
            settings.len(),
            vectors.as_mut_ptr(),
            vectors.len(),
            d,
            b,
            n,
            used,
        )
    });
}

/// The text's length; the output has the room that the call asks for.
pub fn run(input: &[u8], output: &mut [u8]) -> usize {
    let mut count = 0;
    accepted(unsafe { matcher_match(input.as_ptr(), input.len(), output.as_mut_ptr(), output.len(), &mut count) });
    count
}
