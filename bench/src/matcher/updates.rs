//! A vector added to a library, or removed from it. Safe as the calls beside them.

use super::accepted;
use crate::data::Data;
use crate::peer::updates::Stock;

extern "C" {
    fn matcher_add(
        d: usize,
        b: usize,
        n: usize,
        marks: *const i32,
        marks_len: usize,
        codes: *const u8,
        codes_len: usize,
        settings: *const u32,
        settings_len: usize,
        vectors: *const i32,
        vectors_len: usize,
        vector: *const i32,
        vector_len: usize,
        setting: u32,
        newvectors: *mut i32,
        newvectors_len: usize,
        newsettings: *mut u32,
        newsettings_len: usize,
        newcodes: *mut u8,
        newcodes_len: usize,
    ) -> u32;
    fn matcher_remove(
        d: usize,
        b: usize,
        n: usize,
        marks: *const i32,
        marks_len: usize,
        codes: *const u8,
        codes_len: usize,
        settings: *const u32,
        settings_len: usize,
        vectors: *const i32,
        vectors_len: usize,
        number: usize,
        newvectors: *mut i32,
        newvectors_len: usize,
        newsettings: *mut u32,
        newsettings_len: usize,
        newcodes: *mut u8,
        newcodes_len: usize,
    ) -> u32;
}

pub fn add(data: &Data, vector: &[i32], setting: u32, new: &mut Stock) {
    accepted(unsafe {
        matcher_add(
            data.d,
            data.b,
            data.n,
            data.marks.as_ptr(),
            data.marks.len(),
            data.codes.as_ptr(),
            data.codes.len(),
            data.settings.as_ptr(),
            data.settings.len(),
            data.vectors.as_ptr(),
            data.vectors.len(),
            vector.as_ptr(),
            vector.len(),
            setting,
            new.vectors.as_mut_ptr(),
            new.vectors.len(),
            new.settings.as_mut_ptr(),
            new.settings.len(),
            new.codes.as_mut_ptr(),
            new.codes.len(),
        )
    });
}

pub fn remove(data: &Data, number: usize, new: &mut Stock) {
    accepted(unsafe {
        matcher_remove(
            data.d,
            data.b,
            data.n,
            data.marks.as_ptr(),
            data.marks.len(),
            data.codes.as_ptr(),
            data.codes.len(),
            data.settings.as_ptr(),
            data.settings.len(),
            data.vectors.as_ptr(),
            data.vectors.len(),
            number,
            new.vectors.as_mut_ptr(),
            new.vectors.len(),
            new.settings.as_mut_ptr(),
            new.settings.len(),
            new.codes.as_mut_ptr(),
            new.codes.len(),
        )
    });
}
