//! The matcher's C interface. Safe for each call: a pointer leads to as many elements as are named with it, or to one.

pub mod batch;
pub mod files;
pub mod updates;

use crate::data::Data;

/// A vector's number and its distance, laid out as in C.
#[repr(C)]
#[derive(Clone, Copy, PartialEq, Debug, Default)]
pub struct Entry {
    pub number: u32,
    pub distance: u64,
}

extern "C" {
    fn matcher_scan(
        d: usize,
        n: usize,
        k: usize,
        word: u32,
        query: *const i32,
        query_len: usize,
        vectors: *const i32,
        vectors_len: usize,
        entries: *mut Entry,
        entries_len: usize,
    ) -> u32;
    fn matcher_search(
        d: usize,
        b: usize,
        n: usize,
        k: usize,
        word: u32,
        query: *const i32,
        query_len: usize,
        marks: *const i32,
        marks_len: usize,
        codes: *const u8,
        codes_len: usize,
        vectors: *const i32,
        vectors_len: usize,
        entries: *mut Entry,
        entries_len: usize,
        reads: *mut u32,
        reads_len: usize,
        count: *mut usize,
    ) -> u32;
    fn matcher_make_marks(
        d: usize,
        b: usize,
        n: usize,
        vectors: *const i32,
        vectors_len: usize,
        marks: *mut i32,
        marks_len: usize,
    ) -> u32;
    fn matcher_pack(
        d: usize,
        b: usize,
        n: usize,
        regions: *const u8,
        regions_len: usize,
        codes: *mut u8,
        codes_len: usize,
    ) -> u32;
    fn matcher_unpack(
        d: usize,
        b: usize,
        n: usize,
        codes: *const u8,
        codes_len: usize,
        regions: *mut u8,
        regions_len: usize,
    ) -> u32;
    fn matcher_pack_vectors(
        d: usize,
        b: usize,
        n: usize,
        vectors: *const i32,
        vectors_len: usize,
        marks: *const i32,
        marks_len: usize,
        codes: *mut u8,
        codes_len: usize,
    ) -> u32;
}

/// A benchmark's data are refused by no call.
fn accepted(number: u32) {
    assert_eq!(number, 0, "refused");
}

pub fn scan(data: &Data, query: &[i32], entries: &mut [Entry]) {
    accepted(unsafe {
        matcher_scan(
            data.d,
            data.n,
            entries.len(),
            data.word,
            query.as_ptr(),
            query.len(),
            data.vectors.as_ptr(),
            data.vectors.len(),
            entries.as_mut_ptr(),
            entries.len(),
        )
    });
}

pub fn search(data: &Data, query: &[i32], entries: &mut [Entry], reads: &mut [u32]) -> usize {
    let mut count = 0;
    accepted(unsafe {
        matcher_search(
            data.d,
            data.b,
            data.n,
            entries.len(),
            data.word,
            query.as_ptr(),
            query.len(),
            data.marks.as_ptr(),
            data.marks.len(),
            data.codes.as_ptr(),
            data.codes.len(),
            data.vectors.as_ptr(),
            data.vectors.len(),
            entries.as_mut_ptr(),
            entries.len(),
            reads.as_mut_ptr(),
            reads.len(),
            &mut count,
        )
    });
    count
}

pub fn make_marks(data: &Data, vectors: &[i32], marks: &mut [i32]) {
    let &Data { d, b, n, .. } = data;
    accepted(unsafe { matcher_make_marks(d, b, n, vectors.as_ptr(), vectors.len(), marks.as_mut_ptr(), marks.len()) });
}

pub fn pack(data: &Data, codes: &mut [u8]) {
    let &Data { d, b, n, ref regions, .. } = data;
    accepted(unsafe { matcher_pack(d, b, n, regions.as_ptr(), regions.len(), codes.as_mut_ptr(), codes.len()) });
}

pub fn unpack(data: &Data, regions: &mut [u8]) {
    let &Data { d, b, n, ref codes, .. } = data;
    accepted(unsafe { matcher_unpack(d, b, n, codes.as_ptr(), codes.len(), regions.as_mut_ptr(), regions.len()) });
}

pub fn pack_vectors(data: &Data, codes: &mut [u8]) {
    let &Data { d, b, n, ref vectors, ref marks, .. } = data;
    accepted(unsafe {
        matcher_pack_vectors(
            d,
            b,
            n,
            vectors.as_ptr(),
            vectors.len(),
            marks.as_ptr(),
            marks.len(),
            codes.as_mut_ptr(),
            codes.len(),
        )
    });
}
