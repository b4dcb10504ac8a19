//! Scan and search. Safe for each call: a pointer leads to as many elements as are named with it, or to one.

use super::lent::{counted, Lent};
use crate::input::{Entry, Found, Input};

extern "C" {
    fn matcher_scan(
        d: usize,
        n: usize,
        k: usize,
        word: u32,
        query: *const i32,
        query_len: usize,
        vectors: *const i32,
        vectors_len: usize,
        entries: *mut Entry,
        entries_len: usize,
    ) -> u32;
    fn matcher_search(
        d: usize,
        b: usize,
        n: usize,
        k: usize,
        word: u32,
        query: *const i32,
        query_len: usize,
        marks: *const i32,
        marks_len: usize,
        codes: *const u8,
        codes_len: usize,
        vectors: *const i32,
        vectors_len: usize,
        entries: *mut Entry,
        entries_len: usize,
        reads: *mut u32,
        reads_len: usize,
        count: *mut usize,
    ) -> u32;
}

pub fn scan(input: &Input) -> Result<Vec<Entry>, u32> {
    let (mut query, mut vectors) = (Lent::given(&input.query), Lent::given(&input.vectors));
    let mut entries = Lent::room(input.room.entries);
    let number = unsafe {
        matcher_scan(
            input.d,
            input.n,
            input.k,
            input.word,
            query.pointer(),
            query.len(),
            vectors.pointer(),
            vectors.len(),
            entries.pointer(),
            entries.len(),
        )
    };
    query.kept();
    vectors.kept();
    entries.filled(number)
}

/// The read list is cut to its count; the elements past it are as they were.
pub fn search(input: &Input) -> Result<Found, u32> {
    let (mut query, mut marks) = (Lent::given(&input.query), Lent::given(&input.marks));
    let (mut codes, mut vectors) = (Lent::given(&input.codes), Lent::given(&input.vectors));
    let (mut entries, mut reads) = (Lent::room(input.room.entries), Lent::room(input.room.reads));
    let mut count = Lent::room(1);
    let number = unsafe {
        matcher_search(
            input.d,
            input.b,
            input.n,
            input.k,
            input.word,
            query.pointer(),
            query.len(),
            marks.pointer(),
            marks.len(),
            codes.pointer(),
            codes.len(),
            vectors.pointer(),
            vectors.len(),
            entries.pointer(),
            entries.len(),
            reads.pointer(),
            reads.len(),
            count.pointer(),
        )
    };
    query.kept();
    marks.kept();
    codes.kept();
    vectors.kept();
    let reads = reads.filled_to(counted(&count, number), number);
    Ok(Found { entries: entries.filled(number)?, reads: reads? })
}
