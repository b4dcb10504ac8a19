//! A batch of queries in one call, and the same queries in single searches. Safe as the calls beside them.

use super::{accepted, search, Entry};
use crate::data::Data;

/// A query's status and the count of the vectors read, laid out as in C.
#[repr(C)]
#[derive(Clone, Copy, PartialEq, Debug, Default)]
pub struct Status {
    status: u32,
    count: usize,
}

/// What comes of a batch, each query's part behind that of the one before it.
#[derive(PartialEq, Debug)]
pub struct Batch {
    k: usize,
    answers: Vec<Status>,
    entries: Vec<Entry>,
    reads: Vec<u32>,
}

impl Batch {
    /// The buffers for so many queries.
    pub fn room(data: &Data, k: usize, m: usize) -> Batch {
        Batch {
            k,
            answers: vec![Status::default(); m],
            entries: vec![Entry::default(); m * k],
            reads: vec![0; m * data.n],
        }
    }

    /// How many vectors were read for all queries.
    pub fn read(&self) -> usize {
        self.answers.iter().map(|answer| answer.count).sum()
    }
}

extern "C" {
    fn matcher_batch(
        d: usize,
        b: usize,
        n: usize,
        k: usize,
        m: usize,
        queries: *const i32,
        queries_len: usize,
        words: *const u32,
        words_len: usize,
        marks: *const i32,
        marks_len: usize,
        codes: *const u8,
        codes_len: usize,
        vectors: *const i32,
        vectors_len: usize,
        answers: *mut Status,
        answers_len: usize,
        entries: *mut Entry,
        entries_len: usize,
        reads: *mut u32,
        reads_len: usize,
    ) -> u32;
}

pub fn in_one_call(data: &Data, batch: &mut Batch) {
    accepted(unsafe {
        matcher_batch(
            data.d,
            data.b,
            data.n,
            batch.k,
            batch.answers.len(),
            data.batch.as_ptr(),
            data.batch.len(),
            data.words.as_ptr(),
            data.words.len(),
            data.marks.as_ptr(),
            data.marks.len(),
            data.codes.as_ptr(),
            data.codes.len(),
            data.vectors.as_ptr(),
            data.vectors.len(),
            batch.answers.as_mut_ptr(),
            batch.answers.len(),
            batch.entries.as_mut_ptr(),
            batch.entries.len(),
            batch.reads.as_mut_ptr(),
            batch.reads.len(),
        )
    });
    batch.answers.iter().for_each(|answer| accepted(answer.status));
}

pub fn in_single_searches(data: &Data, batch: &mut Batch) {
    let parts = batch.entries.chunks_exact_mut(batch.k).zip(batch.reads.chunks_exact_mut(data.n));
    for ((query, answer), (entries, reads)) in data.batch.chunks_exact(data.d).zip(&mut batch.answers).zip(parts) {
        *answer = Status { status: 0, count: search(data, query, entries, reads) };
    }
}
