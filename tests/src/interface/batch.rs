//! A batch of queries. Safe: a pointer leads to as many elements as are named with it.

use super::lent::Lent;
use crate::input::{Answer, Entry, Found, Input};

extern "C" {
    fn matcher_batch(
        d: usize,
        b: usize,
        n: usize,
        k: usize,
        m: usize,
        queries: *const i32,
        queries_len: usize,
        words: *const u32,
        words_len: usize,
        marks: *const i32,
        marks_len: usize,
        codes: *const u8,
        codes_len: usize,
        vectors: *const i32,
        vectors_len: usize,
        answers: *mut Answer,
        answers_len: usize,
        entries: *mut Entry,
        entries_len: usize,
        reads: *mut u32,
        reads_len: usize,
    ) -> u32;
}

/// Each query's outcome. A refused batch leaves all buffers as they were; a refused query has the count 0, and its entries
/// and its read list are as they were. A read list is cut to its count; the elements past it are as they were.
pub fn batch(input: &Input) -> Result<Vec<Result<Found, u32>>, u32> {
    let (mut queries, mut words) = (Lent::given(&input.batch.queries), Lent::given(&input.batch.words));
    let (mut marks, mut codes) = (Lent::given(&input.marks), Lent::given(&input.codes));
    let (mut vectors, mut answers) = (Lent::given(&input.vectors), Lent::room(input.room.answers));
    let mut entries: Lent<Entry> = Lent::room(input.room.batch_entries);
    let mut reads: Lent<u32> = Lent::room(input.room.batch_reads);
    let number = unsafe {
        matcher_batch(
            input.d,
            input.b,
            input.n,
            input.k,
            input.batch.m,
            queries.pointer(),
            queries.len(),
            words.pointer(),
            words.len(),
            marks.pointer(),
            marks.len(),
            codes.pointer(),
            codes.len(),
            vectors.pointer(),
            vectors.len(),
            answers.pointer(),
            answers.len(),
            entries.pointer(),
            entries.len(),
            reads.pointer(),
            reads.len(),
        )
    };
    queries.kept();
    words.kept();
    marks.kept();
    codes.kept();
    vectors.kept();
    let answers: Vec<Answer> = answers.filled(number).inspect_err(|_| {
        entries.kept();
        reads.kept();
    })?;
    let answered = |answer: &Answer| answer.status == 0;
    let refused_count = answers.iter().position(|answer| !answered(answer) && answer.count != 0);
    assert_eq!(refused_count, None, "a query that is refused, and its count is not 0: {answers:?}");
    let lengths: Vec<usize> = answers.iter().map(|answer| if answered(answer) { input.k } else { 0 }).collect();
    let counts: Vec<usize> = answers.iter().map(|answer| answer.count).collect();
    let found = entries.filled_parts(input.k, &lengths).into_iter().zip(reads.filled_parts(input.n, &counts));
    let outcome = |(answer, (entries, reads)): (&Answer, _)| match answer.status {
        0 => Ok(Found { entries, reads }),
        number => Err(number),
    };
    Ok(answers.iter().zip(found).map(outcome).collect())
}
