//! Distances and bounds. Safe for each call: a pointer leads to as many elements as are named with it, or to one.

use super::lent::Lent;
use crate::input::{Bounds, Input};

extern "C" {
    fn matcher_distance(
        query: *const i32,
        query_len: usize,
        vector: *const i32,
        vector_len: usize,
        distance: *mut u64,
    ) -> u32;
    fn matcher_bounds(
        d: usize,
        b: usize,
        n: usize,
        word: u32,
        query: *const i32,
        query_len: usize,
        marks: *const i32,
        marks_len: usize,
        codes: *const u8,
        codes_len: usize,
        lowers: *mut u64,
        lowers_len: usize,
        uppers: *mut u64,
        uppers_len: usize,
    ) -> u32;
}

pub fn distance(input: &Input) -> Result<u64, u32> {
    let (mut query, mut vector) = (Lent::given(&input.query), Lent::given(&input.one.vector));
    let mut distance = Lent::room(1);
    let number =
        unsafe { matcher_distance(query.pointer(), query.len(), vector.pointer(), vector.len(), distance.pointer()) };
    query.kept();
    vector.kept();
    Ok(distance.filled(number)?[0])
}

/// Of each code's cell.
pub fn bounds(input: &Input) -> Result<Vec<Bounds>, u32> {
    let (mut query, mut marks) = (Lent::given(&input.query), Lent::given(&input.marks));
    let mut codes = Lent::given(&input.codes);
    let (mut lowers, mut uppers) = (Lent::room(input.room.lowers), Lent::room(input.room.uppers));
    let number = unsafe {
        matcher_bounds(
            input.d,
            input.b,
            input.n,
            input.word,
            query.pointer(),
            query.len(),
            marks.pointer(),
            marks.len(),
            codes.pointer(),
            codes.len(),
            lowers.pointer(),
            lowers.len(),
            uppers.pointer(),
            uppers.len(),
        )
    };
    query.kept();
    marks.kept();
    codes.kept();
    let (lowers, uppers) = (lowers.filled(number), uppers.filled(number));
    Ok(lowers?.into_iter().zip(uppers?).map(|(lower, upper)| Bounds { lower, upper }).collect())
}
