//! Marks and regions. Safe for each call: a pointer leads to as many elements as are named with it, or to one.

use super::lent::{outcome, Lent};
use crate::input::{Input, Stretch};

extern "C" {
    fn matcher_stretch(d: usize, b: usize, j: usize, offset: *mut usize, bits: *mut usize) -> u32;
    fn matcher_check_marks(d: usize, b: usize, marks: *const i32, marks_len: usize) -> u32;
    fn matcher_check_part(d: usize, b: usize, marks: *const i32, marks_len: usize, j: usize) -> u32;
    fn matcher_part_length(d: usize, b: usize, marks: *const i32, marks_len: usize, j: usize) -> usize;
    fn matcher_part_at(d: usize, b: usize, marks: *const i32, marks_len: usize, j: usize, i: usize) -> i32;
    fn matcher_region_of(
        d: usize,
        b: usize,
        marks: *const i32,
        marks_len: usize,
        j: usize,
        v: i32,
        region: *mut usize,
    ) -> u32;
    fn matcher_region(marks: *const i32, marks_len: usize, regions: usize, v: i32, region: *mut usize) -> u32;
    fn matcher_make_marks(
        d: usize,
        b: usize,
        n: usize,
        vectors: *const i32,
        vectors_len: usize,
        marks: *mut i32,
        marks_len: usize,
    ) -> u32;
    fn matcher_regions(
        d: usize,
        b: usize,
        n: usize,
        vectors: *const i32,
        vectors_len: usize,
        marks: *const i32,
        marks_len: usize,
        regions: *mut u8,
        regions_len: usize,
    ) -> u32;
}

pub fn stretch(input: &Input) -> Result<Stretch, u32> {
    let (mut offset, mut bits) = (Lent::room(1), Lent::room(1));
    let number = unsafe { matcher_stretch(input.d, input.b, input.j, offset.pointer(), bits.pointer()) };
    let (offset, bits) = (offset.filled(number), bits.filled(number));
    Ok(Stretch { offset: offset?[0], bits: bits?[0] })
}

pub fn check_marks(input: &Input) -> Result<(), u32> {
    let mut marks = Lent::given(&input.marks);
    let number = unsafe { matcher_check_marks(input.d, input.b, marks.pointer(), marks.len()) };
    marks.kept();
    outcome(number, ())
}

/// The part that is handed back, element by element: none past its end, and none at all where it is refused.
pub fn part(input: &Input) -> Result<Vec<i32>, u32> {
    let &Input { d, b, j, .. } = input;
    let mut marks = Lent::given(&input.marks);
    let (pointer, len) = (marks.pointer(), marks.len());
    let number = unsafe { matcher_check_part(d, b, pointer, len, j) };
    let length = unsafe { matcher_part_length(d, b, pointer, len, j) };
    assert!(number == 0 || length == 0, "refused with {number}, and the part has {length} marks");
    let at = |i: usize| unsafe { matcher_part_at(d, b, pointer, len, j, i) };
    for i in [length, length + 1, len, len + 1, 1 << 32, usize::MAX] {
        assert!(i < length || at(i) == 0, "the part has {length} marks, and {} at {i}", at(i));
    }
    let part = (0..length).map(at).collect();
    marks.kept();
    outcome(number, part)
}

pub fn dimension_region(input: &Input) -> Result<usize, u32> {
    let &Input { d, b, j, .. } = input;
    let (mut marks, mut region) = (Lent::given(&input.marks), Lent::room(1));
    let value = input.one.value;
    let number = unsafe { matcher_region_of(d, b, marks.pointer(), marks.len(), j, value, region.pointer()) };
    marks.kept();
    Ok(region.filled(number)?[0])
}

pub fn region(input: &Input) -> Result<usize, u32> {
    let (mut marks, mut region) = (Lent::given(&input.one.marks), Lent::room(1));
    let (regions, value) = (input.one.regions, input.one.value);
    let number = unsafe { matcher_region(marks.pointer(), marks.len(), regions, value, region.pointer()) };
    marks.kept();
    Ok(region.filled(number)?[0])
}

pub fn make_marks(input: &Input) -> Result<Vec<i32>, u32> {
    let &Input { d, b, n, .. } = input;
    let (mut vectors, mut marks) = (Lent::given(&input.vectors), Lent::room(input.room.marks));
    let number = unsafe { matcher_make_marks(d, b, n, vectors.pointer(), vectors.len(), marks.pointer(), marks.len()) };
    vectors.kept();
    marks.filled(number)
}

pub fn regions(input: &Input) -> Result<Vec<u8>, u32> {
    let (mut vectors, mut marks) = (Lent::given(&input.vectors), Lent::given(&input.marks));
    let mut regions = Lent::room(input.room.regions);
    let number = unsafe {
        matcher_regions(
            input.d,
            input.b,
            input.n,
            vectors.pointer(),
            vectors.len(),
            marks.pointer(),
            marks.len(),
            regions.pointer(),
            regions.len(),
        )
    };
    vectors.kept();
    marks.kept();
    regions.filled(number)
}
