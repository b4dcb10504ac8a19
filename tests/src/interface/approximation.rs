//! Codes. Safe for each call: a pointer leads to as many elements as are named with it.

use super::lent::{outcome, Lent};
use crate::input::Input;

extern "C" {
    fn matcher_pack(
        d: usize,
        b: usize,
        n: usize,
        regions: *const u8,
        regions_len: usize,
        codes: *mut u8,
        codes_len: usize,
    ) -> u32;
    fn matcher_pack_vectors(
        d: usize,
        b: usize,
        n: usize,
        vectors: *const i32,
        vectors_len: usize,
        marks: *const i32,
        marks_len: usize,
        codes: *mut u8,
        codes_len: usize,
    ) -> u32;
    fn matcher_unpack(
        d: usize,
        b: usize,
        n: usize,
        codes: *const u8,
        codes_len: usize,
        regions: *mut u8,
        regions_len: usize,
    ) -> u32;
    fn matcher_check_codes(
        d: usize,
        b: usize,
        n: usize,
        marks: *const i32,
        marks_len: usize,
        codes: *const u8,
        codes_len: usize,
    ) -> u32;
}

pub fn pack(input: &Input) -> Result<Vec<u8>, u32> {
    let &Input { d, b, n, .. } = input;
    let (mut regions, mut codes) = (Lent::given(&input.regions), Lent::room(input.room.codes));
    let number = unsafe { matcher_pack(d, b, n, regions.pointer(), regions.len(), codes.pointer(), codes.len()) };
    regions.kept();
    codes.filled(number)
}

pub fn pack_vectors(input: &Input) -> Result<Vec<u8>, u32> {
    let (mut vectors, mut marks) = (Lent::given(&input.vectors), Lent::given(&input.marks));
    let mut codes = Lent::room(input.room.codes);
    let number = unsafe {
        matcher_pack_vectors(
            input.d,
            input.b,
            input.n,
            vectors.pointer(),
            vectors.len(),
            marks.pointer(),
            marks.len(),
            codes.pointer(),
            codes.len(),
        )
    };
    vectors.kept();
    marks.kept();
    codes.filled(number)
}

pub fn unpack(input: &Input) -> Result<Vec<u8>, u32> {
    let &Input { d, b, n, .. } = input;
    let (mut codes, mut regions) = (Lent::given(&input.codes), Lent::room(input.room.regions));
    let number = unsafe { matcher_unpack(d, b, n, codes.pointer(), codes.len(), regions.pointer(), regions.len()) };
    codes.kept();
    regions.filled(number)
}

pub fn check_codes(input: &Input) -> Result<(), u32> {
    let &Input { d, b, n, .. } = input;
    let (mut marks, mut codes) = (Lent::given(&input.marks), Lent::given(&input.codes));
    let number = unsafe { matcher_check_codes(d, b, n, marks.pointer(), marks.len(), codes.pointer(), codes.len()) };
    marks.kept();
    codes.kept();
    outcome(number, ())
}
