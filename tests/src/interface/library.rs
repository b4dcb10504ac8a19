//! The library file and a query. Safe for each call: a pointer leads to as many elements as are named with it, or to one.

use super::lent::{counted, outcome, Lent};
use crate::{
    input::{Input, LoadRoom, Loaded, Query},
    reference,
};

extern "C" {
    fn matcher_library_length(d: usize, b: usize, n: usize, length: *mut usize) -> u32;
    fn matcher_write(
        d: usize,
        b: usize,
        n: usize,
        marks: *const i32,
        marks_len: usize,
        settings: *const u32,
        settings_len: usize,
        components: *const i32,
        components_len: usize,
        bytes: *mut u8,
        bytes_len: usize,
    ) -> u32;
    fn matcher_load(
        bytes: *const u8,
        bytes_len: usize,
        marks: *mut i32,
        marks_len: usize,
        settings: *mut u32,
        settings_len: usize,
        components: *mut i32,
        components_len: usize,
        d: *mut usize,
        b: *mut usize,
        n: *mut usize,
        used: *mut usize,
    ) -> u32;
    fn matcher_query(d: usize, bytes: *const u8, bytes_len: usize, components: *mut i32, components_len: usize) -> u32;
    fn matcher_query_present(
        d: usize,
        bytes: *const u8,
        bytes_len: usize,
        components: *mut i32,
        components_len: usize,
        word: *mut u32,
    ) -> u32;
}

pub fn library_length(input: &Input) -> Result<usize, u32> {
    let mut length = Lent::room(1);
    let number = unsafe { matcher_library_length(input.d, input.b, input.n, length.pointer()) };
    outcome(number, counted(&length, number))
}

pub fn write(input: &Input) -> Result<Vec<u8>, u32> {
    let (mut marks, mut settings) = (Lent::given(&input.marks), Lent::given(&input.settings));
    let (mut vectors, mut bytes) = (Lent::given(&input.vectors), Lent::room(input.room.bytes));
    let number = unsafe {
        matcher_write(
            input.d,
            input.b,
            input.n,
            marks.pointer(),
            marks.len(),
            settings.pointer(),
            settings.len(),
            vectors.pointer(),
            vectors.len(),
            bytes.pointer(),
            bytes.len(),
        )
    };
    marks.kept();
    settings.kept();
    vectors.kept();
    bytes.filled(number)
}

/// The fronts of the buffers; the elements past them are as they were. How long the fronts are follows from the counts.
pub fn load(bytes: &[u8], room: LoadRoom) -> Result<Loaded, u32> {
    let mut bytes = Lent::given(bytes);
    let (mut marks, mut settings) = (Lent::room(room.marks), Lent::room(room.settings));
    let mut components = Lent::room(room.components);
    let (mut d, mut b, mut n, mut used) = (Lent::room(1), Lent::room(1), Lent::room(1), Lent::room(1));
    let number = unsafe {
        matcher_load(
            bytes.pointer(),
            bytes.len(),
            marks.pointer(),
            marks.len(),
            settings.pointer(),
            settings.len(),
            components.pointer(),
            components.len(),
            d.pointer(),
            b.pointer(),
            n.pointer(),
            used.pointer(),
        )
    };
    bytes.kept();
    let [d, b, n, used] = [d, b, n, used].map(|place| counted(&place, number));
    let mark_count = if number == 0 { reference::marks_length(d, b) } else { 0 };
    let marks = marks.filled_to(mark_count, number);
    let settings = settings.filled_to(n, number);
    let components = components.filled_to(n * d, number);
    Ok(Loaded { d, b, n, marks: marks?, settings: settings?, components: components?, used })
}

pub fn query(d: usize, bytes: &[u8], room: usize) -> Result<Vec<i32>, u32> {
    let (mut bytes, mut components) = (Lent::given(bytes), Lent::room(room));
    let number = unsafe { matcher_query(d, bytes.pointer(), bytes.len(), components.pointer(), components.len()) };
    bytes.kept();
    components.filled(number)
}

/// The second intake: the word is 0 where it is refused.
pub fn query_present(d: usize, bytes: &[u8], room: usize) -> Result<Query, u32> {
    let (mut bytes, mut components, mut word) = (Lent::given(bytes), Lent::room(room), Lent::room(1));
    let number = unsafe {
        matcher_query_present(d, bytes.pointer(), bytes.len(), components.pointer(), components.len(), word.pointer())
    };
    bytes.kept();
    let word = counted(&word, number);
    Ok(Query { components: components.filled(number)?, word })
}
