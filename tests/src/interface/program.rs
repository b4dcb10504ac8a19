//! The whole program. Safe: a pointer leads to as many elements as are named with it, or to one.

use super::lent::{counted, Lent};

extern "C" {
    fn matcher_match(input: *const u8, input_len: usize, output: *mut u8, output_len: usize, count: *mut usize) -> u32;
}

/// The front of the output, a buffer of this length; the bytes past it are as they were.
pub fn program(input: &[u8], room: usize) -> Result<Vec<u8>, u32> {
    let (mut input, mut output, mut count) = (Lent::given(input), Lent::room(room), Lent::room(1));
    let number =
        unsafe { matcher_match(input.pointer(), input.len(), output.pointer(), output.len(), count.pointer()) };
    input.kept();
    output.filled_to(counted(&count, number), number)
}
