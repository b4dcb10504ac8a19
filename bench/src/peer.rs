//! The other side of each pair: the same work in plain Rust, written for itself and not after the Rattle code.

pub mod codes;
pub mod file;
pub mod marks;
pub mod program;
pub mod scan;
pub mod search;
pub mod updates;

/// The bits of each dimension.
pub fn bits(d: usize, b: usize) -> impl Iterator<Item = usize> {
    (0..d).map(move |j| b / d + usize::from(j < b % d))
}

/// A mask for each dimension, from the presence word: all ones where it is present, zero where it is absent.
pub type Masks = [u32; 32];

pub fn masks(word: u32) -> Masks {
    std::array::from_fn(|j| if word >> j & 1 == 1 { u32::MAX } else { 0 })
}

/// A vector's squared distance from a query over the present dimensions.
pub fn distance(masks: &Masks, query: &[i32], vector: &[i32]) -> u64 {
    query.iter().zip(vector).zip(masks).map(|((&q, &v), &mask)| u64::from(q.abs_diff(v) & mask).pow(2)).sum()
}
