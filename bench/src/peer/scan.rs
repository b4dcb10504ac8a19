//! The full scan: all distances, the k least by selection, and these sorted.

use super::{distance, masks};
use crate::matcher::Entry;

pub fn scan(d: usize, word: u32, query: &[i32], vectors: &[i32], entries: &mut [Entry]) {
    let (k, masks) = (entries.len(), masks(word));
    let mut pairs: Vec<(u64, u32)> =
        vectors.chunks_exact(d).zip(0..).map(|(vector, number)| (distance(&masks, query, vector), number)).collect();
    if k < pairs.len() {
        pairs.select_nth_unstable(k - 1);
    }
    pairs[..k].sort_unstable();
    for (&(distance, number), entry) in pairs.iter().zip(entries) {
        *entry = Entry { number, distance };
    }
}
