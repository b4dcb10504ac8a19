//! The vector-approximation search: lower bounds from the codes by a table of the query, and vectors read in their order, of which no
//! more is found than can be read.

use super::{bits, distance, masks, Masks};
use crate::matcher::Entry;
use std::collections::BinaryHeap;

pub struct Library<'a> {
    pub d: usize,
    pub b: usize,
    pub marks: &'a [i32],
    pub codes: &'a [u8],
    pub vectors: &'a [i32],
}

/// The squared steps from a query to the regions of one dimension, all zero where it is absent.
struct Steps {
    bits: u32,
    mask: usize,
    squares: Vec<u64>,
}

/// So many of the first are selected, more are found by ranking all.
const SELECTED: usize = 16;

impl Library<'_> {
    /// The numbers and distances of the nearest over the present dimensions, and the numbers of the vectors read, whose count is given.
    pub fn search(&self, word: u32, query: &[i32], entries: &mut [Entry], reads: &mut [u32]) -> usize {
        let (k, masks) = (entries.len(), masks(word));
        let mut order = self.lower_bounds(&self.table(&masks, query));
        rank_first(&mut order, k);
        let read = |&(_, number): &(u64, u32)| {
            let at = number as usize * self.d;
            (distance(&masks, query, &self.vectors[at..at + self.d]), number)
        };
        let mut best: BinaryHeap<(u64, u32)> = order[..k].iter().map(read).collect();
        let worst = |best: &BinaryHeap<(u64, u32)>| *best.peek().expect("k is at least 1");
        if k <= SELECTED {
            rank_candidates(&mut order, k, worst(&best));
        }
        let mut count = k;
        for pair in &order[k..] {
            if *pair >= worst(&best) {
                break;
            }
            best.push(read(pair));
            best.pop();
            count += 1;
        }
        for (number, pair) in reads.iter_mut().zip(&order[..count]) {
            *number = pair.1;
        }
        for ((distance, number), entry) in best.into_sorted_vec().into_iter().zip(entries) {
            *entry = Entry { number, distance };
        }
        count
    }

    fn table(&self, masks: &Masks, query: &[i32]) -> Vec<Steps> {
        let mut rest = self.marks;
        let dimensions = query.iter().zip(masks).zip(bits(self.d, self.b));
        dimensions
            .map(|((&q, &mask), w)| {
                let (part, behind) = rest.split_at((1 << w) + 1);
                rest = behind;
                let step = |low: i32, high: i32| if q < low { low - q } else { (q - high + 1).max(0) };
                let square = |step: i32| u64::from(step.unsigned_abs() & mask).pow(2);
                let squares = part.windows(2).map(|m| square(step(m[0], m[1]))).collect();
                Steps { bits: w as u32, mask: (1 << w) - 1, squares }
            })
            .collect()
    }

    /// Each code's lower bound, the sum of its regions' squares, with its number.
    fn lower_bounds(&self, table: &[Steps]) -> Vec<(u64, u32)> {
        let n = self.vectors.len() / self.d;
        let mut bytes = self.codes.iter();
        let (mut waiting, mut count) = (0, 0);
        let mut lows = Vec::with_capacity(n);
        for number in 0..n as u32 {
            let mut low = 0;
            for steps in table {
                if count < steps.bits {
                    waiting = waiting << 8 | usize::from(*bytes.next().expect("the code's next byte"));
                    count += 8;
                }
                count -= steps.bits;
                low += steps.squares[waiting >> count & steps.mask];
            }
            lows.push((low, number));
        }
        lows
    }
}

/// The first k in order, the others behind them: in order too, where k is large.
fn rank_first(order: &mut [(u64, u32)], k: usize) {
    if k <= SELECTED && k < order.len() {
        order.select_nth_unstable(k - 1);
        order[..k].sort_unstable();
    } else {
        order.sort_unstable();
    }
}

/// Behind the first k only the pairs below the k-th best, in order: no other can still be read.
fn rank_candidates(order: &mut Vec<(u64, u32)>, k: usize, bound: (u64, u32)) {
    let mut place = 0;
    order.retain(|&pair| {
        place += 1;
        place <= k || pair < bound
    });
    order[k..].sort_unstable();
}
