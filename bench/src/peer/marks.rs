//! Marks from vectors: the ends of the scale, and between them each dimension's components sorted, and read off at equal shares.

use super::bits;

pub fn length(d: usize, b: usize) -> usize {
    bits(d, b).map(|w| (1 << w) + 1).sum()
}

pub fn make(d: usize, b: usize, vectors: &[i32], marks: &mut [i32]) {
    fill(d, b, vectors, marks, |_| (-32768, 32768));
}

/// Marks of document 01's rule before change request 2: least component first, greatest plus 1 last. They are made only to compare
/// the vectors read with them.
pub fn make_former(d: usize, b: usize, vectors: &[i32], marks: &mut [i32]) {
    fill(d, b, vectors, marks, |column| (column[0], column[column.len() - 1] + 1));
}

/// The outer marks are made from a dimension's components in order.
fn fill(d: usize, b: usize, vectors: &[i32], marks: &mut [i32], outer: impl Fn(&[i32]) -> (i32, i32)) {
    let mut rest = marks;
    let mut column = Vec::with_capacity(vectors.len() / d);
    for (j, w) in bits(d, b).enumerate() {
        column.clear();
        column.extend(vectors.iter().skip(j).step_by(d));
        column.sort_unstable();
        let (part, behind) = rest.split_at_mut((1 << w) + 1);
        for (i, mark) in part.iter_mut().enumerate().take(1 << w) {
            *mark = column[i * column.len() >> w];
        }
        (part[0], part[1 << w]) = outer(&column);
        rest = behind;
    }
}
