//! The full scan and the search (document 01, "Distance, bounds, reading order"; document 02, Slip 1).

use super::{
    approximation::{codes_length, good_codes},
    causes,
    distance::{cells, lent, present_bounds, present_distance},
    partition::marks_length,
    presence::present,
};
use crate::input::{Entry, Found, Input};

/// "Order pairs by first number, then second": the k least of these pairs (distance, number), least first.
pub fn best(pairs: &[(i128, usize)], k: usize) -> Vec<(i128, usize)> {
    let mut sorted = pairs.to_vec();
    sorted.sort();
    sorted.truncate(k);
    sorted
}

fn entries(pairs: Vec<(i128, usize)>) -> Vec<Entry> {
    pairs.into_iter().map(|(distance, number)| Entry { number: number as u32, distance: lent(distance) }).collect()
}

/// "The search reads patterns in order of (L, number). It reads the next while fewer than k have been read, or while
/// its pair is below the pair (distance, number) of the k-th best read so far": the pairs read, in reading order, for
/// the L of each pattern and its distance once it is read.
pub fn reading(
    bounds: &[i128],
    k: usize,
    distance: impl Fn(usize) -> Result<i128, u32>,
) -> Result<Vec<(i128, usize)>, u32> {
    let bounds: Vec<(i128, usize)> = bounds.iter().copied().zip(0..).collect();
    let mut read = vec![];
    for next in best(&bounds, bounds.len()) {
        if read.len() >= k && next >= best(&read, k)[k - 1] {
            break;
        }
        read.push((distance(next.1)?, next.1));
    }
    Ok(read)
}

/// "A full scan's answer is the k least pairs (distance, number) over all patterns, least first."
pub fn scanned(present: &[usize], query: &[i32], vectors: &[i32], k: usize) -> Vec<(i128, usize)> {
    let vectors = vectors.chunks(query.len()).enumerate();
    let pairs: Vec<(i128, usize)> = vectors.map(|(i, vector)| (present_distance(present, query, vector), i)).collect();
    best(&pairs, k)
}

// ---- the calls

pub fn scan(input: &Input) -> Result<Vec<Entry>, u32> {
    let Input { d, n, k, word, query, vectors, room, .. } = input;
    causes::dimensions(*d)?;
    causes::count(*n)?;
    causes::neighbours(*n, *k)?;
    causes::word(*d, *word)?;
    causes::lengths(&[(query.len(), *d), (vectors.len(), n * d), (room.entries, *k)])?;
    causes::components(query)?;
    causes::components(vectors)?;
    Ok(entries(scanned(&present(*word), query, vectors, *k)))
}

pub fn search(input: &Input) -> Result<Found, u32> {
    let Input { d, b, n, k, word, query, marks, codes, vectors, room, .. } = input;
    causes::shape(*d, *b)?;
    causes::count(*n)?;
    causes::neighbours(*n, *k)?;
    causes::word(*d, *word)?;
    let given = [(query.len(), *d), (marks.len(), marks_length(*d, *b)), (codes.len(), codes_length(*n, *b))];
    causes::lengths(&given)?;
    causes::lengths(&[(vectors.len(), n * d), (room.entries, *k), (room.reads, *n)])?;
    causes::components(query)?;
    causes::marks(*d, *b, marks)?;
    good_codes(input)?;

    let (cells, present) = (cells(input), present(*word));
    let bounds: Vec<i128> = cells.iter().map(|cell| present_bounds(&present, query, cell).0).collect();
    let read = reading(&bounds, *k, |number| {
        let vector = &vectors[number * d..(number + 1) * d];
        causes::in_cell(vector.iter().zip(&cells[number]).all(|(component, region)| region.contains(component)))?;
        Ok(present_distance(&present, query, vector))
    })?;
    let reads = read.iter().map(|&(_, number)| number as u32).collect();
    Ok(Found { entries: entries(best(&read, *k)), reads })
}
