//! Distances, and the bounds of a cell (document 01, "Distance, bounds, reading order"; document 02, Slip 1).

use super::{
    approximation::{codes_length, good_codes, regions_of},
    causes,
    partition::{marks_length, parts},
    presence::{kept, present},
};
use crate::input::{Bounds, Input};
use std::ops::{Range, RangeInclusive};

/// "Distance is the sum of squared differences."
pub fn distance_between(query: &[i32], vector: &[i32]) -> i128 {
    query.iter().zip(vector).map(|(&q, &v)| square(q, v)).sum()
}

/// "sums distance, L and U over present dimensions only"
pub fn present_distance(present: &[usize], query: &[i32], vector: &[i32]) -> i128 {
    distance_between(&kept(present, query), &kept(present, vector))
}

fn square(q: i32, v: i32) -> i128 {
    (i128::from(q) - i128::from(v)).pow(2)
}

/// The values of one region for each dimension.
pub type Cell = Vec<RangeInclusive<i32>>;

/// Each code's cell: "a region's last value is its upper mark minus 1".
pub fn cells(input: &Input) -> Vec<Cell> {
    let parts = parts(input.d, input.b);
    let values = |(part, &region): (&Range<usize>, &u8)| {
        let marks = &input.marks[part.clone()];
        marks[usize::from(region)]..=marks[usize::from(region) + 1] - 1
    };
    let regions = regions_of(input.d, input.b, input.n, &input.codes);
    regions.chunks(input.d).map(|regions| parts.iter().zip(regions).map(values).collect()).collect()
}

/// "A code's cell is every vector of d components that lie, each, in the region the code names for its dimension."
pub fn cell_vectors(input: &Input, i: usize) -> Vec<Vec<i32>> {
    let longer = |vectors: Vec<Vec<i32>>, region: &RangeInclusive<i32>| {
        let with = |value: i32| vectors.iter().map(move |vector| [vector.as_slice(), &[value]].concat());
        region.clone().flat_map(with).collect()
    };
    cells(input)[i].iter().fold(vec![vec![]], longer)
}

/// "sums over dimensions of the square of the shortest and longest step from query to region"
fn cell_bounds(query: &[i32], cell: &Cell) -> (i128, i128) {
    let shortest = |(&q, region): (&i32, &RangeInclusive<i32>)| square(q, q.clamp(*region.start(), *region.end()));
    let longest = |(&q, region): (&i32, &RangeInclusive<i32>)| square(q, *region.start()).max(square(q, *region.end()));
    (query.iter().zip(cell).map(shortest).sum(), query.iter().zip(cell).map(longest).sum())
}

/// The same "over present dimensions only".
pub fn present_bounds(present: &[usize], query: &[i32], cell: &Cell) -> (i128, i128) {
    cell_bounds(&kept(present, query), &kept(present, cell))
}

/// A distance as it is lent.
pub fn lent(distance: i128) -> u64 {
    distance.try_into().expect("a distance fits in 64 bits")
}

// ---- the calls

/// The query's length is d.
pub fn distance(input: &Input) -> Result<u64, u32> {
    let (query, vector) = (&input.query, &input.one.vector);
    causes::dimensions(query.len())?;
    causes::lengths(&[(vector.len(), query.len())])?;
    causes::components(query)?;
    causes::components(vector)?;
    Ok(lent(distance_between(query, vector)))
}

/// Of each code's cell.
pub fn bounds(input: &Input) -> Result<Vec<Bounds>, u32> {
    let Input { d, b, n, word, query, marks, codes, room, .. } = input;
    causes::shape(*d, *b)?;
    causes::count(*n)?;
    causes::word(*d, *word)?;
    let codes = (codes.len(), codes_length(*n, *b));
    causes::lengths(&[(query.len(), *d), (marks.len(), marks_length(*d, *b)), codes])?;
    causes::lengths(&[(room.lowers, *n), (room.uppers, *n)])?;
    causes::components(query)?;
    causes::marks(*d, *b, marks)?;
    good_codes(input)?;
    let present = present(*word);
    let of_cell = |cell: &Cell| {
        let (lower, upper) = present_bounds(&present, query, cell);
        Bounds { lower: lent(lower), upper: lent(upper) }
    };
    Ok(cells(input).iter().map(of_cell).collect())
}
