//! Bits, marks and regions (document 01, "Marks, regions, codes"; document 02, Slip 2).

use super::causes;
use crate::input::{Input, Stretch};
use std::{collections::BTreeMap, ops::Range};

/// "Dimension j, from 1, has b div d bits, and one more if j ≤ b mod d": the bits are dealt out one at a time, to
/// dimension 1 first. The dimensions stand from 0 here.
pub fn bits_of(d: usize, b: usize) -> Vec<usize> {
    let mut bits = vec![0; d];
    (0..b).for_each(|bit| bits[bit % d] += 1);
    bits
}

/// Each dimension's part of the marks buffer: "With w bits it has 2^w regions and 2^w + 1 marks."
pub fn parts(d: usize, b: usize) -> Vec<Range<usize>> {
    let mut end = 0;
    let part = |bits: usize| {
        let start = end;
        end += 2usize.pow(bits as u32) + 1;
        start..end
    };
    bits_of(d, b).into_iter().map(part).collect()
}

pub fn marks_length(d: usize, b: usize) -> usize {
    parts(d, b).last().map_or(0, |part| part.end)
}

/// "Value v is in region r exactly if mark r ≤ v < mark r+1": every region is tried.
pub fn region_of(marks: &[i32], value: i32) -> Option<usize> {
    let mut regions = (0..marks.len() - 1).filter(|&r| marks[r] <= value && value < marks[r + 1]);
    let region = regions.next();
    assert_eq!(regions.next(), None, "{value} has two regions in {marks:?}");
    region
}

/// How often each component stands in a dimension.
type Counts = BTreeMap<i32, usize>;

/// Each dimension's marks between two outer ones: "inner mark i is the component at place (i·n) div 2^w, places from 0,
/// of the components in non-falling order". The component at a place is the first one with more components up to it
/// than the place.
fn marks_between(d: usize, b: usize, vectors: &[i32], outer: impl Fn(&Counts) -> [i32; 2]) -> Vec<i32> {
    let n = vectors.len() / d;
    let dimension_marks = |(dimension, part): (usize, Range<usize>)| {
        let mut counts = Counts::new();
        vectors.chunks(d).for_each(|vector| *counts.entry(vector[dimension]).or_insert(0) += 1);
        let at = |place: usize| {
            let mut up_to = 0;
            let reached = counts.iter().find(|(_, &count)| {
                up_to += count;
                up_to > place
            });
            *reached.expect("the place is below n").0
        };
        let (regions, [first, last]) = (part.len() - 1, outer(&counts));
        let mut marks = vec![first];
        marks.extend((1..regions).map(|i| at(i * n / regions)));
        marks.push(last);
        marks
    };
    parts(d, b).into_iter().enumerate().flat_map(dimension_marks).collect()
}

/// Document 02, Slip 2: "From now on, marks made from patterns begin at -32768 and end at 32768; inner marks keep their
/// rule."
pub fn made_marks(d: usize, b: usize, vectors: &[i32]) -> Vec<i32> {
    marks_between(d, b, vectors, |_| [-32768, 32768])
}

/// Marks of document 01's rule, before Slip 2: "the first is the dimension's least component, the last its greatest
/// plus 1". No call makes them any more. Files already written hold them, and "codes and neighbours of a library
/// remade" are held to those that it had with them.
pub fn former_marks(d: usize, b: usize, vectors: &[i32]) -> Vec<i32> {
    let least = |counts: &Counts| *counts.keys().min().expect("there is a vector");
    let greatest = |counts: &Counts| *counts.keys().max().expect("there is a vector");
    marks_between(d, b, vectors, |counts| [least(counts), greatest(counts) + 1])
}

/// The region numbers of all vectors, in the vectors' order.
pub fn located(d: usize, b: usize, vectors: &[i32], marks: &[i32]) -> Option<Vec<u8>> {
    let parts = parts(d, b);
    let region = |(place, &value): (usize, &i32)| Some(region_of(&marks[parts[place % d].clone()], value)? as u8);
    vectors.iter().enumerate().map(region).collect()
}

// ---- the calls

pub fn stretch(input: &Input) -> Result<Stretch, u32> {
    let &Input { d, b, j, .. } = input;
    causes::dimensions(d)?;
    causes::dimension(d, j)?;
    causes::bits(d, b)?;
    Ok(Stretch { offset: parts(d, b)[j - 1].start, bits: bits_of(d, b)[j - 1] })
}

pub fn check_marks(input: &Input) -> Result<(), u32> {
    let Input { d, b, marks, .. } = input;
    causes::shape(*d, *b)?;
    causes::lengths(&[(marks.len(), marks_length(*d, *b))])?;
    causes::marks(*d, *b, marks)
}

/// "a call given a dimension hands back its part of the marks buffer"
pub fn part(input: &Input) -> Result<Vec<i32>, u32> {
    causes::dimensions(input.d)?;
    causes::dimension(input.d, input.j)?;
    check_marks(input)?;
    Ok(input.marks[parts(input.d, input.b)[input.j - 1].clone()].to_vec())
}

/// The region of a value in the part that is handed back.
pub fn dimension_region(input: &Input) -> Result<usize, u32> {
    causes::inside(region_of(&part(input)?, input.one.value))
}

pub fn region(input: &Input) -> Result<usize, u32> {
    let one = &input.one;
    causes::region_count(one.regions)?;
    causes::lengths(&[(one.marks.len(), one.regions + 1)])?;
    causes::dimension_marks(&one.marks)?;
    causes::inside(region_of(&one.marks, one.value))
}

pub fn make_marks(input: &Input) -> Result<Vec<i32>, u32> {
    let Input { d, b, n, vectors, room, .. } = input;
    causes::shape(*d, *b)?;
    causes::count(*n)?;
    causes::lengths(&[(vectors.len(), n * d), (room.marks, marks_length(*d, *b))])?;
    causes::components(vectors)?;
    Ok(made_marks(*d, *b, vectors))
}

pub fn regions(input: &Input) -> Result<Vec<u8>, u32> {
    regions_into(input, || (input.room.regions, input.n * input.d))
}

/// The regions, where what is made of them has a buffer of this length and this exact length.
pub fn regions_into(input: &Input, buffer: impl Fn() -> (usize, usize)) -> Result<Vec<u8>, u32> {
    let Input { d, b, n, vectors, marks, .. } = input;
    causes::shape(*d, *b)?;
    causes::count(*n)?;
    causes::lengths(&[(vectors.len(), n * d), (marks.len(), marks_length(*d, *b)), buffer()])?;
    causes::components(vectors)?;
    causes::marks(*d, *b, marks)?;
    causes::inside(located(*d, *b, vectors, marks))
}
