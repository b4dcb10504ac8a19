//! A vector added to a library, or removed from it (document 02, Slip 3). Codes are a row of bits here, and no region is
//! looked up but the new vector's.

use super::{
    approximation::{codes_length, good_codes, packed},
    causes, partition,
};
use crate::input::{Input, Updated};

/// The bits of these bytes, high bit first.
fn bits(bytes: &[u8]) -> Vec<bool> {
    bytes.iter().flat_map(|byte| (0..8).rev().map(move |place| byte >> place & 1 == 1)).collect()
}

/// The bytes of these bits, "filling bytes from the high bit; spare bits of the last byte are zero".
fn bytes(bits: &[bool]) -> Vec<u8> {
    let byte = |bits: &[bool]| (0..8).fold(0, |byte, place| 2 * byte + u8::from(bits.get(place) == Some(&true)));
    bits.chunks(8).map(byte).collect()
}

/// A row of n things of a width each, without the one of this number: "removing moves later patterns, settings and codes
/// down by one".
fn without<T: Copy>(row: &[T], width: usize, number: usize) -> Vec<T> {
    [&row[..number * width], &row[(number + 1) * width..]].concat()
}

/// 1, 2, 3, then 5 for the old library and for "buffers of their own, lent at their exact lengths" for a library of so
/// many vectors.
fn check_counts(input: &Input, new_count: impl Fn(usize) -> usize) -> causes::Checked {
    let Input { d, b, n, marks, codes, settings, vectors, room, .. } = input;
    causes::shape(*d, *b)?;
    causes::count(*n)?;
    causes::lengths(&[(marks.len(), partition::marks_length(*d, *b)), (codes.len(), codes_length(*n, *b))])?;
    causes::lengths(&[(settings.len(), *n), (vectors.len(), n * d)])?;
    let new = new_count(*n);
    causes::lengths(&[(room.new_vectors, new * d), (room.new_settings, new), (room.new_codes, codes_length(new, *b))])
}

/// 6, 7, 8 and 9 for these vectors, with the library's marks and codes: the vectors' region numbers.
fn check_contents(input: &Input, vectors: &[i32]) -> Result<Vec<u8>, u32> {
    let Input { d, b, marks, .. } = input;
    causes::components(vectors)?;
    causes::marks(*d, *b, marks)?;
    let regions = causes::inside(partition::located(*d, *b, vectors, marks))?;
    good_codes(input)?;
    Ok(regions)
}

// ---- the calls

/// "Adding puts the new pattern last and changes no earlier code".
pub fn add(input: &Input) -> Result<Updated, u32> {
    let Input { d, b, n, codes, settings, vectors, one, .. } = input;
    check_counts(input, |n| n + 1)?;
    causes::lengths(&[(one.vector.len(), *d)])?;
    causes::room_for_one_more(*n)?;
    let vectors = [&vectors[..], &one.vector].concat();
    let regions = check_contents(input, &vectors)?;
    let code = bits(&packed(*d, *b, &regions[n * d..]));
    let codes = bytes(&[&bits(codes)[..n * b], &code[..*b]].concat());
    Ok(Updated { vectors, settings: [&settings[..], &[one.setting]].concat(), codes })
}

pub fn remove(input: &Input) -> Result<Updated, u32> {
    let &Input { d, b, n, ref codes, ref settings, ref vectors, .. } = input;
    check_counts(input, |n| n - 1)?;
    let number = input.one.number;
    causes::removable(n, number)?;
    check_contents(input, vectors)?;
    let codes = bytes(&without(&bits(codes)[..n * b], b, number));
    Ok(Updated { vectors: without(vectors, d, number), settings: without(settings, 1, number), codes })
}
