//! Codes as strings of the characters 0 and 1 (document 01, "Marks, regions, codes").

use super::{causes, partition};
use crate::input::Input;

/// "Codes follow each other with no gap, filling bytes from the high bit".
pub fn codes_length(n: usize, b: usize) -> usize {
    (n * b).div_ceil(8)
}

/// "A code is the region numbers joined, dimension 1 first, high bit first"; "spare bits of the last byte are zero".
pub fn packed(d: usize, b: usize, regions: &[u8]) -> Vec<u8> {
    let widths = partition::bits_of(d, b);
    let digits = |(place, region): (usize, &u8)| match widths[place % d] {
        0 => String::new(),
        width => format!("{region:0width$b}"),
    };
    let mut text: String = regions.iter().enumerate().map(digits).collect();
    while !text.len().is_multiple_of(8) {
        text.push('0');
    }
    (0..text.len()).step_by(8).map(|start| number(&text[start..start + 8])).collect()
}

fn number(digits: &str) -> u8 {
    digits.chars().fold(0, |number, digit| 2 * number + u8::from(digit == '1'))
}

/// The region numbers that the codes name, and the spare bits.
fn unpacked(d: usize, b: usize, n: usize, codes: &[u8]) -> (Vec<u8>, String) {
    let text: String = codes.iter().map(|byte| format!("{byte:08b}")).collect();
    let mut rest = text.as_str();
    let mut next = |width: usize| {
        let (digits, after) = rest.split_at(width);
        rest = after;
        number(digits)
    };
    let widths = partition::bits_of(d, b);
    let regions = (0..n * d).map(|place| next(widths[place % d])).collect();
    (regions, rest.to_string())
}

/// The region numbers that the codes name.
pub fn regions_of(d: usize, b: usize, n: usize, codes: &[u8]) -> Vec<u8> {
    unpacked(d, b, n, codes).0
}

/// 9 for codes with their marks: a spare bit set, or an empty region named.
pub fn good_codes(input: &Input) -> causes::Checked {
    let Input { d, b, n, marks, codes, .. } = input;
    let (regions, spare) = unpacked(*d, *b, *n, codes);
    let parts = partition::parts(*d, *b);
    let is_empty = |(place, &region): (usize, &u8)| {
        let marks = &marks[parts[place % d].clone()];
        marks[usize::from(region)] == marks[usize::from(region) + 1]
    };
    causes::code(!spare.contains('1') && !regions.iter().enumerate().any(is_empty))
}

// ---- the calls

pub fn pack(input: &Input) -> Result<Vec<u8>, u32> {
    let Input { d, b, n, regions, room, .. } = input;
    causes::shape(*d, *b)?;
    causes::count(*n)?;
    causes::lengths(&[(regions.len(), n * d), (room.codes, codes_length(*n, *b))])?;
    let parts = partition::parts(*d, *b);
    let is_past = |(place, &region): (usize, &u8)| usize::from(region) + 1 >= parts[place % d].len();
    causes::code(!regions.iter().enumerate().any(is_past))?;
    Ok(packed(*d, *b, regions))
}

pub fn pack_vectors(input: &Input) -> Result<Vec<u8>, u32> {
    let regions = partition::regions_into(input, || (input.room.codes, codes_length(input.n, input.b)))?;
    Ok(packed(input.d, input.b, &regions))
}

pub fn unpack(input: &Input) -> Result<Vec<u8>, u32> {
    let Input { d, b, n, codes, room, .. } = input;
    causes::shape(*d, *b)?;
    causes::count(*n)?;
    causes::lengths(&[(codes.len(), codes_length(*n, *b)), (room.regions, n * d)])?;
    let (regions, spare) = unpacked(*d, *b, *n, codes);
    causes::code(!spare.contains('1'))?;
    Ok(regions)
}

pub fn check_codes(input: &Input) -> Result<(), u32> {
    let Input { d, b, n, marks, codes, .. } = input;
    causes::shape(*d, *b)?;
    causes::count(*n)?;
    causes::lengths(&[(marks.len(), partition::marks_length(*d, *b)), (codes.len(), codes_length(*n, *b))])?;
    causes::marks(*d, *b, marks)?;
    good_codes(input)
}
