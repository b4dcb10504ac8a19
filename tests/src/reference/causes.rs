//! The causes of document 01's table, "When a call says no", and of document 02, each with its number.

use super::{partition::parts, presence::present};

/// The number of the cause that holds, if one does.
pub type Checked = Result<(), u32>;

fn refused_unless(good: bool, number: u32) -> Checked {
    good.then_some(()).ok_or(number)
}

/// 1: "d not 1 to 32".
pub fn dimensions(d: usize) -> Checked {
    refused_unless((1..=32).contains(&d), 1)
}

/// 1: "or a dimension number not 1 to d".
pub fn dimension(d: usize, j: usize) -> Checked {
    refused_unless((1..=d).contains(&j), 1)
}

/// 2: "b above 6·d", for a d that is none of 1.
pub fn bits(d: usize, b: usize) -> Checked {
    refused_unless(b <= 6 * d, 2)
}

/// 2: "or a number of regions other than 2^w with w 0 to 6".
pub fn region_count(regions: usize) -> Checked {
    refused_unless([1, 2, 4, 8, 16, 32, 64].contains(&regions), 2)
}

/// 1, then 2.
pub fn shape(d: usize, b: usize) -> Checked {
    dimensions(d)?;
    bits(d, b)
}

/// 3: "n not 1 to 512".
pub fn count(n: usize) -> Checked {
    refused_unless((1..=512).contains(&n), 3)
}

/// 4: "k is 0 or above n".
pub fn neighbours(n: usize, k: usize) -> Checked {
    refused_unless((1..=n).contains(&k), 4)
}

/// 5: "a lent buffer's length is not the exact one"; each length stands with the exact one.
pub fn lengths(lengths: &[(usize, usize)]) -> Checked {
    refused_unless(lengths.iter().all(|(length, exact)| length == exact), 5)
}

/// 6: "component out of range".
pub fn components(numbers: &[i32]) -> Checked {
    refused_unless(numbers.iter().all(|number| (-32768..=32767).contains(number)), 6)
}

/// 6: "or non-zero beyond d"; these are the components there.
pub fn beyond(numbers: &[i32]) -> Checked {
    refused_unless(numbers.iter().all(|&number| number == 0), 6)
}

/// 7: "a mark out of range or below the one before it in its dimension", for one dimension.
pub fn dimension_marks(marks: &[i32]) -> Checked {
    let in_range = marks.iter().all(|mark| (-32768..=32768).contains(mark));
    let falls = marks.windows(2).any(|pair| pair[1] < pair[0]);
    refused_unless(in_range && !falls, 7)
}

/// 7, for every dimension.
pub fn marks(d: usize, b: usize, marks: &[i32]) -> Checked {
    parts(d, b).into_iter().try_for_each(|part| dimension_marks(&marks[part]))
}

/// 8: "a pattern, or a value whose region is sought, outside the marks"; the region is not there.
pub fn inside<R>(region: Option<R>) -> Result<R, u32> {
    region.ok_or(8)
}

/// 9: "a code naming an empty region, a region number past the last, or a spare bit set".
pub fn code(good: bool) -> Checked {
    refused_unless(good, 9)
}

/// 10: "the search reads a pattern that is not in its code's cell".
pub fn in_cell(inside: bool) -> Checked {
    refused_unless(inside, 10)
}

/// 11: "kind byte not 1 to 7"; what is known of the kind is not there.
pub fn kind<T>(known: Option<T>) -> Result<T, u32> {
    known.ok_or(11)
}

/// 12: "input ends inside a record or before the next"; what is to be read is not there.
pub fn whole<T>(read: Option<T>) -> Result<T, u32> {
    read.ok_or(12)
}

/// 16: "bytes after a query".
pub fn no_more(rest: &[u8]) -> Checked {
    refused_unless(rest.is_empty(), 16)
}

/// 17: "known kind in a wrong place".
pub fn placed(kind: u8, places: &[u8]) -> Checked {
    refused_unless(places.contains(&kind), 17)
}

/// 18 (document 02, Slip 1): "At least four must be present, or all d where d is below four".
pub fn enough_present(d: usize, word: u32) -> Checked {
    let count = present(word).len();
    refused_unless(if d < 4 { count == d } else { count >= 4 }, 18)
}

/// 19 (document 02, Slip 1): "a bit at or above d".
pub fn word_within(d: usize, word: u32) -> Checked {
    refused_unless(present(word).into_iter().all(|bit| bit < d), 19)
}

/// 19, then 18: "after 19 in search and scan".
pub fn word(d: usize, word: u32) -> Checked {
    word_within(d, word)?;
    enough_present(d, word)
}

/// 20 (document 02, Slip 3): "adding at the pattern limit".
pub fn room_for_one_more(n: usize) -> Checked {
    refused_unless(n < 512, 20)
}

/// 21 (document 02, Slip 3): "removing a number not stored or the only pattern".
pub fn removable(n: usize, number: usize) -> Checked {
    refused_unless(n > 1 && (0..n).contains(&number), 21)
}

/// 22 (document 02, Slip 5): "more than 64 queries".
pub fn queries(m: usize) -> Checked {
    refused_unless(m <= 64, 22)
}
