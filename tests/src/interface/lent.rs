//! Buffers lent to a call: after it, what it had no right to change is as it was.

use crate::input::{Answer, Entry};
use std::fmt::Debug;

/// Numbers that a buffer can hold, and entries and answers of them.
pub trait Number: Copy + PartialEq + Debug {
    fn of_bits(bits: u64) -> Self;
}

macro_rules! number {
    ($($t:ty),*) => { $(impl Number for $t { fn of_bits(bits: u64) -> $t { bits as $t } })* };
}

number!(u8, u32, i32, u64, usize);

impl Number for Entry {
    fn of_bits(bits: u64) -> Entry {
        Entry { number: u32::of_bits(bits), distance: bits.rotate_left(32) }
    }
}

impl Number for Answer {
    fn of_bits(bits: u64) -> Answer {
        Answer { status: u32::of_bits(bits), count: usize::of_bits(bits.rotate_left(32)) }
    }
}

/// A buffer with a margin on either side, and all that it held before the call.
pub struct Lent<T> {
    all: Vec<T>,
    before: Vec<T>,
}

impl<T: Number> Lent<T> {
    const MARGIN: usize = 8;

    /// A buffer that is only read.
    pub fn given(contents: &[T]) -> Lent<T> {
        let mut all = Lent::noise(2 * Self::MARGIN + contents.len());
        all[Self::MARGIN..Self::MARGIN + contents.len()].copy_from_slice(contents);
        Lent { before: all.clone(), all }
    }

    /// A buffer to be written.
    pub fn room(length: usize) -> Lent<T> {
        let all = Lent::noise(2 * Self::MARGIN + length);
        Lent { before: all.clone(), all }
    }

    /// Numbers that are hardly ever written by chance.
    fn noise(length: usize) -> Vec<T> {
        (0..length as u64).map(|i| T::of_bits((i + 1).wrapping_mul(0x9E37_79B9_7F4A_7C15) >> 7)).collect()
    }

    pub fn pointer(&mut self) -> *mut T {
        self.all[Self::MARGIN..].as_mut_ptr()
    }

    pub fn len(&self) -> usize {
        self.all.len() - 2 * Self::MARGIN
    }

    fn contents(&self) -> &[T] {
        &self.all[Self::MARGIN..Self::MARGIN + self.len()]
    }

    /// Nothing was written past the first elements, nor before them.
    #[track_caller]
    fn kept_past(&self, written: usize) {
        assert!(written <= self.len(), "{written} elements are more than the buffer of {}", self.len());
        let (front, back) = (Self::MARGIN, Self::MARGIN + written);
        assert_eq!(self.all[..front], self.before[..front], "written before the buffer");
        assert_eq!(self.all[back..], self.before[back..], "written past the first {written} of {}", self.len());
    }

    /// The buffer is as it was.
    #[track_caller]
    pub fn kept(&self) {
        self.kept_past(0);
    }

    /// What the call wrote, up to a length, or the number of its refusal, which leaves the buffer as it was.
    #[track_caller]
    pub fn filled_to(&self, written: usize, number: u32) -> Result<Vec<T>, u32> {
        self.kept_past(if number == 0 { written } else { 0 });
        outcome(number, self.contents()[..written].to_vec())
    }

    /// What the call wrote over the whole buffer, or the number of its refusal, which leaves the buffer as it was.
    #[track_caller]
    pub fn filled(&self, number: u32) -> Result<Vec<T>, u32> {
        self.filled_to(self.len(), number)
    }

    /// What the call wrote of a buffer in parts of a length each: in each part so many of the first elements. All else is
    /// as it was.
    #[track_caller]
    pub fn filled_parts(&self, length: usize, written: &[usize]) -> Vec<Vec<T>> {
        assert_eq!(self.len(), length * written.len(), "{} parts of {length} elements", written.len());
        let mut due = self.before.clone();
        let mut parts = vec![];
        for (part, &written) in written.iter().enumerate() {
            assert!(written <= length, "{written} elements are more than part {part} of {length}");
            let front = Self::MARGIN + part * length..Self::MARGIN + part * length + written;
            due[front.clone()].copy_from_slice(&self.all[front.clone()]);
            parts.push(self.all[front].to_vec());
        }
        assert_eq!(self.all, due, "written past the first {written:?} of parts of {length}");
        parts
    }
}

/// A count or a word that a call gives: 0 where it is refused.
#[track_caller]
pub fn counted<T: Number>(place: &Lent<T>, number: u32) -> T {
    place.kept_past(1);
    let count = place.contents()[0];
    assert!(number == 0 || count == T::of_bits(0), "refused with {number}, and {count:?} is not 0");
    count
}

/// A call's answer, or the number of its refusal.
pub fn outcome<T>(number: u32, answer: T) -> Result<T, u32> {
    match number {
        0 => Ok(answer),
        number => Err(number),
    }
}
