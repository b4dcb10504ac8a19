//! The presence word (document 02, Slip 1): the absent dimensions are left out of a query, a vector and a cell, and what
//! is left of them is measured as in document 01.

/// "a presence word of 32 bits, bit j-1 for dimension j": the word is written out in digits, and read from its end. The
/// dimensions stand from 0 here.
pub fn present(word: u32) -> Vec<usize> {
    let digits = format!("{word:b}");
    let dimensions = digits.chars().rev().enumerate();
    dimensions.filter(|&(_, digit)| digit == '1').map(|(dimension, _)| dimension).collect()
}

/// What stands at these dimensions.
pub fn kept<T: Clone>(present: &[usize], all: &[T]) -> Vec<T> {
    present.iter().map(|&dimension| all[dimension].clone()).collect()
}

/// The word of these dimensions, present or not, dimension 1 first.
pub fn word_of(dimensions: impl IntoIterator<Item = bool>) -> u32 {
    let bits = dimensions.into_iter().zip(0..).filter(|&(present, _)| present);
    bits.map(|(_, bit)| 2u32.pow(bit)).sum()
}

/// The word of d dimensions that are all present.
pub fn full_word(d: usize) -> u32 {
    word_of((0..d.min(32)).map(|_| true))
}

#[cfg(test)]
mod tests {
    use super::{full_word, kept, present, word_of};

    #[test]
    fn bit_j_minus_1_is_dimension_j() {
        assert_eq!(kept(&present(0b10_1101), &[1, 2, 3, 4, 5, 6]), [1, 3, 4, 6]);
        assert_eq!(present(0), []);
        for bit in 0..32 {
            assert_eq!(present(1 << bit), [bit]);
            assert_eq!(word_of((0..32).map(|dimension| dimension == bit)), 1 << bit);
        }
    }

    #[test]
    fn the_full_word_has_a_bit_for_each_dimension() {
        assert_eq!([1, 2, 8, 31, 32].map(full_word), [1, 3, 0xFF, 0x7FFF_FFFF, 0xFFFF_FFFF]);
        assert_eq!(present(full_word(32)), (0..32).collect::<Vec<_>>());
    }
}
