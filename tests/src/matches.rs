//! Inputs of the program: a library, k, a query; the samples, random ones, and such inputs damaged.

use crate::{
    c,
    input::{LoadRoom, Loaded},
    random::Random,
    reference,
    samples::{file, largest_input, random_input, random_input_with_word, readings, readings_present},
};
use std::fs;

/// The inputs in samples/.
pub const SAMPLES: [&str; 4] = ["a.match", "forty.match", "trees.match", "large.match"];

pub fn sample(name: &str) -> Vec<u8> {
    fs::read(c::root().join("samples").join(name)).expect("the sample can be read")
}

/// The length of the output's buffer: two counts, then 512 times a number, settings and a distance, each with the byte
/// behind it.
pub const TEXT_ROOM: usize = 4 + 4 + 512 * (4 + 11 + 13);

/// The parts of an input whose library is right.
#[derive(Clone, PartialEq, Eq, Debug)]
pub struct Match {
    pub library: Vec<u8>,
    pub k: u16,
    pub query: Vec<u8>,
}

impl Match {
    /// The parts of a whole input.
    pub fn of(bytes: &[u8]) -> Match {
        let (library, rest) = bytes.split_at(loaded(bytes).used);
        let (k, query) = rest.split_first_chunk().expect("there is a k");
        Match { library: library.to_vec(), k: u16::from_le_bytes(*k), query: query.to_vec() }
    }

    /// A random one of at most this many vectors.
    pub fn random(seed: u64, most: usize) -> Match {
        let input = random_input(seed, most);
        let query = readings(&mut Random::new(seed), &input.query);
        Match { library: file(&input), k: input.k as u16, query }
    }

    /// A random one of at most this many vectors, in which no more readings are absent than may be.
    pub fn random_with_absent(seed: u64, most: usize) -> Match {
        let input = random_input_with_word(seed, most);
        let query = readings_present(&mut Random::new(seed), &input.query, input.word);
        Match { library: file(&input), k: input.k as u16, query }
    }

    /// As long as an input can be, for all of its vectors: the largest library, with readings of six bytes.
    pub fn longest() -> Match {
        Match { library: file(&largest_input()), k: 512, query: [6, 0, 0, 0x80, 0x3F, 20].repeat(32) }
    }

    pub fn bytes(&self) -> Vec<u8> {
        [&self.library, &self.k.to_le_bytes()[..], &self.query].concat()
    }
}

/// The library that an input begins with.
pub fn loaded(bytes: &[u8]) -> Loaded {
    reference::load(bytes, LoadRoom::LARGEST).expect("the library is right")
}

/// An input with other marks in its library.
pub fn with_marks(bytes: &[u8], marks: &[i32]) -> Vec<u8> {
    let mut bytes = bytes.to_vec();
    for (mark, record) in marks.iter().zip(bytes[5..].chunks_mut(5)) {
        record[1..].copy_from_slice(&mark.to_le_bytes());
    }
    bytes
}

/// Damages an input in one place or more, most of them in the head or near the end: a byte changed, put in or left out,
/// the end cut off, bytes put behind.
pub fn damage(random: &mut Random, bytes: &mut Vec<u8>) {
    for _ in 0..random.one_of(&[1, 1, 1, 2, 3, 5]) {
        let end = bytes.len();
        let (anywhere, head, tail) = (random.below(end + 1), random.below(5), random.below(60));
        let at = random.one_of(&[anywhere, anywhere, head, end.saturating_sub(tail)]).min(end);
        let any = random.next_u32() as u8;
        let byte = random.one_of(&[any, 0, 1, 2, 3, 4, 5, 6, 7, 8, 127, 128, 255]);
        match random.below(16) {
            0 => bytes.insert(at, byte),
            1 => bytes.truncate(at),
            2 => bytes.extend((0..=random.below(9)).map(|_| random.next_u32() as u8)),
            3 if at < end => drop(bytes.remove(at)),
            4 if at < end => bytes[at] ^= 1 << random.below(8),
            5 if at < end => bytes[at] = bytes[at].wrapping_add(random.one_of(&[1, 255])),
            _ if at < end => bytes[at] = byte,
            _ => bytes.push(byte),
        }
    }
}

/// Bytes of no plan, or records of no plan behind a head, with small numbers in them.
pub fn noise(random: &mut Random) -> Vec<u8> {
    if random.below(3) == 0 {
        return (0..random.below(100)).map(|_| random.next_u32() as u8).collect();
    }
    let mut bytes = vec![1, random.below(4) as u8, random.below(8) as u8, random.below(3) as u8, 0];
    let mut mark = 0;
    for _ in 0..random.below(14) {
        let kind = random.one_of(&[0, 1, 2, 2, 2, 2, 2, 2, 2, 2, 3, 3, 4, 5, 6, 7, 8]);
        let length = [0, 4, 4, 68, 0, 4, 5, 0, 0][usize::from(kind)];
        mark = (mark + random.one_of(&[0, 1, 9, 127])) & 0x7F;
        bytes.push(kind);
        bytes.extend([mark, 0, 0, 0].into_iter().take(length));
        bytes.extend((4..length).map(|_| random.one_of(&[0, 0, 0, 0, 0, 0, 0, 0, 0, 1])));
    }
    bytes
}
