//! The library file, read and written.

use super::{bits, marks};
use crate::data::Data;

const HEAD: u8 = 1;
const MARK: u8 = 2;
const VECTOR: u8 = 3;
const END: u8 = 4;
const STORED_COMPONENTS: usize = 32;

/// Buffers of the largest size, which a library fills from the front.
#[derive(PartialEq, Debug)]
pub struct Loaded {
    pub d: usize,
    pub b: usize,
    pub n: usize,
    pub used: usize,
    pub marks: Vec<i32>,
    pub settings: Vec<u32>,
    pub vectors: Vec<i32>,
}

impl Loaded {
    pub fn room() -> Loaded {
        Loaded { d: 0, b: 0, n: 0, used: 0, marks: vec![0; 2080], settings: vec![0; 512], vectors: vec![0; 512 * 32] }
    }
}

pub fn length(data: &Data) -> usize {
    5 + 5 * data.marks.len() + (5 + 2 * STORED_COMPONENTS) * data.n + 1
}

pub fn write(data: &Data, bytes: &mut [u8]) {
    let mut at = 0;
    let mut put = |field: &[u8]| {
        bytes[at..at + field.len()].copy_from_slice(field);
        at += field.len();
    };
    put(&[HEAD, data.d as u8, data.b as u8]);
    put(&(data.n as u16).to_le_bytes());
    for mark in &data.marks {
        put(&[MARK]);
        put(&mark.to_le_bytes());
    }
    for (setting, vector) in data.settings.iter().zip(data.vectors.chunks_exact(data.d)) {
        put(&[VECTOR]);
        put(&setting.to_le_bytes());
        for &component in vector {
            put(&(component as i16).to_le_bytes());
        }
        for _ in data.d..STORED_COMPONENTS {
            put(&[0, 0]);
        }
    }
    put(&[END]);
}

struct Bytes<'a>(&'a [u8]);

impl Bytes<'_> {
    fn take<const N: usize>(&mut self) -> Option<[u8; N]> {
        let (field, rest) = self.0.split_first_chunk()?;
        self.0 = rest;
        Some(*field)
    }

    fn kind(&mut self, wanted: u8) -> Option<()> {
        (self.take::<1>()? == [wanted]).then_some(())
    }
}

/// The library that the bytes begin with, or none where they are no library.
pub fn load(bytes: &[u8], loaded: &mut Loaded) -> Option<()> {
    let mut rest = Bytes(bytes);
    rest.kind(HEAD)?;
    let [d, b] = rest.take()?.map(usize::from);
    let n = usize::from(u16::from_le_bytes(rest.take()?));
    if !(1..=32).contains(&d) || b > 6 * d || !(1..=512).contains(&n) {
        return None;
    }
    let count = marks::length(d, b);
    let mut at = 0;
    for w in bits(d, b) {
        let mut least = -32768;
        for mark in &mut loaded.marks[at..at + (1 << w) + 1] {
            rest.kind(MARK)?;
            *mark = i32::from_le_bytes(rest.take()?);
            if !(least..=32768).contains(mark) {
                return None;
            }
            least = *mark;
        }
        at += (1 << w) + 1;
    }
    let marks = &loaded.marks[..count];
    for (setting, vector) in loaded.settings[..n].iter_mut().zip(loaded.vectors.chunks_exact_mut(d)) {
        rest.kind(VECTOR)?;
        *setting = u32::from_le_bytes(rest.take()?);
        let mut at = 0;
        for (component, w) in vector.iter_mut().zip(bits(d, b)) {
            *component = i32::from(i16::from_le_bytes(rest.take()?));
            let last = at + (1 << w);
            if !(marks[at]..marks[last]).contains(component) {
                return None;
            }
            at = last + 1;
        }
        for _ in d..STORED_COMPONENTS {
            if rest.take()? != [0, 0] {
                return None;
            }
        }
    }
    rest.kind(END)?;
    (loaded.d, loaded.b, loaded.n, loaded.used) = (d, b, n, bytes.len() - rest.0.len());
    Some(())
}
