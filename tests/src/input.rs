//! What the calls are given: one record with everything, of which each call takes its part.

use std::{fmt::Debug, thread};

/// Vectors stand in a row, n rows of d components; `codes` has each vector's code, `regions` its region numbers,
/// `settings` its settings number.
#[derive(Clone, PartialEq, Eq, Debug)]
pub struct Input {
    /// where the input comes from
    pub origin: String,
    pub d: usize,
    pub b: usize,
    pub n: usize,
    pub k: usize,
    /// a dimension, from 1
    pub j: usize,
    /// the presence word: bit j - 1 for dimension j
    pub word: u32,
    pub query: Vec<i32>,
    pub marks: Vec<i32>,
    pub vectors: Vec<i32>,
    pub settings: Vec<u32>,
    pub regions: Vec<u8>,
    pub codes: Vec<u8>,
    pub one: One,
    pub batch: Batch,
    pub room: Room,
}

impl Input {
    /// From here to the end of the block, a failing test tells the input.
    pub fn told(&self) -> Told<'_, Input> {
        told(self)
    }
}

/// From here to the end of the block, a failing test tells what was given.
pub fn told<T: Debug + ?Sized>(given: &T) -> Told<'_, T> {
    Told(given)
}

/// Tells what was given if the test is failing when this goes.
pub struct Told<'a, T: Debug + ?Sized>(&'a T);

impl<T: Debug + ?Sized> Drop for Told<'_, T> {
    fn drop(&mut self) {
        if thread::panicking() {
            eprintln!("failed on {:?}", self.0);
        }
    }
}

/// What calls on one vector or one dimension are given.
#[derive(Clone, PartialEq, Eq, Debug)]
pub struct One {
    /// the vector to add is this one, with this settings number
    pub vector: Vec<i32>,
    pub setting: u32,
    /// the number of the vector to remove
    pub number: usize,
    pub marks: Vec<i32>,
    pub regions: usize,
    pub value: i32,
}

/// What a batch is given beside the library and k: so many queries, each of d components, and their presence words.
#[derive(Clone, PartialEq, Eq, Debug)]
pub struct Batch {
    pub m: usize,
    pub queries: Vec<i32>,
    pub words: Vec<u32>,
}

/// The lengths of the buffers that calls fill.
#[derive(Clone, PartialEq, Eq, Debug)]
pub struct Room {
    pub marks: usize,
    pub regions: usize,
    pub codes: usize,
    pub entries: usize,
    pub reads: usize,
    pub lowers: usize,
    pub uppers: usize,
    pub bytes: usize,
    /// for the library with a vector more or less
    pub new_vectors: usize,
    pub new_settings: usize,
    pub new_codes: usize,
    /// for all queries of a batch
    pub answers: usize,
    pub batch_entries: usize,
    pub batch_reads: usize,
}

/// The lengths of the buffers that loading fills.
#[derive(Clone, Copy, PartialEq, Eq, Debug)]
pub struct LoadRoom {
    pub marks: usize,
    pub settings: usize,
    pub components: usize,
}

impl LoadRoom {
    /// "only load lends its buffers at the largest size (2,080 marks, 16,384 components, 512 settings)"
    pub const LARGEST: LoadRoom = LoadRoom { marks: 2080, settings: 512, components: 16_384 };
}

/// Where a dimension's marks begin in the marks buffer, and how many bits it has.
#[derive(Clone, Copy, PartialEq, Eq, Debug)]
pub struct Stretch {
    pub offset: usize,
    pub bits: usize,
}

/// A cell's least and greatest distance.
#[derive(Clone, Copy, PartialEq, Eq, Debug)]
pub struct Bounds {
    pub lower: u64,
    pub upper: u64,
}

/// A vector's number and its distance, laid out as in C; `layout.c` holds C to the same sizes and offsets.
#[repr(C)]
#[derive(Clone, Copy, PartialEq, Eq, Debug)]
pub struct Entry {
    pub number: u32,
    pub distance: u64,
}

/// A query's status in a batch and the count of the vectors read, laid out as in C; `layout.c` holds C to the same.
#[repr(C)]
#[derive(Clone, Copy, PartialEq, Eq, Debug)]
pub struct Answer {
    pub status: u32,
    pub count: usize,
}

/// A search's answer, and the numbers read, in reading order.
#[derive(Clone, PartialEq, Eq, Debug)]
pub struct Found {
    pub entries: Vec<Entry>,
    pub reads: Vec<u32>,
}

/// A query: its components and its presence word. Where the second intake took it in, absent components are 0.
#[derive(Clone, PartialEq, Eq, Debug)]
pub struct Query {
    pub components: Vec<i32>,
    pub word: u32,
}

/// What a library has, but for its marks, once a vector was added or removed.
#[derive(Clone, PartialEq, Eq, Debug)]
pub struct Updated {
    pub vectors: Vec<i32>,
    pub settings: Vec<u32>,
    pub codes: Vec<u8>,
}

/// A library that was loaded, and how many bytes it is.
#[derive(Clone, PartialEq, Eq, Debug)]
pub struct Loaded {
    pub d: usize,
    pub b: usize,
    pub n: usize,
    pub marks: Vec<i32>,
    pub settings: Vec<u32>,
    pub components: Vec<i32>,
    pub used: usize,
}
