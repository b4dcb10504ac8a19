//! A library with a vector more or less: vectors and settings copied, and the codes of all of them packed afresh.

use super::codes;
use crate::data::Data;

/// What a library has, but for its marks.
#[derive(PartialEq, Debug)]
pub struct Stock {
    pub vectors: Vec<i32>,
    pub settings: Vec<u32>,
    pub codes: Vec<u8>,
}

impl Stock {
    /// The buffers for a library of so many vectors.
    pub fn room(data: &Data, n: usize) -> Stock {
        Stock { vectors: vec![0; n * data.d], settings: vec![0; n], codes: vec![0; codes::length(data.b, n)] }
    }

    fn pack(&mut self, data: &Data) {
        let &Data { d, b, ref marks, .. } = data;
        let mut regions = vec![0; self.vectors.len()];
        codes::regions(d, b, &self.vectors, marks, &mut regions);
        codes::pack(d, b, &regions, &mut self.codes);
    }
}

pub fn add(data: &Data, vector: &[i32], setting: u32, new: &mut Stock) {
    let (front, last) = new.vectors.split_at_mut(data.vectors.len());
    front.copy_from_slice(&data.vectors);
    last.copy_from_slice(vector);
    let (front, last) = new.settings.split_at_mut(data.n);
    front.copy_from_slice(&data.settings);
    last.copy_from_slice(&[setting]);
    new.pack(data);
}

pub fn remove(data: &Data, number: usize, new: &mut Stock) {
    without(&data.vectors, data.d, number, &mut new.vectors);
    without(&data.settings, 1, number, &mut new.settings);
    new.pack(data);
}

/// Copies a row of things of a width each, but for the one of this number.
fn without<T: Copy>(row: &[T], width: usize, number: usize, left: &mut [T]) {
    let (front, back) = left.split_at_mut(number * width);
    front.copy_from_slice(&row[..number * width]);
    back.copy_from_slice(&row[(number + 1) * width..]);
}
