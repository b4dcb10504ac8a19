//! The data of a measurement: vectors, their marks and codes, and fresh queries of the vectors' distribution.

use crate::peer::{codes, file, marks, program};
use crate::random::Random;

#[derive(Clone, Copy, PartialEq, Debug)]
pub enum Spread {
    /// Each component anywhere in its range.
    Uniform,
    /// Around 16 centres, each component within 2048 of its centre's and more often near it.
    Clustered,
}

impl Spread {
    pub const ALL: [Spread; 2] = [Spread::Uniform, Spread::Clustered];

    pub fn name(self) -> &'static str {
        match self {
            Spread::Uniform => "uniform",
            Spread::Clustered => "clustered",
        }
    }
}

/// A library, with fresh queries for it.
pub struct Data {
    pub d: usize,
    pub b: usize,
    pub n: usize,
    pub vectors: Vec<i32>,
    pub marks: Vec<i32>,
    pub regions: Vec<u8>,
    pub codes: Vec<u8>,
    pub settings: Vec<u32>,
    pub bytes: Vec<u8>,
    pub queries: Vec<Vec<i32>>,
    /// The queries' presence word: every dimension is present.
    pub word: u32,
    /// Other fresh queries one behind the other, as many as go into one batch, and their words.
    pub batch: Vec<i32>,
    pub words: Vec<u32>,
    /// As many other sets of vectors as there are queries: marks are made from another set each time, since a processor learns the
    /// branches of a sort that it sees again.
    pub others: Vec<Vec<i32>>,
    /// The library, k and each query, as the program reads them.
    pub matches: Vec<Vec<u8>>,
}

impl Data {
    pub const QUERIES: usize = 32;
    pub const BATCH: usize = 64;
    const CENTRES: usize = 16;
    const REACH: i32 = 1024;

    /// Numbers of vectors from the first on, one for each query, at equal distances.
    pub fn spread_out(&self, i: usize) -> usize {
        i * self.n / Self::QUERIES
    }

    pub fn new(d: usize, bits: usize, n: usize, spread: Spread, k: usize) -> Data {
        let b = bits * d;
        let mut random = Random::new((d * 1000 + n) as u64);
        let centres: Vec<i32> = (0..Self::CENTRES * d).map(|_| random.between(-30000, 30000)).collect();
        let mut vector = || -> Vec<i32> {
            let centre = random.between(0, Self::CENTRES as i32 - 1) as usize * d;
            let mut near =
                |c: i32| c + random.between(-Self::REACH, Self::REACH) + random.between(-Self::REACH, Self::REACH);
            match spread {
                Spread::Clustered => centres[centre..centre + d].iter().map(|&c| near(c)).collect(),
                Spread::Uniform => (0..d).map(|_| random.between(-32768, 32767)).collect(),
            }
        };
        let vectors: Vec<i32> = (0..n).flat_map(|_| vector()).collect();
        let queries = (0..Self::QUERIES).map(|_| vector()).collect();
        let others = (0..Self::QUERIES).map(|_| (0..n).flat_map(|_| vector()).collect()).collect();
        let batch = (0..Self::BATCH).flat_map(|_| vector()).collect();
        let word = u32::MAX >> (32 - d);
        let mut data = Data {
            d,
            b,
            n,
            vectors,
            marks: vec![0; marks::length(d, b)],
            regions: vec![0; n * d],
            codes: vec![0; codes::length(b, n)],
            settings: (1..=n as u32).collect(),
            bytes: Vec::new(),
            queries,
            word,
            batch,
            words: vec![word; Self::BATCH],
            others,
            matches: Vec::new(),
        };
        marks::make(d, b, &data.vectors, &mut data.marks);
        codes::regions(d, b, &data.vectors, &data.marks, &mut data.regions);
        codes::pack(d, b, &data.regions, &mut data.codes);
        let mut bytes = vec![0; file::length(&data)];
        file::write(&data, &mut bytes);
        let readings = |query: &Vec<i32>| query.iter().flat_map(|&component| program::reading(component)).collect();
        let whole = |query| [&bytes[..], &(k as u16).to_le_bytes(), &Vec::<u8>::as_slice(&readings(query))].concat();
        data.matches = data.queries.iter().map(whole).collect();
        data.bytes = bytes;
        data
    }
}
