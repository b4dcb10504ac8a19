//! The C++ peers, where bench/run found them: FAISS's flat index and nanoflann's tree. They are timed in turns with the search.

use crate::call::{Answer, Call, Side};
use crate::data::Data;
use crate::table::Row;
use crate::timing::{in_turns, ROUNDS};
use std::ffi::c_void;

type New = unsafe extern "C" fn(d: usize, n: usize, vectors: *const i32) -> *mut c_void;
type Search = unsafe extern "C" fn(*mut c_void, query: *const i32, k: usize, numbers: *mut u32, distances: *mut f64);
type Free = unsafe extern "C" fn(*mut c_void);

struct Peer {
    name: &'static str,
    new: New,
    search: Search,
    free: Free,
}

#[cfg(faiss)]
extern "C" {
    fn bench_faiss_new(d: usize, n: usize, vectors: *const i32) -> *mut c_void;
    fn bench_faiss_search(index: *mut c_void, query: *const i32, k: usize, numbers: *mut u32, distances: *mut f64);
    fn bench_faiss_free(index: *mut c_void);
}

#[cfg(nanoflann)]
extern "C" {
    fn bench_nanoflann_new(d: usize, n: usize, vectors: *const i32) -> *mut c_void;
    fn bench_nanoflann_search(index: *mut c_void, query: *const i32, k: usize, numbers: *mut u32, distances: *mut f64);
    fn bench_nanoflann_free(index: *mut c_void);
}

const PEERS: &[Peer] = &[
    #[cfg(faiss)]
    Peer { name: "FAISS flat", new: bench_faiss_new, search: bench_faiss_search, free: bench_faiss_free },
    #[cfg(nanoflann)]
    Peer { name: "nanoflann", new: bench_nanoflann_new, search: bench_nanoflann_search, free: bench_nanoflann_free },
];

/// A peer's index of the vectors, with room for an answer.
struct Index<'a> {
    peer: &'a Peer,
    index: *mut c_void,
    numbers: Vec<u32>,
    distances: Vec<f64>,
}

impl Index<'_> {
    fn new<'a>(peer: &'a Peer, data: &Data, k: usize) -> Index<'a> {
        let index = unsafe { (peer.new)(data.d, data.n, data.vectors.as_ptr()) };
        Index { peer, index, numbers: vec![0; k], distances: vec![0.0; k] }
    }

    fn search(&mut self, query: &[i32]) {
        let (numbers, distances) = (self.numbers.as_mut_ptr(), self.distances.as_mut_ptr());
        unsafe { (self.peer.search)(self.index, query.as_ptr(), self.numbers.len(), numbers, distances) };
    }

    /// The distances are the search's, up to the rounding of a 32-bit float. Its numbers may differ in ties.
    fn agrees(&mut self, data: &Data, answer: &mut Answer) {
        for (i, query) in data.queries.iter().enumerate() {
            Call::Search.run(Side::Matcher, data, i, answer);
            self.search(query);
            for (ours, &theirs) in answer.entries.iter().zip(&self.distances) {
                let ours = ours.distance as f64;
                assert!((ours - theirs).abs() <= 1e-5 * ours, "{}: {ours} and {theirs}", self.peer.name);
            }
        }
    }
}

impl Drop for Index<'_> {
    fn drop(&mut self) {
        unsafe { (self.peer.free)(self.index) };
    }
}

pub fn print() {
    for peer in PEERS {
        println!("\nThe search and {}, microseconds of a call, {ROUNDS} rounds in turns, medians", peer.name);
        println!(" d  data       k      matcher  {:>11}   ratio", peer.name);
        for row in Row::all(&[Call::Search]) {
            let data = row.data();
            let (mut answer, mut index) = (Answer::new(row.call, &data, row.k), Index::new(peer, &data, row.k));
            index.agrees(&data, &mut answer);
            let times = in_turns(
                ROUNDS,
                Data::QUERIES,
                || (0..Data::QUERIES).for_each(|i| row.call.run(Side::Matcher, &data, i, &mut answer)),
                || data.queries.iter().for_each(|q| index.search(q)),
            );
            let (ours, theirs) = (times.matcher / 1000.0, times.other / 1000.0);
            println!(
                "{:2}  {:9} {:3} {ours:12.1} {theirs:12.1} {:7.2}",
                row.d,
                row.spread.name(),
                row.k,
                ours / theirs
            );
        }
    }
}
