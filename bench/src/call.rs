//! The calls that are measured, each on either side, on the same data and into buffers of its own, which are not cleared.

use crate::data::Data;
use crate::matcher;
use crate::matcher::batch::{self, Batch};
use crate::matcher::Entry;
use crate::peer::file::{self, Loaded};
use crate::peer::updates::{self, Stock};
use crate::peer::{codes, marks, program, scan, search::Library};
use std::hint::black_box;

#[derive(Clone, Copy, PartialEq, Debug)]
pub enum Call {
    Search,
    Batch,
    Scan,
    Marks,
    Pack,
    Unpack,
    Codes,
    Add,
    Remove,
    Load,
    Write,
    Match,
}

#[derive(Clone, Copy, PartialEq, Debug)]
pub enum Side {
    Matcher,
    /// The same work in plain Rust; for a batch, single searches by the matcher.
    Other,
}

/// What a call writes.
#[derive(PartialEq, Debug)]
pub struct Answer {
    pub entries: Vec<Entry>,
    pub reads: Vec<u32>,
    pub count: usize,
    batch: Batch,
    marks: Vec<i32>,
    codes: Vec<u8>,
    regions: Vec<u8>,
    more: Stock,
    less: Stock,
    bytes: Vec<u8>,
    loaded: Loaded,
    text: Vec<u8>,
}

impl Answer {
    /// The room for the text of a match.
    const TEXT_ROOM: usize = 14_344;

    pub fn new(call: Call, data: &Data, k: usize) -> Answer {
        Answer {
            entries: vec![Entry::default(); k],
            reads: vec![0; data.n],
            count: 0,
            batch: Batch::room(data, k, call.queries()),
            marks: vec![0; data.marks.len()],
            codes: vec![0; data.codes.len()],
            regions: vec![0; data.regions.len()],
            more: Stock::room(data, data.n + 1),
            less: Stock::room(data, data.n - 1),
            bytes: vec![0; data.bytes.len()],
            loaded: Loaded::room(),
            text: vec![0; Answer::TEXT_ROOM],
        }
    }
}

impl Side {
    pub const BOTH: [Side; 2] = [Side::Matcher, Side::Other];

    pub fn name(self) -> &'static str {
        match self {
            Side::Matcher => "matcher",
            Side::Other => "other",
        }
    }
}

impl Call {
    pub const ALL: &[Call] = &[
        Call::Search,
        Call::Batch,
        Call::Scan,
        Call::Marks,
        Call::Pack,
        Call::Unpack,
        Call::Codes,
        Call::Add,
        Call::Remove,
        Call::Load,
        Call::Write,
        Call::Match,
    ];

    pub fn name(self) -> &'static str {
        match self {
            Call::Search => "search",
            Call::Batch => "batch",
            Call::Scan => "scan",
            Call::Marks => "marks",
            Call::Pack => "pack",
            Call::Unpack => "unpack",
            Call::Codes => "codes",
            Call::Add => "add",
            Call::Remove => "remove",
            Call::Load => "load",
            Call::Write => "write",
            Call::Match => "match",
        }
    }

    /// How many times the other side's cost it may be.
    pub fn target(self) -> Option<f64> {
        match self {
            Call::Search | Call::Scan => Some(1.2),
            Call::Batch => Some(0.9),
            Call::Pack => Some(1.5),
            Call::Marks | Call::Unpack | Call::Codes | Call::Match => None,
            Call::Add | Call::Remove => Some(0.5),
            Call::Load | Call::Write => Some(2.0),
        }
    }

    /// On how many vectors it is measured: none can be added to 512.
    pub fn count(self) -> usize {
        match self {
            Call::Add | Call::Remove => 511,
            _ => 512,
        }
    }

    /// The numbers of neighbours that are asked for: any one where the call asks for none.
    pub fn neighbours(self) -> &'static [usize] {
        match self {
            Call::Search | Call::Batch | Call::Scan | Call::Match => &[1, 10, 512],
            _ => &[1],
        }
    }

    /// How many queries one call is for. Costs are told of one.
    pub fn queries(self) -> usize {
        match self {
            Call::Batch => Data::BATCH,
            _ => 1,
        }
    }

    /// How many calls are measured together: one for each query of the data, or the batch.
    pub fn calls(self) -> usize {
        match self {
            Call::Batch => 1,
            _ => Data::QUERIES,
        }
    }

    /// The call for query i, by one side.
    #[inline(never)]
    pub fn run(self, side: Side, data: &Data, i: usize, answer: &mut Answer) {
        let data = black_box(data);
        match side {
            Side::Matcher => self.by_matcher(data, i, answer),
            Side::Other => self.by_other(data, i, answer),
        }
        black_box(answer);
    }

    fn by_matcher(self, data: &Data, i: usize, answer: &mut Answer) {
        let query = &data.queries[i];
        let Answer { entries, reads, .. } = answer;
        match self {
            Call::Search => answer.count = matcher::search(data, query, entries, reads),
            Call::Batch => {
                batch::in_one_call(data, &mut answer.batch);
                answer.count = answer.batch.read();
            }
            Call::Scan => matcher::scan(data, query, entries),
            Call::Marks => matcher::make_marks(data, &data.others[i], &mut answer.marks),
            Call::Pack => matcher::pack(data, &mut answer.codes),
            Call::Unpack => matcher::unpack(data, &mut answer.regions),
            Call::Codes => matcher::pack_vectors(data, &mut answer.codes),
            Call::Add => matcher::updates::add(data, query, i as u32, &mut answer.more),
            Call::Remove => matcher::updates::remove(data, data.spread_out(i), &mut answer.less),
            Call::Load => matcher::files::load(&data.bytes, &mut answer.loaded),
            Call::Write => matcher::files::write(data, &mut answer.bytes),
            Call::Match => answer.count = matcher::files::run(&data.matches[i], &mut answer.text),
        }
    }

    fn by_other(self, data: &Data, i: usize, answer: &mut Answer) {
        let query = &data.queries[i];
        let Answer { entries, reads, .. } = answer;
        let &Data { d, b, word, ref vectors, .. } = data;
        match self {
            Call::Search => {
                let library = Library { d, b, marks: &data.marks, codes: &data.codes, vectors };
                answer.count = library.search(word, query, entries, reads);
            }
            Call::Batch => {
                batch::in_single_searches(data, &mut answer.batch);
                answer.count = answer.batch.read();
            }
            Call::Scan => scan::scan(d, word, query, vectors, entries),
            Call::Marks => marks::make(d, b, &data.others[i], &mut answer.marks),
            Call::Pack => codes::pack(d, b, &data.regions, &mut answer.codes),
            Call::Unpack => codes::unpack(d, b, &data.codes, &mut answer.regions),
            Call::Codes => {
                let mut regions = vec![0; vectors.len()];
                codes::regions(d, b, vectors, &data.marks, &mut regions);
                codes::pack(d, b, &regions, &mut answer.codes);
            }
            Call::Add => updates::add(data, query, i as u32, &mut answer.more),
            Call::Remove => updates::remove(data, data.spread_out(i), &mut answer.less),
            Call::Load => file::load(&data.bytes, &mut answer.loaded).expect("a library"),
            Call::Write => file::write(data, &mut answer.bytes),
            Call::Match => answer.count = program::run(&data.matches[i], &mut answer.text).expect("a match"),
        }
    }

    /// Both sides give the same for each query; the mean count of vectors read.
    pub fn agrees(self, data: &Data, k: usize) -> f64 {
        let (mut ours, mut theirs) = (Answer::new(self, data, k), Answer::new(self, data, k));
        let mut read = 0;
        for i in 0..self.calls() {
            self.run(Side::Matcher, data, i, &mut ours);
            self.run(Side::Other, data, i, &mut theirs);
            assert!(ours == theirs, "{}, d {} b {} n {} k {k}: the sides differ", self.name(), data.d, data.b, data.n);
            read += ours.count;
        }
        read as f64 / (self.calls() * self.queries()) as f64
    }
}
