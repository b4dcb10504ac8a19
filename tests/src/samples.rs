//! Inputs that no call refuses: document 01's own, and random ones.

use crate::{
    input::{Batch, Input, Loaded, One, Query, Room},
    random::Random,
    reference,
};
use std::ops::Range;

/// A component's least and greatest value.
pub const LEAST: i32 = -32768;
pub const GREATEST: i32 = 32767;

/// Every number of dimensions with every number of bits.
pub fn shapes() -> impl Iterator<Item = (usize, usize)> {
    (1..=32).flat_map(|d| (0..=6 * d).map(move |b| (d, b)))
}

/// Vectors inside these marks, with their own codes and settings from 101 on, and a query for the k nearest, in which every
/// dimension is present.
pub fn input(d: usize, b: usize, marks: &[i32], vectors: &[i32], query: &[i32], k: usize) -> Input {
    let (n, parts) = (vectors.len() / d, reference::parts(d, b));
    let region = |(place, &value): (usize, &i32)| {
        let marks = &marks[parts[place % d].clone()];
        reference::region_of(marks, value).expect("the vectors are inside the marks") as u8
    };
    let regions: Vec<u8> = vectors.iter().enumerate().map(region).collect();
    let codes = reference::packed(d, b, &regions);
    let one = One {
        vector: vectors[..d].to_vec(),
        setting: 100,
        number: 0,
        marks: marks[parts[0].clone()].to_vec(),
        regions: parts[0].len() - 1,
        value: vectors[0],
    };
    let room = Room {
        marks: marks.len(),
        regions: regions.len(),
        codes: codes.len(),
        entries: k,
        reads: n,
        lowers: n,
        uppers: n,
        bytes: reference::bytes_length(d, b, n),
        new_vectors: 0,
        new_settings: 0,
        new_codes: 0,
        answers: 0,
        batch_entries: 0,
        batch_reads: 0,
    };
    Input {
        origin: String::new(),
        d,
        b,
        n,
        k,
        j: 1,
        word: reference::full_word(d),
        query: query.to_vec(),
        marks: marks.to_vec(),
        vectors: vectors.to_vec(),
        settings: (101..).take(n).collect(),
        regions,
        codes,
        one,
        batch: Batch { m: 0, queries: vec![], words: vec![] },
        room,
    }
}

impl Input {
    /// The same for the k nearest.
    pub fn with_k(mut self, k: usize) -> Input {
        (self.k, self.room.entries, self.room.batch_entries) = (k, k, self.batch.m * k);
        self
    }

    /// The same for another query.
    pub fn with_query(mut self, query: &[i32]) -> Input {
        self.query = query.to_vec();
        self
    }

    /// The same with this presence word.
    pub fn with_word(mut self, word: u32) -> Input {
        self.word = word;
        self
    }

    /// The same for another dimension, the value being a vector's component there.
    fn with_dimension(mut self, j: usize, i: usize) -> Input {
        let part = reference::parts(self.d, self.b)[j - 1].clone();
        self.one = One {
            vector: self.vectors[i * self.d..(i + 1) * self.d].to_vec(),
            regions: part.len() - 1,
            marks: self.marks[part].to_vec(),
            value: self.vectors[i * self.d + j - 1],
            ..self.one
        };
        self.j = j;
        self
    }

    /// The same with a vector to add, its settings number, and the room for it.
    pub fn to_add(mut self, vector: &[i32], setting: u32) -> Input {
        (self.one.vector, self.one.setting) = (vector.to_vec(), setting);
        let count = self.n + 1;
        self.with_new_room(count)
    }

    /// The same with the number of a vector to remove, and the room for the others.
    pub fn to_remove(mut self, number: usize) -> Input {
        self.one.number = number;
        let count = self.n - 1;
        self.with_new_room(count)
    }

    /// The same with room for a library of so many vectors.
    fn with_new_room(mut self, count: usize) -> Input {
        let codes = reference::codes_length(count, self.b);
        (self.room.new_vectors, self.room.new_settings, self.room.new_codes) = (count * self.d, count, codes);
        self
    }

    /// The same with a batch of these queries, and the room for it.
    pub fn with_batch(mut self, queries: &[Query]) -> Input {
        let m = queries.len();
        let components = queries.iter().flat_map(|query| query.components.clone()).collect();
        let words = queries.iter().map(|query| query.word).collect();
        self.batch = Batch { m, queries: components, words };
        (self.room.answers, self.room.batch_entries, self.room.batch_reads) = (m, m * self.k, m * self.n);
        self
    }

    /// The batch's query of this number, from 0.
    pub fn query_of(&self, i: usize) -> Query {
        let components = self.batch.queries[i * self.d..(i + 1) * self.d].to_vec();
        Query { components, word: self.batch.words[i] }
    }

    /// The batch's queries.
    pub fn queries(&self) -> Vec<Query> {
        (0..self.batch.m).map(|i| self.query_of(i)).collect()
    }

    /// The same for a search by one of the batch's queries.
    pub fn single(&self, i: usize) -> Input {
        let Query { components, word } = self.query_of(i);
        Input { query: components, word, ..self.clone() }
    }

    pub fn from(mut self, origin: String) -> Input {
        self.origin = origin;
        self
    }
}

/// Library A of document 01, with a query.
pub fn library_a(query: [i32; 2], k: usize) -> Input {
    let vectors = [1, 3, 2, 3, 4, 10, 13, 6, 18, 1];
    input(2, 3, &[0, 3, 9, 16, 21, 0, 5, 11], &vectors, &query, k).from("library A".to_string())
}

/// The library of case P12, with its query.
pub fn library_of_p12() -> Input {
    input(1, 1, &[0, 4, 10], &[3, 7], &[5], 1).from("the library of P12".to_string())
}

/// Small libraries of every kind.
pub fn small_inputs() -> Vec<Input> {
    let mut inputs = vec![library_a([12, 6], 2), library_of_p12()];
    inputs.extend((0..30).map(|seed| random_input(seed, 6)));
    inputs
}

/// Small libraries with queries of which some dimensions are absent: never fewer than four are present.
pub fn small_inputs_with_words() -> Vec<Input> {
    let all = (0..200).map(|seed| random_input_with_word(seed, 5));
    all.filter(|input| input.word != reference::full_word(input.d)).take(30).collect()
}

/// As many dimensions, bits and vectors as there can be.
pub fn largest_input() -> Input {
    random_of_shape(&mut Random::new(0), 32, 192, 512).from("the largest shape".to_string())
}

/// A random library of at most this many vectors, with a query.
pub fn random_input(seed: u64, most: usize) -> Input {
    let mut random = Random::new(seed);
    let random = &mut random;
    let (few, any) = (1 + random.below(5), 1 + random.below(32));
    let d = random.one_of(&[few, few, any]);
    let b = random.below(6 * d + 1);
    let b = random.one_of(&[b, b, b, 0, 6 * d]);
    let (few, more, any) = (1 + random.below(8), 1 + random.below(40), 1 + random.below(512));
    let n = random.one_of(&[few, more, any]).min(most);
    random_of_shape(random, d, b, n).from(format!("seed {seed}, at most {most} vectors"))
}

/// A random library of at most this many vectors, with a query and a word that is allowed for it.
pub fn random_input_with_word(seed: u64, most: usize) -> Input {
    let input = random_input(seed, most);
    let word = random_word(&mut Random::new(!seed), input.d);
    let origin = format!("{}, word {word:b}", input.origin);
    input.with_word(word).from(origin)
}

/// A word that is allowed for d dimensions: as few present as may be, all, or any number between.
pub fn random_word(random: &mut Random, d: usize) -> u32 {
    let least = d.min(4);
    let any = least + random.below(d - least + 1);
    let count = random.one_of(&[least, any, any, d]);
    random_word_of(random, d, count)
}

/// A word of d dimensions with so many of them present.
pub fn random_word_of(random: &mut Random, d: usize, count: usize) -> u32 {
    let mut dimensions: Vec<usize> = (0..d).collect();
    let chosen: Vec<usize> = (0..count).map(|_| dimensions.swap_remove(random.below(dimensions.len()))).collect();
    reference::word_of((0..d).map(|dimension| chosen.contains(&dimension)))
}

/// So many random queries of a library, each with a word that is allowed.
pub fn random_queries(random: &mut Random, input: &Input, m: usize) -> Vec<Query> {
    let &Input { d, b, ref vectors, ref marks, .. } = input;
    let mut query = |_| {
        let components = random_query(random, d, b, vectors, marks);
        Query { components, word: random_word(random, d) }
    };
    (0..m).map(&mut query).collect()
}

/// A random library of this shape, with a query.
pub fn random_of_shape(random: &mut Random, d: usize, b: usize, n: usize) -> Input {
    let vectors = random_vectors(random, d, n);
    let marks = random_marks(random, d, b, &vectors);
    let query = random_query(random, d, b, &vectors, &marks);
    let any = 1 + random.below(n);
    let k = random.one_of(&[1, n, any, any]);
    let (j, i) = (1 + random.below(d), random.below(n));
    let settings = (0..n).map(|_| random.next_u32()).collect();
    Input { settings, ..input(d, b, &marks, &vectors, &query, k).with_dimension(j, i) }
}

pub fn component(random: &mut Random) -> i32 {
    random.between(LEAST, GREATEST)
}

/// n rows of d components: all equal, of two values, of the full range, in clusters, with equal rows, of a few values
/// (so that distances tie), at the ends of the range.
pub fn random_vectors(random: &mut Random, d: usize, n: usize) -> Vec<i32> {
    let style = random.below(7);
    let (x, y) = (component(random), component(random));
    let rows = 1 + random.below(4);
    let centres: Vec<i32> = (0..rows * d).map(|_| component(random)).collect();
    let mut row = 0;
    let mut component = |place: usize| {
        if place.is_multiple_of(d) {
            row = random.below(rows);
        }
        let centre = centres[row * d + place % d];
        match style {
            0 => x,
            1 => random.one_of(&[x, y]),
            2 => random.between(LEAST, GREATEST),
            3 => (centre + random.between(-5, 5)).clamp(LEAST, GREATEST),
            4 => centre,
            5 => random.between(0, 3),
            _ => random.one_of(&[LEAST, LEAST + 1, -1, 0, 1, GREATEST - 1, GREATEST]),
        }
    };
    (0..n * d).map(&mut component).collect()
}

/// Marks around the vectors: made from them, former ones, from end to end of the scale, or drawn anyhow near the
/// vectors, with equal neighbours.
pub fn random_marks(random: &mut Random, d: usize, b: usize, vectors: &[i32]) -> Vec<i32> {
    let former = reference::former_marks(d, b, vectors);
    let style = random.below(5);
    match style {
        0 => return reference::made_marks(d, b, vectors),
        1 => return former,
        _ => (),
    }
    let near = random.one_of(&[1, 5, 40_000]);
    let dimension = |part: Range<usize>| {
        let (least, end) = (former[part.start], former[part.end - 1]);
        let (first, last) = match style {
            2 => (LEAST, GREATEST + 1),
            _ => ((least - random.between(0, near)).max(LEAST), (end + random.between(0, near)).min(GREATEST + 1)),
        };
        let inner = |place: usize| match random.below(3) {
            0 => former[place],
            1 => (former[place] + random.between(-near, near)).clamp(first, last),
            _ => random.between(first, last),
        };
        let mut marks: Vec<i32> = (part.start + 1..part.end - 1).map(inner).collect();
        marks.extend([first, last]);
        marks.sort();
        marks
    };
    reference::parts(d, b).into_iter().flat_map(dimension).collect()
}

/// A query anywhere, at the ends of the scale, at a vector, beside one, at marks or just below, or of a few values.
pub fn random_query(random: &mut Random, d: usize, b: usize, vectors: &[i32], marks: &[i32]) -> Vec<i32> {
    let style = random.below(6);
    let vector = vectors.chunks(d).nth(random.below(vectors.len() / d)).expect("there is such a vector");
    let parts = reference::parts(d, b);
    let component = |dimension: usize| match style {
        0 => random.between(LEAST, GREATEST),
        1 => random.one_of(&[LEAST, GREATEST]),
        2 => vector[dimension],
        3 => (vector[dimension] + random.between(-2, 2)).clamp(LEAST, GREATEST),
        4 => {
            let mark = marks[parts[dimension].start + random.below(parts[dimension].len())];
            (mark - random.between(0, 1)).clamp(LEAST, GREATEST)
        }
        _ => random.between(0, 3),
    };
    (0..d).map(component).collect()
}

/// Up to three dimensions of up to four regions, each of up to three values, some of none, just above a number: cells
/// whose vectors can all be tried.
pub fn small_marks(random: &mut Random, above: i32) -> (usize, usize, Vec<i32>) {
    let d = 1 + random.below(3);
    let b = random.below(2 * d + 1);
    let mut marks = vec![];
    for part in reference::parts(d, b) {
        let (regions, mut mark) = (part.len() - 1, above + random.between(0, 3));
        let full = random.below(regions);
        marks.push(mark);
        for region in 0..regions {
            mark += random.between(i32::from(region == full), 3);
            marks.push(mark);
        }
    }
    (d, b, marks)
}

/// Five or six dimensions of up to two regions, most of one value: cells whose vectors can all be tried, and dimensions
/// enough for some of them to be absent.
pub fn small_marks_of_more_dimensions(random: &mut Random) -> (usize, usize, Vec<i32>) {
    let d = 5 + random.below(2);
    let b = random.below(d + 1);
    let mut marks = vec![];
    for part in reference::parts(d, b) {
        let mut mark = random.between(0, 3);
        marks.push(mark);
        for _ in 1..part.len() {
            mark += random.one_of(&[1, 1, 1, 2, 3]);
            marks.push(mark);
        }
    }
    (d, b, marks)
}

/// A vector inside the marks.
pub fn vector_inside(random: &mut Random, d: usize, b: usize, marks: &[i32]) -> Vec<i32> {
    let mut component = |part: Range<usize>| random.between(marks[part.start], marks[part.end - 1] - 1);
    reference::parts(d, b).into_iter().map(&mut component).collect()
}

/// The same vector with a component or more outside the marks, just so or anywhere: marks that end before the ends of the
/// scale.
pub fn vector_outside(random: &mut Random, d: usize, b: usize, marks: &[i32], inside: &[i32]) -> Vec<i32> {
    let mut vector = inside.to_vec();
    for _ in 0..random.one_of(&[1, 1, d]) {
        let dimension = random.below(d);
        let part = reference::parts(d, b)[dimension].clone();
        let (first, last) = (marks[part.start], marks[part.end - 1]);
        let (below, above) = (random.between(LEAST, first - 1), random.between(last, GREATEST));
        vector[dimension] = random.one_of(&[first - 1, last, below, above]);
    }
    vector
}

/// What loading gives of a library that was written.
pub fn library_of(input: &Input) -> Loaded {
    Loaded {
        d: input.d,
        b: input.b,
        n: input.n,
        marks: input.marks.clone(),
        settings: input.settings.clone(),
        components: input.vectors.clone(),
        used: input.room.bytes,
    }
}

/// The bytes of an input's library.
pub fn file(input: &Input) -> Vec<u8> {
    reference::write(input).expect("the input is right")
}

/// Records of readings that have these components: fresh or held, each of a value near its component.
pub fn readings(random: &mut Random, components: &[i32]) -> Vec<u8> {
    let mut record = |&component: &i32| {
        let near = random.one_of(&[0.0, 0.0, -0.4, 0.3]);
        let value = ((component as f32 + near) / 256.0).to_le_bytes();
        match random.below(3) {
            0 => [&[6], &value[..], &[random.below(21) as u8]].concat(),
            _ => [&[5], &value[..]].concat(),
        }
    };
    components.iter().flat_map(&mut record).collect()
}

/// A record of a reading that is absent: lost, or held past the age limit, whatever its value.
pub fn absent_reading(random: &mut Random) -> Vec<u8> {
    let (any, near) = (random.next_u32(), (component(random) as f32 / 256.0).to_bits());
    let bits = random.one_of(&[any, near, near, 0x7FC0_0000, 0x7F80_0000, 0x4300_0000]);
    let later = random.between(21, 255) as u8;
    match random.below(3) {
        0 => [&[6], &bits.to_le_bytes()[..], &[random.one_of(&[21, 255, later])]].concat(),
        _ => vec![7],
    }
}

/// Records of readings that have these components where the word has a dimension present, and are absent elsewhere.
pub fn readings_present(random: &mut Random, components: &[i32], word: u32) -> Vec<u8> {
    let mut record = |(dimension, component): (usize, &i32)| match word >> dimension & 1 {
        1 => readings(random, &[*component]),
        _ => absent_reading(random),
    };
    components.iter().enumerate().flat_map(&mut record).collect()
}
