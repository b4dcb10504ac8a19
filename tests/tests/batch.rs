//! A batch of queries (document 02, Slip 5): the C interface against the reference, and against single searches.

use std::mem::{align_of, offset_of, size_of};
use tests::{
    calls::{BATCH, SEARCH},
    faults::{assert_each_refusal, assert_lengths, assert_query_refusals, assert_refusals, assert_refused_whole},
    input::{Answer, Batch, Entry, Found, Input, Query, Room},
    interface,
    random::Random,
    reference,
    samples::{
        self, largest_input, library_a, random_input, random_of_shape, random_queries, random_word_of, shapes,
        small_inputs, GREATEST, LEAST,
    },
};

// ---- batches

/// What comes of a query.
type Outcome = Result<Found, u32>;

/// What comes of the queries of a batch that is not refused whole: what is right by the reference, and "equal to what single
/// calls give in turn".
fn outcomes(input: &Input) -> Vec<Outcome> {
    BATCH.gives(0, input);
    let _told = input.told();
    let outcomes = interface::batch(input).expect("the batch is not refused");
    let singles: Vec<Outcome> = (0..input.batch.m).map(|i| interface::search(&input.single(i))).collect();
    assert_eq!(outcomes, singles, "the single searches are on the right");
    outcomes
}

/// The same where no query is refused and the codes are the vectors' own: each answer is the full scan's.
fn answers(input: &Input) -> Vec<Found> {
    let found: Vec<Found> = outcomes(input).into_iter().map(|outcome| outcome.expect("no query is refused")).collect();
    let _told = input.told();
    for (i, found) in found.iter().enumerate() {
        assert_eq!(
            Ok(&found.entries),
            interface::scan(&input.single(i)).as_ref(),
            "query {i}: the scan is on the right"
        );
    }
    found
}

/// The library with a batch of so many random queries, none of which is refused.
fn with_random_batch(random: &mut Random, library: Input, m: usize) -> Input {
    let queries = random_queries(random, &library, m);
    library.with_batch(&queries)
}

/// Makes a query one that is refused with this number, 19, 18 or 6: there are bits at or above d if d is below 32.
fn refuse(random: &mut Random, number: u32, query: &mut Query) {
    let d = query.components.len();
    match number {
        19 => query.word |= 1 << (d + random.below(32 - d)),
        18 => {
            let few = random.below(d.min(4));
            query.word = random_word_of(random, d, few);
        }
        6 => query.components[random.below(d)] = random.one_of(&[LEAST - 1, GREATEST + 1, i32::MIN, i32::MAX]),
        other => panic!("{other} is no cause of a query by itself"),
    }
}

/// Makes one of these queries one that is refused, for one of these causes.
fn refuse_one(random: &mut Random, queries: &mut [Query]) {
    let query = &mut queries[random.below(queries.len())];
    let number = random.one_of(if query.components.len() < 32 { &[19, 18, 6][..] } else { &[18, 6] });
    refuse(random, number, query);
}

/// Codes that are not the vectors' own, none naming an empty region: some vectors have those of others.
fn with_other_codes(random: &mut Random, mut input: Input) -> Input {
    let &mut Input { d, b, n, ref mut regions, .. } = &mut input;
    for _ in 0..random.one_of(&[1, 1, 2, n]) {
        let [i, another] = [random.below(n), random.below(n)];
        regions.copy_within(another * d..(another + 1) * d, i * d);
    }
    input.codes = reference::packed(d, b, regions);
    input
}

/// Random libraries, of any spread and with equal marks, whose codes are their own or not. Some queries are refused by
/// themselves, for one cause or for two, and some for what they read.
#[test]
fn no_random_batch_goes_wrong() {
    let mut numbers = [0; 23];
    for seed in 0..2000 {
        let mut random = Random::new(!seed);
        let library = random_input(seed, if seed % 50 == 0 { 512 } else { 40 });
        let library = if seed % 3 == 0 { with_other_codes(&mut random, library) } else { library };
        let (few, any) = (1 + random.below(5), random.below(65));
        let m = random.one_of(&[few, few, any]);
        let mut queries = random_queries(&mut random, &library, m);
        let refused = random.one_of(&[0, 1, m, 2 * m]);
        for _ in (0..refused).filter(|_| m > 0) {
            refuse_one(&mut random, &mut queries);
        }
        for outcome in outcomes(&library.with_batch(&queries)) {
            numbers[outcome.err().unwrap_or(0) as usize] += 1;
        }
    }
    assert!([0, 6, 10, 18, 19].iter().all(|&number| numbers[number] > 300), "{numbers:?}");
}

/// Every number of dimensions and of bits, of a few queries each: where each query's components begin.
#[test]
fn no_shape_is_left_out() {
    let mut random = Random::new(501);
    for (d, b) in shapes() {
        let (n, m) = (1 + random.below(6), 1 + random.below(4));
        let library = random_of_shape(&mut random, d, b, n).from(format!("d {d}, b {b}, {m} queries"));
        answers(&with_random_batch(&mut random, library, m));
    }
}

/// Each number of vectors, with one neighbour, some, and all: where each query's entries and read list begin.
#[test]
fn no_number_of_vectors_is_left_out() {
    let mut random = Random::new(502);
    for n in 1..=512 {
        let (d, bits) = (1 + random.below(4), 1 + random.below(3));
        let library = random_of_shape(&mut random, d, d * bits, n).from(format!("{n} vectors"));
        let input = with_random_batch(&mut random, library, 3);
        for k in [1, n.min(10), n] {
            answers(&input.clone().with_k(k));
        }
    }
}

/// Each number of queries to 64. From 65 on it is 22, at lengths that are exact for it, and at any.
#[test]
fn no_number_of_queries_is_taken_for_another() {
    let mut random = Random::new(503);
    for m in 0..=200 {
        let library = random_input(1000 + m as u64, 12).from(format!("{m} queries"));
        let input = with_random_batch(&mut random, library, m);
        if m <= 64 {
            assert_eq!(answers(&input).len(), m);
        } else {
            BATCH.gives(22, &input);
        }
    }
    let input = with_random_batch(&mut random, library_a([12, 6], 2), 64);
    for m in [65, 66, 127, 128, 1 << 16, (1 << 32) + 1, (1 << 59) + 64, 1 << 63, usize::MAX] {
        for lent in [input.clone(), input.clone().with_batch(&[])] {
            BATCH.gives(22, &Input { batch: Batch { m, ..lent.batch }, ..lent });
        }
    }
}

/// As much of everything as there can be.
#[test]
fn no_largest_batch_is_refused() {
    let input = with_random_batch(&mut Random::new(504), largest_input(), 64);
    for k in [1, 512] {
        answers(&input.clone().with_k(k));
    }
}

/// One query again and again, with other dimensions absent each time: an answer is over those that its own word has present.
#[test]
fn no_word_is_taken_for_anothers() {
    let (mut random, mut different) = (Random::new(505), 0);
    for case in 0..300 {
        let (d, n) = (5 + random.below(28), 2 + random.below(20));
        let b = random.below(3 * d + 1);
        let library = random_of_shape(&mut random, d, b, n).from(format!("case {case}"));
        let components = library.query.clone();
        let query = |_| Query { components: components.clone(), word: samples::random_word(&mut random, d) };
        let queries: Vec<Query> = (0..16).map(query).collect();
        let found = answers(&library.with_k(2).with_batch(&queries));
        different += usize::from(found.iter().any(|other| *other != found[0]));
    }
    assert!(different > 150, "{different} queries whose answer depends on the word");
}

// ---- one query and the others

/// The queries the other way round, each of them twice, and in two batches: each has what it had.
#[test]
fn no_place_in_a_batch_changes_what_comes_of_a_query() {
    for seed in 0..200 {
        let mut random = Random::new(!seed);
        let library = random_input(seed, 30);
        let library = if seed % 3 == 0 { with_other_codes(&mut random, library) } else { library };
        let m = 2 + random.below(9);
        let mut queries = random_queries(&mut random, &library, m);
        refuse_one(&mut random, &mut queries);
        let of = |queries: &[Query]| outcomes(&library.clone().with_batch(queries));
        let found = of(&queries);

        let turned = |outcomes: &[Outcome]| outcomes.iter().rev().cloned().collect::<Vec<_>>();
        let reversed: Vec<Query> = queries.iter().rev().cloned().collect();
        assert_eq!(turned(&of(&reversed)), found, "seed {seed}: the other way round");
        assert_eq!(
            of(&[&queries[..], &reversed].concat()),
            [&found[..], &turned(&found)].concat(),
            "seed {seed}: twice"
        );
        let (first, second) = queries.split_at(random.below(m + 1));
        assert_eq!([of(first), of(second)].concat(), found, "seed {seed}: in two batches");
    }
}

/// A batch of 64 with one refused query in each place, with all but one refused, and with all.
#[test]
fn no_refused_query_stops_the_others() {
    let mut random = Random::new(506);
    for number in [19, 18, 6] {
        let library = random_of_shape(&mut random, 5, 17, 20).from(format!("refused with {number}"));
        let input = with_random_batch(&mut random, library, 64);
        let found: Vec<Outcome> = answers(&input).into_iter().map(Ok).collect();
        let mut with_refused = |places: &dyn Fn(usize) -> bool| {
            let (mut queries, mut due) = (input.queries(), found.clone());
            for i in (0..64).filter(|&i| places(i)) {
                refuse(&mut random, number, &mut queries[i]);
                due[i] = Err(number);
            }
            let given = outcomes(&input.clone().with_batch(&queries));
            assert_eq!(given, due, "{number}: what is due is on the right");
        };
        for place in 0..64 {
            with_refused(&|i| i == place);
            with_refused(&|i| i != place);
        }
        with_refused(&|_| true);
    }
}

/// Twelve cells in a row of one vector each, and a query in each: it reads the vector of its own cell alone. A vector and
/// its code that do not agree refuse the one query that reads it, with 10, and no other.
#[test]
fn no_query_is_refused_for_what_another_reads() {
    let marks: Vec<i32> = (0..=16).map(|i| 10 * i).collect();
    let vectors: Vec<i32> = (0..12).map(|i| 10 * i + 5).collect();
    let queries: Vec<Query> = vectors.iter().map(|&v| Query { components: vec![v + 1], word: 1 }).collect();
    let input = samples::input(1, 4, &marks, &vectors, &[0], 1).with_batch(&queries);
    let found: Vec<Outcome> = answers(&input).into_iter().map(Ok).collect();
    for i in 0..12 {
        let nearest = Entry { number: i as u32, distance: 1 };
        assert_eq!(found[i], Ok(Found { entries: vec![nearest], reads: vec![i as u32] }));

        // a vector that is not in its code's cell
        let mut other = input.clone();
        other.vectors[i] = 1000;
        let mut due = found.clone();
        due[i] = Err(10);
        assert_eq!(outcomes(&other), due, "vector {i}: what is due is on the right");

        // a code that names a cell far from all: the query there reads it, and that of its vector finds others
        let mut other = input.clone();
        other.regions[i] = 14;
        other.codes = reference::packed(1, 4, &other.regions);
        let there = Query { components: vec![145], word: 1 };
        let given = outcomes(&other.with_batch(&[&queries[..], &[there]].concat()));
        assert!(given[i].is_ok(), "code {i}: {given:?}");
        let mut due = [&found[..], &[Err(10)]].concat();
        due[i] = given[i].clone();
        assert_eq!(given, due, "code {i}: what is due is on the right");
    }
}

/// The same in random libraries: of the vectors that are read for a batch, one that is read for a single query is put outside
/// its code's cell.
#[test]
fn no_vector_read_for_one_query_refuses_another() {
    let mut alone = 0;
    for seed in 0..600 {
        let mut random = Random::new(!seed);
        let library = random_input(seed, 60);
        let k = 1 + random.below(library.n.min(3));
        let input = with_random_batch(&mut random, library.with_k(k), 8);
        let found = answers(&input);
        for number in 0..input.n {
            let readers: Vec<usize> = (0..8).filter(|&i| found[i].reads.contains(&(number as u32))).collect();
            if let [reader] = readers[..] {
                let mut other = input.clone();
                other.vectors[number * input.d + random.below(input.d)] = random.one_of(&[i32::MIN, i32::MAX]);
                let mut due: Vec<Outcome> = found.iter().cloned().map(Ok).collect();
                due[reader] = Err(10);
                assert_eq!(outcomes(&other), due, "seed {seed}, vector {number}: what is due is on the right");
                alone += 1;
            }
        }
    }
    assert!(alone > 500, "{alone} vectors that are read for one query alone");
}

/// Anything in the place of vectors that are read for no query, even what is no component.
#[test]
fn no_vector_that_is_read_for_no_query_has_a_say() {
    let mut unread = 0;
    for seed in 0..400 {
        let mut random = Random::new(!seed);
        let library = random_input(seed, 60).with_k(1);
        let mut input = with_random_batch(&mut random, library, 4);
        let found = answers(&input);
        for number in (0..input.n).filter(|&number| !found.iter().any(|found| found.reads.contains(&(number as u32)))) {
            let vector = &mut input.vectors[number * input.d..(number + 1) * input.d];
            vector.fill_with(|| random.one_of(&[0, LEAST - 1, GREATEST + 1, i32::MIN, i32::MAX]));
            unread += 1;
        }
        assert_eq!(
            outcomes(&input),
            found.into_iter().map(Ok).collect::<Vec<_>>(),
            "seed {seed}: before, on the right"
        );
    }
    assert!(unread > 1000, "{unread} unread vectors");
}

/// Read lists of every length to n. What lies past the count is compared with what it was before (`interface::batch`).
#[test]
fn no_read_list_is_written_past_its_count() {
    let (mut random, mut lengths) = (Random::new(507), vec![false; 21]);
    for case in 0..400 {
        let (d, bits) = (1 + random.below(3), 1 + random.below(3));
        let library = random_of_shape(&mut random, d, d * bits, 20).from(format!("case {case}"));
        let k = 1 + random.below(20);
        let found = answers(&with_random_batch(&mut random, library.with_k(k), 5));
        found.iter().for_each(|found| lengths[found.reads.len()] = true);
    }
    assert!(lengths[1..].iter().all(|&met| met), "a length of 1 to 20 is not met: {lengths:?}");
}

/// Every value of every byte of the codes: 9 refuses the batch, or each query has its own outcome.
#[test]
fn no_byte_of_the_codes_is_misread() {
    let mut numbers = [0; 11];
    for seed in 0..30 {
        let library = random_input(seed, 8);
        let input = with_random_batch(&mut Random::new(!seed), library, 3);
        for at in 0..input.codes.len().min(6) {
            let mut other = input.clone();
            for byte in 0..=255 {
                (other.codes[at], other.origin) = (byte, format!("{}; byte {byte} at {at}", input.origin));
                let given = match BATCH.number(&other) {
                    0 => outcomes(&other),
                    number => vec![Err(number)],
                };
                given.into_iter().for_each(|outcome| numbers[outcome.err().unwrap_or(0) as usize] += 1);
            }
        }
    }
    assert!([0, 9, 10].iter().all(|&number| numbers[number] > 1000), "{numbers:?}");
}

// ---- refusals

/// Small libraries with a batch of this many queries each.
fn small_batches(m: usize) -> Vec<Input> {
    let mut random = Random::new(508);
    let with_batch = |library| with_random_batch(&mut random, library, m);
    small_inputs().into_iter().take(16).map(with_batch).collect()
}

/// 22, 1, 2, 3, 4, 5, 7, 9: each by itself and any two, with one query, with some, with 64, and with none, where nothing is
/// tested less: "No queries, with nothing refused, means no change".
#[test]
fn no_refusal_of_a_batch_is_missed_or_out_of_order() {
    for (m, inputs) in [(0, 16), (1, 16), (3, 16), (64, 6)] {
        assert_refusals(&BATCH, &small_batches(m)[..inputs]);
    }
}

/// 19, 18, 6, 10: each by itself and any two, in each query of a batch.
#[test]
fn no_refusal_of_a_query_is_missed_or_out_of_order() {
    assert_query_refusals(&small_batches(3));
}

/// "Causes of the library (10 aside, which is the query's), of k and of lengths refuse the batch whole": each of them, with
/// each cause of a query, though a single search tests the word before lengths and the components before marks and codes.
#[test]
fn no_cause_of_a_query_comes_before_one_of_the_batch() {
    assert_refused_whole(&small_batches(2));
}

/// Every other length of every buffer, with no queries, one, some, and 64: 0, one less and one more among them.
#[test]
fn no_other_length_is_taken() {
    for m in [0, 1, 3, 64] {
        small_batches(m).iter().take(8).for_each(|input| assert_lengths(&BATCH, input));
    }
}

/// Each refusal of a batch by itself, in the largest shape.
#[test]
fn no_refusal_is_missed_in_the_largest_shape() {
    assert_each_refusal(&BATCH, &with_random_batch(&mut Random::new(509), largest_input().with_k(17), 64));
}

/// 22 "before all else": all else is wrong, or some of it.
#[test]
fn no_other_cause_comes_before_22() {
    let right = with_random_batch(&mut Random::new(510), library_a([12, 6], 2), 65);
    let wrong = Input {
        d: 0,
        b: usize::MAX,
        n: 0,
        k: 0,
        marks: vec![i32::MAX],
        codes: vec![255],
        vectors: vec![i32::MIN],
        batch: Batch { m: 65, queries: vec![i32::MAX], words: vec![0] },
        room: Room { answers: 1, batch_entries: 1, batch_reads: 1, ..right.room.clone() },
        ..right.clone()
    };
    BATCH.gives(22, &right);
    BATCH.gives(22, &wrong);
    BATCH.gives(1, &Input { batch: Batch { m: 64, ..wrong.batch.clone() }, ..wrong.clone() });
    BATCH.gives(1, &Input { batch: Batch { m: 0, ..wrong.batch.clone() }, ..wrong.clone() });
    let but_for = [
        Input { d: 2, ..wrong.clone() },
        Input { d: 2, b: 3, ..wrong.clone() },
        Input { d: 2, b: 3, n: 5, ..wrong.clone() },
        Input { d: 2, b: 3, n: 5, k: 2, ..wrong.clone() },
        Input { batch: wrong.batch, room: wrong.room, ..right.clone() },
        Input { marks: wrong.marks, codes: wrong.codes, vectors: wrong.vectors, ..right },
    ];
    but_for.iter().for_each(|input| BATCH.gives(22, input));
}

// ---- cases

/// An answer is laid out in C as in Rust, and as the matcher fills it.
#[test]
fn no_answer_is_laid_out_otherwise_in_c() {
    let status = (offset_of!(Answer, status), size_of::<u32>());
    let count = (offset_of!(Answer, count), size_of::<usize>());
    let layout = [size_of::<Answer>(), align_of::<Answer>(), status.0, status.1, count.0, count.1];
    assert_eq!(interface::answer_layout(), layout, "size, alignment, each field's offset and size: C, Rust");
    assert_eq!(layout, [16, 8, 0, 4, 8, 8]);
    assert!(interface::batch_from_c(), "a batch from C");
}

/// Library A with P11's query between three that are refused, and no queries at all (document 01, "Cases").
#[test]
fn case_library_a_with_a_batch() {
    let query = |components: [i32; 2], word| Query { components: components.to_vec(), word };
    let queries = [query([12, 6], 7), query([12, 6], 3), query([12, 6], 1), query([32768, 6], 3), query([18, 1], 3)];
    let found = |entries: [(u32, u64); 2], reads: &[u32]| {
        let entries = entries.map(|(number, distance)| Entry { number, distance }).to_vec();
        Ok(Found { entries, reads: reads.to_vec() })
    };
    let (of_p11, at_vector_4) = (found([(3, 1), (4, 61)], &[3, 2, 4]), found([(4, 0), (3, 50)], &[4, 3]));
    let due = Ok(vec![Err(19), of_p11, Err(18), Err(6), at_vector_4]);
    let library = library_a([0, 0], 2);
    let input = library.clone().with_batch(&queries);
    assert_eq!(interface::batch(&input), due);
    assert_eq!(reference::batch(&input), due, "by the reference");
    assert_eq!(interface::batch(&library), Ok(vec![]), "no queries");
}

/// Where a single search tests a query before lengths, marks and codes, a batch does not: with both causes the one gives
/// that of the query, the other that of the library.
#[test]
fn case_a_search_and_a_batch_with_two_causes() {
    let library = library_a([12, 6], 2);
    let (word, query) = (library.clone().with_word(1), library.clone().with_query(&[12, -32769]));
    let shorter = |mut input: Input| {
        input.vectors.pop();
        input
    };
    let falling = |mut input: Input| {
        input.marks[1] = 10;
        input
    };
    let spare = |mut input: Input| {
        input.codes[1] |= 1;
        input
    };
    let cases = [
        (18, 5, shorter(word.clone())),
        (18, 7, falling(word.clone())),
        (18, 9, spare(word)),
        (6, 7, falling(query.clone())),
        (6, 9, spare(query)),
    ];
    for (alone, together, input) in cases {
        let both = Query { components: input.query.clone(), word: input.word };
        SEARCH.gives(alone, &input);
        BATCH.gives(together, &input.with_batch(&[both]));
    }
}
