//! Scan and search (document 01, "Distance, bounds, reading order"): the C interface against the reference. Every dimension
//! is present, but for the two tests that say so; `presence.rs` has the words.

use std::{
    collections::BTreeSet,
    mem::{align_of, offset_of, size_of},
};
use tests::{
    calls::{Call, SCAN, SEARCH},
    faults::{assert_each_refusal, assert_lengths, assert_refusals},
    input::{Entry, Found, Input},
    interface,
    random::Random,
    reference,
    samples::{
        self, component, largest_input, library_a, library_of_p12, random_input, random_of_shape, shapes, small_inputs,
        GREATEST, LEAST,
    },
};

const CALLS: [Call; 2] = [SCAN, SEARCH];

/// A search that is not refused.
fn found(input: &Input) -> Found {
    interface::search(input).unwrap_or_else(|number| panic!("refused with {number}: {input:?}"))
}

/// The search is right by the reference, and its answer is the full scan's.
fn assert_found(input: &Input) {
    CALLS.iter().for_each(|call| call.gives(0, input));
    let _told = input.told();
    assert_eq!(Ok(found(input).entries), interface::scan(input), "the search, the scan");
}

#[test]
fn no_random_library_goes_wrong() {
    for seed in 0..12_000 {
        assert_found(&random_input(seed, if seed % 100 == 0 { 512 } else { 50 }));
    }
}

/// An entry is laid out in C as in Rust, and as the matcher fills it.
#[test]
fn no_entry_is_laid_out_otherwise_in_c() {
    let number = (offset_of!(Entry, number), size_of::<u32>());
    let distance = (offset_of!(Entry, distance), size_of::<u64>());
    let layout = [size_of::<Entry>(), align_of::<Entry>(), number.0, number.1, distance.0, distance.1];
    assert_eq!(interface::entry_layout(), layout, "size, alignment, each field's offset and size: C, Rust");
    assert_eq!(layout, [16, 8, 0, 4, 8, 8]);
    assert!(interface::scan_from_c(), "a scan from C");
}

/// Every number of dimensions and of bits.
#[test]
fn no_shape_is_left_out() {
    let mut random = Random::new(31);
    for (d, b) in shapes() {
        let n = 1 + random.below(6);
        assert_found(&random_of_shape(&mut random, d, b, n).from(format!("d {d}, b {b}")));
    }
}

/// Each number of vectors, with one neighbour, some, and all.
#[test]
fn no_number_of_vectors_is_left_out() {
    let mut random = Random::new(32);
    for n in 1..=512 {
        let (d, bits) = (1 + random.below(4), 1 + random.below(3));
        let input = random_of_shape(&mut random, d, d * bits, n).from(format!("{n} vectors"));
        for k in [1, n.min(10), n] {
            assert_found(&input.clone().with_k(k));
        }
    }
}

/// The largest shape, and every vector in it equal.
#[test]
fn no_largest_library_is_refused() {
    let input = largest_input();
    for k in [1, 17, 511, 512] {
        assert_found(&input.clone().with_k(k));
    }
    let (marks, vectors) = ([LEAST, GREATEST + 1].repeat(32), vec![GREATEST; 512 * 32]);
    for k in [1, 512] {
        assert_found(&samples::input(32, 0, &marks, &vectors, &[LEAST; 32], k));
    }
}

/// Every k from 0 to past the number of vectors.
#[test]
fn no_k_is_taken_for_another() {
    for seed in 0..200 {
        let input = random_input(seed, 30);
        for k in 0..=input.n + 2 {
            let number = if (1..=input.n).contains(&k) { 0 } else { 4 };
            CALLS.iter().for_each(|call| call.gives(number, &input.clone().with_k(k)));
        }
    }
}

/// Vectors of few values: many distances and bounds are equal, and the lower number comes first.
#[test]
fn no_tie_is_lost() {
    let mut random = Random::new(33);
    for case in 0..8000 {
        let (d, n) = (1 + random.below(3), 1 + random.below(12));
        let b = random.below(2 * d + 1);
        let vectors: Vec<i32> = (0..n * d).map(|_| random.between(0, 4)).collect();
        let marks = samples::random_marks(&mut random, d, b, &vectors);
        let query: Vec<i32> = (0..d).map(|_| random.between(-1, 5)).collect();
        let k = 1 + random.below(n);
        let input = samples::input(d, b, &marks, &vectors, &query, k).from(format!("case {case}"));
        assert_found(&input);
        let entries = found(&input).entries;
        let pairs: Vec<(u64, u32)> = entries.iter().map(|entry| (entry.distance, entry.number)).collect();
        assert!(pairs.is_sorted_by(|a, b| a < b), "case {case}: {entries:?}");
    }
}

/// All vectors equal: the lowest numbers are the answer. Where the cell's least distance is theirs, no more than k are
/// read, and where it is below, all.
#[test]
fn no_equal_vectors_are_put_out_of_order() {
    for n in [1usize, 2, 7, 512] {
        for k in [1, n.div_ceil(2), n] {
            for (marks, reads) in [([10, 11], k), ([9, 11], k), ([10, 12], n)] {
                let input = samples::input(1, 0, &marks, &vec![10; n], &[13], k);
                let numbers = 0..n as u32;
                let entries = numbers.clone().take(k).map(|number| Entry { number, distance: 9 }).collect();
                let found = Found { entries, reads: numbers.take(reads).collect() };
                assert_eq!(interface::search(&input), Ok(found), "n {n}, k {k}, marks {marks:?}");
            }
        }
    }
}

/// Every library of up to three vectors in one dimension of two regions, marks from 0 to 3, every query from -1 to 4.
#[test]
fn no_tiny_library_goes_wrong() {
    let mut libraries = 0;
    for marks in (0..64i32).map(|list| [list / 16, list / 4 % 4, list % 4]) {
        let (first, values) = (marks[0], marks[2] - marks[0]);
        if !marks.is_sorted() || values == 0 {
            continue;
        }
        for n in 1..=3 {
            for list in 0..values.pow(n) {
                let vectors: Vec<i32> = (0..n).map(|i| first + list / values.pow(i) % values).collect();
                for (query, k) in (-1..=4).flat_map(|query| (1..=n as usize).map(move |k| (query, k))) {
                    let input = samples::input(1, 1, &marks, &vectors, &[query], k);
                    assert_settled(&input);
                    assert_found(&input);
                    libraries += 1;
                }
            }
        }
    }
    assert!(libraries > 3000, "{libraries} libraries");
}

/// Random small libraries, by trying every vector of every cell at every number.
#[test]
fn no_vector_is_read_without_need() {
    let (mut random, mut tried, mut spared) = (Random::new(34), 0, 0);
    for case in 0..4000 {
        let (d, b, marks) = samples::small_marks(&mut random, 0);
        let n = 1 + random.below(6);
        let vectors: Vec<i32> = (0..n).flat_map(|_| samples::vector_inside(&mut random, d, b, &marks)).collect();
        let query: Vec<i32> = (0..d).map(|_| random.between(-2, 12)).collect();
        let k = 1 + random.below(n);
        let input = samples::input(d, b, &marks, &vectors, &query, k).from(format!("case {case}"));
        let choices: usize = (0..n).map(|i| reference::cell_vectors(&input, i).len()).product();
        if choices <= 3000 {
            assert_settled(&input);
            assert_found(&input);
            tried += 1;
            spared += i32::from(found(&input).reads.len() < n);
        }
    }
    assert!(tried > 2000 && spared > 1000, "{tried} libraries, {spared} with unread vectors");
}

/// The same with a word: demand 3 is due "for every allowed word". Every word of five and six dimensions that has at least
/// four present is met.
#[test]
fn no_vector_is_read_without_need_for_any_word() {
    let (mut random, mut tried, mut spared, mut words) = (Random::new(39), 0, 0, BTreeSet::new());
    for case in 0..12_000 {
        let (d, b, marks) = samples::small_marks_of_more_dimensions(&mut random);
        let word = samples::random_word(&mut random, d);
        let n = 1 + random.below(5);
        let vectors: Vec<i32> = (0..n).flat_map(|_| samples::vector_inside(&mut random, d, b, &marks)).collect();
        let query: Vec<i32> = (0..d).map(|_| random.between(-1, 8)).collect();
        let k = 1 + random.below(n);
        let input = samples::input(d, b, &marks, &vectors, &query, k).with_word(word).from(format!("case {case}"));
        let choices: usize = (0..n).map(|i| reference::cell_vectors(&input, i).len()).product();
        if choices <= 1500 {
            assert_settled(&input);
            assert_found(&input);
            tried += 1;
            spared += i32::from(found(&input).reads.len() < n);
            words.insert((d, word));
        }
    }
    assert!(tried > 3000 && spared > 1000, "{tried} libraries, {spared} with unread vectors");
    assert_eq!(words.len(), 1 + 5 + 1 + 6 + 15, "{words:?}");
}

/// Every library of two vectors in five dimensions of which one has two regions and is present or absent, and one is
/// absent: marks from 0 to 2, every query and word.
#[test]
fn no_tiny_library_goes_wrong_for_any_word() {
    let mut libraries = 0;
    let marks = [0, 1, 3, 0, 2, 0, 1, 0, 1, 0, 1];
    for list in 0..36 {
        let vectors = [list / 12, list / 6 % 2, 0, 0, 0, list / 2 % 3, list % 2, 0, 0, 0];
        for (first, second) in (-1..=3).flat_map(|first| (-1..=2).map(move |second| (first, second))) {
            for (word, k) in (0..32u32).flat_map(|word| [(word, 1), (word, 2)]).filter(|(w, _)| w.count_ones() >= 4) {
                let input = samples::input(5, 1, &marks, &vectors, &[first, second, 0, 0, 0], k).with_word(word);
                assert_settled(&input);
                assert_found(&input);
                libraries += 1;
            }
        }
    }
    assert_eq!(libraries, 36 * 20 * 6 * 2);
}

/// Every row of vectors of their own cells, with the set of the numbers at which it differs from the library's. Sets of
/// numbers are bits.
fn rows(input: &Input) -> Vec<(usize, Vec<i32>)> {
    let mut rows = vec![(0, vec![])];
    for (i, own) in input.vectors.chunks(input.d).enumerate() {
        let cell = reference::cell_vectors(input, i);
        let longer = |(set, row): &(usize, Vec<i32>)| {
            let (set, row) = (*set, row.clone());
            cell.iter().map(move |vector| (set | usize::from(vector != own) << i, [&row[..], vector].concat()))
        };
        rows = rows.iter().flat_map(longer).collect();
    }
    rows
}

/// Holds a search to document 01: "A set of pattern numbers settles the answer if, whatever vectors of their own cells
/// stand at all the other numbers, with all else that the search is given kept, a full scan gives the answer's k
/// numbers and distances." What is read settles the answer; each number that is read, and whose cell has two distances,
/// can change it alone; and every set that settles it holds all of these.
fn assert_settled(input: &Input) {
    let _told = input.told();
    let found = found(input);
    let bounds = interface::bounds(input).expect("the library is right");
    let has_two = |&number: &u32| bounds[number as usize].lower != bounds[number as usize].upper;
    let reads: usize = found.reads.iter().map(|number| 1 << number).sum();
    let two: usize = found.reads.iter().filter(|number| has_two(number)).map(|number| 1 << number).sum();

    let (rows, mut other) = (rows(input), input.clone());
    // the sets whose vectors can all be replaced by others of their cells so that the answer is another
    let mut changing = vec![false; 1 << input.n];
    for (set, row) in &rows {
        other.vectors.clone_from(row);
        changing[*set] |= reference::scan(&other).as_ref() != Ok(&found.entries);
    }
    let sets = 0..1 << input.n;
    let settles = |set: usize| !sets.clone().any(|replaced| replaced & set == 0 && changing[replaced]);
    assert!(settles(reads), "what is read does not settle the answer");
    for number in (0..input.n).filter(|number| two >> number & 1 == 1) {
        assert!(changing[1 << number], "{number} is read, and can change nothing");
    }
    for set in sets.clone().filter(|&set| settles(set)) {
        assert_eq!(set & two, two, "the set {set:b} settles the answer without one of {two:b}");
    }

    for (_, row) in rows.into_iter().filter(|(set, _)| set & reads == 0).take(20) {
        let other = Input { vectors: row, ..input.clone() };
        assert_eq!(interface::search(&other).as_ref(), Ok(&found), "with {:?}", other.vectors);
    }
}

/// Anything in an unread vector's place, even what is no component: the same answer, the same reads.
#[test]
fn no_unread_vector_has_a_say() {
    let (mut random, mut unread) = (Random::new(35), 0);
    for seed in 0..3000 {
        let input = random_input(seed, if seed % 100 == 0 { 512 } else { 40 });
        let found = found(&input);
        let mut other = input.clone();
        for (i, vector) in other.vectors.chunks_mut(input.d).enumerate() {
            if !found.reads.contains(&(i as u32)) {
                let near = input.query[0];
                vector.fill_with(|| random.one_of(&[near, LEAST - 1, GREATEST + 1, i32::MIN, i32::MAX]));
                unread += 1;
            }
        }
        SEARCH.gives(0, &other);
        assert_eq!(interface::search(&other), Ok(found), "seed {seed}");
    }
    assert!(unread > 5000, "{unread} unread vectors");
}

/// Each read vector in turn put outside its code's cell, by each of its components.
#[test]
fn no_read_vector_is_taken_outside_its_cell() {
    let mut random = Random::new(36);
    for seed in 0..200 {
        let input = random_input(seed, 12);
        let parts = reference::parts(input.d, input.b);
        for number in found(&input).reads {
            for (dimension, part) in parts.iter().enumerate() {
                let at = number as usize * input.d + dimension;
                let marks = &input.marks[part.start + usize::from(input.regions[at])..];
                let mut other = input.clone();
                for value in [marks[0] - 1, marks[1], random.one_of(&[i32::MIN, i32::MAX, marks[1] + (1 << 16)])] {
                    other.vectors[at] = value;
                    SEARCH.gives(10, &other);
                }
            }
        }
    }
}

/// Codes that are not the vectors' own, none naming an empty region: the reading order is theirs, and what is read is
/// tested.
#[test]
fn no_wrong_code_leads_off_the_reading_order() {
    let (mut random, mut taken, mut refused) = (Random::new(37), 0, 0);
    for seed in 0..6000 {
        let input = random_input(seed, 30);
        let parts = reference::parts(input.d, input.b);
        let wrong = random.one_of(&[1, 1, 2, input.n]);
        let mut other = input.clone();
        for _ in 0..wrong {
            let i = random.below(input.n);
            let another = random.below(input.n);
            for (dimension, part) in parts.iter().enumerate() {
                let at = i * input.d + dimension;
                let region = random.below(part.len() - 1);
                let empty = input.marks[part.start + region] == input.marks[part.start + region + 1];
                let of_another = input.regions[another * input.d + dimension];
                other.regions[at] = if empty || seed % 2 == 0 { of_another } else { region as u8 };
            }
        }
        other.codes = reference::packed(input.d, input.b, &other.regions);
        match SEARCH.number(&other) {
            0 => taken += i32::from(other.codes != input.codes),
            number => {
                assert_eq!(number, 10, "seed {seed}");
                refused += 1;
            }
        }
    }
    assert!(taken > 300 && refused > 300, "{taken} taken, {refused} refused");
}

/// Every value of every byte of the codes.
#[test]
fn no_byte_of_the_codes_is_misread() {
    let mut numbers = [0; 11];
    for seed in 0..80 {
        let input = random_input(seed, 8);
        for at in 0..input.codes.len().min(8) {
            let mut other = input.clone();
            for byte in 0..=255 {
                (other.codes[at], other.origin) = (byte, format!("{}; byte {byte} at {at}", input.origin));
                numbers[SEARCH.number(&other) as usize] += 1;
            }
        }
    }
    assert!([0, 9, 10].iter().all(|&number| numbers[number] > 1000), "{numbers:?}");
}

/// Queries at the ends of the scale and anywhere, for former marks, which reach nowhere near them.
#[test]
fn no_query_outside_the_marks_is_taken_for_one_inside() {
    let mut random = Random::new(38);
    for case in 0..3000 {
        let (d, n) = (1 + random.below(6), 1 + random.below(20));
        let b = random.below(3 * d + 1);
        let vectors: Vec<i32> = (0..n * d).map(|_| random.between(-40, 40)).collect();
        let marks = reference::former_marks(d, b, &vectors);
        let ends: Vec<i32> = (0..d).map(|_| random.one_of(&[LEAST, GREATEST])).collect();
        let anywhere: Vec<i32> = (0..d).map(|_| component(&mut random)).collect();
        let k = 1 + random.below(n);
        for query in [ends, anywhere] {
            assert_found(&samples::input(d, b, &marks, &vectors, &query, k).from(format!("case {case}")));
        }
    }
}

#[test]
fn no_refusal_of_scan_is_missed_or_out_of_order() {
    assert_refusals(&SCAN, &small_inputs());
}

#[test]
fn no_refusal_of_search_is_missed_or_out_of_order() {
    assert_refusals(&SEARCH, &small_inputs());
}

#[test]
fn no_other_length_is_taken() {
    for input in small_inputs() {
        CALLS.iter().for_each(|call| assert_lengths(call, &input));
    }
}

/// Each refusal by itself, in the largest shape.
#[test]
fn no_refusal_is_missed_in_the_largest_shape() {
    CALLS.iter().for_each(|call| assert_each_refusal(call, &largest_input()));
}

/// A search by interface and reference.
fn assert_case(input: &Input, pairs: &[(u32, u64)], reads: &[u32]) {
    let entries: Vec<Entry> = pairs.iter().map(|&(number, distance)| Entry { number, distance }).collect();
    let found = Ok(Found { entries: entries.clone(), reads: reads.to_vec() });
    assert_eq!(interface::search(input), found);
    assert_eq!(reference::search(input), found, "by the reference");
    assert_eq!(interface::scan(input), Ok(entries), "the scan");
}

/// Document 01, "Cases".
#[test]
fn case_p11_library_a_with_k_1() {
    assert_case(&library_a([12, 6], 1), &[(3, 1)], &[3]);
}

/// Document 01, "Cases".
#[test]
fn case_p11_library_a_with_k_2() {
    assert_case(&library_a([12, 6], 2), &[(3, 1), (4, 61)], &[3, 2, 4]);
}

/// Document 01, "Cases": stopping at an equal L would name vector 1.
#[test]
fn case_p12_an_equal_bound_is_read() {
    assert_case(&library_of_p12(), &[(0, 4)], &[1, 0]);
}

/// Document 01, "Cases": "k 5 with A reads all, k 6 is 4".
#[test]
fn case_k_5_with_library_a_reads_all_and_6_is_4() {
    let input = library_a([12, 6], 5);
    SEARCH.gives(0, &input);
    let mut reads = found(&input).reads;
    reads.sort();
    assert_eq!(reads, [0, 1, 2, 3, 4]);
    for k in [0, 6] {
        CALLS.iter().for_each(|call| call.gives(4, &input.clone().with_k(k)));
    }
}

/// Document 01, "Cases": "b 12 with d 2 is taken, 13 is 2".
#[test]
fn case_b_12_with_d_2_is_taken_and_13_is_2() {
    let input = random_of_shape(&mut Random::new(6), 2, 12, 5);
    SEARCH.gives(0, &input);
    SEARCH.gives(2, &Input { b: 13, ..input });
}
