//! The presence word in search, scan and bounds (document 02, Slip 1): the C interface against the reference.

use tests::{
    calls::{Call, BOUNDS, SCAN, SEARCH},
    faults::{assert_each_refusal, assert_lengths, assert_refusals},
    input::{Bounds, Entry, Found, Input},
    interface,
    random::Random,
    reference::{self, full_word, kept, present},
    samples::{
        self, component, largest_input, random_input, random_input_with_word, random_of_shape, random_word,
        random_word_of, small_inputs, small_inputs_with_words, GREATEST, LEAST,
    },
};

const CALLS: [Call; 3] = [SEARCH, SCAN, BOUNDS];

/// Numbers that are no components.
const NO_COMPONENTS: [i32; 4] = [LEAST - 1, GREATEST + 1, i32::MIN, i32::MAX];

/// A search that is not refused.
fn found(input: &Input) -> Found {
    interface::search(input).unwrap_or_else(|number| panic!("refused with {number}: {input:?}"))
}

/// All calls that take the word are right by the reference, and the search's answer is the full scan's.
fn assert_found(input: &Input) {
    CALLS.iter().for_each(|call| call.gives(0, input));
    let _told = input.told();
    assert_eq!(Ok(found(input).entries), interface::scan(input), "the search, the scan");
}

/// The number that a word is refused with, by its ones alone, or 0.
fn number_of(d: usize, word: u32) -> u32 {
    match (u64::from(word) >> d, word.count_ones()) {
        (1.., _) => 19,
        (0, ones) => 18 * u32::from(ones < d.min(4) as u32),
    }
}

// ---- which words are taken

/// Every word of up to six dimensions, with two bits too many.
#[test]
fn no_word_of_few_dimensions_is_taken_for_another() {
    let mut random = Random::new(71);
    let mut counts = [0; 20];
    for d in 1..=6 {
        for word in 0..1 << (d + 2) {
            let number = number_of(d, word);
            for case in 0..if number == 0 { 60 } else { 4 } {
                let (b, n) = (random.below(6 * d + 1), 1 + random.below(12));
                let input = random_of_shape(&mut random, d, b, n).with_word(word);
                let input = input.from(format!("d {d}, word {word:b}, case {case}"));
                CALLS.iter().for_each(|call| call.gives(number, &input));
                if number == 0 {
                    assert_found(&input);
                }
                counts[number as usize] += 1;
            }
        }
    }
    // up to four dimensions one word each, of five 1 + 5, of six 1 + 6 + 15
    assert_eq!(counts[0], 60 * (4 + 6 + 22), "{counts:?}");
    assert!(counts[18] > 0 && counts[19] > 0, "{counts:?}");
}

/// Each bit at or above d, alone, beside the full word, and beside too few.
#[test]
fn no_bit_at_or_above_d_is_taken() {
    let mut random = Random::new(72);
    for d in 1..=32 {
        let full = full_word(d);
        let input = random_of_shape(&mut random, d, d, 3);
        CALLS.iter().for_each(|call| call.gives(0, &input.clone().with_word(full)));
        for bit in d..32 {
            for word in [1 << bit, full | 1 << bit, full & 0b101 | 1 << bit, !full, u32::MAX] {
                let input = input.clone().with_word(word).from(format!("d {d}, word {word:b}"));
                CALLS.iter().for_each(|call| call.gives(19, &input));
            }
        }
    }
}

/// Each number of present dimensions of each d: fewer than four are too few, and any absent where d is below four.
#[test]
fn no_number_of_present_dimensions_is_mistaken() {
    let mut random = Random::new(73);
    for d in 1..=32 {
        let input = random_of_shape(&mut random, d, 2 * d, 4);
        for count in 0..=d {
            for _ in 0..20 {
                let word = random_word_of(&mut random, d, count);
                let number = if count < d.min(4) { 18 } else { 0 };
                let input = input.clone().with_word(word).from(format!("d {d}, word {word:b}"));
                CALLS.iter().for_each(|call| call.gives(number, &input));
            }
        }
    }
}

/// Every word with three ones and every word with four, of five to twelve dimensions, and of all 32 those with
/// neighbouring ones.
#[test]
fn no_three_dimensions_are_enough_and_no_four_too_few() {
    let mut random = Random::new(74);
    for d in 5..=12 {
        let input = random_of_shape(&mut random, d, d, 2);
        for word in (0..1u32 << d).filter(|word| [3, 4].contains(&word.count_ones())) {
            let number = if word.count_ones() == 3 { 18 } else { 0 };
            CALLS.iter().for_each(|call| call.gives(number, &input.clone().with_word(word)));
        }
    }
    let input = random_of_shape(&mut random, 32, 32, 2);
    for (ones, number) in [(0b111u32, 18), (0b1111, 0)] {
        for place in 0..32 {
            let input = input.clone().with_word(ones.rotate_left(place));
            CALLS.iter().for_each(|call| call.gives(number, &input));
        }
    }
}

/// Where d is below five, every dimension has to be present.
#[test]
fn no_dimension_of_four_or_fewer_may_be_absent() {
    let mut random = Random::new(75);
    for d in 1..=4 {
        let input = random_of_shape(&mut random, d, d, 5);
        for word in 0..=full_word(d) {
            let number = if word == full_word(d) { 0 } else { 18 };
            CALLS.iter().for_each(|call| call.gives(number, &input.clone().with_word(word)));
        }
    }
}

// ---- what is refused, in which order

/// "19, a bit at or above d, after 4", "18, too few present, .. after 19 in search and scan", and 5 and 6 behind them:
/// each alone and each two of them.
#[test]
fn no_cause_of_the_word_is_tested_out_of_order() {
    type Fault = fn(&mut Input);
    let faults: [(u32, Fault); 5] = [
        (4, |input| input.k = 0),
        (19, |input| input.word |= 1 << input.d),
        (18, |input| input.word = 0b111),
        (5, |input| input.query.push(0)),
        (6, |input| input.query[0] = GREATEST + 1),
    ];
    for seed in 0..300 {
        let input = random_input_with_word(seed, 9);
        if (5..32).contains(&input.d) {
            for (place, (_, second)) in faults.iter().enumerate() {
                for (number, first) in &faults[..=place] {
                    let mut faulty = input.clone();
                    second(&mut faulty);
                    first(&mut faulty);
                    SEARCH.gives(*number, &faulty);
                    SCAN.gives(*number, &faulty);
                    if faulty.k > 0 {
                        BOUNDS.gives(*number, &faulty);
                    }
                }
            }
        }
    }
}

#[test]
fn no_refusal_of_search_is_missed_or_out_of_order_with_a_dimension_absent() {
    assert_refusals(&SEARCH, &small_inputs_with_words());
}

#[test]
fn no_refusal_of_scan_is_missed_or_out_of_order_with_a_dimension_absent() {
    assert_refusals(&SCAN, &small_inputs_with_words());
}

#[test]
fn no_refusal_of_bounds_is_missed_or_out_of_order_with_a_dimension_absent() {
    assert_refusals(&BOUNDS, &small_inputs_with_words());
}

#[test]
fn no_other_length_is_taken_with_a_dimension_absent() {
    for input in small_inputs_with_words().into_iter().take(8) {
        CALLS.iter().for_each(|call| assert_lengths(call, &input));
    }
}

/// Each refusal by itself, in the largest shape, with as few dimensions present as may be.
#[test]
fn no_refusal_is_missed_in_the_largest_shape_with_dimensions_absent() {
    let input = largest_input().with_word(0x8001_0100 | 1);
    CALLS.iter().for_each(|call| assert_each_refusal(call, &input));
}

/// 6 is tested on all d components of the query.
#[test]
fn no_absent_component_of_a_query_is_left_untested() {
    let mut tried = 0;
    for seed in 0..400 {
        let input = random_input_with_word(seed, 8);
        for dimension in (0..input.d).filter(|dimension| input.word >> dimension & 1 == 0) {
            for number in NO_COMPONENTS {
                let mut faulty = input.clone();
                faulty.query[dimension] = number;
                CALLS.iter().for_each(|call| call.gives(6, &faulty));
                tried += 1;
            }
        }
    }
    assert!(tried > 1000, "{tried}");
}

/// 6 is tested on all components of the vectors that a scan looks at.
#[test]
fn no_absent_component_of_a_vector_is_left_untested_in_a_scan() {
    for seed in 0..200 {
        let input = random_input_with_word(seed, 5);
        for at in (0..input.vectors.len()).filter(|at| input.word >> (at % input.d) & 1 == 0) {
            let mut faulty = input.clone();
            faulty.vectors[at] = NO_COMPONENTS[at % 4];
            SCAN.gives(6, &faulty);
        }
    }
}

/// 10 is tested in all dimensions of a vector that is read.
#[test]
fn no_read_vector_is_taken_outside_its_cell_in_an_absent_dimension() {
    let mut tried = 0;
    for seed in 0..300 {
        let input = random_input_with_word(seed, 10);
        let parts = reference::parts(input.d, input.b);
        for number in found(&input).reads {
            for dimension in (0..input.d).filter(|dimension| input.word >> dimension & 1 == 0) {
                let at = number as usize * input.d + dimension;
                let marks = &input.marks[parts[dimension].start + usize::from(input.regions[at])..];
                for value in [marks[0] - 1, marks[1], i32::MIN, i32::MAX] {
                    let mut other = input.clone();
                    other.vectors[at] = value;
                    SEARCH.gives(10, &other);
                    tried += 1;
                }
            }
        }
    }
    assert!(tried > 1000, "{tried}");
}

/// 9 is tested in all dimensions of every code.
#[test]
fn no_code_is_left_untested_in_an_absent_dimension() {
    // six dimensions of two regions, the second of them empty
    let marks = [0, 4, 4].repeat(6);
    let input = samples::input(6, 6, &marks, &[1; 18], &[2; 6], 2).with_word(0b01_1110);
    assert_found(&input);
    for at in 0..18 {
        let mut faulty = input.clone();
        faulty.regions[at] = 1;
        faulty.codes = reference::packed(6, 6, &faulty.regions);
        SEARCH.gives(9, &faulty);
        BOUNDS.gives(9, &faulty);
    }
}

// ---- what a word means

#[test]
fn no_random_library_with_a_random_word_goes_wrong() {
    for seed in 0..10_000 {
        assert_found(&random_input_with_word(seed, if seed % 100 == 0 { 512 } else { 40 }));
    }
}

/// Words of no plan, and words of which one bit is another.
#[test]
fn no_damaged_word_is_misread() {
    let (mut random, mut counts) = (Random::new(76), [0; 20]);
    for seed in 0..8000 {
        let input = random_input_with_word(seed, 20);
        let (any, bit) = (random.next_u32() & random.next_u32(), random.below(32));
        let word = random.one_of(&[any, any & full_word(input.d), input.word ^ 1 << bit, !input.word]);
        let (number, input) = (number_of(input.d, word), input.with_word(word));
        CALLS.iter().for_each(|call| call.gives(number, &input));
        counts[number as usize] += 1;
    }
    assert!([0, 18, 19].iter().all(|&number: &usize| counts[number] > 500), "{counts:?}");
}

/// Damaged libraries with words, right and wrong: each number is the reference's.
#[test]
fn no_damaged_library_with_a_word_is_misread() {
    let (mut random, mut counts) = (Random::new(77), [0; 20]);
    for seed in 0..20_000 {
        let mut input = random_input_with_word(seed % 400, 10);
        for _ in 0..1 + random.below(3) {
            damage(&mut random, &mut input);
        }
        counts[SEARCH.number(&input) as usize] += 1;
        SCAN.number(&input);
        BOUNDS.number(&input);
    }
    for number in [0, 1, 2, 3, 4, 5, 6, 7, 9, 10, 18, 19] {
        assert!(counts[number] > 20, "{number} is rare: {counts:?}");
    }
}

/// Changes one thing that the calls are given. Buffers keep the length that d and n ask for, but for a change of the
/// lengths themselves.
fn damage(random: &mut Random, input: &mut Input) {
    let number = random.one_of(&[LEAST - 1, LEAST, -1, 0, 1, 2, GREATEST, GREATEST + 1, i32::MAX]);
    let any = |random: &mut Random, length: usize| random.below(length.max(1));
    match random.below(16) {
        0 => input.d = random.one_of(&[0, 1, input.d + 1, 33]),
        1 => input.b = random.one_of(&[0, input.b + 1, 6 * input.d.min(32) + 1]),
        2 => input.n = random.one_of(&[0, input.n + 1, 513]),
        3 => input.k = random.one_of(&[0, input.n + 1, 1]),
        4 => input.word ^= 1 << random.below(32),
        5 => input.word &= random.next_u32(),
        6 => input.room.entries += random.below(2),
        7 => input.room.lowers += random.below(2),
        8 => input.query.truncate(random.below(33)),
        9 | 10 => {
            let at = any(random, input.query.len());
            input.query.iter_mut().skip(at).take(1).for_each(|component| *component = number);
        }
        11 => {
            let at = any(random, input.marks.len());
            input.marks.iter_mut().skip(at).take(1).for_each(|mark| *mark = number);
        }
        12 | 13 => {
            let (at, bit) = (any(random, input.codes.len()), random.below(8));
            input.codes.iter_mut().skip(at).take(1).for_each(|byte| *byte ^= 1 << bit);
        }
        _ => {
            let at = any(random, input.vectors.len());
            input.vectors.iter_mut().skip(at).take(1).for_each(|component| *component = number);
        }
    }
}

/// With every dimension present the distances are those of the plain call of two vectors, the entries the k least of
/// them, and the bounds lie about them.
#[test]
fn no_full_word_gives_another_result_than_document_01() {
    for seed in 0..2000 {
        let input = random_input(seed, 12);
        assert_eq!(input.word, full_word(input.d));
        let distance = |vector: &[i32]| {
            let mut pair = input.clone();
            pair.one.vector = vector.to_vec();
            interface::distance(&pair).expect("the vector is right")
        };
        let distances: Vec<u64> = input.vectors.chunks(input.d).map(distance).collect();
        let pairs: Vec<(i128, usize)> = distances.iter().map(|&distance| distance.into()).zip(0..).collect();
        let entry = |(distance, number): (i128, usize)| Entry { number: number as u32, distance: distance as u64 };
        let entries: Vec<Entry> = reference::best(&pairs, input.k).into_iter().map(entry).collect();
        assert_eq!(interface::scan(&input).as_ref(), Ok(&entries), "seed {seed}");
        assert_eq!(found(&input).entries, entries, "seed {seed}");
        let bounds = interface::bounds(&input).expect("the library is right");
        for (Bounds { lower, upper }, distance) in bounds.into_iter().zip(distances) {
            assert!(lower <= distance && distance <= upper, "seed {seed}: {lower} {distance} {upper}");
        }
    }
}

/// The present dimensions of a library as a library of their own, with as many bits for each dimension as before.
fn cut_down(input: &Input) -> Input {
    let present = present(input.word);
    let parts = reference::parts(input.d, input.b);
    let marks: Vec<i32> =
        present.iter().flat_map(|&dimension| &input.marks[parts[dimension].clone()]).copied().collect();
    let vectors: Vec<i32> = input.vectors.chunks(input.d).flat_map(|vector| kept(&present, vector)).collect();
    let (d, query) = (present.len(), kept(&present, &input.query));
    samples::input(d, input.b / input.d * d, &marks, &vectors, &query, input.k).from(format!("cut from {input:?}"))
}

/// A library whose absent dimensions are taken out of it has the same answer, reads and bounds, all dimensions present.
#[test]
fn no_absent_dimension_is_counted() {
    let mut random = Random::new(78);
    for case in 0..3000 {
        let (d, bits, n) = (4 + random.below(29), random.below(7), 1 + random.below(20));
        let word = random_word(&mut random, d);
        let input = random_of_shape(&mut random, d, d * bits, n).with_word(word).from(format!("case {case}"));
        let less = cut_down(&input);
        let _told = input.told();
        assert_eq!(interface::search(&input), interface::search(&less));
        assert_eq!(interface::scan(&input), interface::scan(&less));
        assert_eq!(interface::bounds(&input), interface::bounds(&less));
        assert_found(&input);
    }
}

/// Any components in the query's absent dimensions, and in the vectors' those of the same cells: nothing changes.
#[test]
fn no_absent_component_has_a_say() {
    let mut random = Random::new(79);
    for seed in 0..3000 {
        let input = random_input_with_word(seed, 20);
        let parts = reference::parts(input.d, input.b);
        let mut other = input.clone();
        for dimension in (0..input.d).filter(|dimension| input.word >> dimension & 1 == 0) {
            other.query[dimension] = component(&mut random);
            for at in (0..input.n).map(|i| i * input.d + dimension) {
                let marks = &input.marks[parts[dimension].start + usize::from(input.regions[at])..];
                other.vectors[at] = random.between(marks[0], marks[1] - 1);
            }
        }
        assert_found(&other);
        assert_eq!(interface::search(&other), interface::search(&input), "seed {seed}");
        assert_eq!(interface::scan(&other), interface::scan(&input), "seed {seed}");
        assert_eq!(interface::bounds(&other), interface::bounds(&input), "seed {seed}");
    }
}

/// One step in one dimension: it counts if its own bit is set, and no other.
#[test]
fn no_bit_stands_for_another_dimension() {
    for d in 5..=32 {
        for dimension in 0..d {
            let mut vector = vec![0; d];
            vector[dimension] = 3;
            let marks = [0, 4].repeat(d);
            let input = samples::input(d, 0, &marks, &vector, &vec![5; d], 1);
            let without = full_word(d) & !(1 << dimension);
            for (word, distance) in [(full_word(d), 25 * d as u64 - 21), (without, 25 * (d as u64 - 1))] {
                let input = input.clone().with_word(word);
                let entries = vec![Entry { number: 0, distance }];
                assert_eq!(interface::scan(&input), Ok(entries.clone()), "d {d}, word {word:b}");
                assert_eq!(interface::search(&input), Ok(Found { entries, reads: vec![0] }), "d {d}, word {word:b}");
                let ones = u64::from(word.count_ones());
                let bounds = vec![Bounds { lower: 4 * ones, upper: 25 * ones }];
                assert_eq!(interface::bounds(&input), Ok(bounds), "d {d}, word {word:b}");
            }
        }
    }
}

/// Vectors that differ in an absent dimension alone are equally near: the lower numbers are the answer.
#[test]
fn no_tie_of_the_present_dimensions_is_lost() {
    for n in [1usize, 2, 7, 512] {
        for k in [1, n.div_ceil(2), n] {
            let vectors: Vec<i32> = (0..n).flat_map(|i| [7, (n - i) as i32, 7, 7, 7]).collect();
            let marks = [0, 1000].repeat(5);
            let input = samples::input(5, 0, &marks, &vectors, &[9, 0, 9, 9, 9], k).with_word(0b1_1101);
            let entries = (0..k as u32).map(|number| Entry { number, distance: 16 }).collect();
            assert_eq!(interface::scan(&input).as_ref(), Ok(&entries), "n {n}, k {k}");
            assert_eq!(found(&input).entries, entries, "n {n}, k {k}");
            assert_found(&input);
        }
    }
}

/// Anything in an unread vector's place, even what is no component: the same answer, the same reads.
#[test]
fn no_unread_vector_has_a_say_with_a_dimension_absent() {
    let (mut random, mut unread) = (Random::new(80), 0);
    for seed in 0..2000 {
        let input = random_input_with_word(seed, if seed % 100 == 0 { 512 } else { 40 });
        let found = found(&input);
        let mut other = input.clone();
        for (i, vector) in other.vectors.chunks_mut(input.d).enumerate() {
            if !found.reads.contains(&(i as u32)) {
                let near = input.query[0];
                vector.fill_with(|| random.one_of(&[near, LEAST - 1, GREATEST + 1, i32::MIN, i32::MAX]));
                unread += 1;
            }
        }
        SEARCH.gives(0, &other);
        assert_eq!(interface::search(&other), Ok(found), "seed {seed}");
    }
    assert!(unread > 3000, "{unread} unread vectors");
}

/// The widest steps there are, for each number of present dimensions.
#[test]
fn no_great_distance_of_present_dimensions_is_cut_short() {
    let marks = [LEAST, GREATEST + 1].repeat(32);
    let mut random = Random::new(81);
    for count in 4..=32 {
        let word = random_word_of(&mut random, 32, count);
        let input = samples::input(32, 0, &marks, &[GREATEST; 32], &[LEAST; 32], 1).with_word(word);
        let distance = count as u64 * 65535 * 65535;
        assert_eq!(found(&input).entries, [Entry { number: 0, distance }], "word {word:b}");
        assert_eq!(interface::bounds(&input), Ok(vec![Bounds { lower: 0, upper: distance }]), "word {word:b}");
    }
}

/// The largest library, with as few dimensions present as may be and with one absent.
#[test]
fn no_largest_library_is_refused_with_dimensions_absent() {
    let input = largest_input();
    for word in [0xF, 0xF000_0000, 0x8001_0101, 0x7FFF_FFFF, 0xFFFF_FFFE, 0x5555_5555] {
        for k in [1, 17, 512] {
            assert_found(&input.clone().with_k(k).with_word(word));
        }
    }
}

/// The small libraries of the other tests take every word that is allowed.
#[test]
fn no_allowed_word_of_a_small_library_is_refused() {
    for input in small_inputs().into_iter().filter(|input| input.d <= 10) {
        for word in (0..=full_word(input.d)).filter(|&word| number_of(input.d, word) == 0) {
            assert_found(&input.clone().with_word(word));
        }
    }
}
