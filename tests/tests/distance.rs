//! Distances and bounds (document 01, "Distance, bounds, reading order"): the C interface against the reference.

use tests::{
    calls::{Call, BOUNDS, DISTANCE},
    faults::{assert_each_refusal, assert_lengths, assert_refusals},
    input::{Bounds, Input},
    interface,
    random::Random,
    reference,
    samples::{
        self, component, largest_input, library_a, random_input, random_of_shape, random_word, small_inputs,
        small_marks, small_marks_of_more_dimensions, vector_inside, GREATEST, LEAST,
    },
};

const CALLS: [Call; 2] = [DISTANCE, BOUNDS];

/// A query and a vector.
fn pair(query: &[i32], vector: &[i32]) -> Input {
    let mut input = library_a([0, 0], 1).with_query(query);
    input.one.vector = vector.to_vec();
    input
}

/// Random components, of the full range and close together, in every number of dimensions.
#[test]
fn no_random_distance_is_wrong() {
    let mut random = Random::new(21);
    for case in 0..20_000 {
        let d = 1 + case % 32;
        let query: Vec<i32> = (0..d).map(|_| component(&mut random)).collect();
        let far: Vec<i32> = (0..d).map(|_| component(&mut random)).collect();
        let near: Vec<i32> = query.iter().map(|q| (q + random.between(-3, 3)).clamp(LEAST, GREATEST)).collect();
        for vector in [&far, &near, &query] {
            DISTANCE.gives(0, &pair(&query, vector));
        }
    }
}

/// The greatest distances there are: 65535² for each dimension, above 32 bits from two dimensions on.
#[test]
fn no_great_distance_is_cut_short() {
    for d in 1..=32 {
        let (low, high) = (vec![LEAST; d], vec![GREATEST; d]);
        for (query, vector) in [(&low, &high), (&high, &low)] {
            let distance = d as u64 * 65535 * 65535;
            assert_eq!(interface::distance(&pair(query, vector)), Ok(distance), "d {d}");
        }
        assert_eq!(interface::distance(&pair(&low, &low)), Ok(0), "d {d}");
    }
}

/// Each difference of one component, the same either way round.
#[test]
fn no_difference_is_squared_wrong() {
    for difference in 0..=65535 {
        let square = Ok(difference as u64 * difference as u64);
        let (low, high) = ([LEAST], [LEAST + difference]);
        assert_eq!(interface::distance(&pair(&low, &high)), square, "{difference}");
        assert_eq!(interface::distance(&pair(&high, &low)), square, "{difference}");
    }
}

/// Every pair of lengths from 0 to 40: the query's is d.
#[test]
fn no_other_length_of_a_pair_is_taken() {
    for query in 0..=40 {
        for vector in 0..=40 {
            let number = match (1..=32).contains(&query) {
                false => 1,
                true if query == vector => 0,
                true => 5,
            };
            DISTANCE.gives(number, &pair(&vec![1; query], &vec![2; vector]));
        }
    }
}

/// Every vector of random libraries.
#[test]
fn no_random_bound_is_wrong() {
    for seed in 0..2000 {
        BOUNDS.gives(0, &random_input(seed, if seed % 50 == 0 { 512 } else { 12 }));
    }
}

/// The bounds are the least and the greatest distance of all vectors of the cell, by trying them all.
#[test]
fn no_bound_is_off_the_cell() {
    let mut random = Random::new(22);
    for case in 0..6000 {
        let base = random.one_of(&[0, 0, LEAST, GREATEST - 30]);
        let (d, b, marks) = small_marks(&mut random, base);
        let first = vector_inside(&mut random, d, b, &marks);
        let second = vector_inside(&mut random, d, b, &marks);
        let near: Vec<i32> = (0..d).map(|_| (base + random.between(-3, 20)).clamp(LEAST, GREATEST)).collect();
        let far: Vec<i32> = (0..d).map(|_| random.one_of(&[LEAST, GREATEST])).collect();
        let query = if case % 4 == 0 { far } else { near };
        let input = samples::input(d, b, &marks, &[first, second].concat(), &query, 1).from(format!("case {case}"));
        BOUNDS.gives(0, &input);
        let bounds = interface::bounds(&input).expect("the library is right");
        for (i, Bounds { lower, upper }) in bounds.into_iter().enumerate() {
            let cell = reference::cell_vectors(&input, i);
            let distances = cell.iter().map(|vector| reference::distance_between(&query, vector));
            let (least, greatest) = (distances.clone().min(), distances.max());
            assert_eq!((least, greatest), (Some(lower.into()), Some(upper.into())), "case {case}, vector {i}");
        }
    }
}

/// The same with a word: "L and U over present dimensions only", both reached inside the cell.
#[test]
fn no_bound_is_off_the_cell_for_any_word() {
    let (mut random, mut absent) = (Random::new(23), 0);
    for case in 0..6000 {
        let (d, b, marks) = small_marks_of_more_dimensions(&mut random);
        let word = random_word(&mut random, d);
        let vector = vector_inside(&mut random, d, b, &marks);
        let query: Vec<i32> = (0..d).map(|_| random.between(-3, 9)).collect();
        let input = samples::input(d, b, &marks, &vector, &query, 1).with_word(word).from(format!("case {case}"));
        BOUNDS.gives(0, &input);
        let Bounds { lower, upper } = interface::bounds(&input).expect("the library is right")[0];
        let present = |vector: &[i32]| {
            let steps = query.iter().zip(vector).enumerate().filter(|(t, _)| word >> t & 1 == 1);
            steps.map(|(_, (&q, &v))| u64::from(q.abs_diff(v)).pow(2)).sum::<u64>()
        };
        let cell = reference::cell_vectors(&input, 0);
        let distances = cell.iter().map(|vector| present(vector));
        let (least, greatest) = (distances.clone().min(), distances.max());
        assert_eq!((least, greatest), (Some(lower), Some(upper)), "case {case}");
        absent += i32::from(word.count_ones() < d as u32);
    }
    assert!(absent > 2000, "{absent} with a dimension absent");
}

/// Every query of one dimension, each region of some marks: queries far outside are not taken for the end region's.
#[test]
fn no_query_is_taken_into_a_region_beside_it() {
    let (marks, vectors) = ([-700, -300, -300, 5, 6], [-500, -1, 5]);
    let mut input = samples::input(1, 2, &marks, &vectors, &[0], 1);
    for query in LEAST..=GREATEST {
        input.query[0] = query;
        let bounds = [(-700, -301), (-300, 4), (5, 5)].map(|(first, last)| {
            let steps = [i64::from(query - first), i64::from(query - last)].map(|step| step.unsigned_abs().pow(2));
            let inside = (first..=last).contains(&query);
            let lower = if inside { 0 } else { steps[0].min(steps[1]) };
            Bounds { lower, upper: steps[0].max(steps[1]) }
        });
        assert_eq!(interface::bounds(&input).as_deref(), Ok(&bounds[..]), "query {query}");
    }
}

/// A vector's distance lies between the bounds of its cell.
#[test]
fn no_distance_is_outside_the_bounds() {
    for seed in 0..1500 {
        let mut input = random_input(seed, 10);
        let bounds = interface::bounds(&input).expect("the library is right");
        for (i, Bounds { lower, upper }) in bounds.into_iter().enumerate() {
            input.one.vector = input.vectors[i * input.d..(i + 1) * input.d].to_vec();
            let distance = interface::distance(&input).expect("the vector is right");
            assert!(lower <= distance && distance <= upper, "seed {seed}, vector {i}: {lower} {distance} {upper}");
        }
    }
}

/// The widest steps there are, in every number of dimensions.
#[test]
fn no_great_bound_is_cut_short() {
    for d in 1..=32 {
        let marks = [LEAST, GREATEST + 1].repeat(d);
        let mut input = samples::input(d, 0, &marks, &vec![0; d], &vec![LEAST; d], 1);
        let upper = d as u64 * 65535 * 65535;
        assert_eq!(interface::bounds(&input), Ok(vec![Bounds { lower: 0, upper }]), "d {d}");
        input.marks = [GREATEST, GREATEST + 1].repeat(d);
        assert_eq!(interface::bounds(&input), Ok(vec![Bounds { lower: upper, upper }]), "d {d}");
    }
}

/// Codes that any other vector has wrong are refused too.
#[test]
fn no_byte_of_the_codes_is_left_untested() {
    for seed in 0..40 {
        let input = random_input(seed, 6);
        for at in 0..input.codes.len().min(8) {
            let mut other = input.clone();
            for byte in 0..=255 {
                (other.codes[at], other.origin) = (byte, format!("{}; byte {byte} at {at}", input.origin));
                BOUNDS.number(&other);
            }
        }
    }
}

#[test]
fn no_refusal_of_distance_is_missed_or_out_of_order() {
    assert_refusals(&DISTANCE, &small_inputs());
}

#[test]
fn no_refusal_of_bounds_is_missed_or_out_of_order() {
    assert_refusals(&BOUNDS, &small_inputs());
}

#[test]
fn no_other_length_is_taken() {
    for input in small_inputs() {
        assert_lengths(&BOUNDS, &input);
    }
}

/// Each refusal by itself, in the largest shape.
#[test]
fn no_refusal_is_missed_in_the_largest_shape() {
    CALLS.iter().for_each(|call| assert_each_refusal(call, &largest_input()));
}

/// Document 01, "Cases": "b 12 with d 2 is taken, 13 is 2".
#[test]
fn case_b_12_with_d_2_is_taken_and_13_is_2() {
    let input = random_of_shape(&mut Random::new(6), 2, 12, 5);
    BOUNDS.gives(0, &input);
    BOUNDS.gives(2, &Input { b: 13, ..input });
}
