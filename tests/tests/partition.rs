//! Bits, marks and regions (document 01, "Marks, regions, codes"; document 02, Slip 2): the C interface against the
//! reference.

use tests::{
    calls::{Call, CHECK_MARKS, DIMENSION_REGION, MAKE_MARKS, PART, REGION, REGIONS, STRETCH},
    faults::{assert_each_refusal, assert_lengths, assert_refusals},
    input::Input,
    interface,
    random::Random,
    reference,
    samples::{
        self, component, largest_input, library_a, random_input, random_of_shape, shapes, small_inputs, GREATEST, LEAST,
    },
};

const CALLS: [Call; 7] = [STRETCH, CHECK_MARKS, PART, DIMENSION_REGION, REGION, MAKE_MARKS, REGIONS];

/// One dimension's marks with a value.
fn one(marks: &[i32], value: i32) -> Input {
    let mut input = library_a([0, 0], 1);
    (input.one.marks, input.one.regions, input.one.value) = (marks.to_vec(), marks.len() - 1, value);
    input
}

/// Every dimension of every number of dimensions and of bits.
#[test]
fn no_stretch_is_out_of_place() {
    let mut input = library_a([0, 0], 1);
    for (d, b) in shapes() {
        for j in 1..=d {
            (input.d, input.b, input.j) = (d, b, j);
            STRETCH.gives(0, &input);
        }
    }
}

/// The bits are all given out, at most six to a dimension, and the stretches follow each other.
#[test]
fn no_bit_is_lost() {
    let mut input = library_a([0, 0], 1);
    for (d, b) in shapes() {
        let (mut bits, mut offset) = (0, 0);
        for j in 1..=d {
            (input.d, input.b, input.j) = (d, b, j);
            let stretch = interface::stretch(&input).expect("there is such a dimension");
            assert!(stretch.bits <= 6 && stretch.offset == offset, "d {d}, b {b}, j {j}: {stretch:?}");
            (bits, offset) = (bits + stretch.bits, offset + (1 << stretch.bits) + 1);
        }
        assert_eq!(bits, b, "d {d}");
    }
}

/// Every value of the scale, and beyond it, in marks of each number of bits.
#[test]
fn no_value_is_in_a_wrong_region() {
    let mut random = Random::new(2);
    for bits in 0..=6 {
        let inner = (1 << bits) - 1;
        let mut anywhere: Vec<i32> = (0..inner).map(|_| random.between(LEAST, GREATEST + 1)).collect();
        anywhere.extend([LEAST, GREATEST + 1]);
        let mut close: Vec<i32> = (0..inner + 2).map(|_| random.between(-9, 9)).collect();
        for marks in [&mut anywhere, &mut close] {
            marks.sort();
            let mut input = one(marks, 0);
            for value in (LEAST - 3..=GREATEST + 3).chain([i32::MIN, i32::MAX]) {
                input.one.value = value;
                let inside = marks[0] <= value && value < marks[marks.len() - 1];
                REGION.gives(if inside { 0 } else { 8 }, &input);
            }
        }
    }
}

/// Every list of marks from 0 to 4, falling ones too, for one, two and four regions, with every value from -1 to 5.
#[test]
fn no_list_of_small_marks_goes_wrong() {
    for (count, lists) in [(2, 25), (3, 125), (5, 3125)] {
        for list in 0..lists {
            let marks: Vec<i32> = (0..count).map(|place| list / 5i32.pow(place) % 5).collect();
            for value in -1..=5 {
                REGION.number(&one(&marks, value));
            }
        }
    }
}

/// Numbers of regions from 0 on and about each power of two, with as many marks as they ask for, up to 301.
#[test]
fn no_other_number_of_regions_is_taken() {
    let powers = (0..64).flat_map(|bits| [1usize << bits, (1 << bits) + 1, (1usize << bits).wrapping_sub(1)]);
    for regions in (0..300).chain(powers).chain([usize::MAX]) {
        let mut input = one(&vec![0; regions.min(300) + 1], -1);
        (input.one.regions, input.one.marks[0]) = (regions, -1);
        let good = [1, 2, 4, 8, 16, 32, 64].contains(&regions);
        REGION.gives(if good { 0 } else { 2 }, &input);
    }
}

/// Each mark put out of range, or out of order with one beside it.
#[test]
fn no_bad_mark_is_taken_at_any_place() {
    for seed in 0..60 {
        let input = random_input(seed, 8);
        CHECK_MARKS.gives(0, &input);
        for part in reference::parts(input.d, input.b) {
            for at in part.clone() {
                let mut faulty = input.clone();
                let mut refused = |mark: i32| {
                    faulty.marks[at] = mark;
                    CHECK_MARKS.gives(7, &faulty);
                };
                [LEAST - 1, GREATEST + 2, i32::MIN, i32::MAX, LEAST - 65536].into_iter().for_each(&mut refused);
                if at > part.start && input.marks[at - 1] > LEAST {
                    refused(input.marks[at - 1] - 1);
                }
                if at + 1 < part.end && input.marks[at + 1] <= GREATEST {
                    refused(input.marks[at + 1] + 1);
                }
            }
        }
    }
}

/// Marks from end to end of the scale, all equal, falling from one dimension to the next: none of these is a fault.
#[test]
fn no_good_marks_are_refused() {
    for d in 1..=32 {
        for b in [0, 1, d, 3 * d + 1, 6 * d] {
            let mut input = random_of_shape(&mut Random::new(3), d, b, 2);
            for (first, last) in [(LEAST, GREATEST + 1), (LEAST, LEAST), (0, 0), (GREATEST + 1, GREATEST + 1)] {
                input.marks.fill(last);
                reference::parts(d, b).iter().for_each(|part| input.marks[part.start] = first);
                CHECK_MARKS.gives(0, &input);
                PART.gives(0, &input);
            }
        }
    }
}

/// Every dimension's part, in every shape.
#[test]
fn no_part_is_another_dimensions() {
    let mut random = Random::new(4);
    for d in 1..=32 {
        for b in [0, 1, d - 1, d, 2 * d + d / 2, 6 * d - 1, 6 * d] {
            let mut input = random_of_shape(&mut random, d, b, 3);
            for j in 1..=d {
                input.j = j;
                PART.gives(0, &input);
            }
        }
    }
}

/// Every mark of every dimension as a value, the number below it, and the ends of the scale.
#[test]
fn no_value_is_sought_in_another_dimension() {
    for seed in 0..60 {
        let mut input = random_input(seed, 8);
        for (dimension, part) in reference::parts(input.d, input.b).into_iter().enumerate() {
            input.j = dimension + 1;
            let marks = input.marks[part].to_vec();
            let about = marks.iter().flat_map(|&mark| [mark - 1, mark]);
            for value in about.chain([LEAST, GREATEST, i32::MIN, i32::MAX]) {
                input.one.value = value;
                let inside = marks[0] <= value && value < marks[marks.len() - 1];
                DIMENSION_REGION.gives(if inside { 0 } else { 8 }, &input);
            }
        }
    }
}

/// Every list of up to five components from 0 to 2, with each number of bits: every place of the sorted components.
#[test]
fn no_mark_is_made_from_a_wrong_place() {
    for n in 1..=5 {
        for list in 0..3i32.pow(n) {
            let vectors: Vec<i32> = (0..n).map(|i| list / 3i32.pow(i) % 3).collect();
            for b in 0..=6 {
                let marks = reference::made_marks(1, b, &vectors);
                let input = samples::input(1, b, &marks, &vectors, &[0], 1);
                MAKE_MARKS.gives(0, &input);
            }
        }
    }
}

/// Marks made from vectors pass the test of marks, and the vectors lie inside them.
#[test]
fn no_made_marks_leave_a_vector_outside() {
    for seed in 0..1500 {
        let mut input = random_input(seed, 512);
        input.marks = interface::make_marks(&input).expect("the vectors are right");
        CHECK_MARKS.gives(0, &input);
        REGIONS.gives(0, &input);
    }
}

/// Document 02, Slip 2: every component lies inside made marks, in every dimension, not only those that the marks were
/// made from; what is no component lies outside. A vector of any components has its regions in them.
#[test]
fn no_made_marks_leave_a_component_outside() {
    let mut random = Random::new(7);
    for seed in 0..600 {
        let mut input = random_input(seed, 60);
        input.marks = interface::make_marks(&input).expect("the vectors are right");
        for j in 1..=input.d {
            let anywhere = [component(&mut random), component(&mut random)];
            let values = [LEAST, LEAST + 1, -1, 0, 1, GREATEST - 1, GREATEST].into_iter().chain(anywhere);
            let outside = [LEAST - 1, GREATEST + 1, i32::MIN, i32::MAX].map(|value| (8, value));
            for (number, value) in values.map(|value| (0, value)).chain(outside) {
                (input.j, input.one.value) = (j, value);
                DIMENSION_REGION.gives(number, &input);
            }
        }
        let ends = vec![random.one_of(&[LEAST, GREATEST]); input.vectors.len()];
        let anywhere = input.vectors.iter().map(|_| component(&mut random)).collect();
        for vectors in [ends, anywhere] {
            REGIONS.gives(0, &Input { vectors, ..input.clone() });
        }
    }
}

/// "inner marks keep their rule": they are those of the former marks, and the outer ones are the ends of the scale.
#[test]
fn no_made_mark_but_the_outer_ones_is_another_than_before() {
    for seed in 0..1500 {
        let input = random_input(seed, 512);
        let mut marks = reference::former_marks(input.d, input.b, &input.vectors);
        for part in reference::parts(input.d, input.b) {
            (marks[part.start], marks[part.end - 1]) = (LEAST, GREATEST + 1);
        }
        assert_eq!(interface::make_marks(&input), Ok(marks), "seed {seed}");
    }
}

/// With no bits a dimension has the two outer marks alone, whatever the vectors: all of them, or those behind b.
#[test]
fn no_dimension_without_bits_has_other_marks_than_the_outer_ones() {
    let mut random = Random::new(8);
    for d in 1..=32 {
        for n in [1, 2, 17, 512] {
            let input = random_of_shape(&mut random, d, 0, n);
            assert_eq!(interface::make_marks(&input), Ok([LEAST, GREATEST + 1].repeat(d)), "d {d}, n {n}");
            let b = random.below(d);
            let input = random_of_shape(&mut random, d, b, n);
            let marks = interface::make_marks(&input).expect("the vectors are right");
            assert_eq!(marks[3 * b..], [LEAST, GREATEST + 1].repeat(d - b), "d {d}, b {b}, n {n}");
        }
    }
}

/// Every number of dimensions and of bits.
#[test]
fn no_shape_is_left_out() {
    let mut random = Random::new(5);
    for (d, b) in shapes() {
        let n = 1 + random.below(4);
        let input = random_of_shape(&mut random, d, b, n).from(format!("d {d}, b {b}"));
        CALLS.iter().for_each(|call| call.gives(0, &input));
    }
}

#[test]
fn no_random_library_goes_wrong() {
    for seed in 0..3000 {
        let input = random_input(seed, if seed % 8 == 0 { 512 } else { 60 });
        CALLS.iter().for_each(|call| call.gives(0, &input));
    }
}

#[test]
fn no_refusal_of_stretch_is_missed_or_out_of_order() {
    assert_refusals(&STRETCH, &small_inputs());
}

#[test]
fn no_refusal_of_check_marks_is_missed_or_out_of_order() {
    assert_refusals(&CHECK_MARKS, &small_inputs());
}

#[test]
fn no_refusal_of_part_is_missed_or_out_of_order() {
    assert_refusals(&PART, &small_inputs());
}

#[test]
fn no_refusal_of_dimension_region_is_missed_or_out_of_order() {
    assert_refusals(&DIMENSION_REGION, &small_inputs());
}

#[test]
fn no_refusal_of_region_is_missed_or_out_of_order() {
    assert_refusals(&REGION, &small_inputs());
}

#[test]
fn no_refusal_of_make_marks_is_missed_or_out_of_order() {
    assert_refusals(&MAKE_MARKS, &small_inputs());
}

#[test]
fn no_refusal_of_regions_is_missed_or_out_of_order() {
    assert_refusals(&REGIONS, &small_inputs());
}

#[test]
fn no_other_length_is_taken() {
    for input in small_inputs() {
        CALLS.iter().for_each(|call| assert_lengths(call, &input));
    }
}

/// Each refusal by itself, in the largest shape.
#[test]
fn no_refusal_is_missed_in_the_largest_shape() {
    CALLS.iter().for_each(|call| assert_each_refusal(call, &largest_input()));
}

/// Each component of each vector out of range, and just outside the marks.
#[test]
fn no_vector_is_taken_outside_the_range_or_the_marks() {
    for seed in 0..40 {
        let input = random_input(seed, 8);
        let parts = reference::parts(input.d, input.b);
        for at in 0..input.vectors.len() {
            let mut faulty = input.clone();
            for value in [LEAST - 1, GREATEST + 1, i32::MIN, i32::MAX, input.vectors[at] ^ 1 << 16] {
                faulty.vectors[at] = value;
                MAKE_MARKS.gives(6, &faulty);
                REGIONS.gives(6, &faulty);
            }
            let part = parts[at % input.d].clone();
            for value in [input.marks[part.start] - 1, input.marks[part.end - 1]] {
                if (LEAST..=GREATEST).contains(&value) {
                    faulty.vectors[at] = value;
                    MAKE_MARKS.gives(0, &faulty);
                    REGIONS.gives(8, &faulty);
                }
            }
        }
    }
}

/// Document 01, "Cases", which document 02, Slip 2 changed: "P10 becomes -32768 2 4 13 32768 and -32768 3 32768."
#[test]
fn case_p10_marks_made_from_library_a() {
    let marks = vec![-32768, 2, 4, 13, 32768, -32768, 3, 32768];
    assert_eq!(interface::make_marks(&library_a([0, 0], 1)), Ok(marks.clone()));
    assert_eq!(reference::make_marks(&library_a([0, 0], 1)), Ok(marks), "by the reference");
}

/// Document 01, "Cases", before that: "marks made from A's patterns: 1 2 4 13 19 and 1 3 11".
#[test]
fn case_p10_former_marks_of_library_a() {
    assert_eq!(reference::former_marks(2, 3, &library_a([0, 0], 1).vectors), [1, 2, 4, 13, 19, 1, 3, 11]);
}

/// Document 01, "Cases": "b 12 with d 2 is taken, 13 is 2".
#[test]
fn case_b_12_with_d_2_is_taken_and_13_is_2() {
    let input = random_of_shape(&mut Random::new(6), 2, 12, 5);
    for call in [STRETCH, CHECK_MARKS, PART, MAKE_MARKS, REGIONS] {
        call.gives(0, &input);
        call.gives(2, &Input { b: 13, ..input.clone() });
    }
}
