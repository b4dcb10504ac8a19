//! Codes (document 01, "Marks, regions, codes"): the C interface against the reference.

use tests::{
    calls::{Call, CHECK_CODES, PACK, PACK_VECTORS, UNPACK},
    faults::{assert_each_refusal, assert_lengths, assert_refusals},
    input::Input,
    interface,
    random::Random,
    reference,
    samples::{largest_input, library_a, random_input, random_of_shape, shapes, small_inputs},
};

const CALLS: [Call; 4] = [PACK, PACK_VECTORS, UNPACK, CHECK_CODES];

/// Every number of dimensions and of bits, with any region numbers.
#[test]
fn no_shape_is_left_out() {
    let mut random = Random::new(11);
    for (d, b) in shapes() {
        let n = 1 + random.below(4);
        let mut input = random_of_shape(&mut random, d, b, n).from(format!("d {d}, b {b}"));
        CALLS.iter().for_each(|call| call.gives(0, &input));
        let widths = reference::bits_of(d, b);
        let region = |place: usize| random.below(1 << widths[place % d]) as u8;
        input.regions = (0..n * d).map(region).collect();
        PACK.gives(0, &input);
        input.codes = interface::pack(&input).expect("the region numbers are right");
        UNPACK.gives(0, &input);
        assert_eq!(interface::unpack(&input), Ok(input.regions), "d {d}, b {b}");
    }
}

#[test]
fn no_random_library_goes_wrong() {
    for seed in 0..3000 {
        let input = random_input(seed, if seed % 8 == 0 { 512 } else { 60 });
        CALLS.iter().for_each(|call| call.gives(0, &input));
    }
}

/// Packing a vector's regions, and packing the vector, give the same code, of which unpacking gives the regions.
#[test]
fn no_code_differs_by_the_way_to_it() {
    for seed in 0..1000 {
        let input = random_input(seed, 100);
        let regions = interface::regions(&input).expect("the vectors are right");
        let mut again = Input { regions: regions.clone(), ..input };
        again.codes = interface::pack(&again).expect("the regions are right");
        assert_eq!(interface::pack_vectors(&again), Ok(again.codes.clone()), "seed {seed}");
        assert_eq!(interface::unpack(&again), Ok(regions), "seed {seed}");
        assert_eq!(interface::check_codes(&again), Ok(()), "seed {seed}");
    }
}

/// Every value of every byte of the codes.
#[test]
fn no_byte_is_misread() {
    let (mut taken, mut refused) = (0, 0);
    for seed in 0..60 {
        let input = random_input(seed, 8);
        for at in 0..input.codes.len().min(12) {
            let mut other = input.clone();
            for byte in 0..=255 {
                other.codes[at] = byte;
                other.origin = format!("{}; byte {byte} at {at}", input.origin);
                UNPACK.number(&other);
                match CHECK_CODES.number(&other) {
                    0 => taken += 1,
                    number => refused += i32::from(number == 9),
                }
            }
        }
    }
    assert!(taken > 1000 && refused > 1000, "{taken} taken, {refused} refused");
}

/// Every value of every region number.
#[test]
fn no_region_past_the_last_is_packed() {
    for seed in 0..40 {
        let input = random_input(seed, 5);
        let widths = reference::bits_of(input.d, input.b);
        for at in 0..input.regions.len().min(40) {
            let mut other = input.clone();
            for region in 0..=255 {
                other.regions[at] = region;
                let past = usize::from(region) >> widths[at % input.d] != 0;
                PACK.gives(if past { 9 } else { 0 }, &other);
            }
        }
    }
}

/// A region number past the last at every place: in one run of numbers, and in rows of two.
#[test]
fn no_place_hides_a_region_past_the_last() {
    let mut random = Random::new(12);
    for (d, b, n) in [(1, 6, 512), (8, 40, 100), (8, 36, 100), (32, 160, 40), (32, 161, 40), (32, 31, 40)] {
        let input = random_of_shape(&mut random, d, b, n);
        let widths = reference::bits_of(d, b);
        for at in 0..n * d {
            let mut other = input.clone().from(format!("d {d}, b {b}, place {at}"));
            other.regions[at] = 1 << widths[at % d];
            PACK.gives(9, &other);
        }
    }
}

/// A number of ones among zeros and one of zeros among ones, at every place of eight vectors: no bit goes astray between two bytes.
#[test]
fn no_bit_goes_astray_between_bytes() {
    let mut random = Random::new(13);
    for (d, b) in shapes().filter(|&(d, _)| d <= 9) {
        let mut input = random_of_shape(&mut random, d, b, 8);
        let ones: Vec<u8> = reference::bits_of(d, b).iter().map(|w| (1 << w) - 1).collect::<Vec<_>>().repeat(8);
        for at in 0..ones.len() {
            for within in [false, true] {
                let all = |place| if (place == at) == within { ones[place] } else { 0 };
                input.regions = (0..ones.len()).map(all).collect();
                input = input.from(format!("d {d}, b {b}, place {at}, {within}"));
                PACK.gives(0, &input);
                input.codes = interface::pack(&input).expect("the region numbers are right");
                assert_eq!(interface::unpack(&input).as_ref(), Ok(&input.regions), "{}", input.origin);
            }
        }
    }
}

/// Every spare bit, by itself and with others.
#[test]
fn no_spare_bit_is_taken() {
    let mut tried = [false; 8];
    for seed in 0..300 {
        let input = random_input(seed, 20);
        let spare = 8 * input.codes.len() - input.n * input.b;
        tried[spare] = true;
        for bits in 1..1 << spare {
            let mut other = input.clone();
            *other.codes.last_mut().expect("there are spare bits") |= bits;
            UNPACK.gives(9, &other);
            CHECK_CODES.gives(9, &other);
        }
    }
    assert_eq!(tried, [true; 8], "the numbers of spare bits that were tried");
}

/// Every region of every vector named in turn: those that are empty are refused, and no others.
#[test]
fn no_empty_region_is_taken() {
    let (mut taken, mut refused) = (0, 0);
    for seed in 0..40 {
        let input = random_input(seed, 6);
        let parts = reference::parts(input.d, input.b);
        for at in 0..input.regions.len() {
            let marks = &input.marks[parts[at % input.d].clone()];
            for region in 0..marks.len() - 1 {
                let mut other = input.clone();
                other.regions[at] = region as u8;
                other.codes = reference::packed(input.d, input.b, &other.regions);
                let empty = marks[region] == marks[region + 1];
                CHECK_CODES.gives(if empty { 9 } else { 0 }, &other);
                (taken, refused) = (taken + i32::from(!empty), refused + i32::from(empty));
            }
        }
    }
    assert!(taken > 1000 && refused > 1000, "{taken} taken, {refused} refused");
}

#[test]
fn no_refusal_of_pack_is_missed_or_out_of_order() {
    assert_refusals(&PACK, &small_inputs());
}

#[test]
fn no_refusal_of_pack_vectors_is_missed_or_out_of_order() {
    assert_refusals(&PACK_VECTORS, &small_inputs());
}

#[test]
fn no_refusal_of_unpack_is_missed_or_out_of_order() {
    assert_refusals(&UNPACK, &small_inputs());
}

#[test]
fn no_refusal_of_check_codes_is_missed_or_out_of_order() {
    assert_refusals(&CHECK_CODES, &small_inputs());
}

#[test]
fn no_other_length_is_taken() {
    for input in small_inputs() {
        CALLS.iter().for_each(|call| assert_lengths(call, &input));
    }
}

/// Each refusal by itself, in the largest shape.
#[test]
fn no_refusal_is_missed_in_the_largest_shape() {
    CALLS.iter().for_each(|call| assert_each_refusal(call, &largest_input()));
}

/// Document 01, "Cases".
#[test]
fn case_p9_codes_of_library_a() {
    let input = library_a([0, 0], 1);
    let codes = Ok(vec![0x01, 0xDC]);
    assert_eq!(interface::pack_vectors(&input), codes);
    assert_eq!(interface::pack(&input), codes);
    assert_eq!(reference::pack_vectors(&input), codes, "by the reference");
    let regions = Ok(vec![0, 0, 0, 0, 1, 1, 2, 1, 3, 0]);
    assert_eq!(interface::unpack(&input), regions);
    assert_eq!(interface::regions(&input), regions);
    assert_eq!(reference::regions(&input), regions, "by the reference");
}

/// Document 01, "Cases": "b 12 with d 2 is taken, 13 is 2".
#[test]
fn case_b_12_with_d_2_is_taken_and_13_is_2() {
    let input = random_of_shape(&mut Random::new(6), 2, 12, 5);
    for call in &CALLS {
        call.gives(0, &input);
        call.gives(2, &Input { b: 13, ..input.clone() });
    }
}
