//! The second intake, of one reading and of a query from bytes (document 02, Slip 1): the C interface against the
//! reference.

use tests::{
    input::{told, Query},
    interface,
    random::Random,
    reference::{self, full_word, Reading},
    samples::{absent_reading, component, random_word, random_word_of, readings, readings_present},
};

/// Values that are refused in a reading that is not absent, each with its number.
const REFUSED: [(u32, u32); 12] = [
    (0x7FC0_0000, 14),
    (0x7F80_0001, 14),
    (0xFFFF_FFFF, 14),
    (0xFF80_0001, 14),
    (0x7F80_0000, 15),
    (0xFF80_0000, 15),
    (0x42FF_FF00, 15),
    (0x4300_0000, 15),
    (0xC300_0100, 15),
    (0x7F7F_FFFF, 15),
    (0xFF7F_FFFF, 15),
    (0x5F00_0000, 15),
];

/// Values that are taken, each with its component.
const TAKEN: [(u32, i32); 6] =
    [(0x3F80_0000, 256), (0x3B00_0000, 0), (0x3BC0_0000, 2), (0x42FF_FEFF, 32767), (0xC300_0000, -32768), (1 << 31, 0)];

// ---- one reading

/// Random patterns, those about each whole component, and those that are refused.
fn patterns() -> Vec<u32> {
    let mut random = Random::new(91);
    let mut patterns: Vec<u32> = (0..100_000).map(|_| random.next_u32()).collect();
    for component in -32770..=32770 {
        let bits = (component as f32 / 256.0).to_bits();
        patterns.extend([bits.wrapping_sub(1), bits, bits.wrapping_add(1)]);
    }
    patterns.extend(REFUSED.map(|(bits, _)| bits));
    patterns.extend(TAKEN.map(|(bits, _)| bits));
    patterns
}

/// The second intake gives what the first does, but that 13 is an absent reading, by bits and by floats.
#[test]
fn no_reading_is_taken_otherwise_than_by_the_first_intake() {
    let of_first = |taken: Result<i32, u32>| match taken {
        Ok(component) => Ok(Some(component)),
        Err(13) => Ok(None),
        Err(number) => Err(number),
    };
    for bits in patterns() {
        let due = of_first(interface::fresh(bits));
        assert_eq!(due, reference::intake_present(Reading::Fresh(bits)), "{bits:08X}: the first intake, the reference");
        assert_eq!(interface::fresh_present(bits), due, "{bits:08X}");
        assert_eq!(interface::fresh_value_present(f32::from_bits(bits)), due, "the float {bits:08X}");
        for age in [0, 1, 19, 20, 21, 22, 255] {
            let due = of_first(interface::held(bits, age));
            assert_eq!(due, reference::intake_present(Reading::Held(bits, age)), "{bits:08X} at age {age}");
            assert_eq!(interface::held_present(bits, age), due, "{bits:08X} at age {age}");
            assert_eq!(interface::held_value_present(f32::from_bits(bits), age), due, "the float {bits:08X} at {age}");
        }
    }
    assert_eq!(of_first(interface::lost()), interface::lost_present());
}

/// A lost reading, and every age above 20 with every sort of value.
#[test]
fn no_lost_or_over_age_reading_is_present_or_refused() {
    assert_eq!(interface::lost_present(), Ok(None));
    assert_eq!(reference::intake_present(Reading::Lost), Ok(None), "by the reference");
    let values = REFUSED.iter().map(|&(bits, _)| bits).chain(TAKEN.map(|(bits, _)| bits));
    for bits in values {
        for age in 21..=255 {
            assert_eq!(interface::held_present(bits, age), Ok(None), "{bits:08X} at age {age}");
            assert_eq!(interface::held_value_present(f32::from_bits(bits), age), Ok(None), "{bits:08X} at age {age}");
            assert_eq!(reference::intake_present(Reading::Held(bits, age)), Ok(None), "by the reference");
        }
    }
}

/// "NaN, infinite and out-of-range values are still refused in readings that aren't absent", at every age up to 20.
#[test]
fn no_bad_value_of_a_present_reading_is_taken() {
    for (bits, number) in REFUSED {
        assert_eq!(interface::fresh_present(bits), Err(number), "{bits:08X}");
        assert_eq!(interface::fresh_value_present(f32::from_bits(bits)), Err(number), "{bits:08X}");
        for age in 0..=20 {
            assert_eq!(interface::held_present(bits, age), Err(number), "{bits:08X} at age {age}");
            assert_eq!(interface::held_value_present(f32::from_bits(bits), age), Err(number), "{bits:08X} at {age}");
        }
    }
}

/// A present reading has its component, the filler's number among them.
#[test]
fn no_present_reading_is_taken_for_absent() {
    for (bits, component) in TAKEN {
        let due = Ok(Some(component));
        assert_eq!(interface::fresh_present(bits), due, "{bits:08X}");
        assert_eq!(interface::fresh_value_present(f32::from_bits(bits)), due, "{bits:08X}");
        for age in 0..=20 {
            assert_eq!(interface::held_present(bits, age), due, "{bits:08X} at age {age}");
            assert_eq!(interface::held_value_present(f32::from_bits(bits), age), due, "{bits:08X} at age {age}");
        }
    }
}

/// Every NaN, quiet and signalling, of both signs: none passes for a number in the optimised build.
#[test]
fn no_nan_is_taken_for_a_number_by_the_second_intake() {
    for bits in (0x7F80_0001..=0x7FFF_FFFF).chain(0xFF80_0001..=0xFFFF_FFFF) {
        assert_eq!(interface::fresh_value_present(f32::from_bits(bits)), Err(14), "{bits:08X}");
        assert_eq!(interface::held_value_present(f32::from_bits(bits), 20), Err(14), "{bits:08X}, held");
        assert_eq!(interface::fresh_present(bits), Err(14), "{bits:08X}, by its bits");
    }
}

// ---- a query

/// A query by interface and reference, which agree. It is never refused with 13.
#[track_caller]
fn query(d: usize, bytes: &[u8], room: usize) -> Result<Query, u32> {
    let given = (d, bytes, room);
    let _told = told(&given);
    let taken = interface::query_present(d, bytes, room);
    assert_eq!(taken, reference::query_present(d, bytes, room), "the reference is on the right");
    assert_ne!(taken, Err(13), "the second intake does not give 13");
    taken
}

/// The number of a query's refusal, or 0.
#[track_caller]
fn number(d: usize, bytes: &[u8]) -> u32 {
    query(d, bytes, d).err().unwrap_or(0)
}

/// How often each number was given.
fn counted(numbers: impl IntoIterator<Item = u32>) -> [usize; 20] {
    let mut counts = [0; 20];
    numbers.into_iter().for_each(|number| counts[number as usize] += 1);
    counts
}

#[track_caller]
fn assert_given(numbers: &[usize], counts: &[usize; 20]) {
    assert!(numbers.iter().all(|&number| counts[number] > 0), "{numbers:?} were not all given: {counts:?}");
}

/// The records of readings, each of a value by its bits.
fn fresh(bits: u32) -> Vec<u8> {
    [&[5], &bits.to_le_bytes()[..]].concat()
}

fn held(bits: u32, age: u8) -> Vec<u8> {
    [&[6], &bits.to_le_bytes()[..], &[age]].concat()
}

const LOST: [u8; 1] = [7];

/// Random components of d dimensions, 0 where the word has none, and records of readings that have them.
fn random_query(random: &mut Random, d: usize, word: u32) -> (Vec<i32>, Vec<u8>) {
    let components: Vec<i32> = (0..d).map(|t| component(random) * (word >> t & 1) as i32).collect();
    let bytes = readings_present(random, &components, word);
    (components, bytes)
}

/// Each component and each bit of the word stand in their places, and every word of few dimensions is met.
#[test]
fn no_random_query_with_absent_readings_goes_wrong() {
    let mut random = Random::new(92);
    for case in 0..30_000 {
        let d = 1 + case % 32;
        let word = random_word(&mut random, d);
        let (components, bytes) = random_query(&mut random, d, word);
        assert_eq!(query(d, &bytes, d), Ok(Query { components, word }), "case {case}");
    }
}

/// Every word of up to ten dimensions: taken, or too few.
#[test]
fn no_word_of_few_dimensions_is_given_for_another() {
    let mut random = Random::new(93);
    for d in 1..=10 {
        for word in 0..=full_word(d) {
            let (components, bytes) = random_query(&mut random, d, word);
            let enough = word.count_ones() >= d.min(4) as u32;
            let due = if enough { Ok(Query { components, word }) } else { Err(18) };
            assert_eq!(query(d, &bytes, d), due, "d {d}, word {word:b}");
        }
    }
}

/// With no reading absent the components are those of the first intake, and the word is full.
#[test]
fn no_query_without_absent_readings_is_taken_otherwise_than_before() {
    let mut random = Random::new(94);
    for case in 0..10_000 {
        let d = 1 + case % 32;
        let components: Vec<i32> = (0..d).map(|_| component(&mut random)).collect();
        let bytes = readings(&mut random, &components);
        let first = interface::query(d, &bytes, d);
        let due = Query { components: first.expect("the query is right"), word: full_word(d) };
        assert_eq!(query(d, &bytes, d), Ok(due), "case {case}");
    }
}

/// Nothing but lost readings, and nothing but readings that are over age.
#[test]
fn no_query_of_absent_readings_alone_is_taken() {
    for d in 1..=32 {
        assert_eq!(number(d, &LOST.repeat(d)), 18, "d {d}");
        for (bits, _) in REFUSED.into_iter().chain([(0x3F80_0000, 0)]) {
            assert_eq!(number(d, &held(bits, 21).repeat(d)), 18, "d {d}, {bits:08X}");
        }
    }
}

/// Exactly three present and exactly four, and all but one where d is at most four.
#[test]
fn no_three_readings_are_enough_and_no_four_too_few() {
    let mut random = Random::new(95);
    for d in 1..=32 {
        for count in 0..=d.min(5) {
            for _ in 0..40 {
                let word = random_word_of(&mut random, d, count);
                let (_, bytes) = random_query(&mut random, d, word);
                let due = if count < d.min(4) { 18 } else { 0 };
                assert_eq!(number(d, &bytes), due, "d {d}, word {word:b}");
            }
        }
    }
}

/// "18, too few present, after 16 in the intake": any other fault of a query comes before it.
#[test]
fn no_other_fault_comes_after_too_few_present() {
    let mut random = Random::new(96);
    for d in 1..=32 {
        for count in 0..d.min(4) {
            let word = random_word_of(&mut random, d, count);
            let (_, bytes) = random_query(&mut random, d, word);
            assert_eq!(number(d, &bytes), 18, "d {d}, word {word:b}");
            for behind in [&[0][..], &[5], &[7], &[7, 7, 7, 7], &[255; 30]] {
                assert_eq!(number(d, &[&bytes[..], behind].concat()), 16, "d {d}, {behind:?} behind");
            }
            (0..bytes.len()).for_each(|length| assert_eq!(number(d, &bytes[..length]), 12, "{length} bytes of d {d}"));
            assert_eq!(query(d, &bytes, d + 1), Err(5), "d {d}");
            assert_eq!(query(d, &bytes, d - 1), Err(5), "d {d}");
            assert_eq!(query(d + 32, &bytes, d), Err(1), "d {d}");
        }
    }
}

/// Every front, and every byte behind, of queries with absent readings.
#[test]
fn no_query_of_another_length_is_taken() {
    let mut random = Random::new(97);
    for d in 1..=32 {
        for _ in 0..4 {
            let word = random_word(&mut random, d);
            let (_, bytes) = random_query(&mut random, d, word);
            (0..bytes.len()).for_each(|length| assert_eq!(number(d, &bytes[..length]), 12, "{length} bytes"));
            for behind in 0..=255 {
                assert_eq!(number(d, &[&bytes[..], &[behind]].concat()), 16, "{behind} behind");
            }
        }
    }
}

/// Each reading that is refused, in each place of a query, with absent and present ones before it and anything behind.
#[test]
fn no_refused_reading_is_overlooked() {
    let mut random = Random::new(98);
    let mut bad: Vec<(Vec<u8>, u32)> = vec![];
    bad.extend(REFUSED.iter().flat_map(|&(bits, number)| [(fresh(bits), number), (held(bits, 20), number)]));
    bad.extend([0, 8, 9, 128, 255].map(|kind| (vec![kind], 11)));
    bad.extend([1, 2, 3, 4].map(|kind| (vec![kind], 17)));
    for (reading, due) in bad {
        for d in [1, 2, 5, 31, 32] {
            for place in 0..d {
                let word = random.next_u32();
                let (_, before) = random_query(&mut random, place, word);
                let (_, rest) = random_query(&mut random, d - 1 - place, word);
                for behind in [&rest[..], &[], &[0], &LOST, &[rest.as_slice(), &[5]].concat()] {
                    let bytes = [&before[..], &reading, behind].concat();
                    assert_eq!(number(d, &bytes), due, "{reading:?} in place {place} of {d}");
                }
            }
        }
    }
}

/// A NaN, an infinite value and one out of range in a reading that is over age: it is absent, and the query is taken if
/// four others are there.
#[test]
fn no_value_of_an_over_age_reading_has_a_say() {
    let mut random = Random::new(99);
    for (bits, _) in REFUSED.into_iter().chain(TAKEN.map(|(bits, _)| (bits, 0))) {
        for age in [21, 22, 100, 255] {
            for place in 0..5 {
                let word = full_word(5) & !(1 << place);
                let components: Vec<i32> = (0..5).map(|t| component(&mut random) * (word >> t & 1) as i32).collect();
                let mut bytes = readings(&mut random, &components[..place]);
                bytes.extend(held(bits, age));
                bytes.extend(readings(&mut random, &components[place + 1..]));
                assert_eq!(query(5, &bytes, 5), Ok(Query { components, word }), "{bits:08X} at age {age}");
            }
        }
    }
}

/// The filler is 0, and a present component of 0 has its bit all the same.
#[test]
fn no_filler_is_taken_for_a_component() {
    for d in 5..=32 {
        for absent in 0..d {
            let mut bytes = fresh(0).repeat(absent);
            bytes.extend(LOST);
            bytes.extend(fresh(0).repeat(d - 1 - absent));
            let word = full_word(d) & !(1 << absent);
            assert_eq!(query(d, &bytes, d), Ok(Query { components: vec![0; d], word }), "dimension {}", absent + 1);
        }
    }
}

/// Every value of every byte of small queries.
#[test]
fn no_byte_of_a_query_is_misread() {
    let mut random = Random::new(100);
    let mut numbers = vec![];
    for case in 0..200 {
        let d = 1 + case % 6;
        let word = random_word(&mut random, d);
        let (_, mut bytes) = random_query(&mut random, d, word);
        for at in 0..bytes.len() {
            let right = bytes[at];
            for byte in 0..=255 {
                bytes[at] = byte;
                numbers.push(number(d, &bytes));
            }
            bytes[at] = right;
        }
    }
    assert_given(&[0, 11, 12, 14, 15, 16, 17, 18], &counted(numbers));
}

/// Each number of dimensions that is none, before the buffer's length, and each other length of the buffer, before
/// anything is read.
#[test]
fn no_wrong_number_of_components_is_taken() {
    let (_, good) = random_query(&mut Random::new(101), 32, 0x0F0F_0F0F);
    for bytes in [&good[..], &good[..7], &[], &[0], &LOST] {
        for d in [0, 33, 34, 64, 255, 256, 257, 1 << 32, (1 << 32) + 32, 1 << 63, usize::MAX] {
            for room in [0, 1, 32, 33, 64, 256] {
                assert_eq!(query(d, bytes, room), Err(1), "d {d}, {room} components");
            }
        }
        for (d, room) in (1..=32).flat_map(|d| (0..70).chain([256, 16_384]).map(move |room| (d, room))) {
            if room != d {
                assert_eq!(query(d, bytes, room), Err(5), "d {d}, {room} components");
            }
        }
    }
}

/// Readings of every sort, cut anywhere, with bytes of no plan: the reference's is the first from the left. What the
/// first intake takes, the second takes too, and what it refuses with another number than 13 is refused alike, if no
/// absent reading stands before.
#[test]
fn no_later_fault_of_a_query_comes_first() {
    let mut random = Random::new(102);
    let numbers = (0..200_000).map(|_| {
        let d = 1 + random.below(7);
        let mut bytes = vec![];
        for _ in 0..d + usize::from(random.below(8) == 0) {
            let (bits, _) = random.one_of(&REFUSED);
            let near = ((component(&mut random) as f32) / 256.0).to_bits();
            let bits = random.one_of(&[near, near, near, near, near, near, near, bits]);
            match random.below(24) {
                0 => bytes.push(random.below(10) as u8),
                1..5 => bytes.extend(absent_reading(&mut random)),
                5..9 => bytes.extend(held(bits, random.one_of(&[0, 7, 19, 20, 20, 21, 255]))),
                _ => bytes.extend(fresh(bits)),
            }
        }
        let length = bytes.len() - random.below(bytes.len()) * usize::from(random.below(6) == 0);
        let taken = query(d, &bytes[..length], d);
        match interface::query(d, &bytes[..length], d) {
            Ok(components) => assert_eq!(taken, Ok(Query { components, word: full_word(d) })),
            Err(13) => {}
            Err(number) => assert_eq!(taken, Err(number)),
        }
        taken.err().unwrap_or(0)
    });
    assert_given(&[0, 11, 12, 14, 15, 16, 17, 18], &counted(numbers));
}

#[test]
fn no_random_bytes_are_taken_for_a_query() {
    let mut random = Random::new(103);
    let numbers = (0..200_000).map(|_| {
        let (d, length) = (1 + random.below(32), random.below(40));
        let any: Vec<u8> = (0..length).map(|_| random.next_u32() as u8).collect();
        let kinds: Vec<u8> = (0..length).map(|_| random.one_of(&[5, 6, 7, 7, 7, 0])).collect();
        let bytes = if random.below(2) == 0 { any } else { kinds };
        number(d, &bytes)
    });
    assert_given(&[11, 12, 16, 17, 18], &counted(numbers));
}
