//! The library file and a query (document 01, "Library file"): the C interface against the reference.

use tests::{
    calls::{LIBRARY_LENGTH, WRITE},
    faults::{assert_each_refusal, assert_lengths, assert_refusals},
    input::{told, Input, LoadRoom, Loaded, Room},
    interface,
    random::Random,
    reference,
    samples::{
        self, component, file, largest_input, library_a, library_of, random_input, random_of_shape, readings, shapes,
        small_inputs, GREATEST, LEAST,
    },
};

/// Loading by interface and reference, which agree. What was loaded is written to the very bytes that were used.
fn load(bytes: &[u8]) -> Result<Loaded, u32> {
    let _told = told(bytes);
    let loaded = interface::load(bytes, LoadRoom::LARGEST);
    assert_eq!(loaded, reference::load(bytes, LoadRoom::LARGEST), "the reference is on the right");
    if let Ok(library) = &loaded {
        assert_eq!(interface::write(&input_of(library)).as_deref(), Ok(&bytes[..library.used]), "written again");
    }
    loaded
}

/// The number of loading's refusal, or 0.
fn number(bytes: &[u8]) -> u32 {
    load(bytes).err().unwrap_or(0)
}

/// What is written of a library that was loaded.
fn input_of(library: &Loaded) -> Input {
    let &Loaded { d, b, n, used, .. } = library;
    let (marks, settings) = (library.marks.clone(), library.settings.clone());
    let other = library_a([0, 0], 1);
    let room = Room { bytes: used, ..other.room };
    Input { d, b, n, marks, settings, vectors: library.components.clone(), room, ..other }
}

/// Where the records of a library begin.
fn records(input: &Input) -> Vec<usize> {
    let marks = (0..=input.marks.len()).map(|i| 5 + 5 * i);
    let vectors = (1..=input.n).map(|i| 5 + 5 * input.marks.len() + 69 * i);
    [0].into_iter().chain(marks).chain(vectors).collect()
}

/// How often each number was given.
fn counted(numbers: impl IntoIterator<Item = u32>) -> [usize; 18] {
    let mut counts = [0; 18];
    numbers.into_iter().for_each(|number| counts[number as usize] += 1);
    counts
}

/// Each of these numbers was given.
#[track_caller]
fn assert_given(numbers: &[usize], counts: &[usize; 18]) {
    assert!(numbers.iter().all(|&number| counts[number] > 0), "{numbers:?} were not all given: {counts:?}");
}

/// What is written is loaded again, whatever follows it.
fn assert_round_trip(input: &Input, behind: &[u8]) {
    WRITE.gives(0, input);
    let _told = input.told();
    let mut bytes = interface::write(input).expect("the library is right");
    bytes.extend(behind);
    assert_eq!(load(&bytes), Ok(library_of(input)));
}

fn noise(random: &mut Random, length: usize) -> Vec<u8> {
    (0..length).map(|_| random.next_u32() as u8).collect()
}

// ---- libraries that are right

#[test]
fn no_random_library_goes_wrong() {
    let mut random = Random::new(41);
    for seed in 0..3000 {
        let behind = random.below(300);
        let behind = noise(&mut random, behind);
        assert_round_trip(&random_input(seed, if seed % 8 == 0 { 512 } else { 60 }), &behind);
    }
}

/// Every number of dimensions and of bits.
#[test]
fn no_shape_is_left_out() {
    let mut random = Random::new(42);
    for (d, b) in shapes() {
        let n = 1 + random.below(4);
        assert_round_trip(&random_of_shape(&mut random, d, b, n).from(format!("d {d}, b {b}")), &[]);
    }
}

/// Every number of dimensions and of bits, in range and past it.
#[test]
fn no_length_of_a_library_is_wrong() {
    let counts = [0, 1, 2, 3, 511, 512, 513, 1 << 32, usize::MAX];
    let mut input = library_a([0, 0], 1);
    for d in (0..=34).chain([1 << 32, usize::MAX]) {
        for b in (0..=200).chain([1 << 32, usize::MAX]) {
            for n in counts {
                (input.d, input.b, input.n) = (d, b, n);
                LIBRARY_LENGTH.number(&input);
            }
        }
    }
}

/// Every number of vectors.
#[test]
fn no_number_of_vectors_is_left_out() {
    let mut random = Random::new(43);
    for n in 1..=512 {
        let d = 1 + random.below(32);
        assert_round_trip(&random_of_shape(&mut random, d, d, n).from(format!("{n} vectors")), &[]);
    }
}

/// "No accepted input is longer than 45,928 bytes": a library, k, and readings of six bytes.
#[test]
fn no_largest_library_is_refused() {
    let input = largest_input();
    assert_eq!(input.room.bytes + 2 + 32 * 6, 45_928);
    assert_round_trip(&input, &[]);
    assert_round_trip(&input, &file(&input));
}

/// Anything behind a library is left to the caller, another library and each single byte among it.
#[test]
fn no_byte_behind_a_library_has_a_say() {
    for input in small_inputs() {
        (0..=255).for_each(|byte| assert_round_trip(&input, &[byte]));
        assert_round_trip(&input, &file(&input));
        assert_round_trip(&input, &file(&library_a([0, 0], 1)));
    }
}

/// Each component, each of them as first and as last of its vector.
#[test]
fn no_component_changes_on_the_way() {
    let scale: Vec<i32> = (LEAST..=GREATEST).collect();
    for (i, vectors) in scale.chunks(512).enumerate() {
        let marks = [LEAST, GREATEST + 1];
        assert_round_trip(&samples::input(1, 0, &marks, vectors, &[0], 1).from(format!("part {i}")), &[]);
    }
    for (i, vectors) in scale.chunks(512 * 32).enumerate() {
        let marks = [LEAST, GREATEST + 1].repeat(32);
        assert_round_trip(&samples::input(32, 0, &marks, vectors, &[0; 32], 1).from(format!("part {i} of 4")), &[]);
    }
}

/// Each mark, each of them as a dimension's only inner mark, and settings of every bit.
#[test]
fn no_mark_or_settings_number_changes_on_the_way() {
    let mut random = Random::new(44);
    for mark in LEAST..=GREATEST + 1 {
        let value = component(&mut random);
        let mut input = samples::input(1, 1, &[LEAST, mark, GREATEST + 1], &[value], &[0], 1);
        input.settings = vec![random.next_u32()];
        assert_round_trip(&input, &[]);
    }
    for settings in (0..32).flat_map(|bit| [1 << bit, !(1 << bit)]).chain([0, u32::MAX]) {
        let mut input = library_a([0, 0], 1);
        input.settings.fill(settings);
        assert_round_trip(&input, &[]);
    }
}

// ---- writing

#[test]
fn no_refusal_of_write_is_missed_or_out_of_order() {
    assert_refusals(&WRITE, &small_inputs());
}

#[test]
fn no_refusal_of_library_length_is_missed_or_out_of_order() {
    assert_refusals(&LIBRARY_LENGTH, &small_inputs());
}

#[test]
fn no_other_length_is_taken() {
    small_inputs().iter().for_each(|input| assert_lengths(&WRITE, input));
}

/// Each refusal by itself, in the largest shape.
#[test]
fn no_refusal_of_write_is_missed_in_the_largest_shape() {
    assert_each_refusal(&WRITE, &largest_input());
}

// ---- loading what is wrong

/// Every front of a library.
#[test]
fn no_front_of_a_library_is_taken() {
    for input in small_inputs() {
        let bytes = file(&input);
        (0..bytes.len()).for_each(|length| assert_eq!(number(&bytes[..length]), 12, "{length} bytes"));
    }
    let (input, bytes) = (largest_input(), file(&largest_input()));
    for start in records(&input) {
        for length in [start, start + 1, start + 4].into_iter().filter(|&length| length < bytes.len()) {
            assert_eq!(number(&bytes[..length]), 12, "{length} bytes of {}", bytes.len());
        }
    }
}

/// The numbers of a library with each byte in turn put to each value.
fn damaged(input: &Input) -> [usize; 18] {
    let mut bytes = file(input);
    let mut numbers = vec![];
    for at in 0..bytes.len() {
        let right = bytes[at];
        for byte in 0..=255 {
            bytes[at] = byte;
            numbers.push(number(&bytes));
        }
        bytes[at] = right;
    }
    counted(numbers)
}

/// Every value of every byte of library A: 391 bytes, 60 of each pattern good for nothing but zero.
#[test]
fn no_byte_of_library_a_is_misread() {
    let counts = damaged(&library_a([0, 0], 1));
    assert_eq!(counts.iter().sum::<usize>(), 391 * 256);
    assert_eq!(counts[6], 5 * 60 * 255, "{counts:?}");
    assert_given(&[0, 1, 2, 3, 6, 7, 8, 11, 17], &counts);
}

/// Every value of every byte of other small libraries.
#[test]
fn no_byte_of_a_small_library_is_misread() {
    for (d, b, n) in [(1, 0, 1), (1, 1, 2), (3, 4, 1), (32, 0, 1)] {
        let counts = damaged(&random_of_shape(&mut Random::new(d as u64), d, b, n));
        assert_given(&[0, 1, 3, 7, 8, 11, 17], &counts);
    }
}

/// Two and more bytes at once, most of them in different records: the reference's is the first from the left.
#[test]
fn no_later_fault_comes_first() {
    let mut random = Random::new(45);
    let numbers = (0..20_000).map(|seed| {
        let input = random_input(seed % 200, 4);
        let mut bytes = file(&input);
        let starts = records(&input);
        for _ in 0..2 + random.below(3) {
            let (anywhere, start, in_head) = (random.below(bytes.len()), random.one_of(&starts), random.below(5));
            let at = random.one_of(&[anywhere, start, in_head]);
            bytes[at] = random.one_of(&[0, 1, 2, 3, 4, 5, 127, 128, 255, bytes[at] ^ 1, bytes[at].wrapping_add(1)]);
        }
        let length = bytes.len() - random.below(bytes.len()) * random.below(2);
        number(&bytes[..length])
    });
    assert_given(&[0, 1, 2, 3, 6, 7, 8, 11, 12, 17], &counted(numbers));
}

/// Each record with each other kind: 11 if there is none of that number, 17 if there is.
#[test]
fn no_record_is_taken_for_one_of_another_kind() {
    for input in small_inputs().into_iter().take(4) {
        let mut bytes = file(&input);
        for start in records(&input) {
            let right = bytes[start];
            for kind in (0..=255).filter(|&kind| kind != right) {
                bytes[start] = kind;
                let due = if (1..=7).contains(&kind) { 17 } else { 11 };
                assert_eq!(number(&bytes), due, "kind {kind} at {start}");
                assert_eq!(number(&bytes[..=start]), due, "kind {kind} at {start}, the last byte");
            }
            bytes[start] = right;
        }
    }
}

/// Every head: each d with each b, and each n, with nothing behind.
#[test]
fn no_wrong_head_is_taken() {
    let head = |d: u8, b: u8, n: u16| [[1, d, b].as_slice(), &n.to_le_bytes()].concat();
    for (d, b) in (0..=255).flat_map(|d| (0..=255).map(move |b| (d, b))) {
        let shape = match (d, b) {
            (0 | 33.., _) => Some(1),
            _ => (u32::from(b) > 6 * u32::from(d)).then_some(2),
        };
        let n = if b % 2 == 0 { 512 } else { 513 };
        let due = shape.unwrap_or(if n == 512 { 12 } else { 3 });
        assert_eq!(number(&head(d, b, n)), due, "d {d}, b {b}, n {n}");
    }
    for n in 0..=u16::MAX {
        let due = if (1..=512).contains(&n) { 12 } else { 3 };
        assert_eq!(number(&head(2, 3, n)), due, "n {n}");
    }
}

/// Each mark out of range, or below the one before it; the least and the greatest are good, and so are equal ones.
#[test]
fn no_bad_mark_is_taken_at_any_place() {
    for input in small_inputs() {
        let bytes = file(&input);
        for (at, &mark) in input.marks.iter().enumerate() {
            let with = |mark: i32| {
                let mut bytes = bytes.clone();
                bytes[6 + 5 * at..10 + 5 * at].copy_from_slice(&mark.to_le_bytes());
                number(&bytes)
            };
            for mark in [LEAST - 1, GREATEST + 2, i32::MIN, i32::MAX, mark ^ 1 << 20] {
                assert_eq!(with(mark), 7, "{mark} at {at}");
            }
            for mark in [LEAST, GREATEST + 1, mark - 1, mark + 1, 0] {
                with(mark);
            }
        }
    }
}

/// Each component just inside and just outside the marks, and not zero beyond d: 6 comes before 8.
#[test]
fn no_pattern_is_taken_outside_the_marks() {
    for input in small_inputs() {
        let bytes = file(&input);
        let parts = reference::parts(input.d, input.b);
        for (i, start) in (0..input.n).map(|i| (i, 5 + 5 * input.marks.len() + 69 * i)) {
            let put = |bytes: &mut [u8], t: usize, component: i32| {
                bytes[start + 5 + 2 * t..start + 7 + 2 * t].copy_from_slice(&(component as i16).to_le_bytes());
            };
            for (t, part) in parts.iter().enumerate() {
                let (first, last) = (input.marks[part.start], input.marks[part.end - 1]);
                let values = [first, last - 1, first - 1, last, LEAST, GREATEST];
                for component in values.into_iter().filter(|value| (LEAST..=GREATEST).contains(value)) {
                    let due = if first <= component && component < last { 0 } else { 8 };
                    let mut faulty = bytes.clone();
                    put(&mut faulty, t, component);
                    assert_eq!(number(&faulty), due, "{component} in dimension {} of vector {i}", t + 1);
                    for beyond in [input.d, 31].into_iter().filter(|beyond| (input.d..32).contains(beyond)) {
                        put(&mut faulty, beyond, if beyond % 2 == 0 { 1 } else { LEAST });
                        assert_eq!(number(&faulty), 6, "{component}, and not zero in place {beyond} of vector {i}");
                        put(&mut faulty, beyond, 0);
                    }
                }
            }
        }
    }
}

/// Buffers of every other length, before anything is read.
#[test]
fn no_buffer_of_another_length_is_taken() {
    let (good, largest) = (file(&library_a([0, 0], 1)), file(&largest_input()));
    let mut rooms = vec![];
    let others = |exact: usize| (0..exact + 10).filter(move |&length| length != exact).chain([2 * exact, 65_536]);
    rooms.extend(others(2080).map(|marks| LoadRoom { marks, ..LoadRoom::LARGEST }));
    rooms.extend(others(512).map(|settings| LoadRoom { settings, ..LoadRoom::LARGEST }));
    let near = |components: &usize| components.is_multiple_of(100) || *components > 16_300;
    rooms.extend(others(16_384).filter(near).map(|components| LoadRoom { components, ..LoadRoom::LARGEST }));
    rooms.push(LoadRoom { marks: 8, settings: 5, components: 10 });
    rooms.push(LoadRoom { marks: 0, settings: 0, components: 0 });
    rooms.push(LoadRoom { marks: 16_384, settings: 2080, components: 512 });
    for room in rooms {
        for bytes in [&good[..], &largest, &good[..100], &[], &[9]] {
            assert_eq!(interface::load(bytes, room), Err(5), "{room:?}, {} bytes", bytes.len());
            assert_eq!(reference::load(bytes, room), Err(5), "{room:?}, by the reference");
        }
    }
}

/// Bytes of no plan, records of no plan, and records of a library in no order.
#[test]
fn no_random_bytes_are_misread() {
    let mut random = Random::new(46);
    let numbers = (0..20_000).map(|_| {
        let length = random.below(200);
        let mut bytes = noise(&mut random, length);
        match random.below(3) {
            0 => {}
            1 => bytes.splice(0..0, [1, 1, 0, 1, 0, 2]).for_each(drop),
            _ => {
                let record = |random: &mut Random| {
                    let kind = random.below(8) as u8;
                    let body = noise(random, [0, 4, 4, 68, 0, 4, 5, 0][usize::from(kind)]);
                    [&[kind], &body[..]].concat()
                };
                bytes = [1, 1, 0, 1, 0].into_iter().chain((0..8).flat_map(|_| record(&mut random))).collect();
            }
        }
        number(&bytes)
    });
    assert_given(&[1, 7, 11, 12, 17], &counted(numbers));
}

// ---- a query

/// A query by interface and reference, which agree.
fn query(d: usize, bytes: &[u8], room: usize) -> Result<Vec<i32>, u32> {
    let given = (d, bytes, room);
    let _told = told(&given);
    let components = interface::query(d, bytes, room);
    assert_eq!(components, reference::query(d, bytes, room), "the reference is on the right");
    components
}

/// Random components of d dimensions, and records of readings that have them.
fn random_query(random: &mut Random, d: usize) -> (Vec<i32>, Vec<u8>) {
    let components: Vec<i32> = (0..d).map(|_| component(random)).collect();
    let bytes = readings(random, &components);
    (components, bytes)
}

/// The records of readings, each of a value by its bits, or of none.
fn fresh(bits: u32) -> Vec<u8> {
    [&[5], &bits.to_le_bytes()[..]].concat()
}

fn held(bits: u32, age: u8) -> Vec<u8> {
    [&[6], &bits.to_le_bytes()[..], &[age]].concat()
}

const LOST: [u8; 1] = [7];

/// Values that are refused, each with its number.
const REFUSED: [(u32, u32); 12] = [
    (0x7FC0_0000, 14),
    (0x7F80_0001, 14),
    (0xFFFF_FFFF, 14),
    (0xFF80_0001, 14),
    (0x7F80_0000, 15),
    (0xFF80_0000, 15),
    (0x42FF_FF00, 15),
    (0x4300_0000, 15),
    (0xC300_0100, 15),
    (0x7F7F_FFFF, 15),
    (0xFF7F_FFFF, 15),
    (0x5F00_0000, 15),
];

#[test]
fn no_random_query_goes_wrong() {
    let mut random = Random::new(47);
    for case in 0..20_000 {
        let (components, bytes) = random_query(&mut random, 1 + case % 32);
        assert_eq!(query(components.len(), &bytes, components.len()), Ok(components), "case {case}");
    }
}

/// Every front, and every byte behind.
#[test]
fn no_query_of_another_length_is_taken() {
    let mut random = Random::new(48);
    for d in 1..=32 {
        let (_, bytes) = random_query(&mut random, d);
        (0..bytes.len()).for_each(|length| assert_eq!(query(d, &bytes[..length], d), Err(12), "{length} bytes"));
        for behind in 0..=255 {
            assert_eq!(query(d, &[&bytes[..], &[behind]].concat(), d), Err(16), "{behind} behind");
        }
        for more in [1, 2, 10, 1000] {
            let (_, behind) = random_query(&mut random, more);
            assert_eq!(query(d, &[&bytes[..], &behind].concat(), d), Err(16), "{more} more records");
        }
    }
}

/// Every value of every byte of small queries.
#[test]
fn no_byte_of_a_query_is_misread() {
    let mut random = Random::new(49);
    let mut numbers = vec![];
    for case in 0..200 {
        let d = 1 + case % 4;
        let (_, mut bytes) = random_query(&mut random, d);
        for at in 0..bytes.len() {
            let right = bytes[at];
            for byte in 0..=255 {
                bytes[at] = byte;
                numbers.push(query(d, &bytes, d).err().unwrap_or(0));
            }
            bytes[at] = right;
        }
    }
    assert_given(&[0, 11, 12, 13, 14, 15, 16, 17], &counted(numbers));
}

/// Each number of dimensions that is none, before the buffer's length, and each other length of the buffer, before
/// anything is read.
#[test]
fn no_wrong_number_of_components_is_taken() {
    let (_, good) = random_query(&mut Random::new(50), 32);
    for bytes in [&good[..], &good[..7], &[], &[0], &LOST] {
        for d in [0, 33, 34, 64, 255, 256, 257, 1 << 32, (1 << 32) + 32, 1 << 63, usize::MAX] {
            for room in [0, 1, 32, 33, 64, 256] {
                assert_eq!(query(d, bytes, room), Err(1), "d {d}, {room} components");
            }
        }
        for (d, room) in (1..=32).flat_map(|d| (0..70).chain([256, 16_384]).map(move |room| (d, room))) {
            if room != d {
                assert_eq!(query(d, bytes, room), Err(5), "d {d}, {room} components");
            }
        }
    }
}

/// Each kind in each place: 11 where there is none of that number, 17 for one of the library's.
#[test]
fn no_other_kind_is_taken_for_a_reading() {
    let mut random = Random::new(51);
    for place in 0..4 {
        let (_, before) = random_query(&mut random, place);
        for kind in 0..=255 {
            let due = match kind {
                1..=4 => 17,
                5 | 6 => 12,
                7 => 13,
                _ => 11,
            };
            let bytes = [&before[..], &[kind]].concat();
            assert_eq!(query(4, &bytes, 4), Err(due), "kind {kind} in place {place}, and no more");
            let bytes = [&bytes[..], &[0; 100]].concat();
            let due = match kind {
                // zeros are a good body, and no kind
                5 | 6 if place < 3 => 11,
                5 | 6 => 16,
                _ => due,
            };
            assert_eq!(query(4, &bytes, 4), Err(due), "kind {kind} in place {place}, then zeros");
        }
    }
}

/// Every age with every sort of value: up to 20 as a fresh one, above it 13, whatever the value.
#[test]
fn no_held_reading_is_taken_past_the_age_limit() {
    let good = [(0x3F80_0000, Ok(vec![256])), (0x8000_0000, Ok(vec![0])), (0xC300_0000, Ok(vec![LEAST]))];
    let values = good.into_iter().chain(REFUSED.map(|(bits, number)| (bits, Err(number))));
    for (bits, due) in values {
        assert_eq!(query(1, &fresh(bits), 1), due, "{bits:08X}");
        for age in 0..=255 {
            let due = if age <= 20 { due.clone() } else { Err(13) };
            assert_eq!(query(1, &held(bits, age), 1), due, "{bits:08X} at age {age}");
        }
    }
    assert_eq!(query(1, &LOST, 1), Err(13));
}

/// Each refused reading in each place of a query, with good ones before it and anything behind it.
#[test]
fn no_refused_reading_is_overlooked() {
    let mut random = Random::new(52);
    let readings = REFUSED.iter().flat_map(|&(bits, number)| [(fresh(bits), number), (held(bits, 20), number)]);
    let stale = [(LOST.to_vec(), 13), (held(0x3F80_0000, 21), 13), (held(0x7FC0_0000, 255), 13)];
    for (reading, number) in readings.chain(stale) {
        for d in [1, 2, 5, 31, 32] {
            for place in 0..d {
                let (_, before) = random_query(&mut random, place);
                let (_, rest) = random_query(&mut random, d - 1 - place);
                for behind in [&rest[..], &[], &[0], &LOST, &[rest.as_slice(), &[5]].concat()] {
                    let bytes = [&before[..], &reading, behind].concat();
                    assert_eq!(query(d, &bytes, d), Err(number), "{reading:?} in place {place} of {d}");
                }
            }
        }
    }
}

/// Readings of every sort, cut anywhere, with bytes of no plan: the reference's is the first from the left.
#[test]
fn no_later_fault_of_a_query_comes_first() {
    let mut random = Random::new(53);
    let numbers = (0..200_000).map(|_| {
        let d = 1 + random.below(5);
        let mut bytes = vec![];
        for _ in 0..d + random.below(2) {
            let (bits, _) = random.one_of(&REFUSED);
            let near = ((component(&mut random) as f32) / 256.0).to_bits();
            let bits = random.one_of(&[near, near, near, near, near, bits]);
            match random.below(20) {
                0 => bytes.push(random.below(10) as u8),
                1 => bytes.extend(LOST),
                2..9 => bytes.extend(held(bits, random.one_of(&[0, 7, 19, 20, 20, 21, 255]))),
                _ => bytes.extend(fresh(bits)),
            }
        }
        let length = bytes.len() - random.below(bytes.len()) * usize::from(random.below(5) == 0);
        query(d, &bytes[..length], d).err().unwrap_or(0)
    });
    assert_given(&[0, 11, 12, 13, 14, 15, 16, 17], &counted(numbers));
}

#[test]
fn no_random_bytes_are_taken_for_a_query() {
    let mut random = Random::new(54);
    let numbers = (0..200_000).map(|_| {
        let (d, length) = (1 + random.below(32), random.below(40));
        let bytes = noise(&mut random, length);
        query(d, &bytes, d).err().unwrap_or(0)
    });
    assert_given(&[11, 12, 13, 17], &counted(numbers));
}

// ---- document 01, "Cases"

/// "A written out (391 bytes)": one head, eight marks, five patterns, one end.
#[test]
fn case_library_a_is_these_391_bytes() {
    let zeros = [0; 60];
    let bytes = [
        &[1, 2, 3, 5, 0][..],
        &[2, 0, 0, 0, 0],
        &[2, 3, 0, 0, 0],
        &[2, 9, 0, 0, 0],
        &[2, 16, 0, 0, 0],
        &[2, 21, 0, 0, 0],
        &[2, 0, 0, 0, 0],
        &[2, 5, 0, 0, 0],
        &[2, 11, 0, 0, 0],
        &[3, 101, 0, 0, 0, 1, 0, 3, 0],
        &zeros,
        &[3, 102, 0, 0, 0, 2, 0, 3, 0],
        &zeros,
        &[3, 103, 0, 0, 0, 4, 0, 10, 0],
        &zeros,
        &[3, 104, 0, 0, 0, 13, 0, 6, 0],
        &zeros,
        &[3, 105, 0, 0, 0, 18, 0, 1, 0],
        &zeros,
        &[4],
    ]
    .concat();
    assert_eq!(bytes.len(), 391);
    let input = library_a([12, 6], 2);
    assert_eq!(interface::write(&input).as_ref(), Ok(&bytes));
    assert_eq!(reference::write(&input).as_ref(), Ok(&bytes), "by the reference");
    assert_eq!(load(&bytes), Ok(library_of(&input)));
}

/// Its query, "05 00 00 40 3D 05 00 00 C0 3C", is (12,6).
#[test]
fn case_the_programs_query_is_12_6() {
    let bytes = [0x05, 0x00, 0x00, 0x40, 0x3D, 0x05, 0x00, 0x00, 0xC0, 0x3C];
    assert_eq!(query(2, &bytes, 2), Ok(vec![12, 6]));
}

/// P1 to P8, and the further readings, from bytes.
#[test]
fn cases_of_readings_from_bytes() {
    let cases = [
        (fresh(0x3F80_0000), Ok(256)),
        (fresh(0x3B00_0000), Ok(0)),
        (fresh(0x3BC0_0000), Ok(2)),
        (fresh(0x42FF_FEFF), Ok(32767)),
        (fresh(0x42FF_FF00), Err(15)),
        (fresh(0xC300_0000), Ok(-32768)),
        (fresh(0x7FC0_0000), Err(14)),
        (held(0x3F80_0000, 21), Err(13)),
        (held(0x3F80_0000, 20), Ok(256)),
        (fresh(0x4300_0000), Err(15)),
        (fresh(0x7F80_0000), Err(15)),
        (fresh(0x8000_0000), Ok(0)),
    ];
    for (bytes, due) in cases {
        assert_eq!(query(1, &bytes, 1), due.map(|component| vec![component]), "{bytes:?}");
    }
}

/// "b 12 with d 2 is taken, 13 is 2".
#[test]
fn case_b_12_with_d_2_is_taken_and_13_is_2() {
    let mut bytes = file(&random_of_shape(&mut Random::new(6), 2, 12, 5));
    assert_eq!(number(&bytes), 0);
    bytes[2] = 13;
    assert_eq!(number(&bytes), 2);
}
