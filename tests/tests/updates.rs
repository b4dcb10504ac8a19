//! A vector added to a library, or removed from it (document 02, Slip 3): the C interface against the reference.

use std::collections::BTreeSet;
use tests::{
    calls::{ADD, CHECK_CODES, PACK_VECTORS, REMOVE, SCAN, SEARCH, WRITE},
    faults::{assert_each_refusal, assert_lengths, assert_refusals_of_size},
    input::{Entry, Input, LoadRoom, Loaded, Updated},
    interface,
    random::Random,
    reference,
    samples::{
        self, component, file, library_a, library_of, random_input, random_of_shape, random_query, random_vectors,
        random_word, shapes, small_inputs, vector_inside, vector_outside, GREATEST, LEAST,
    },
};

// ---- a library changed

/// The library that a change gave, for the same query and word. "where the codes were the patterns' own, the library
/// after it has those that packing afresh would give": by the reference, and by the interface.
fn renewed(before: &Input, updated: Updated) -> Input {
    let Input { d, b, marks, query, word, .. } = before;
    let after = samples::input(*d, *b, marks, &updated.vectors, query, 1).with_word(*word);
    let after = Input { settings: updated.settings, ..after.from(before.origin.clone()) };
    PACK_VECTORS.gives(0, &after);
    let _told = before.told();
    assert_eq!(updated.codes, after.codes, "the codes of packing afresh are on the right");
    after
}

/// A library and one vector more.
fn added(library: &Input, vector: &[i32], setting: u32) -> Input {
    let input = library.clone().to_add(vector, setting);
    ADD.gives(0, &input);
    renewed(&input, interface::add(&input).expect("the vector can be added"))
}

/// A library without a vector.
fn removed(library: &Input, number: usize) -> Input {
    let input = library.clone().to_remove(number);
    REMOVE.gives(0, &input);
    renewed(&input, interface::remove(&input).expect("the vector can be removed"))
}

/// A vector inside the marks: anywhere, at their ends, or equal to one that is stored.
fn new_vector(random: &mut Random, library: &Input) -> Vec<i32> {
    let Input { d, b, n, marks, vectors, .. } = library;
    let stored = random.below(*n);
    match random.below(4) {
        0 => vectors[stored * d..(stored + 1) * d].to_vec(),
        1 => {
            let ends = reference::parts(*d, *b).into_iter().map(|part| [marks[part.start], marks[part.end - 1] - 1]);
            ends.map(|ends| random.one_of(&ends)).collect()
        }
        _ => vector_inside(random, *d, *b, marks),
    }
}

fn new_setting(random: &mut Random) -> u32 {
    let any = random.next_u32();
    random.one_of(&[any, any, 0, u32::MAX])
}

/// A new vector is added, or one is removed.
fn changed(random: &mut Random, library: &Input, adds: bool) -> Input {
    if adds {
        let (vector, setting) = (new_vector(random, library), new_setting(random));
        added(library, &vector, setting)
    } else {
        let number = random.below(library.n);
        let any_or_end = random.one_of(&[number, number, 0, library.n - 1]);
        removed(library, any_or_end)
    }
}

/// A library is written, loads to the same with the marks that it had, and is searched to the scan's answer.
fn assert_serves(random: &mut Random, library: &Input) {
    let &Input { d, b, n, ref marks, ref vectors, .. } = library;
    WRITE.gives(0, library);
    let bytes = interface::write(library).expect("the library is right");
    let _told = library.told();
    let loaded = interface::load(&bytes, LoadRoom::LARGEST);
    assert_eq!(loaded, Ok(library_of(library)), "what was written is on the right");
    let (k, word) = (1 + random.below(n.min(10)), random_word(random, d));
    let query = random_query(random, d, b, vectors, marks);
    let input = library.clone().with_k(k).with_word(word).with_query(&query);
    SEARCH.gives(0, &input);
    let found = interface::search(&input).expect("the input is right");
    assert_eq!(Ok(found.entries), interface::scan(&input), "the scan is on the right");
}

// ---- every shape, every number, chains

/// Every number of dimensions and of bits: a vector is added, and each vector removed, wherever in a byte its code begins.
#[test]
fn no_shape_is_left_out() {
    let mut random = Random::new(201);
    let mut begun = BTreeSet::new();
    for (d, b) in shapes() {
        let n = 2 + random.below(7);
        let library = random_of_shape(&mut random, d, b, n).from(format!("d {d}, b {b}, n {n}"));
        changed(&mut random, &library, true);
        for number in 0..n {
            removed(&library, number);
            begun.insert((b % 8, number * b % 8));
        }
    }
    // of 8 places, those that multiples of b come to
    let due: BTreeSet<(usize, usize)> = (0..8).flat_map(|b| (0..8).map(move |number| (b, number * b % 8))).collect();
    assert_eq!(begun, due, "bits of a code and where it begins, both over whole bytes");
}

/// Each of 512, by its number.
#[test]
fn no_vector_is_removed_in_anothers_place() {
    let mut random = Random::new(202);
    for (d, b) in [(2, 0), (1, 5), (3, 16), (2, 11)] {
        let library = random_of_shape(&mut random, d, b, 512).from(format!("d {d}, b {b}"));
        let library = Input { settings: (0..512).collect(), ..library };
        for number in 0..512 {
            let after = removed(&library, number);
            let others: Vec<u32> = (0..512).filter(|&setting| setting != number as u32).collect();
            assert_eq!(after.settings, others, "without number {number}");
        }
    }
}

/// Chains of changes at random, from every kind of library.
#[test]
fn no_chain_of_changes_goes_wrong() {
    let (mut adds, mut removes) = (0, 0);
    for seed in 0..300 {
        let mut random = Random::new(!seed);
        let mut library = random_input(seed, if seed % 10 == 0 { 512 } else { 40 });
        for step in 0..20 {
            let add = library.n == 1 || library.n < 512 && random.below(2) == 0;
            library = changed(&mut random, &library, add).from(format!("seed {seed}, step {step}"));
            assert_serves(&mut random, &library);
            (adds, removes) = (adds + i32::from(add), removes + i32::from(!add));
        }
    }
    assert!(adds > 2000 && removes > 2000, "{adds} vectors added, {removes} removed");
}

/// From one vector to 512, where no more can be added, and down to one again, which cannot be removed.
fn assert_to_the_limit_and_back(seed: u64, d: usize, b: usize) {
    let mut random = Random::new(seed);
    let mut library = random_of_shape(&mut random, d, b, 1);
    for n in 2..=512 {
        library = changed(&mut random, &library, true).from(format!("seed {seed}, up to {n}"));
        assert_serves(&mut random, &library);
    }
    let vector = new_vector(&mut random, &library);
    ADD.gives(20, &library.clone().to_add(&vector, 0));
    for n in (1..512).rev() {
        library = changed(&mut random, &library, false).from(format!("seed {seed}, down to {n}"));
        assert_serves(&mut random, &library);
    }
    REMOVE.gives(21, &library.to_remove(0));
}

#[test]
fn no_library_of_few_dimensions_is_left_out_on_the_way_to_512_and_back() {
    for (seed, (d, b)) in (0..).zip([(1, 0), (1, 3), (2, 9), (3, 14), (4, 24), (5, 7)]) {
        assert_to_the_limit_and_back(seed, d, b);
    }
}

#[test]
fn no_library_of_more_dimensions_is_left_out_on_the_way_to_512_and_back() {
    for (seed, (d, b)) in (0..).zip([(8, 37), (13, 44), (32, 50)]) {
        assert_to_the_limit_and_back(seed, d, b);
    }
}

// ---- what stays

/// The full scan of a library, which is also what a search for all of them finds.
fn full_scan(library: &Input) -> Vec<Entry> {
    let input = library.clone().with_k(library.n);
    SCAN.gives(0, &input);
    SEARCH.gives(0, &input);
    let entries = interface::scan(&input).expect("the input is right");
    assert_eq!(interface::search(&input).map(|found| found.entries), Ok(entries.clone()), "the scan is on the right");
    entries
}

/// Without a vector, a full scan is the old one without it, in which numbers above it are less by one; with one more, it
/// is the old one and the new vector somewhere in it.
#[test]
fn no_other_vector_comes_or_goes() {
    for seed in 0..400 {
        let mut random = Random::new(!seed);
        let library = random_input(seed, 30);
        let old = full_scan(&library);

        let after = changed(&mut random, &library, true);
        let is_old = |entry: &&Entry| entry.number != library.n as u32;
        let others: Vec<Entry> = full_scan(&after).iter().filter(is_old).copied().collect();
        assert_eq!(others, old, "seed {seed}: the full scan before is on the right");

        for number in (0..library.n as u32).filter(|_| library.n > 1) {
            let left = old.iter().filter(|entry| entry.number != number);
            let moved = |entry: &Entry| Entry { number: entry.number - u32::from(entry.number > number), ..*entry };
            let due: Vec<Entry> = left.map(moved).collect();
            assert_eq!(full_scan(&removed(&library, number as usize)), due, "seed {seed}, number {number}");
        }
    }
}

/// A vector that is added and removed again, and the last one removed and added again.
#[test]
fn no_trace_is_left_of_a_change_undone() {
    for seed in 0..600 {
        let mut random = Random::new(!seed);
        let library = random_input(seed, 60);
        let &Input { d, n, ref vectors, ref settings, ref codes, .. } = &library;
        let same = |again: Input| {
            let Input { vectors: v, settings: s, codes: c, .. } = again;
            assert_eq!((&v, &s, &c), (vectors, settings, codes), "seed {seed}: the old library is on the right");
        };
        same(removed(&changed(&mut random, &library, true), n));
        if n > 1 {
            same(added(&removed(&library, n - 1), &vectors[(n - 1) * d..], settings[n - 1]));
        }
    }
}

/// Codes that name regions anyhow, none of them empty.
fn with_other_codes(random: &mut Random, input: &Input) -> Input {
    let &Input { d, b, n, ref marks, .. } = input;
    let parts = reference::parts(d, b);
    let mut region = |place: usize| {
        let marks = &marks[parts[place % d].clone()];
        let full: Vec<u8> = (0..marks.len() as u8 - 1).filter(|&r| marks[r as usize] < marks[r as usize + 1]).collect();
        random.one_of(&full)
    };
    let regions: Vec<u8> = (0..n * d).map(&mut region).collect();
    Input { codes: reference::packed(d, b, &regions), regions, ..input.clone() }
}

/// The rows of region numbers that the codes of a changed library name.
fn rows_of(input: &Input, n: usize, updated: Updated) -> Vec<u8> {
    let mut named = Input { n, codes: updated.codes, ..input.clone() };
    named.room.regions = n * input.d;
    interface::unpack(&named).expect("no spare bit is set")
}

/// Where codes are not the vectors' own and 9 does not refuse them, the old ones stay as they are, and only a new vector's
/// is looked up.
#[test]
fn no_old_code_is_looked_up_again() {
    let mut others = 0;
    for seed in 0..1000 {
        let mut random = Random::new(!seed);
        let own = random_input(seed, 40);
        let wrong = with_other_codes(&mut random, &own);
        let Input { d, n, regions, .. } = &wrong;

        let vector = new_vector(&mut random, &own);
        let input = wrong.clone().to_add(&vector, 7);
        ADD.gives(0, &input);
        let rows = rows_of(&input, n + 1, interface::add(&input).expect("the vector can be added"));
        let new_row = added(&own, &vector, 7).regions[n * d..].to_vec();
        assert_eq!(rows, [&regions[..], &new_row].concat(), "seed {seed}: the old rows and the new one");

        for number in (0..*n).filter(|_| *n > 1) {
            let input = wrong.clone().to_remove(number);
            REMOVE.gives(0, &input);
            let rows = rows_of(&input, n - 1, interface::remove(&input).expect("the vector can be removed"));
            let left = [&regions[..number * d], &regions[(number + 1) * d..]].concat();
            assert_eq!(rows, left, "seed {seed}: the old rows without number {number}");
        }
        others += usize::from(wrong.codes != own.codes);
    }
    assert!(others > 500, "{others} libraries whose codes are not their own");
}

/// Every value of every byte of the codes: 9 refuses it as the test of codes does, or it stays as it is.
#[test]
fn no_byte_of_the_codes_is_misread() {
    let (mut taken, mut refused) = (0, 0);
    for seed in 0..40 {
        let input = random_input(seed, 8);
        for at in 0..input.codes.len().min(10) {
            let mut other = input.clone();
            for byte in 0..=255 {
                other.codes[at] = byte;
                other.origin = format!("{}; byte {byte} at {at}", input.origin);
                let number = CHECK_CODES.number(&other);
                ADD.gives(number, &other.clone().to_add(&input.vectors[..input.d], 7));
                REMOVE.gives(if input.n == 1 { 21 } else { number }, &other.clone().to_remove(input.n - 1));
                (taken, refused) = (taken + i32::from(number == 0), refused + i32::from(number == 9));
            }
        }
    }
    assert!(taken > 1000 && refused > 1000, "{taken} taken, {refused} refused");
}

// ---- inside and outside the marks

/// "Show that 8 never occurs in adding to a library whose outer marks are those of Slip 2": every component there is, in
/// marks made from three vectors.
#[test]
fn no_component_lies_outside_made_marks() {
    let mut random = Random::new(203);
    for b in [0, 1, 6] {
        let vectors = random_vectors(&mut random, 1, 3);
        let library = samples::input(1, b, &reference::made_marks(1, b, &vectors), &vectors, &[0], 1);
        assert_eq!(interface::make_marks(&library), Ok(library.marks.clone()), "the reference is on the right");
        for component in LEAST..=GREATEST {
            ADD.gives(0, &library.clone().to_add(&[component], 7));
        }
        for component in [LEAST - 1, GREATEST + 1, i32::MIN, i32::MAX] {
            ADD.gives(6, &library.clone().to_add(&[component], 7));
        }
    }
}

/// Marks from end to end of the scale, drawn anyhow between, with equal ones.
fn marks_of_the_scale(random: &mut Random, d: usize, b: usize) -> Vec<i32> {
    let [x, y] = [component(random), component(random)];
    let mut mark = |_| {
        let any = random.between(LEAST, GREATEST + 1);
        random.one_of(&[any, any, x, y, LEAST, GREATEST + 1])
    };
    let mut dimension = |regions: usize| {
        let mut marks: Vec<i32> = (1..regions).map(&mut mark).collect();
        marks.extend([LEAST, GREATEST + 1]);
        marks.sort();
        marks
    };
    reference::parts(d, b).into_iter().flat_map(|part| dimension(part.len() - 1)).collect()
}

/// The same for vectors of any number of dimensions, anywhere and at the ends of the scale, with marks made from others
/// and with any whose outer ones are the ends.
#[test]
fn no_vector_falls_outside_the_ends_of_the_scale() {
    let mut random = Random::new(204);
    for case in 0..3000 {
        let (d, n) = (1 + random.below(32), 1 + random.below(5));
        let b = random.below(6 * d + 1);
        let vectors = random_vectors(&mut random, d, n);
        let made = reference::made_marks(d, b, &vectors);
        let drawn = marks_of_the_scale(&mut random, d, b);
        for marks in [made, drawn] {
            let library = samples::input(d, b, &marks, &vectors, &vec![0; d], 1).from(format!("case {case}"));
            let mut anywhere = |_| {
                let any = component(&mut random);
                random.one_of(&[any, any, LEAST, GREATEST])
            };
            let vector: Vec<i32> = (0..d).map(&mut anywhere).collect();
            added(&library, &vector, 7);
        }
    }
}

/// Files already written hold former marks: a vector inside them is added to their library, one outside is refused with 8,
/// by one component or more.
#[test]
fn no_vector_outside_former_marks_is_added() {
    let mut random = Random::new(205);
    for case in 0..1500 {
        let (d, n) = (1 + random.below(8), 1 + random.below(20));
        let b = random.below(6 * d + 1);
        let small: Vec<i32> = (0..n * d).map(|_| random.between(-400, 400)).collect();
        let written = samples::input(d, b, &reference::former_marks(d, b, &small), &small, &vec![0; d], 1);
        let Loaded { marks, .. } = interface::load(&file(&written), LoadRoom::LARGEST).expect("the file is right");
        let library = Input { marks, ..written }.from(format!("case {case}"));

        let inside = vector_inside(&mut random, d, b, &library.marks);
        added(&library, &inside, 7);
        let outside = vector_outside(&mut random, d, b, &library.marks, &inside);
        ADD.gives(8, &library.to_add(&outside, 7));
    }
}

// ---- refusals

/// Small libraries with a vector to add, and with one to remove where there are two.
fn small_changes() -> [Vec<Input>; 2] {
    let mut random = Random::new(206);
    let mut add = |input: Input| {
        let vector = new_vector(&mut random, &input);
        input.to_add(&vector, 7)
    };
    let adds = small_inputs().into_iter().map(&mut add).collect();
    let several = small_inputs().into_iter().filter(|input| input.n > 1);
    let removes = several.enumerate().map(|(i, input)| {
        let number = i % input.n;
        input.to_remove(number)
    });
    [adds, removes.collect()]
}

/// Libraries of so many vectors, of several shapes.
fn of_count(n: usize) -> impl Iterator<Item = Input> {
    let shapes = [(1, 0), (1, 3), (2, 3), (2, 12), (3, 7), (4, 13)];
    let library = move |(seed, (d, b))| random_of_shape(&mut Random::new(seed), d, b, n);
    (207..).zip(shapes).map(library).map(move |library| library.from(format!("{n} vectors")))
}

/// 20: "adding at the pattern limit", "straight after 5".
#[test]
fn no_refusal_of_adding_is_missed_or_out_of_order() {
    let full = of_count(512).map(|library| {
        let vector = library.vectors[..library.d].to_vec();
        library.to_add(&vector, 7)
    });
    let [adds, _] = small_changes();
    assert_refusals_of_size(&ADD, &adds, 20, &full.collect::<Vec<_>>());
}

/// 21: "removing a number not stored or the only pattern", "straight after 5".
#[test]
fn no_refusal_of_removing_is_missed_or_out_of_order() {
    let only: Vec<Input> = of_count(1).map(|library| library.to_remove(0)).collect();
    let [_, removes] = small_changes();
    assert_refusals_of_size(&REMOVE, &removes, 21, &only);
}

/// Every number from n on is refused, and none below it.
#[test]
fn no_number_that_is_not_stored_is_removed() {
    for library in [2, 3, 17].into_iter().flat_map(of_count) {
        for number in 0..library.n {
            removed(&library, number);
        }
        for number in library.n..600 {
            REMOVE.gives(21, &library.clone().to_remove(number));
        }
    }
}

/// 512 vectors and one vector too: the lengths are exact for 513 and for none, and 5 is tested first.
#[test]
fn no_other_length_is_taken() {
    let [adds, removes] = small_changes();
    adds.iter().for_each(|input| assert_lengths(&ADD, input));
    removes.iter().for_each(|input| assert_lengths(&REMOVE, input));
    for library in of_count(1) {
        assert_lengths(&REMOVE, &library.to_remove(0));
    }
    for library in of_count(512).take(3) {
        let vector = library.vectors[..library.d].to_vec();
        assert_lengths(&ADD, &library.to_add(&vector, 7));
    }
}

/// Each refusal by itself, in the largest shapes: 511 vectors, to which one can be added, and 512.
#[test]
fn no_refusal_is_missed_in_the_largest_shape() {
    let mut random = Random::new(208);
    let library = random_of_shape(&mut random, 32, 192, 511).from("511 vectors".to_string());
    let vector = new_vector(&mut random, &library);
    assert_each_refusal(&ADD, &library.to_add(&vector, 7));
    assert_each_refusal(&REMOVE, &samples::largest_input().to_remove(300));
}

// ---- cases

/// Codes of library A (document 01, "Cases"): bytes 01 DC, three bits a vector. The query of P11, (12, 6), is in regions 2
/// and 1: bits 101.
#[test]
fn case_a_tractor_added_to_library_a_and_one_removed() {
    let library = library_a([12, 6], 1);
    let input = library.clone().to_add(&[12, 6], 106);
    let with = Ok(Updated {
        vectors: [&library.vectors[..], &[12, 6]].concat(),
        settings: vec![101, 102, 103, 104, 105, 106],
        codes: vec![0x01, 0xDD, 0x40],
    });
    assert_eq!(interface::add(&input), with);
    assert_eq!(reference::add(&input), with, "by the reference");

    let input = library.to_remove(2);
    let without = Ok(Updated {
        vectors: vec![1, 3, 2, 3, 13, 6, 18, 1],
        settings: vec![101, 102, 104, 105],
        codes: vec![0x02, 0xE0],
    });
    assert_eq!(interface::remove(&input), without);
    assert_eq!(reference::remove(&input), without, "by the reference");
}

/// Library A's marks end at 21 and 11: a tractor beyond them is refused with 8, and one of its own by no number.
#[test]
fn case_a_tractor_outside_the_marks_of_library_a() {
    let library = library_a([0, 0], 1);
    for (vector, number) in [([20, 10], 0), ([21, 10], 8), ([20, 11], 8), ([0, 0], 0), ([-1, 0], 8), ([0, -1], 8)] {
        ADD.gives(number, &library.clone().to_add(&vector, 7));
    }
}
