//! Libraries with former marks, and the same remade (document 02, Slip 2): "Where the old marks came by 01's rule from
//! the same patterns and the old codes were their own, codes and neighbours of a library remade so are the old ones;
//! its reads may grow. Files already written load with the marks they hold."

use tests::{
    calls::{PACK_VECTORS, REGIONS, SEARCH, WRITE},
    faults::assert_same_refusals,
    input::{Entry, Found, Input, LoadRoom, Loaded},
    interface,
    matches::{with_marks, TEXT_ROOM},
    random::Random,
    reference,
    samples::{
        self, component, file, random_query, random_vectors, random_word, readings_present, vector_outside, GREATEST,
        LEAST,
    },
};

/// A library with its former marks and the codes in them, and the same remade: marks and codes by the calls.
fn before_and_after(d: usize, b: usize, vectors: &[i32], query: &[i32], k: usize) -> [Input; 2] {
    let before = samples::input(d, b, &reference::former_marks(d, b, vectors), vectors, query, k);
    let marks = interface::make_marks(&before).expect("the vectors are right");
    let after = Input { marks, ..before.clone() };
    let codes = interface::pack_vectors(&after).expect("the vectors are inside made marks");
    let regions = interface::regions(&after).expect("the vectors are inside made marks");
    [before, Input { codes, regions, ..after }]
}

/// All components equal, at an end of the scale or anywhere; of two values; anywhere, with both ends among them; as
/// random libraries have them.
fn vectors_of_each_sort(random: &mut Random, d: usize, n: usize) -> [Vec<i32>; 6] {
    let (count, x, y) = (n * d, component(random), component(random));
    let two = (0..count).map(|_| random.one_of(&[x, y])).collect();
    let mut anywhere: Vec<i32> = (0..count).map(|_| component(random)).collect();
    for end in [LEAST, GREATEST] {
        anywhere[random.below(count)] = end;
    }
    [vec![LEAST; count], vec![GREATEST; count], vec![x; count], two, anywhere, random_vectors(random, d, n)]
}

/// Every number of dimensions, with no bits, some and as many as there can be, for one vector, two, some and 512, of
/// each sort, before and after it is remade.
fn each_library(seed: u64, mut visit: impl FnMut(&mut Random, [Input; 2])) {
    let mut random = Random::new(seed);
    for d in 1..=32 {
        let (some, few) = (random.below(6 * d + 1), 3 + random.below(60));
        for (b, n) in [0, some, 6 * d].into_iter().flat_map(|b| [1, 2, few, 512].map(|n| (b, n))) {
            for (sort, vectors) in vectors_of_each_sort(&mut random, d, n).iter().enumerate() {
                let origin = format!("d {d}, b {b}, n {n}, sort {sort}");
                let pair = before_and_after(d, b, vectors, &vec![0; d], 1);
                visit(&mut random, pair.map(|input| input.from(origin.clone())));
            }
        }
    }
}

/// Codes by interface and reference, with the former marks and with those made now.
#[test]
fn no_code_of_a_remade_library_is_another() {
    let mut other_marks = 0;
    each_library(101, |_, [before, after]| {
        for input in [&before, &after] {
            PACK_VECTORS.gives(0, input);
            REGIONS.gives(0, input);
        }
        let _told = before.told();
        let codes = interface::pack_vectors(&before).expect("the vectors are inside former marks");
        assert_eq!(codes, before.codes, "the reference is on the right");
        assert_eq!((&after.codes, &after.regions), (&before.codes, &before.regions), "remade, and before");
        other_marks += usize::from(before.marks != after.marks);
    });
    assert!(other_marks > 1000, "{other_marks} libraries whose marks are others");
}

/// A search by interface and reference that reads at least k and at most all vectors.
fn found(input: &Input) -> Found {
    SEARCH.gives(0, input);
    let found = interface::search(input).expect("the input is right");
    let _told = input.told();
    assert!((input.k..=input.n).contains(&found.reads.len()), "{} read", found.reads.len());
    found
}

/// Queries anywhere, at the vectors and at marks, with full and partial words, for one neighbour, some and all: numbers
/// and distances are those from before, and the scan's. "its reads may grow", and in this run they do.
#[test]
fn no_neighbour_of_a_remade_library_is_another() {
    let (mut searches, mut grown, mut kept, mut partial) = (0, 0, 0, 0);
    each_library(102, |random, [before, after]| {
        let Input { d, b, n, .. } = before;
        for k in [1, 1 + random.below(n), n] {
            for word in [reference::full_word(d), random_word(random, d)] {
                let marks = random.one_of(&[&before.marks, &after.marks]);
                let query = random_query(random, d, b, &before.vectors, marks);
                let [before, after] =
                    [&before, &after].map(|input| input.clone().with_k(k).with_word(word).with_query(&query));
                let (old, new) = (found(&before), found(&after));
                let _told = before.told();
                assert_eq!(new.entries, old.entries, "remade, and before");
                assert_eq!(Ok(new.entries), interface::scan(&after), "the scan is on the right");
                searches += 1;
                grown += usize::from(new.reads.len() > old.reads.len());
                kept += usize::from(new.reads == old.reads);
                partial += usize::from(word != reference::full_word(d));
            }
        }
    });
    let counts = format!("{searches} searches, {partial} with a partial word: {grown} read more, {kept} the same");
    assert!(grown > 1000 && kept > 5000 && partial > 2000, "{counts}");
}

/// Both vectors are in the one cell. The former marks, 0 and 11, tell that neither is nearer to 100 than the first,
/// which is read; the marks made now leave that open.
#[test]
fn case_a_remade_library_reads_more() {
    let [before, after] = before_and_after(1, 0, &[10, 0], &[100], 1);
    let entries = vec![Entry { number: 0, distance: 8100 }];
    assert_eq!(found(&before), Found { entries: entries.clone(), reads: vec![0] });
    assert_eq!(found(&after), Found { entries, reads: vec![0, 1] });
}

/// What is wrong with a search besides marks, codes and vectors is refused with the same number, before and after.
#[test]
fn no_search_of_a_remade_library_is_refused_otherwise() {
    let mut random = Random::new(103);
    let mut pair = |d: usize| {
        let (b, n) = (random.below(6 * d + 1), 1 + random.below(6));
        let vectors = random_vectors(&mut random, d, n);
        let query: Vec<i32> = (0..d).map(|_| component(&mut random)).collect();
        let (k, word) = (1 + random.below(n), random_word(&mut random, d));
        before_and_after(d, b, &vectors, &query, k).map(|input| input.with_word(word).from(format!("d {d}, b {b}")))
    };
    let pairs: Vec<[Input; 2]> = [1, 2, 3, 4, 5, 8, 31, 32].into_iter().cycle().take(24).map(&mut pair).collect();
    assert!(pairs.iter().all(|[before, after]| before.marks != after.marks), "the marks are others");
    assert_same_refusals(&SEARCH, &pairs);
}

/// Loading by interface and reference, which agree.
fn load(bytes: &[u8]) -> Result<Loaded, u32> {
    let loaded = interface::load(bytes, LoadRoom::LARGEST);
    assert_eq!(loaded, reference::load(bytes, LoadRoom::LARGEST), "the reference is on the right");
    loaded
}

/// A file with former marks is loaded with these, searched with these, and written to the bytes that it was.
#[test]
fn no_file_already_written_is_remade() {
    let mut other_marks = 0;
    each_library(104, |random, [before, after]| {
        let bytes = file(&before);
        let _told = before.told();
        let library = load(&bytes).expect("the file is right");
        assert_eq!(library.marks, before.marks);
        let Loaded { d, b, n, marks, settings, components: vectors, .. } = library;
        let query = random_query(random, d, b, &vectors, &marks);
        let (k, word) = (1 + random.below(n), random_word(random, d));
        let input = Input { settings, ..samples::input(d, b, &marks, &vectors, &query, k).with_word(word) };
        assert_eq!(Ok(found(&input).entries), interface::scan(&input), "the scan is on the right");
        WRITE.gives(0, &input);
        assert_eq!(interface::write(&input), Ok(bytes), "written again");
        other_marks += usize::from(marks != after.marks);
    });
    assert!(other_marks > 1000, "{other_marks} files with other marks than are made now");
}

/// The program names the same tractors, settings and distances for a file already written and for its library remade.
/// Line one has the read count, which may grow.
#[test]
fn no_answer_of_the_program_is_another() {
    let mut other_files = 0;
    each_library(105, |random, [before, after]| {
        let Input { d, b, n, .. } = before;
        let query = random_query(random, d, b, &before.vectors, &before.marks);
        let (k, word) = (1 + random.below(n), random_word(random, d));
        let query = [&(k as u16).to_le_bytes()[..], &readings_present(random, &query, word)].concat();
        let [before, after] = [&before, &after].map(|input| [&file(input)[..], &query].concat());
        let [old, new] = [&before, &after].map(|input| {
            let text = interface::program(input, TEXT_ROOM).expect("the room is right");
            let text = String::from_utf8(text).expect("the output is text");
            assert_eq!(text, reference::program(input), "the reference is on the right");
            let (counts, lines) = text.split_once('\n').expect("there is a line");
            assert!(counts.starts_with(&format!("{k} ")), "{counts}");
            lines.to_string()
        });
        assert_eq!(new, old, "remade, and before");
        other_files += usize::from(before != after);
    });
    assert!(other_files > 1000, "{other_files} files that are others when remade");
}

/// "A dealer made a library from small tractors and the first large one fell outside the marks." By one component or
/// more, from just outside to the ends of the scale: it is refused with 8 in the small ones' former marks, and taken in
/// the marks made from them now; its own readings find it.
#[test]
fn no_large_tractor_falls_outside_the_marks_of_small_ones() {
    let mut random = Random::new(106);
    for case in 0..600 {
        let (d, n) = (1 + random.below(8), 1 + random.below(20));
        let b = random.below(6 * d + 1);
        let small: Vec<i32> = (0..n * d).map(|_| random.between(-400, 400)).collect();
        let [before, after] = before_and_after(d, b, &small, &vec![0; d], 1);
        let large = vector_outside(&mut random, d, b, &before.marks, &small[..d]);
        let all = [&small[..], &large].concat();
        let taken = samples::input(d, b, &after.marks, &all, &large, 1).from(format!("case {case}"));
        let refused = Input { marks: before.marks, ..taken.clone() };
        for call in [REGIONS, PACK_VECTORS, WRITE] {
            call.gives(0, &taken);
            call.gives(8, &refused);
        }
        let bytes = interface::write(&taken).expect("the library is right");
        assert_eq!(load(&bytes).map(|library| library.components), Ok(all), "case {case}");
        assert_eq!(load(&with_marks(&bytes, &refused.marks)), Err(8), "case {case}");
        assert_eq!(found(&taken).entries, [Entry { number: n as u32, distance: 0 }], "case {case}");
    }
}
