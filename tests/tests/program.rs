//! The program's function (document 01, "The program"; document 02, Slip 1): the C interface against the reference.

use tests::{
    input::told,
    interface,
    matches::{damage, loaded, noise, sample, Match, SAMPLES, TEXT_ROOM},
    random::Random,
    reference,
};

/// "No accepted input is longer than 45,928 bytes."
const LONGEST: usize = 45_928;

fn longest() -> Vec<u8> {
    let bytes = Match::longest().bytes();
    assert_eq!(bytes.len(), LONGEST);
    bytes
}

/// The function and the reference agree. Gives the number of the refusal, or 0.
fn number(input: &[u8]) -> usize {
    let _told = told(input);
    let text = interface::program(input, TEXT_ROOM).expect("the room is right");
    let text = String::from_utf8(text).expect("the output is text");
    assert_eq!(text, reference::program(input), "the reference is on the right");
    match text.strip_prefix("refused ") {
        Some(number) => number.trim_end().parse().expect("a number is behind it"),
        None => 0,
    }
}

/// How often each number is given for these inputs.
fn counts(inputs: impl IntoIterator<Item = Vec<u8>>) -> [usize; 20] {
    let mut counts = [0; 20];
    inputs.into_iter().for_each(|input| counts[number(&input)] += 1);
    assert_eq!(counts[13], 0, "change request 1: the program no longer gives 13");
    assert_eq!(counts[19], 0, "no query has a bit at or above d");
    counts
}

/// Document 01, "Cases".
#[test]
fn case_library_a_with_its_query() {
    let text = interface::program(&sample("a.match"), TEXT_ROOM);
    assert_eq!(text, Ok(b"2 3\n3 104 1\n4 105 61\n".to_vec()));
}

#[test]
fn no_random_match_goes_wrong() {
    let most = |seed: u64| if seed.is_multiple_of(100) { 512 } else { 30 };
    let counts = counts((0..20_000).map(|seed| Match::random(seed, most(seed)).bytes()));
    assert_eq!(counts[0], 20_000, "{counts:?}");
}

/// Lost and over-age readings, four others or more there.
#[test]
fn no_random_match_with_absent_readings_goes_wrong() {
    let most = |seed: u64| if seed.is_multiple_of(100) { 512 } else { 30 };
    let counts = counts((0..20_000).map(|seed| Match::random_with_absent(seed, most(seed)).bytes()));
    assert_eq!(counts[0], 20_000, "{counts:?}");
}

/// The forty tractors with every choice of lost readings, and with every choice of readings that are over age.
#[test]
fn no_choice_of_absent_readings_is_answered_otherwise() {
    let forty = Match::of(&sample("forty.match"));
    let fresh: Vec<&[u8]> = forty.query[..35].chunks(5).chain([&forty.query[35..]]).collect();
    for word in 0..256 {
        for absent in [&[7][..], &[6, 0, 0, 192, 127, 21], &[6, 0, 0, 128, 63, 255]] {
            let record = |t: usize| if word >> t & 1 == 1 { fresh[t] } else { absent };
            let query = (0..8).flat_map(record).copied().collect();
            let due = if u32::count_ones(word) < 4 { 18 } else { 0 };
            assert_eq!(number(&Match { query, ..forty.clone() }.bytes()), due, "{word:b}, {absent:?}");
        }
    }
}

/// All readings lost, or over age, in every number of dimensions.
#[test]
fn no_match_of_absent_readings_alone_is_answered() {
    for seed in 0..100 {
        let one = Match::random(seed, 6);
        let d = loaded(&one.library).d;
        for absent in [&[7][..], &[6, 0, 0, 128, 63, 21]] {
            assert_eq!(number(&Match { query: absent.repeat(d), ..one.clone() }.bytes()), 18, "seed {seed}, d {d}");
        }
    }
}

/// Each sample, and random matches, cut at every length.
#[test]
fn no_cut_match_is_answered() {
    let absent = (0..100).map(|seed| Match::random_with_absent(seed, 6).bytes());
    for input in
        SAMPLES.map(sample).into_iter().chain((0..100).map(|seed| Match::random(seed, 6).bytes())).chain(absent)
    {
        let cut = (0..input.len()).map(|length| input[..length].to_vec());
        let counts = counts(cut);
        assert_eq!(counts[12], input.len(), "{counts:?}");
    }
}

/// Every value of every byte of library A's match.
#[test]
fn no_damaged_byte_of_library_a_is_misread() {
    let input = sample("a.match");
    let damaged = |at: usize| {
        let input = &input;
        (0..=255).map(move |byte| {
            let mut input = input.clone();
            input[at] = byte;
            input
        })
    };
    let counts = counts((0..input.len()).flat_map(damaged));
    // 16 is given since change request 1: a reading turned into a lost one is no longer refused itself
    for number in (0..20).filter(|&number| ![5, 9, 10, 13, 18, 19].contains(&number)) {
        assert!(counts[number] > 0, "{number} was never given: {counts:?}");
    }
}

/// Every bit of every byte of the forty tractors, and random values.
#[test]
fn no_damaged_byte_of_forty_tractors_is_misread() {
    let (input, mut random) = (sample("forty.match"), Random::new(61));
    for at in 0..input.len() {
        let values = (0..8).map(|bit| input[at] ^ 1 << bit).chain((0..4).map(|_| random.next_u32() as u8));
        for byte in values.chain([0, 255]) {
            let mut input = input.clone();
            input[at] = byte;
            number(&input);
        }
    }
}

#[test]
fn no_damaged_match_is_misread() {
    let mut random = Random::new(62);
    let damaged = (0..60_000).map(|seed| {
        let made = if seed % 2 == 0 { Match::random } else { Match::random_with_absent };
        let mut input = made(seed / 2 % 500, 6).bytes();
        damage(&mut random, &mut input);
        input
    });
    let counts = counts(damaged);
    for number in (0..20).filter(|&number| ![5, 9, 10, 13, 19].contains(&number)) {
        assert!(counts[number] > 20, "{number} is rare: {counts:?}");
    }
    assert_eq!(counts[5] + counts[9] + counts[10], 0, "no input has these causes: {counts:?}");
}

#[test]
fn no_random_bytes_are_misread() {
    let mut random = Random::new(63);
    let counts = counts((0..60_000).map(|_| noise(&mut random)));
    for number in [1, 2, 7, 11, 12, 17] {
        assert!(counts[number] > 20, "{number} is rare: {counts:?}");
    }
}

/// The longest input, the same with more behind it, and longer ones with a fault before the limit.
#[test]
fn no_input_past_the_limit_is_answered() {
    let longest = longest();
    assert_eq!(number(&longest), 0);
    for more in [1, 2, 3, 100, 1 << 16, 1 << 20] {
        assert_eq!(number(&[&longest[..], &vec![6; more]].concat()), 16, "{more} bytes more");
        // change request 1: an over-age reading was 13, and is absent; what is behind it is 16
        let over_age = if more == 1 { 0 } else { 16 };
        assert_eq!(number(&[&longest[..LONGEST - 1], &vec![21; more]].concat()), over_age, "{more} bytes more");
        assert_eq!(number(&[&sample("a.match")[..], &vec![0; more + LONGEST]].concat()), 16, "{more} bytes more");
        assert_eq!(number(&[&longest[..5], &vec![2; more + LONGEST]].concat()), 7, "{more} bytes more");
    }
}

/// Every other length of the output, before anything is read.
#[test]
fn no_output_of_another_length_is_taken() {
    for input in [&sample("a.match")[..], &longest(), &[], &[9]] {
        for room in (0..100).chain([TEXT_ROOM - 1, TEXT_ROOM + 1, 2 * TEXT_ROOM, 45_928]) {
            assert_eq!(interface::program(input, room), Err(5), "{room} bytes");
        }
    }
}
