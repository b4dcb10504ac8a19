//! The kit program as a process (document 01, "The program"; document 02, Slip 1), against the reference.

use std::{
    fs::{self, File},
    process::{Command, Stdio},
};
use tests::{
    c,
    input::told,
    kit::{self, kit, kit_within},
    matches::{damage, loaded, noise, sample, Match, SAMPLES},
    random::Random,
    reference,
};

/// "No accepted input is longer than 45,928 bytes."
const LONGEST: usize = 45_928;

/// The stack that the program has to do with, in KiB.
const STACK: usize = 256;

/// Document 01, "Cases".
const CASE: &str = "2 3\n3 104 1\n4 105 61\n";

fn longest() -> Vec<u8> {
    let bytes = Match::longest().bytes();
    assert_eq!(bytes.len(), LONGEST);
    bytes
}

/// The process and the reference agree.
fn assert_run(input: &[u8]) {
    let _told = told(input);
    assert_eq!(kit::run(input), reference::program(input), "the reference is on the right");
}

/// Document 01, "Cases".
#[test]
fn case_library_a_with_its_query() {
    assert_eq!(kit::run(&sample("a.match")), CASE);
}

#[test]
fn no_run_goes_wrong() {
    SAMPLES.map(sample).iter().for_each(|input| assert_run(input));
    assert_run(&longest());
    for seed in 0..200 {
        assert_run(&Match::random(seed, if seed % 20 == 0 { 512 } else { 30 }).bytes());
    }
}

/// Lost and over-age readings: enough others are there, or too few.
#[test]
fn no_run_with_absent_readings_goes_wrong() {
    for seed in 0..200 {
        let one = Match::random_with_absent(seed, if seed % 20 == 0 { 512 } else { 30 });
        assert_run(&one.bytes());
        let d = loaded(&one.library).d;
        assert_eq!(kit::run(&Match { query: [7].repeat(d), ..one }.bytes()), "refused 18\n", "seed {seed}");
    }
}

/// A match as long as can be with every reading but four over age: it is answered, with one more gone it is not.
#[test]
fn no_longest_run_with_absent_readings_goes_wrong() {
    let longest = Match::longest();
    let over_age = |count: usize| {
        let mut query = longest.query.clone();
        query.chunks_mut(6).take(count).for_each(|held| held[5] = 21);
        Match { query, ..longest.clone() }.bytes()
    };
    for count in [1, 17, 28] {
        assert_eq!(over_age(count).len(), LONGEST);
        assert!(kit::run(&over_age(count)).starts_with("512 512\n"), "{count} over age");
        assert_run(&over_age(count));
    }
    assert_eq!(kit::run(&over_age(29)), "refused 18\n");
}

/// Each sample cut at every length, and each byte of it damaged.
#[test]
fn no_run_on_a_wrong_input_is_answered_otherwise() {
    let mut random = Random::new(64);
    for input in SAMPLES.map(sample) {
        (0..input.len()).for_each(|length| assert_run(&input[..length]));
        for at in 0..input.len() {
            let mut input = input.clone();
            input[at] = random.next_u32() as u8;
            assert_run(&input);
        }
    }
}

#[test]
fn no_damaged_run_goes_wrong() {
    let mut random = Random::new(65);
    for seed in 0..200 {
        for one in [Match::random(seed, 12), Match::random_with_absent(seed, 12)] {
            let mut input = one.bytes();
            damage(&mut random, &mut input);
            assert_run(&input);
        }
        assert_run(&noise(&mut random));
    }
}

/// Pieces of one byte, of sizes that divide no record, and of sizes drawn anyhow.
#[test]
fn no_short_read_is_taken_for_the_end() {
    let mut random = Random::new(66);
    for input in SAMPLES.map(sample).into_iter().chain([longest()]) {
        let any: Vec<usize> = (0..50).map(|_| 1 + random.below(3000)).collect();
        for lengths in [&[4096][..], &[1, 4095], &[7, 1000, 1], &any] {
            assert_eq!(kit::run_in_pieces(&input, lengths), reference::program(&input), "pieces of {lengths:?}");
        }
    }
    assert_eq!(kit::run_in_pieces(&sample("a.match"), &[1]), CASE);
}

/// More than any input that is answered, in one piece and in many, and far more than is ever read.
#[test]
fn no_run_past_the_limit_is_answered() {
    let longest = longest();
    for more in [1, 2, 100, 1 << 16, 10_000_000] {
        for front in [&longest[..], &longest[..LONGEST - 1], &sample("a.match"), &[]] {
            assert_run(&[front, &vec![7; more]].concat());
        }
    }
    let longer = [&longest[..], &[7]].concat();
    assert_eq!(kit::run_in_pieces(&longer, &[LONGEST, 1]), "refused 16\n");
    assert_eq!(kit::run_in_pieces(&longer, &[1000]), "refused 16\n");
}

/// No input, no pipe, and a file.
#[test]
fn no_other_sort_of_input_is_taken_otherwise() {
    assert_eq!(kit::run(&[]), "refused 12\n");
    assert_eq!(kit::good(&kit().stdin(Stdio::null()).output().expect("it runs")), "refused 12\n");
    let file = File::open(c::root().join("samples/a.match")).expect("the sample can be read");
    assert_eq!(kit::good(&kit().stdin(file).output().expect("it runs")), CASE);
}

/// README.md: "The program uses at most 256 KiB of stack".
#[test]
fn no_run_uses_more_stack_than_the_readme_says() {
    let readme = fs::read_to_string(c::root().join("README.md")).expect("README.md can be read");
    assert!(readme.contains(&format!("at most {STACK} KiB of stack")), "README.md says something else");
    for input in SAMPLES.map(sample).into_iter().chain([longest()]) {
        let output = kit::fed(&mut kit_within(STACK), &input, &[input.len()]);
        assert_eq!(kit::good(&output), reference::program(&input), "the reference is on the right");
    }
}

/// README.md: "and no heap": what is not its own, the program asks the C library for by these names.
#[test]
fn no_run_reaches_the_heap() {
    let symbols = c::output(Command::new("nm").args(["-D", "-P", "-u"]).arg(c::root().join("target/bin/kit")));
    let wanted = |line: &str| match line.split_whitespace().collect::<Vec<_>>()[..] {
        [name, "U", ..] => name.split('@').next().map(str::to_string),
        _ => None,
    };
    let mut wanted: Vec<String> = symbols.lines().filter_map(wanted).collect();
    wanted.sort();
    // asked for by the toolchain's own start: that a closed pipe is no signal, what it says if it cannot start, what the processor has
    let of_the_start = ["__sysv_signal", "__write", "__x86_get_cpuid_feature_leaf"];
    let (start, own): (Vec<String>, Vec<String>) =
        wanted.into_iter().partition(|name| of_the_start.contains(&&name[..]));
    assert_eq!(start, of_the_start, "the start's");
    assert_eq!(own, ["__libc_start_main", "memcpy", "memset", "read", "write"]);
}
