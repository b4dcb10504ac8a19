//! The example in C, examples/match.c, compiled as a firmware writer would and run, against the kit program.

use std::{
    fs,
    path::{Path, PathBuf},
    process::{Command, Output},
    sync::LazyLock,
};
use tests::{
    c, kit,
    matches::{self, Match, SAMPLES},
    reference,
};

/// The example, compiled once.
static EXAMPLE: LazyLock<PathBuf> =
    LazyLock::new(|| c::compiled(&c::root().join("examples/match.c"), Path::new(env!("CARGO_TARGET_TMPDIR"))));

fn sample(name: &str) -> Match {
    Match::of(&matches::sample(name))
}

/// Runs the example on files with these contents, in a folder of the test's own.
fn run(test: &str, library: &[u8], k: &str, queries: &[&[u8]]) -> Output {
    let folder = Path::new(env!("CARGO_TARGET_TMPDIR")).join(test);
    fs::create_dir_all(&folder).expect("there is room for files");
    let written = |name: String, bytes: &[u8]| {
        let path = folder.join(name);
        fs::write(&path, bytes).expect("the file can be written");
        path
    };
    let mut command = Command::new(&*EXAMPLE);
    command.arg(written("library".to_string(), library)).arg(k);
    command.args(queries.iter().enumerate().map(|(i, query)| written(format!("query{i}"), query)));
    command.output().expect("the example runs")
}

/// The example answers for each query what the kit program does for the whole, with this status; the reference agrees.
fn assert_answers(test: &str, matches: &[Match], status: i32) {
    let Match { library, k, .. } = &matches[0];
    let queries: Vec<&[u8]> = matches.iter().map(|one| &one.query[..]).collect();
    let output = run(test, library, &k.to_string(), &queries);
    let of_the_program = |one: &Match| {
        let text = kit::run(&one.bytes());
        assert_eq!(text, reference::program(&one.bytes()), "{one:?}: the kit program, and the reference");
        text
    };
    let expected: String = matches.iter().map(of_the_program).collect();
    assert_eq!(c::text(&output), expected, "{matches:?}: the kit program is on the right");
    assert_eq!(output.status.code(), Some(status), "{matches:?}");
}

#[test]
fn no_sample_is_answered_otherwise() {
    for name in SAMPLES {
        assert_answers("sample", &[sample(name)], 0);
    }
}

/// Document 01, "Cases": "prints `2 3`, `3 104 1`, `4 105 61`".
#[test]
fn case_library_a_with_its_query() {
    let Match { library, query, .. } = sample("a.match");
    assert_eq!(c::text(&run("case", &library, "2", &[&query])), "2 3\n3 104 1\n4 105 61\n");
}

#[test]
fn no_random_library_goes_wrong() {
    for seed in 0..150 {
        let most = if seed % 10 == 0 { 512 } else { 40 };
        assert_answers("random", &[Match::random(seed, most)], 0);
        assert_answers("random", &[Match::random_with_absent(seed, most)], 0);
    }
}

/// Several queries for one library, a refused one among them.
#[test]
fn no_query_has_a_say_in_the_next() {
    let first = sample("forty.match");
    let second = Match { query: [5, 0, 0, 0, 0].repeat(8), ..first.clone() };
    let lost = Match { query: [7].repeat(8), ..first.clone() };
    let absent = sample("trees.match");
    assert_answers("several", &[first.clone(), second.clone(), absent.clone(), first.clone()], 0);
    assert_answers("several", &[second, lost, absent, first], 1);
}

#[test]
fn no_refused_input_is_answered() {
    let good = sample("a.match");
    let with_k = |k: u16| Match { k, ..good.clone() };
    let with_query = |query: &[u8]| Match { query: query.to_vec(), ..good.clone() };
    let longer = [&good.query[..], &[7].repeat(200)].concat();
    let cases =
        [with_k(0), with_k(6), with_k(512), with_k(513), with_k(65535), with_query(&[]), with_query(&good.query[..9])];
    let others =
        [with_query(&longer), with_query(&longer[..11]), with_query(&[9]), with_query(&[3; 80]), with_query(&[7, 7])];
    cases.into_iter().chain(others).for_each(|wrong| assert_answers("refused", &[wrong], 1));

    // both at once: the first fault from the left is that of k
    for k in [0, 6, 65535] {
        for query in [&[7, 7][..], &[], &[9], &good.query[..9], &longer[..11]] {
            let both = Match { query: query.to_vec(), ..with_k(k) };
            assert_eq!(reference::program(&both.bytes()), "refused 4\n");
            assert_answers("refused", &[both], 1);
        }
    }

    for (place, byte) in [(1, 33), (2, 13), (4, 2), (9, 255), (54, 200), (390, 5), (0, 0)] {
        let mut library = good.library.clone();
        library[place] = byte;
        assert_answers("refused", &[Match { library, ..good.clone() }], 1);
    }
}

/// What is no number, no file, and no library alone.
#[test]
fn no_other_fault_passes() {
    let Match { library, query, .. } = sample("a.match");
    let assert_fault = |output: Output| {
        assert_eq!((output.status.code(), c::text(&output)), (Some(2), String::new()), "{output:?}");
        assert!(!output.stderr.is_empty(), "no fault is told");
    };
    assert_fault(run("fault", &library, "two", &[&query]));
    assert_fault(run("fault", &library, "", &[&query]));
    assert_fault(run("fault", &library, "2", &[]));
    assert_fault(run("fault", &[&library[..], &[0]].concat(), "2", &[&query]));
    assert_fault(Command::new(&*EXAMPLE).args(["/nowhere/library", "2", "/nowhere/query"]).output().expect("it runs"));
}
