//! The example in C that matches a file of queries, examples/batch.c, compiled as a firmware writer would and run: each line
//! is what the program writes for its query.

use std::{
    fs, iter,
    path::{Path, PathBuf},
    process::{Command, Output},
    sync::LazyLock,
};
use tests::{
    c, kit,
    matches::{sample, Match},
    random::Random,
    reference,
    samples::{file, largest_input, random_input, random_queries, readings_present},
};

/// The example, compiled once.
static EXAMPLE: LazyLock<PathBuf> =
    LazyLock::new(|| c::compiled(&c::root().join("examples/batch.c"), Path::new(env!("CARGO_TARGET_TMPDIR"))));

/// Runs the example on files with these contents, in a folder of the test's own.
fn run(test: &str, library: &[u8], k: &str, queries: &[u8]) -> Output {
    let folder = Path::new(env!("CARGO_TARGET_TMPDIR")).join(format!("workshop_{test}"));
    fs::create_dir_all(&folder).expect("there is room for files");
    fs::write(folder.join("library"), library).expect("the library can be written");
    fs::write(folder.join("queries"), queries).expect("the queries can be written");
    Command::new(&*EXAMPLE).args(["library", k, "queries"]).current_dir(&folder).output().expect("the example runs")
}

/// What the program writes for a query, on one line: that it is refused; or how many vectors were read, and the nearest.
fn line(number: usize, text: &str) -> String {
    let mut lines = text.lines();
    let head = match lines.next().and_then(|first| first.split_once(' ')) {
        Some(("refused", cause)) => format!("refused {cause}"),
        Some((_, count)) => format!("read {count}"),
        None => panic!("the program writes no first line: {text}"),
    };
    let pieces: Vec<String> = iter::once(head).chain(lines.map(str::to_string)).collect();
    format!("{number}: {}\n", pieces.join("; "))
}

/// The lines that are due for these queries, by the reference, and the exit status.
fn due(library: &[u8], k: u16, queries: &[Vec<u8>]) -> (String, i32) {
    let text =
        |query: &Vec<u8>| reference::program(&Match { library: library.to_vec(), k, query: query.clone() }.bytes());
    let lines: Vec<String> = queries.iter().enumerate().map(|(i, query)| line(i, &text(query))).collect();
    let refused = lines.iter().any(|line| line.contains("refused"));
    (lines.concat(), i32::from(refused))
}

/// The example writes these lines, and no fault is told.
#[track_caller]
fn assert_answers(test: &str, library: &[u8], k: u16, queries: &[Vec<u8>]) {
    let output = run(test, library, &k.to_string(), &queries.concat());
    let (lines, status) = due(library, k, queries);
    assert_eq!(c::text(&output), lines, "the reference is on the right");
    assert_eq!((output.status.code(), &output.stderr[..]), (Some(status), &[][..]), "{output:?}");
}

/// A fresh reading of a value.
fn fresh(value: f32) -> Vec<u8> {
    [&[5], &value.to_le_bytes()[..]].concat()
}

/// Queries of d readings that are refused with 14, with 15, and with 18: in the last reading, in the first, in all.
fn refused(d: usize) -> [Vec<u8>; 3] {
    let (good, bad) = (fresh(0.5).repeat(d - 1), [f32::NAN, f32::INFINITY].map(fresh));
    [[&good[..], &bad[0]].concat(), [&bad[1][..], &good].concat(), vec![7; d]]
}

/// The forty with the two measured tractors of the samples: what the kit program answers for each.
#[test]
fn no_sample_is_answered_otherwise() {
    let [forty, trees] = ["forty.match", "trees.match"].map(|name| Match::of(&sample(name)));
    assert_eq!(forty.library, trees.library);
    assert_answers("sample", &forty.library, 3, &[forty.query.clone(), trees.query.clone()]);
    let lines: String = [&forty, &trees].iter().enumerate().map(|(i, one)| line(i, &kit::run(&one.bytes()))).collect();
    let output = run("sample", &forty.library, "3", &[forty.query, trees.query].concat());
    assert_eq!(kit::good(&output), lines, "the kit program is on the right");
}

/// Random libraries of every kind, with up to three batches of queries for each, some of them refused.
#[test]
fn no_random_file_goes_wrong() {
    for seed in 0..150 {
        let mut random = Random::new(!seed);
        let library = random_input(seed, if seed % 10 == 0 { 300 } else { 20 });
        let (few, any) = (random.below(9), random.below(140));
        let count = random.one_of(&[few, few, few, any]);
        let queries = random_queries(&mut random, &library, count);
        let mut records: Vec<Vec<u8>> =
            queries.iter().map(|query| readings_present(&mut random, &query.components, query.word)).collect();
        for _ in (0..random.below(4)).filter(|_| count > 0) {
            records[random.below(count)].clone_from(&refused(library.d)[random.below(3)]);
        }
        assert_answers("random", &file(&library), library.k as u16, &records);
    }
}

/// As many queries as fit one batch, one less, one more, two batches, and none.
#[test]
fn no_number_of_queries_is_left_out() {
    let Match { library, query, .. } = Match::of(&sample("a.match"));
    let query = |i: usize| if i % 7 == 0 { fresh(i as f32 / 99.0).repeat(2) } else { query.clone() };
    for count in [0, 1, 2, 63, 64, 65, 127, 128, 129, 200] {
        let queries: Vec<Vec<u8>> = (0..count).map(query).collect();
        assert_answers("count", &library, 2, &queries);
    }
}

/// All vectors of the largest library for each of a batch and one query more.
#[test]
fn no_largest_answer_is_cut() {
    let library = largest_input();
    let queries = random_queries(&mut Random::new(511), &library, 3);
    let mut record = |i: usize| readings_present(&mut Random::new(i as u64), &queries[i % 3].components, u32::MAX);
    let records: Vec<Vec<u8>> = (0..65).map(&mut record).collect();
    let output = run("largest", &file(&library), "512", &records.concat());
    let (lines, _) = due(&file(&library), 512, &records[..3]);
    let of_query = |i: usize| lines.lines().nth(i % 3).expect("there is a line").split_once(": ").expect("a number").1;
    let all: String = (0..65).map(|i| format!("{i}: {}\n", of_query(i))).collect();
    assert_eq!(kit::good(&output), all, "the reference is on the right");
}

/// Each refusal at each place of a file of two batches.
#[test]
fn no_refused_query_stops_the_others() {
    let Match { library, query, .. } = Match::of(&sample("forty.match"));
    for (cause, wrong) in [14, 15, 18].into_iter().zip(refused(8)) {
        for place in [0, 1, 31, 62, 63, 64, 65, 69] {
            let mut queries = vec![query.clone(); 70];
            queries[place].clone_from(&wrong);
            assert_answers("refused", &library, 3, &queries);
            let (lines, _) = due(&library, 3, &queries);
            assert_eq!(lines.lines().nth(place), Some(&format!("{place}: refused {cause}")[..]));
        }
    }
    assert_answers("refused", &library, 3, &vec![vec![7; 8]; 130]);
}

/// A file that is cut: the query that it ends in is refused with 12, unless a fault comes before.
#[test]
fn no_cut_file_is_taken_for_a_whole_one() {
    let Match { library, query, .. } = Match::of(&sample("a.match"));
    let queries = [query.clone(), refused(2)[0].clone(), vec![6, 0, 0, 0, 0, 9, 7], query];
    let whole = queries.concat();
    for length in 0..whole.len() {
        let (mut rest, mut cut) = (&whole[..length], vec![]);
        for query in &queries {
            let (first, behind) = rest.split_at(rest.len().min(query.len()));
            cut.extend((!first.is_empty()).then(|| first.to_vec()));
            rest = behind;
        }
        assert_answers("cut", &library, 2, &cut);
    }
}

/// Each byte that is no reading's kind, in each record of the second query: its line is the last, and the fault is told.
#[test]
fn no_query_is_made_up_behind_an_unknown_record() {
    let Match { library, query, .. } = Match::of(&sample("a.match"));
    for kind in (0..=4).chain(8..=255) {
        for front in [vec![], fresh(0.01), fresh(f32::NAN)] {
            let wrong = [&front[..], &[kind]].concat();
            let output = run("unknown", &library, "2", &[&query[..], &wrong, &query, &query].concat());
            let (lines, _) = due(&library, 2, &[query.clone(), wrong]);
            assert_eq!((c::text(&output), output.status.code()), (lines, Some(2)), "kind {kind}, behind {front:?}");
            assert!(!output.stderr.is_empty(), "no fault is told");
        }
    }
    // as the last query of a batch
    let wrong = [&vec![query.clone(); 63].concat()[..], &[0], &query].concat();
    let output = run("unknown", &library, "2", &wrong);
    assert_eq!((c::text(&output).lines().last(), output.status.code()), (Some("63: refused 11"), Some(2)));
}

/// What the library can be refused for, and k: one line for the whole.
#[test]
fn no_refused_library_or_k_is_answered() {
    let Match { library, query, .. } = Match::of(&sample("a.match"));
    let assert_refused = |library: &[u8], k: &str, cause: u32| {
        for queries in [&query[..], &[], &[7, 7]] {
            let output = run("whole", library, k, queries);
            let due = (format!("refused {cause}\n"), Some(1));
            assert_eq!((c::text(&output), output.status.code()), due, "k {k}: {output:?}");
        }
    };
    for k in ["0", "6", "512", "513", "65536", "18446744073709551615", "-1"] {
        assert_refused(&library, k, 4);
    }
    for (place, byte, cause) in
        [(1, 33, 1), (2, 13, 2), (4, 2, 3), (9, 255, 7), (50, 200, 8), (54, 200, 6), (390, 5, 17), (0, 0, 11)]
    {
        let mut wrong = library.clone();
        wrong[place] = byte;
        assert_refused(&wrong, "2", cause);
    }
    assert_refused(&library[..100], "2", 12);
}

/// What is no number, no file, no library alone, and no command.
#[test]
fn no_other_fault_passes() {
    let Match { library, query, .. } = Match::of(&sample("a.match"));
    let assert_fault = |output: Output| {
        assert_eq!((output.status.code(), c::text(&output)), (Some(2), String::new()), "{output:?}");
        assert!(!output.stderr.is_empty(), "no fault is told");
    };
    assert_fault(run("fault", &library, "two", &query));
    assert_fault(run("fault", &library, "", &query));
    assert_fault(run("fault", &[&library[..], &[0]].concat(), "2", &query));
    let folder = Path::new(env!("CARGO_TARGET_TMPDIR")).join("workshop_fault");
    fs::write(folder.join("library"), &library).expect("the library can be written");
    let wrong: [&[&str]; 7] = [
        &[],
        &["library"],
        &["library", "2"],
        &["library", "2", "queries", "queries"],
        &["nowhere", "2", "queries"],
        &["library", "2", "nowhere"],
        &["library", "2", "."],
    ];
    for arguments in wrong {
        assert_fault(Command::new(&*EXAMPLE).args(arguments).current_dir(&folder).output().expect("it runs"));
    }
}
