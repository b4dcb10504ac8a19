//! The example in C that adds a tractor to a library file or removes one, examples/yard.c, compiled as a firmware writer
//! would and run: the new file is the reference's, and a run that is refused or fails leaves the file as it was.

use std::{
    fs,
    os::unix::{
        fs::{symlink, PermissionsExt},
        process::ExitStatusExt,
    },
    path::{Path, PathBuf},
    process::{Command, Output},
    sync::LazyLock,
};
use tests::{
    c,
    input::{Input, Loaded},
    kit,
    matches::{loaded, sample, Match},
    random::Random,
    reference,
    samples::{self, file, random_input, random_of_shape, readings, vector_inside, GREATEST},
};

/// An example, compiled once.
fn example(name: &str) -> PathBuf {
    c::compiled(&c::root().join("examples").join(name), Path::new(env!("CARGO_TARGET_TMPDIR")))
}

static YARD: LazyLock<PathBuf> = LazyLock::new(|| example("yard.c"));

/// A folder of the test's own, with a library and a query in it.
struct Yard(PathBuf);

impl Yard {
    fn new(test: &str, library: &[u8], query: &[u8]) -> Yard {
        let folder = Path::new(env!("CARGO_TARGET_TMPDIR")).join(format!("yard_{test}"));
        if folder.exists() {
            fs::remove_dir_all(&folder).expect("the folder can be made anew");
        }
        fs::create_dir_all(&folder).expect("there is room for files");
        let yard = Yard(folder);
        fs::write(yard.path("library"), library).expect("the library can be written");
        fs::write(yard.path("query"), query).expect("the query can be written");
        yard
    }

    fn path(&self, name: &str) -> PathBuf {
        self.0.join(name)
    }

    fn library(&self) -> Vec<u8> {
        fs::read(self.path("library")).expect("the library can be read")
    }

    /// The names of the files.
    fn files(&self) -> Vec<String> {
        let names = fs::read_dir(&self.0).expect("the folder is there").map(|entry| entry.unwrap().file_name());
        let mut names: Vec<String> = names.map(|name| name.into_string().expect("the name is text")).collect();
        names.sort();
        names
    }

    /// Runs the example in the folder.
    fn run(&self, arguments: &[&str]) -> Output {
        Command::new(&*YARD).args(arguments).current_dir(&self.0).output().expect("the example runs")
    }

    /// The example changes the library to these bytes, leaves nothing else behind, and says this.
    #[track_caller]
    fn assert_changed(&self, arguments: &[&str], library: &[u8], said: &str) {
        assert_eq!(kit::good(&self.run(arguments)), said, "{arguments:?}");
        assert_eq!(self.library(), library, "{arguments:?}: the new library is on the right");
        assert_eq!(self.files(), ["library", "query"], "{arguments:?}");
    }

    /// The example ends with this status, having said this, and leaves the library as it was, with nothing beside it.
    #[track_caller]
    fn assert_kept(&self, arguments: &[&str], status: i32, said: &str) {
        let (library, files) = (self.library(), self.files());
        let output = self.run(arguments);
        assert_eq!((output.status.code(), &c::text(&output)[..]), (Some(status), said), "{arguments:?}: {output:?}");
        assert_eq!(status == 2, !output.stderr.is_empty(), "{arguments:?}: {output:?}");
        assert_eq!(self.library(), library, "{arguments:?}: the library as it was is on the right");
        assert_eq!(self.files(), files, "{arguments:?}");
    }

    #[track_caller]
    fn assert_refused(&self, arguments: &[&str], said: &str) {
        self.assert_kept(arguments, 1, &format!("refused {said}\n"));
    }
}

const ADD: [&str; 4] = ["add", "library", "query", "7"];
const REMOVE: [&str; 3] = ["remove", "library", "0"];

/// The library of an input with a vector more.
fn with(input: &Input, vector: &[i32], setting: u32) -> Input {
    let Input { d, b, marks, vectors, settings, .. } = input;
    let vectors = [&vectors[..], vector].concat();
    let settings = [&settings[..], &[setting]].concat();
    Input { settings, ..samples::input(*d, *b, marks, &vectors, vector, 1) }
}

/// Random libraries of every kind, each with a measured tractor: it is added, and then any of them removed.
#[test]
fn no_random_library_goes_wrong() {
    for seed in 0..150 {
        let mut random = Random::new(!seed);
        let before = random_input(seed, if seed % 10 == 0 { 511 } else { 40 });
        let Input { d, b, n, .. } = before;
        let (vector, setting) = (vector_inside(&mut random, d, b, &before.marks), random.next_u32());
        let yard = Yard::new("random", &file(&before), &readings(&mut random, &vector));

        let more = with(&before, &vector, setting);
        let said = format!("added {n} with settings {setting}; tractors: {}\n", n + 1);
        yard.assert_changed(&["add", "library", "query", &setting.to_string()], &file(&more), &said);

        let number = random.below(n + 1);
        let less = reference::remove(&more.clone().to_remove(number)).expect("there are two");
        let after = samples::input(d, b, &more.marks, &less.vectors, &vector, 1);
        let said = format!("removed {number} with settings {}; tractors: {n}\n", more.settings[number]);
        let after = Input { settings: less.settings, ..after };
        yard.assert_changed(&["remove", "library", &number.to_string()], &file(&after), &said);
    }
}

/// From one tractor to the limit, and the one too many.
#[test]
fn no_tractor_is_added_to_a_full_library() {
    let mut random = Random::new(1);
    let mut library = random_of_shape(&mut random, 32, 192, 510);
    let vector = vector_inside(&mut random, 32, 192, &library.marks);
    let yard = Yard::new("full", &file(&library), &readings(&mut random, &vector));
    for n in 510..512 {
        library = with(&library, &vector, 7);
        yard.assert_changed(&ADD, &file(&library), &format!("added {n} with settings 7; tractors: {}\n", n + 1));
    }
    yard.assert_refused(&ADD, "20: library: there are 512 tractors, and no room for another");
}

/// Down to the only one, which is not removed.
#[test]
fn no_only_tractor_is_removed() {
    let library = samples::library_a([0, 0], 1);
    let yard = Yard::new("only", &file(&library), &[]);
    let refused = "21: library: no tractor has this number, or it is the only one";
    for number in ["5", "6", "512", "4294967295"] {
        yard.assert_refused(&["remove", "library", number], refused);
    }
    for left in (1..5).rev() {
        let said = format!("removed 0 with settings {}; tractors: {left}\n", 105 - left);
        assert_eq!(kit::good(&yard.run(&REMOVE)), said);
    }
    assert_eq!(loaded(&yard.library()).components, [18, 1]);
    for number in ["0", "1"] {
        yard.assert_refused(&["remove", "library", number], refused);
    }
}

/// The kit program and the example that searches, on a library after each change.
#[test]
fn no_search_of_a_changed_library_goes_wrong() {
    let searching = example("match.c");
    let Match { library, .. } = Match::of(&sample("large.match"));
    let Match { query, .. } = Match::of(&sample("forty.match"));
    let yard = Yard::new("search", &library, &query);
    let changes: [(&[&str], &str); 3] = [
        (&["add", "library", "query", "1503"], "41 1503 0"),
        (&["remove", "library", "40"], "40 1503 0"),
        (&["remove", "library", "0"], "39 1503 0"),
    ];
    for (change, nearest) in changes {
        kit::good(&yard.run(change));
        let whole = Match { library: yard.library(), k: 3, query: query.clone() }.bytes();
        let answer = kit::run(&whole);
        assert_eq!(answer, reference::program(&whole), "{change:?}: the reference is on the right");
        assert_eq!(answer.lines().nth(1), Some(nearest), "{change:?}");
        let mut command = Command::new(&searching);
        let output = command.args(["library", "3", "query"]).current_dir(&yard.0).output().expect("the example runs");
        assert_eq!(kit::good(&output), answer, "{change:?}: the kit program is on the right");
    }
}

/// What the library file can be refused for, by both commands.
#[test]
fn no_refused_library_is_changed() {
    let Match { library, query, .. } = Match::of(&sample("a.match"));
    let spoilt = |place: usize, byte: u8| {
        let mut bytes = library.clone();
        bytes[place] = byte;
        bytes
    };
    let cases = [
        (spoilt(1, 33), "1: library: the number of dimensions is not 1 to 32"),
        (spoilt(2, 13), "2: library: the codes have more than 6 bits a dimension"),
        (spoilt(4, 2), "3: library: the number of tractors is not 1 to 512"),
        (spoilt(54, 200), "6: library: a component beyond the last dimension is not zero"),
        (spoilt(9, 255), "7: library: a mark is out of range, or below the one before it"),
        (spoilt(50, 200), "8: library: a tractor lies outside the marks"),
        (spoilt(0, 0), "11: library: a record is of no known kind"),
        (spoilt(390, 5), "17: library: a record stands in a wrong place"),
        (vec![], "12: library: the file ends inside a record, or before the next"),
    ];
    for (bytes, said) in cases {
        let yard = Yard::new("library", &bytes, &query);
        yard.assert_refused(&ADD, said);
        yard.assert_refused(&REMOVE, said);
    }
    for length in 0..library.len() {
        let yard = Yard::new("library", &library[..length], &query);
        yard.assert_refused(&ADD, "12: library: the file ends inside a record, or before the next");
    }
}

/// What the query can be refused for: the first intake, which takes no reading as absent.
#[test]
fn no_refused_query_is_added() {
    let Match { library, query, .. } = Match::of(&sample("a.match"));
    let fresh = |value: f32| [&[5], &value.to_le_bytes()[..]].concat();
    let good = fresh(0.01);
    let cases = [
        (query[..9].to_vec(), "12: query: the file ends inside a record, or before the next"),
        (vec![9], "11: query: a record is of no known kind"),
        (vec![4], "17: query: a record stands in a wrong place"),
        ([&good[..], &[7]].concat(), "13: query: a reading is lost, or older than 2 seconds"),
        ([&good[..], &[6, 0, 0, 0, 0, 21]].concat(), "13: query: a reading is lost, or older than 2 seconds"),
        ([good.clone(), fresh(f32::NAN)].concat(), "14: query: the value of a reading is not a number"),
        ([good.clone(), fresh(f32::INFINITY)].concat(), "15: query: the value of a reading is out of range"),
        ([good.clone(), fresh(128.0)].concat(), "15: query: the value of a reading is out of range"),
        ([&query[..], &[7]].concat(), "16: query: there is more than the readings"),
        ([&query[..], &[7].repeat(300)].concat(), "16: query: there is more than the readings"),
        ([good, fresh(-0.01)].concat(), "8: library: a tractor lies outside the marks"),
    ];
    for (query, said) in cases {
        Yard::new("query", &library, &query).assert_refused(&ADD, said);
    }
}

/// A file already written has marks that end at its tractors: the large one is refused. Its library with marks made now
/// takes a tractor at the ends of the scale.
#[test]
fn no_large_tractor_is_added_to_former_marks() {
    let Match { library, .. } = Match::of(&sample("forty.match"));
    let Match { library: made, query, .. } = Match::of(&sample("large.match"));
    Yard::new("former", &library, &query).assert_refused(&ADD, "8: library: a tractor lies outside the marks");

    let largest = readings(&mut Random::new(0), &[GREATEST; 8]);
    let yard = Yard::new("made", &made, &largest);
    assert_eq!(kit::good(&yard.run(&ADD)), "added 41 with settings 7; tractors: 42\n");
    let Loaded { components, .. } = loaded(&yard.library());
    assert_eq!(components[41 * 8..], [GREATEST; 8]);
}

/// What is no number, no file, no library alone, and no command.
#[test]
fn no_other_fault_passes() {
    let Match { library, query, .. } = Match::of(&sample("a.match"));
    let yard = Yard::new("fault", &library, &query);
    let wrong: [&[&str]; 8] = [
        &[],
        &["add"],
        &["add", "library", "query"],
        &["add", "library", "query", "7", "8"],
        &["remove", "library"],
        &["remove", "library", "0", "1"],
        &["search", "library", "query", "7"],
        &["remove", "library", "query", "7"],
    ];
    wrong.iter().for_each(|arguments| yard.assert_kept(arguments, 2, ""));
    for number in ["", "x", "-1", "+1", " 1", "1 ", "1x", "0x1", "4294967296", "18446744073709551616"] {
        yard.assert_kept(&["add", "library", "query", number], 2, "");
        yard.assert_kept(&["remove", "library", number], 2, "");
    }
    yard.assert_kept(&["add", "nowhere", "query", "7"], 2, "");
    yard.assert_kept(&["add", "nowhere/library", "query", "7"], 2, "");
    yard.assert_kept(&["add", "library", "nowhere", "7"], 2, "");
    yard.assert_kept(&["add", "library", ".", "7"], 2, "");
    yard.assert_kept(&["remove", ".", "0"], 2, "");
    symlink("library", yard.path("link")).expect("a link can be made");
    yard.assert_kept(&["remove", "link", "0"], 2, "");

    let trailing = Yard::new("fault", &[&library[..], &[0]].concat(), &query);
    trailing.assert_kept(&ADD, 2, "");
    trailing.assert_kept(&REMOVE, 2, "");
}

/// Another run's new file, or one that was left behind: it is neither written nor removed.
#[test]
fn no_run_comes_between_another() {
    let Match { library, query, .. } = Match::of(&sample("a.match"));
    let yard = Yard::new("turns", &library, &query);
    fs::write(yard.path("library.new"), "another's").expect("the file can be written");
    yard.assert_kept(&ADD, 2, "");
    yard.assert_kept(&REMOVE, 2, "");
    assert_eq!(fs::read(yard.path("library.new")).expect("it is there"), b"another's");
}

/// Beside a plain file in /proc nobody can make another.
#[test]
fn no_folder_that_cannot_be_written_is_passed_over() {
    let yard = Yard::new("folder", &[], &[]);
    let output = yard.run(&["remove", "/proc/self/environ", "0"]);
    assert_eq!((output.status.code(), &c::text(&output)[..]), (Some(2), ""), "{output:?}");
    assert!(String::from_utf8_lossy(&output.stderr).contains("/proc/self/environ.new"), "{output:?}");
}

/// A file may be no longer than one block: the new library does not fit. The write fails, or ends the run, if the shell
/// leaves the signal as it is. The library is as it was in both.
#[test]
fn no_library_is_replaced_by_one_that_is_not_whole() {
    let Match { library, query, .. } = Match::of(&sample("large.match"));
    let yard = Yard::new("whole", &library, &query);
    let within = |shell: &str| {
        let mut command = Command::new("/bin/sh");
        command.args(["-c", &format!("{shell} ulimit -c 0; ulimit -f 1; exec \"$0\" \"$@\"")]).arg(&*YARD).args(ADD);
        command.current_dir(&yard.0).output().expect("the shell runs")
    };
    let output = within("trap '' XFSZ;");
    assert_eq!((output.status.code(), &c::text(&output)[..]), (Some(2), ""), "{output:?}");
    assert!(!output.stderr.is_empty(), "no fault is told");
    assert_eq!((yard.library(), yard.files()), (library.clone(), vec!["library".to_string(), "query".to_string()]));

    let output = within("");
    assert!(output.status.signal().is_some(), "{output:?}");
    assert_eq!(yard.library(), library);
    yard.assert_kept(&ADD, 2, "");
    fs::remove_file(yard.path("library.new")).expect("the run that was cut off left it");
    assert_eq!(kit::good(&yard.run(&ADD)), "added 41 with settings 7; tractors: 42\n");
}

/// Who may read and write the library.
#[test]
fn no_permission_is_another_afterwards() {
    let Match { library, query, .. } = Match::of(&sample("a.match"));
    let yard = Yard::new("permissions", &library, &query);
    for mode in [0o600, 0o640, 0o666] {
        fs::set_permissions(yard.path("library"), PermissionsExt::from_mode(mode)).expect("the file is ours");
        kit::good(&yard.run(&ADD));
        let after = fs::metadata(yard.path("library")).expect("the library is there").permissions().mode();
        assert_eq!(after & 0o777, mode, "in octal {after:o}");
    }
}
