//! include/matcher.h: C takes it alone, and it says what the crates say.

use std::{
    fs,
    path::{Path, PathBuf},
    process::Command,
};
use tests::{
    c,
    calls::{self, Call},
    declarations::{declared, exported, name_of, without_comments},
    reference,
    samples::shapes,
};

fn read(path: impl AsRef<Path>) -> String {
    let path = c::root().join(path);
    fs::read_to_string(&path).unwrap_or_else(|error| panic!("{}: {error}", path.display()))
}

#[test]
fn no_c_compiler_refuses_the_header_alone() {
    for standard in ["-std=c99", "-std=c11"] {
        c::output(c::compiler(standard).args(["-fsyntax-only", "-x", "c"]).arg(c::root().join("include/matcher.h")));
    }
}

/// Name, parameters and answer of each.
#[test]
fn no_exported_function_is_left_out_and_none_is_made_up() {
    let folder = c::root().join("crates/matcher/src");
    let sources = fs::read_dir(folder).expect("crates/matcher/src is there").map(|entry| entry.unwrap().path());
    let mut exported: Vec<String> = sources.flat_map(|source: PathBuf| exported(&read(source))).collect();
    let mut declared = declared(&read("include/matcher.h"));
    exported.sort();
    declared.sort();
    assert!(exported.len() > 20, "{exported:?}");
    assert_eq!(declared, exported, "the header, and what crates/matcher exports");
}

/// `NotANumber` is `NOT_A_NUMBER`.
fn in_capitals(name: &str) -> String {
    let letter = |(place, letter): (usize, char)| match letter.is_uppercase() && place > 0 {
        true => format!("_{letter}"),
        false => letter.to_uppercase().to_string(),
    };
    name.chars().enumerate().map(letter).collect()
}

#[test]
fn no_refusal_has_another_number() {
    let source = read("crates/refusal/src/lib.rt");
    let rows = source.lines().filter_map(|line| line.trim().strip_suffix(',')?.split_once(" = "));
    let mut numbers: Vec<String> =
        rows.map(|(name, number)| format!("MATCHER_{} = {number}", in_capitals(name))).collect();
    numbers.insert(0, "MATCHER_ACCEPTED = 0".to_string());

    let header = without_comments(&read("include/matcher.h"));
    let (_, rest) = header.split_once("enum matcher_refusal {").expect("the header has the refusals");
    let (listed, _) = rest.split_once('}').expect("the list ends");
    let listed: Vec<&str> = listed.split(',').map(str::trim).collect();
    assert_eq!(listed.len(), 23);
    assert_eq!(listed, numbers, "the header, and crates/refusal");
}

/// The numbers under "Refusals" in the comment before a function's declaration.
fn refusals(header: &str, function: &str) -> Vec<u32> {
    let (before, _) = header.split_once(&format!("\nuint32_t {function}(")).expect("the function is declared");
    let (_, comment) = before.rsplit_once("/*").expect("a comment stands before it");
    let (_, listed) = comment.split_once("Refusals: ").expect("the comment lists refusals");
    let listed = listed.split('.').next().expect("the list ends");
    // what stands in brackets says more of a number
    let plain: String = listed.split('(').map(|piece| piece.split_once(')').map_or(piece, |(_, rest)| rest)).collect();
    plain.split(',').map(|number| number.trim().parse().expect("a list of numbers")).collect()
}

/// What C calls a call on numbers.
fn name_in_c(call: &Call) -> String {
    let name = match call.name {
        "part" => "check_part",
        "dimension_region" => "region_of",
        name => name,
    };
    format!("matcher_{name}")
}

/// The calls on readings, with their refusals.
const READINGS: [(&str, &[u32]); 9] = [
    ("matcher_fresh", &[14, 15]),
    ("matcher_fresh_value", &[14, 15]),
    ("matcher_held", &[13, 14, 15]),
    ("matcher_held_value", &[13, 14, 15]),
    ("matcher_lost", &[13]),
    ("matcher_fresh_present", &[14, 15]),
    ("matcher_fresh_value_present", &[14, 15]),
    ("matcher_held_present", &[14, 15]),
    ("matcher_held_value_present", &[14, 15]),
];

/// The calls on bytes, whose refusals are no plain list; the two that hand back a part of the marks and give no number; the
/// second intake of a lost reading, which is never refused.
const OTHERS: [&str; 7] = [
    "matcher_load",
    "matcher_query",
    "matcher_query_present",
    "matcher_match",
    "matcher_part_length",
    "matcher_part_at",
    "matcher_lost_present",
];

/// The calls on numbers, whose causes are tried one by one and two by two elsewhere, and those on readings: each call that
/// the header declares.
#[test]
fn no_call_lists_other_refusals() {
    let header = read("include/matcher.h");
    let mut listed: Vec<(String, &[u32])> = calls::ALL.iter().map(|call| (name_in_c(call), call.causes)).collect();
    listed.extend(READINGS.map(|(name, causes)| (name.to_string(), causes)));
    for (name, causes) in &listed {
        assert_eq!(refusals(&header, name), *causes, "{name}");
    }
    let mut names: Vec<String> = listed.into_iter().map(|(name, _)| name).chain(OTHERS.map(str::to_string)).collect();
    let mut declared: Vec<String> = declared(&header).iter().map(|declaration| name_of(declaration)).collect();
    names.sort();
    declared.sort();
    assert_eq!(names, declared, "the calls whose refusals are known, and the header's");
}

/// The constants of a crate: name and value.
fn constants(path: &str) -> Vec<(String, String)> {
    let source = read(path);
    let lines = source.lines().filter_map(|line| line.trim().strip_prefix("pub const ")?.strip_suffix(';'));
    let constant = |line: &str| {
        let (name, rest) = line.split_once(": ")?;
        Some((name.to_string(), rest.split_once(" = ")?.1.to_string()))
    };
    lines.filter_map(constant).collect()
}

/// Compiles and runs a C program of statements that print, and gives its lines.
fn printed(name: &str, statements: &str) -> Vec<String> {
    let folder = Path::new(env!("CARGO_TARGET_TMPDIR"));
    let source = folder.join(name);
    let text =
        format!("#include \"matcher.h\"\n#include <stdio.h>\n\nint main(void)\n{{\n{statements}    return 0;\n}}\n");
    fs::write(&source, text).expect("the source can be written");
    let output = c::output(&mut Command::new(c::compiled(&source, folder)));
    output.lines().map(str::to_string).collect()
}

#[test]
fn no_limit_is_another() {
    let mut limits = constants("crates/limits/src/lib.rt");
    limits.extend(constants("crates/reading/src/lib.rt"));
    limits.extend(constants("crates/presence/src/lib.rt"));
    let print = |(name, _): &(String, String)| format!("    printf(\"%lld\\n\", (long long)(MATCHER_{name}));\n");
    let lines = printed("limits.c", &limits.iter().map(print).collect::<String>());
    let named: Vec<(String, String)> = limits.iter().map(|(name, _)| name.clone()).zip(lines).collect();
    assert_eq!(named.len(), 13);
    assert_eq!(named, limits, "the header, and crates/limits, crates/reading and crates/presence");
}

/// The minor number is that of the last change that has a page.
#[test]
fn no_version_is_another() {
    let pages = fs::read_dir(c::root().join("docs/changes")).expect("docs/changes is there");
    let number = |page: &str| page.split_once('-').and_then(|(number, _)| number.parse::<usize>().ok());
    let mut numbers: Vec<usize> = pages
        .map(|page| page.unwrap().file_name().into_string().expect("a name is plain"))
        .map(|name| number(&name).unwrap_or_else(|| panic!("docs/changes: {name} has no number")))
        .collect();
    numbers.sort();
    assert_eq!(numbers, Vec::from_iter(1..=numbers.len()), "each change has a page");
    let lines = printed(
        "version.c",
        "    printf(\"%d.%d %d\\n\", MATCHER_VERSION_MAJOR, MATCHER_VERSION_MINOR, MATCHER_VERSION);\n",
    );
    let last = numbers.len();
    assert_eq!(lines, [format!("1.{last} {}", 100 + last)], "the header, and on the right by docs/changes");
}

/// Every number of dimensions.
#[test]
fn no_full_word_is_another() {
    let statement = "    for (size_t d = 1; d <= MATCHER_MAX_DIMENSIONS; d++)
        printf(\"%lu\\n\", (unsigned long)MATCHER_FULL_WORD(d));
";
    let lines = printed("words.c", statement);
    let words: Vec<String> = (1..=32).map(|d| reference::full_word(d).to_string()).collect();
    assert_eq!(lines, words, "the header's, and on the right the reference's");
}

/// "The calls use no heap, keep nothing from one call to the next, and do no input or output": the library has code and
/// constants alone, and asks for nothing but to copy and to fill memory.
#[test]
fn no_call_reaches_past_what_it_is_given() {
    let symbols = c::output(Command::new("nm").arg("-P").arg(c::root().join("target/staticlib/libmatcher.a")));
    let mut functions = 0;
    for line in symbols.lines().filter(|line| !line.is_empty() && !line.ends_with(':')) {
        let words: Vec<&str> = line.split(' ').collect();
        match words[..] {
            [name, "U", ..] => assert!(["memcpy", "memset"].contains(&name), "the library asks for {name}"),
            [_, kind, ..] => assert!(["T", "t", "R", "r"].contains(&kind), "neither code nor a constant: {line}"),
            _ => panic!("no symbol: {line}"),
        }
        functions += i32::from(words[1] == "T");
    }
    assert!(functions > 20, "{functions} functions");
}

/// Every number of dimensions with every number of bits, and n from one below its limits to one above.
#[test]
fn no_length_is_another() {
    let mut lines = printed(
        "lengths.c",
        "    static const size_t counts[] = {0, 1, 2, 3, 7, 8, 511, 512, 513};
    for (size_t d = 1; d <= MATCHER_MAX_DIMENSIONS; d++)
        for (size_t b = 0; b <= MATCHER_MAX_DIMENSION_BITS * d; b++)
            for (size_t i = 0; i < sizeof counts / sizeof counts[0]; i++) {
                size_t n = counts[i];
                printf(\"%zu %zu %zu: \", d, b, n);
                printf(\"%zu %zu %zu\\n\", MATCHER_MARKS(d, b), MATCHER_CODES(b, n), MATCHER_LIBRARY(d, b, n));
            }
    printf(\"%d %d %d %d %d %d %d\\n\", MATCHER_MAX_MARKS, MATCHER_MAX_COMPONENTS, MATCHER_MAX_CODES, MATCHER_MAX_LIBRARY,
           MATCHER_MAX_QUERY, MATCHER_MAX_MATCH, MATCHER_MAX_TEXT);
",
    );
    let largest = [
        reference::marks_length(32, 192),
        512 * 32,
        reference::codes_length(512, 192),
        reference::bytes_length(32, 192, 512),
        32 * (1 + 4 + 1),
        45_928,
        (4 + 4) + 512 * (4 + 11 + 13),
    ];
    let expected = largest.map(|length| length.to_string()).join(" ");
    assert_eq!(lines.pop(), Some(expected), "the largest, and on the right by the reference");
    let counts = [0, 1, 2, 3, 7, 8, 511, 512, 513];
    let of_shape = |(d, b): (usize, usize)| {
        counts.map(|n| {
            let (marks, codes) = (reference::marks_length(d, b), reference::codes_length(n, b));
            format!("{d} {b} {n}: {marks} {codes} {}", reference::bytes_length(d, b, n))
        })
    };
    let expected: Vec<String> = shapes().flat_map(of_shape).collect();
    assert_eq!(lines, expected, "the header's, and on the right the reference's");
}
