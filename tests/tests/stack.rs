//! How much stack the calls use: what include/matcher.h says of it.

use std::{collections::BTreeSet, fs, path::Path, process::Command};
use tests::{
    c,
    declarations::{declared, name_of},
    kit::{fed, good},
    matches::Match,
};

/// What the header says: "A call uses at most .. KiB of stack, matcher_batch at most .. KiB, matcher_match at most .. KiB."
struct Stated {
    any: usize,
    batch: usize,
    whole_match: usize,
}

impl Stated {
    fn by(header: &str) -> Stated {
        let words: Vec<&str> = header.split_whitespace().filter(|&word| word != "*").collect();
        let text = words.join(" ");
        let kib = |before: &str| -> usize {
            let (_, rest) = text.split_once(before).unwrap_or_else(|| panic!("the header does not say \"{before}\""));
            let (number, _) = rest.split_once(" KiB").expect("a number of KiB stands there");
            1024 * number.parse::<usize>().expect("a number of KiB stands there")
        };
        Stated {
            any: kib("A call uses at most "),
            batch: kib("matcher_batch at most "),
            whole_match: kib("matcher_match at most "),
        }
    }

    fn most(&self, name: &str) -> usize {
        match name {
            "matcher_match" => self.whole_match,
            "matcher_batch" => self.batch,
            _ => self.any,
        }
    }
}

/// Every call, on the longest input there can be.
#[test]
fn no_call_uses_more_stack_than_the_header_says() {
    let input = Match::longest().bytes();
    let program = c::compiled(&c::root().join("tests/c/stack.c"), Path::new(env!("CARGO_TARGET_TMPDIR")));
    let printed = good(&fed(&mut Command::new(program), &input, &[input.len()]));
    let header = fs::read_to_string(c::root().join("include/matcher.h")).expect("the header can be read");
    let stated = Stated::by(&header);
    let mut measured = BTreeSet::new();
    for line in printed.lines() {
        let words: Vec<&str> = line.split(' ').collect();
        let (bytes, given): (usize, &str) = (words[1].parse().expect("a number of bytes"), words[2]);
        let most = stated.most(words[0]);
        assert!(bytes <= most, "{line}: the header says {most}");
        match words[0] {
            "matcher_lost" => assert_eq!(given, "13", "{line}"),
            "matcher_part_length" | "matcher_part_at" => {}
            _ => assert_eq!(given, "0", "{line}"),
        }
        measured.insert(words[0].to_string());
    }
    assert_eq!(
        measured,
        declared(&header).iter().map(|declaration| name_of(declaration)).collect(),
        "measured, and declared"
    );
}
