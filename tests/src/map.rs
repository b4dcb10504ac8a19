//! A map of the crates in Markdown, tables in groups and a mermaid picture of them, held to crates.txt.

use std::collections::{BTreeMap, BTreeSet};

type Names = Vec<String>;
/// Groups by title, each with its crates in order.
type Groups = Vec<(String, Names)>;

/// The crates of crates.txt, each with those of them that it depends on.
fn listed(crates: &str) -> BTreeMap<String, BTreeSet<String>> {
    let lines = crates.lines().filter_map(|line| line.split('#').next()?.split_once(':'));
    let words = |text: &str| text.split_whitespace().map(str::to_string).collect();
    // behind the name may stand that it is a static library
    let name = |head: &str| head.split_whitespace().next().unwrap_or_default().to_string();
    let listed: BTreeMap<String, BTreeSet<String>> = lines.map(|(head, others)| (name(head), words(others))).collect();
    let inside =
        |others: &BTreeSet<String>| others.iter().filter(|other| listed.contains_key(*other)).cloned().collect();
    listed.iter().map(|(name, others)| (name.clone(), inside(others))).collect()
}

/// The tables under headings of the third level: a row's first cell is a crate's name in backquotes.
fn tables(map: &str) -> Groups {
    let mut groups = Groups::new();
    for line in map.lines() {
        if let Some(title) = line.strip_prefix("### ") {
            groups.push((title.to_string(), vec![]));
        } else if let Some((name, _)) = line.strip_prefix("| `").and_then(|row| row.split_once('`')) {
            groups.last_mut().expect("a table stands under a heading").1.push(name.to_string());
        }
    }
    groups.retain(|(_, names)| !names.is_empty());
    groups
}

/// The picture: its groups, and its arrows, each from a crate to one that it depends on.
fn picture(map: &str) -> (Groups, BTreeSet<(String, String)>) {
    let (_, rest) = map.split_once("```mermaid\n").expect("the map has a picture");
    let (text, _) = rest.split_once("```").expect("the picture ends");
    let (mut groups, mut arrows) = (Groups::new(), BTreeSet::new());
    for line in text.lines().map(str::trim) {
        if let Some(title) = line.strip_prefix("subgraph ").and_then(|group| group.split('"').nth(1)) {
            groups.push((title.to_string(), vec![]));
        } else if let Some((from, to)) = line.split_once(" --> ") {
            arrows.extend(to.split(" & ").map(|to| (from.to_string(), to.to_string())));
        } else if !line.starts_with("flowchart") && line != "end" {
            let names = line.split("; ").map(str::to_string);
            groups.last_mut().expect("a crate stands in a group").1.extend(names);
        }
    }
    (groups, arrows)
}

/// All that a crate depends on by way of others.
fn behind(name: &str, listed: &BTreeMap<String, BTreeSet<String>>) -> BTreeSet<String> {
    let direct = listed.get(name).into_iter().flatten();
    direct.flat_map(|other| listed[other].iter().cloned().chain(behind(other, listed))).collect()
}

/// What is wrong with a map. Its picture has an arrow for each dependency that does not follow from others.
pub fn faults(map: &str, crates: &str) -> Vec<String> {
    let listed = listed(crates);
    let (tables, (drawn, arrows)) = (tables(map), picture(map));
    let names: Names = tables.iter().flat_map(|(_, names)| names.clone()).collect();
    let mut faults = vec![];
    if tables != drawn {
        faults.push(format!("the tables have {tables:?}, and the picture {drawn:?}"));
    }
    let known: Names = listed.keys().cloned().collect();
    let mut sorted = names.clone();
    sorted.sort();
    if sorted != known {
        faults.push(format!("the tables have {sorted:?}, and crates.txt {known:?}"));
    }
    for (place, name) in names.iter().enumerate() {
        let above = &names[..place];
        let lower = listed.get(name).into_iter().flatten().filter(|other| !above.contains(other));
        faults.extend(lower.map(|other| format!("`{name}` depends on `{other}`, which does not stand above it")));
    }
    let due: BTreeSet<(String, String)> = listed
        .iter()
        .flat_map(|(name, others)| {
            let through = behind(name, &listed);
            others.iter().filter(move |other| !through.contains(*other)).map(|other| (name.clone(), other.clone()))
        })
        .collect();
    let told = |(from, to): &(String, String), fault: &str| format!("the picture {fault} {from} --> {to}");
    faults.extend(due.difference(&arrows).map(|arrow| told(arrow, "lacks")));
    faults.extend(arrows.difference(&due).map(|arrow| told(arrow, "has no use for")));
    faults
}

#[cfg(test)]
mod tests {
    use super::faults;

    const CRATES: &str = "# NAME: others\na:\nb: a\nc: a b io\n";
    const MAP: &str = "\
```mermaid
flowchart BT
    subgraph one[\"First\"]
        a; b
    end
    subgraph two[\"Second\"]
        c
    end
    b --> a
    c --> b
```

### First

| crate | holds |
|---|---|
| `a` | this |
| `b` | that |

### Second

| `c` | more |

### Others
";

    #[test]
    fn a_map_of_all_crates_has_no_fault() {
        assert_eq!(faults(MAP, CRATES), Vec::<String>::new());
    }

    #[test]
    fn each_fault_is_told() {
        let changes = [
            ("| `b` | that |\n", ""),
            ("| `a` | this |\n| `b` | that |\n", "| `b` | that |\n| `a` | this |\n"),
            ("a; b\n", "a\n"),
            ("\"Second\"", "\"Third\""),
            ("    c --> b\n", ""),
            ("c --> b\n", "c --> b & a\n"),
            ("b --> a\n", "a --> b\n"),
        ];
        for (old, new) in changes {
            assert!(MAP.contains(old) && !faults(&MAP.replacen(old, new, 1), CRATES).is_empty(), "{old:?}");
        }
        for crates in ["a:\nb: a\nc: b\nd:\n", "a:\nb: a\n", "a:\nb: a\nc: a\n"] {
            assert!(!faults(MAP, crates).is_empty(), "{crates:?}");
        }
    }
}
