//! What a text cites: a backquoted `path/from/root.antt:name` (also .rt or .rs) is a name that the file declares, and a
//! backquoted `path/from/root.edit` is a file. In a table whose columns are called so, a name stands in the column of its
//! kind.

/// What a name is: the columns of a table of promises, behind the promise.
const COLUMNS: [&str; 4] = ["definition", "contract", "theorem", "test"];

/// The number of citations in a text, and its faults. `read` gives a file's text by its path.
pub fn check(text: &str, read: impl Fn(&str) -> Option<String>) -> (usize, Vec<String>) {
    let (mut citations, mut faults, mut fenced) = (0, vec![], false);
    let mut in_columns = false;
    for line in text.lines() {
        in_columns = line.starts_with('|') && (in_columns || cells(line).skip(1).eq(COLUMNS));
        if in_columns {
            faults.extend(misplaced(line, &read));
        }
        let fence = line.trim_start().starts_with("```");
        fenced ^= fence;
        if fence || fenced {
            continue;
        }
        if line.matches('`').count() % 2 == 1 {
            faults.push(format!("{line}: a backquote is left open"));
        }
        for citation in quoted(line).filter(|text| is_meant(text)) {
            citations += 1;
            if let Some(fault) = fault(citation, &read) {
                faults.push(format!("{citation}: {fault}"));
            }
        }
    }
    if fenced {
        faults.push("a fenced block is left open".to_string());
    }
    (citations, faults)
}

/// The cells of a table's row.
fn cells(row: &str) -> impl Iterator<Item = &str> {
    row.trim().trim_matches('|').split('|').map(str::trim)
}

fn quoted(text: &str) -> impl Iterator<Item = &str> {
    text.split('`').skip(1).step_by(2)
}

/// The faults of a row in a table of promises: it has five cells, cites something, and each name is of its column's kind.
fn misplaced(row: &str, read: impl Fn(&str) -> Option<String>) -> Vec<String> {
    let cells: Vec<&str> = cells(row).collect();
    let promise = cells[0];
    if promise == "promise" || promise.starts_with("---") {
        return vec![];
    }
    if cells.len() != 1 + COLUMNS.len() || cells[1..].iter().all(|cell| cell.is_empty()) {
        return vec![format!("{promise}: not a promise and {COLUMNS:?}, one of them at least filled")];
    }
    let cited = cells[1..].iter().zip(COLUMNS).flat_map(|(cell, column)| quoted(cell).map(move |name| (name, column)));
    let wrong = cited.filter(|(citation, column)| kind(citation, &read).is_some_and(|kind| kind != *column));
    wrong.map(|(citation, column)| format!("{citation}: no {column}")).collect()
}

/// The column that a citation belongs in, where the name is found: a type, a constant, a record or a definition that
/// unfolds says what is meant, a function has a contract, any other declaration of antt is a theorem.
fn kind(citation: &str, read: impl Fn(&str) -> Option<String>) -> Option<&'static str> {
    let (path, name) = citation.split_once(':')?;
    let text = read(path)?;
    let declares = |test: &dyn Fn(&str) -> bool| text.lines().any(test);
    Some(match path.rsplit_once('.')?.1 {
        "rs" => "test",
        "rt" if declares(&|line| has_item(line, &["fn"], name)) => "contract",
        "rt" => "definition",
        "antt" if declares(&|line| antt_declares(line, name) && defines(line)) => "definition",
        "antt" => "theorem",
        _ => return None,
    })
}

/// Whether a declaration of antt is that of a definition.
fn defines(line: &str) -> bool {
    let mut words = line.split_whitespace();
    words.any(|word| ["unfoldable", "abbrev", "data", "record"].contains(&word))
}

/// Whether a quoted text is meant as a citation: it begins with a source file, or has the form of a path and a name.
fn is_meant(quoted: &str) -> bool {
    let path = quoted.split(':').next().unwrap_or_default();
    [".antt", ".rt", ".rs", ".edit"].iter().any(|ending| path.ends_with(ending))
        || (quoted.contains('/') && quoted.contains(':') && !quoted.contains(' '))
}

fn fault(citation: &str, read: impl Fn(&str) -> Option<String>) -> Option<&'static str> {
    let (path, name) = match citation.split_once(':') {
        Some((path, name)) => (path, Some(name)),
        None => (citation, None),
    };
    let ending = path.rsplit_once('.').map_or("", |(_, ending)| ending);
    let declares: fn(&str, &str) -> bool = match (ending, name) {
        ("antt", Some(_)) => antt_declares,
        ("rt", Some(_)) => |line, name| has_item(line, &["fn", "enum", "struct", "const"], name),
        ("rs", Some(_)) => |line, name| has_item(line, &["fn"], name),
        ("edit", None) => |_, _| true,
        _ => return Some("not a citation"),
    };
    let Some(text) = read(path) else {
        return Some("no such file");
    };
    let declared = text.lines().any(|line| declares(line, name.unwrap_or_default()));
    (!declared).then_some("the file declares no such name")
}

/// `fn name` and the like, outside a comment.
fn has_item(line: &str, kinds: &[&str], name: &str) -> bool {
    let code = line.split("//").next().unwrap_or_default();
    let words: Vec<&str> = code.split(|c: char| !c.is_alphanumeric() && c != '_').collect();
    words.windows(2).any(|pair| kinds.contains(&pair[0]) && pair[1] == name)
}

/// `data name`, `record name`, or `name :` with parameters in brackets before the colon or none, after the marks of a
/// declaration.
fn antt_declares(line: &str, name: &str) -> bool {
    let mut rest = line.trim_start();
    while let Some(unmarked) = strip_word(rest, &["unfoldable ", "abbrev ", "pub "]) {
        rest = unmarked;
    }
    let typed = strip_word(rest, &["data ", "record "]);
    let Some(after) = typed.unwrap_or(rest).strip_prefix(name) else {
        return false;
    };
    let mut depth = 0;
    let next = after.chars().find(|&c| {
        depth += i32::from("({".contains(c)) - i32::from(")}".contains(c));
        depth == 0 && !") }".contains(c)
    });
    after.starts_with(' ') && (typed.is_some() || next == Some(':'))
}

fn strip_word<'a>(line: &'a str, words: &[&str]) -> Option<&'a str> {
    words.iter().find_map(|word| line.strip_prefix(word))
}

#[cfg(test)]
mod tests {
    use super::check;

    const SPECS: &str = "\
-- lost : a comment
unfoldable pub size : List ℕ → ℕ
size xs = length {A = ℕ} xs
abbrev pub outcome {ℓ} (v : Verdict) : Type ℓ
applied (x : ℕ) = 0
pub data Row : Type 0 where
  _⇒_ : Bool → Refusal → Row
pub record IsFirst (rows : List Row) : Type 0 where
  pub before : List Row
first-refuses :
    (rows : List Row) → Type 0
";

    const CODE: &str = "\
// fn lost() is no more
pub extern \"C\" fn a_call(x: u32) -> u32
pub enum Reading {
struct Entry {
    pub const UNIT: u64 = 256;
    call(x)
";

    fn read(path: &str) -> Option<String> {
        let text = match path {
            "a/Specs.antt" => SPECS,
            "a/lib.rt" => CODE,
            "a/test.rs" => "#[test]\nfn every_case() {}\nconst LIMIT: u32 = 3;\n",
            "a/wrong.edit" => "file: src/lib.rt\n",
            _ => return None,
        };
        Some(text.to_string())
    }

    #[test]
    fn what_is_there_is_no_fault() {
        let text = "\
| `a/Specs.antt:size` | `a/Specs.antt:outcome`, `a/Specs.antt:Row`, `a/Specs.antt:_⇒_` |
`a/Specs.antt:IsFirst` `a/Specs.antt:before` `a/Specs.antt:first-refuses`
`a/lib.rt:a_call` `a/lib.rt:Reading` `a/lib.rt:Entry` `a/lib.rt:UNIT`
`a/test.rs:every_case`, `a/wrong.edit`; no citations: `r ≡ a / b`, `Reading::intake`, `docs/`
```
`a/none.rt:fenced`
```
";
        assert_eq!(check(text, read), (13, vec![]));
    }

    fn assert_fault(citation: &str, fault: &str) {
        let told = check(&format!("see `{citation}`."), read);
        assert_eq!(told, (1, vec![format!("{citation}: {fault}")]));
    }

    const TABLE: &str = "\
| promise | definition | contract | theorem | test |
|---|---|---|---|---|
| sizes | `a/Specs.antt:size`, `a/Specs.antt:Row`, `a/lib.rt:UNIT` | `a/lib.rt:a_call` | `a/Specs.antt:first-refuses` | |
| cases | | | | `a/test.rs:every_case` |

| wrong | edit |
|---|---|
| `a/test.rs:every_case` | `a/wrong.edit` |
";

    #[test]
    fn each_name_in_its_column_is_no_fault() {
        assert_eq!(check(TABLE, read), (8, vec![]));
    }

    #[test]
    fn a_name_in_another_column_is_told() {
        for (citation, other) in [
            ("`a/Specs.antt:size`", "`a/Specs.antt:first-refuses`"),
            ("`a/Specs.antt:Row`", "`a/lib.rt:a_call`"),
            ("`a/lib.rt:a_call`", "`a/lib.rt:Reading`"),
            ("`a/Specs.antt:first-refuses`", "`a/Specs.antt:IsFirst`"),
            ("`a/test.rs:every_case` |\n\n", "`a/Specs.antt:size` |\n\n"),
            ("| | | | `a/test.rs:every_case` |", "| | | | |"),
            ("| | | | `a/test.rs:every_case` |", "| `a/test.rs:every_case` |"),
        ] {
            assert!(TABLE.contains(citation), "{citation}");
            let (_, faults) = check(&TABLE.replacen(citation, other, 1), read);
            assert_eq!(faults.len(), 1, "{citation} {other}: {faults:?}");
        }
    }

    #[test]
    fn a_missing_file_is_told() {
        for citation in ["a/None.antt:size", "a/none.edit", "../a/lib.rt:a_call"] {
            assert_fault(citation, "no such file");
        }
    }

    #[test]
    fn a_missing_name_is_told() {
        for name in ["lost", "siz", "xs", "applied", "first", "List", " size", ""] {
            assert_fault(&format!("a/Specs.antt:{name}"), "the file declares no such name");
        }
        for name in ["lost", "call", "x", "size", " a_call", ""] {
            assert_fault(&format!("a/lib.rt:{name}"), "the file declares no such name");
        }
        for name in ["every", "LIMIT"] {
            assert_fault(&format!("a/test.rs:{name}"), "the file declares no such name");
        }
    }

    #[test]
    fn a_citation_out_of_form_is_told() {
        for citation in ["a/lib.rt", "a/wrong.edit:name", "a/lib:a_call", "a/Specs.txt:size"] {
            assert_fault(citation, "not a citation");
        }
        let (_, faults) = check("see `a/test.rs:every_\ncase`", read);
        assert_eq!(faults.len(), 3, "cut by the end of a line: {faults:?}");
        let (_, faults) = check("```\n`a/none.rt:hidden`", read);
        assert_eq!(faults.len(), 1, "hidden by an open fence: {faults:?}");
    }
}
