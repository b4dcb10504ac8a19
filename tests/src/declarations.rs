//! The functions that Rattle sources export, as C declares them, and the functions that a C header declares.

/// C's declarations of the functions that a source exports: a slice is passed as a pointer and its length.
pub fn exported(source: &str) -> Vec<String> {
    let heads = source.split("\npub extern \"C\" fn ").skip(1);
    heads
        .map(|head| declaration(head).unwrap_or_else(|| panic!("an exported function is out of form: {head}")))
        .collect()
}

/// The declaration for `name(parameter: type, ..) -> type` and what follows it.
fn declaration(head: &str) -> Option<String> {
    let (name, rest) = head.split_once('(')?;
    let (parameters, rest) = rest.split_once(") -> ")?;
    let answer = rest.split_whitespace().next()?;
    let parameters = parameters.split(',').map(str::trim).filter(|parameter| !parameter.is_empty());
    let parameters: Option<Vec<String>> = parameters.map(|parameter| passed(parameter.split_once(": ")?)).collect();
    Some(format!("{} {name}({})", c_type(answer)?, parameters?.join(", ")))
}

/// A parameter, or the two that a slice is passed as.
fn passed((name, its_type): (&str, &str)) -> Option<String> {
    let slice = |elements: &str| elements.strip_prefix('[')?.strip_suffix(']').and_then(c_type);
    if let Some(lent) = its_type.strip_prefix("&mut ") {
        return match slice(lent) {
            Some(element) => Some(format!("{element} *{name}, size_t {name}_len")),
            None => Some(format!("{} *{name}", c_type(lent)?)),
        };
    }
    match its_type.strip_prefix('&') {
        Some(read) => Some(format!("const {} *{name}, size_t {name}_len", slice(read)?)),
        None => Some(format!("{} {name}", c_type(its_type)?)),
    }
}

fn c_type(name: &str) -> Option<&'static str> {
    Some(match name {
        "u8" => "uint8_t",
        "u32" => "uint32_t",
        "i32" => "int32_t",
        "u64" => "uint64_t",
        "usize" => "size_t",
        "f32" => "float",
        "Entry" => "struct matcher_entry",
        "Answer" => "struct matcher_answer",
        _ => return None,
    })
}

/// The functions that a header declares, each on one line with single spaces.
pub fn declared(header: &str) -> Vec<String> {
    let code: String =
        without_comments(header).lines().filter(|line| !line.starts_with('#')).collect::<Vec<_>>().join(" ");
    let words = |statement: &str| statement.split_whitespace().collect::<Vec<_>>().join(" ");
    code.split(';').filter(|statement| statement.contains('(')).map(words).collect()
}

/// The name of a function that is declared on one line.
pub fn name_of(declaration: &str) -> String {
    let (before, _) = declaration.split_once('(').expect("it has parameters");
    before.rsplit([' ', '*']).next().expect("it has a name").to_string()
}

pub fn without_comments(text: &str) -> String {
    let mut pieces = text.split("/*");
    let code = pieces.next().unwrap_or_default().to_string();
    pieces.fold(code, |code, piece| code + piece.split_once("*/").expect("a comment ends").1)
}

#[cfg(test)]
mod tests {
    use super::{declared, exported};

    #[test]
    fn an_exported_function_is_declared_as_c_does() {
        let source = "\
// pub extern \"C\" fn not_this(x: u32) -> u32
#[no_mangle]
pub extern \"C\" fn all(d: usize, v: f32, a: &[i32], b: &mut [u8], c: &mut u64) -> u32
    ensures { λ r. ⌜ r ≡ 0 ⌝ }
{
    0
}
fn inner(x: u32) -> u32 {
    x
}
#[no_mangle]
pub extern \"C\" fn long(
    x: u32,
) -> usize
{
";
        let all =
            "uint32_t all(size_t d, float v, const int32_t *a, size_t a_len, uint8_t *b, size_t b_len, uint64_t *c)";
        assert_eq!(exported(source), [all, "size_t long(uint32_t x)"]);
    }

    #[test]
    #[should_panic(expected = "out of form")]
    fn a_type_that_c_has_no_name_for_is_told() {
        exported("\npub extern \"C\" fn f(x: &Reading) -> u32\n");
    }

    #[test]
    fn a_header_declares_its_functions() {
        let header = "\
/* f(x) is
 * no declaration; */
#define TWICE(x) ((x) + (x))
extern \"C\" {
enum e { A = 0, /* (a) */ B };
uint32_t f(uint32_t x,
           size_t y);
/* another */
size_t g(size_t x);
}
";
        assert_eq!(declared(header), ["uint32_t f(uint32_t x, size_t y)", "size_t g(size_t x)"]);
    }
}
