//! The library's functions are declared three times: in its source, in the
//! header for C and in `src/sys.rs`. A linker does not compare parameters, so a
//! declaration that drifts is caught here, by comparing the texts.

use std::collections::BTreeMap;
use std::fs;
use std::path::Path;

use nodhulika::{Refusal, LINE, LONGEST_FILE, LONGEST_PLACARD, MOST_ARMS};

/// Each function's parameters in order, as `name: type`, and last its answer. A
/// slice counts as its pointer and its length.
type Declared = BTreeMap<String, Vec<String>>;

/// A text of the repository.
fn text_of(path: &str) -> String {
    let path = Path::new(env!("CARGO_MANIFEST_DIR"))
        .join("../..")
        .join(path);
    fs::read_to_string(&path).unwrap_or_else(|error| panic!("{}: {error}", path.display()))
}

fn rattle() -> String {
    text_of("crates/nodhulika_c/src/lib.rt")
}

fn proved() -> String {
    text_of("crates/nodhulika/src/lib.rt")
}

fn header() -> String {
    text_of("include/nodhulika.h")
}

fn rust() -> String {
    text_of("rust/nodhulika/src/sys.rs")
}

/// The text without what stands behind `//` in its lines.
fn without_line_comments(text: &str) -> String {
    let code = |line| str::split(line, "//").next().unwrap_or_default();
    text.lines().map(code).collect::<Vec<_>>().join("\n")
}

/// The text without what stands from `/*` to `*/`.
fn without_block_comments(text: &str) -> String {
    let mut parts = text.split("/*");
    let first = parts.next().unwrap_or_default().to_owned();
    parts.fold(first, |code, part| {
        code + part.split_once("*/").expect("a comment ends").1
    })
}

/// `name(parameters) rest`, taken apart; the parameters with single spaces.
fn take_apart(text: &str) -> (String, Vec<String>, &str) {
    let (name, rest) = text.split_once('(').expect("parameters begin");
    let (inside, rest) = rest.split_once(')').expect("parameters end");
    let spaced = |parameter: &str| parameter.split_whitespace().collect::<Vec<_>>().join(" ");
    let parameters = inside
        .split(',')
        .map(spaced)
        .filter(|p| !p.is_empty())
        .collect();
    (name.trim().to_owned(), parameters, rest)
}

/// The type behind `->`, where the answer of a function stands.
fn answer_in(rest: &str) -> String {
    let answer = rest.trim_start().strip_prefix("->").expect("an answer");
    let ends = |c: char| c.is_whitespace() || c == ';' || c == '{';
    answer
        .trim_start()
        .split(ends)
        .next()
        .unwrap_or_default()
        .to_owned()
}

/// A parameter of the library's source, as C passes it.
fn passed(parameter: &str) -> Vec<String> {
    let (name, kind) = parameter.split_once(": ").expect("a name and a type");
    let pointer = match kind {
        "&[u8]" => "*const u8",
        "&mut [u8]" => "*mut u8",
        "&mut [i64]" => "*mut i64",
        "&mut u64" => return vec![format!("{name}: *mut u64")],
        _ => return vec![parameter.to_owned()],
    };
    vec![
        format!("{name}: {pointer}"),
        format!("{name}_length: usize"),
    ]
}

fn declared_in_rattle(text: &str) -> Declared {
    let mut declared = Declared::new();
    for function in without_line_comments(text)
        .split("pub extern \"C\" fn ")
        .skip(1)
    {
        let (name, parameters, rest) = take_apart(function);
        let mut all: Vec<String> = parameters.iter().flat_map(|p| passed(p)).collect();
        all.push(answer_in(rest));
        assert_eq!(declared.insert(name, all), None);
    }
    declared
}

fn declared_in_rust(text: &str) -> Declared {
    let code = without_line_comments(text);
    let blocks: Vec<&str> = code.split("extern \"C\" {").collect();
    let [_, block] = blocks[..] else {
        panic!("one block of declarations");
    };
    let (block, _) = block.split_once('}').expect("the block ends");
    let mut declared = Declared::new();
    for function in block.split("fn ").skip(1) {
        let (name, mut all, rest) = take_apart(function);
        all.push(answer_in(rest));
        assert_eq!(declared.insert(name, all), None);
    }
    declared
}

/// The name that Rust has for a type of the header.
fn rust_type(c_type: &str) -> &str {
    match c_type {
        "const uint8_t *" => "*const u8",
        "uint8_t *" => "*mut u8",
        "int64_t *" => "*mut i64",
        "uint64_t *" => "*mut u64",
        "size_t" => "usize",
        "double" => "f64",
        "uint64_t" => "u64",
        "int64_t" => "i64",
        _ => panic!("unknown type: {c_type}"),
    }
}

/// A parameter of the header, as Rust writes it.
fn rust_parameter(c_parameter: &str) -> String {
    let is_name = |c: char| c.is_ascii_alphanumeric() || c == '_';
    let c_type = c_parameter.trim_end_matches(is_name);
    let name = &c_parameter[c_type.len()..];
    format!("{name}: {}", rust_type(c_type.trim_end()))
}

/// The header's prototypes, each of which is marked.
fn declared_in_header(text: &str) -> Declared {
    let code = without_block_comments(text);
    let plain: Vec<&str> = code.lines().filter(|line| !line.starts_with('#')).collect();
    let mut declared = Declared::new();
    for prototype in plain.join("\n").split("NODHULIKA_MUST_USE").skip(1) {
        let (head, parameters, _) = take_apart(prototype);
        let (answer, name) = head.split_once(' ').expect("an answer and a name");
        let mut all: Vec<String> = parameters.iter().map(|p| rust_parameter(p)).collect();
        all.push(rust_type(answer).to_owned());
        assert_eq!(declared.insert(name.to_owned(), all), None);
    }
    declared
}

/// What each function of the library asks and promises, line by line.
fn promised(text: &str) -> BTreeMap<String, Vec<&str>> {
    let functions = text.split("fn nodhulika_").skip(1);
    functions
        .map(|function| {
            let (name, _) = function.split_once('(').expect("parameters begin");
            let head = function.lines().take_while(|line| *line != "{");
            let clause = |line: &&str| {
                let line = line.trim_start();
                line.starts_with("requires") || line.starts_with("ensures")
            };
            (name.to_owned(), head.filter(clause).collect())
        })
        .collect()
}

/// The exports call the proved functions; that they promise the same is their
/// texts' affair, since no proof can rest on a static library.
#[test]
fn the_exports_promise_what_is_proved() {
    let (exports, proved) = (rattle(), proved());
    let promises = promised(&exports);
    assert_eq!(promises.len(), 13);
    assert!(promises.values().all(|clauses| !clauses.is_empty()));
    assert_eq!(promises, promised(&proved));
}

#[test]
fn all_three_declare_the_same() {
    let exported = declared_in_rattle(&rattle());
    assert_eq!(exported.len(), 13, "{exported:?}");
    assert_eq!(declared_in_header(&header()), exported);
    assert_eq!(declared_in_rust(&rust()), exported);
}

/// Tries edits that no linker would see, each as the text before and after.
fn caught(text: &str, read: impl Fn(&str) -> Declared, edits: &[(&str, &str)]) {
    for (before, after) in edits {
        let drifted = text.replacen(before, after, 1);
        assert_ne!(drifted, text, "{before} does not stand there");
        assert_ne!(read(&drifted), read(text), "{after} is not caught");
    }
}

#[test]
fn a_header_that_drifts_is_caught() {
    let in_header = [
        ("uint64_t m, uint64_t p", "uint64_t p, uint64_t m"),
        ("uint64_t p2, uint64_t q2", "uint64_t q2, uint64_t p2"),
        (
            "double p_rated, double p_zero",
            "double p_zero, double p_rated",
        ),
        ("double q2_zero", "uint64_t q2_zero"),
        ("const uint8_t *q2", "uint8_t *q2"),
        ("int64_t c, int64_t arm", "int64_t c, uint64_t arm"),
        (
            "int64_t lower, int64_t higher",
            "int64_t higher, int64_t lower",
        ),
        ("const uint8_t *file", "uint8_t *file"),
        (", size_t out_length", ""),
        ("int64_t *weights", "uint64_t *weights"),
        ("int64_t *arms", "int64_t *stations"),
        ("uint64_t *count", "int64_t *count"),
        ("uint64_t nodhulika_undo", "int64_t nodhulika_undo"),
    ];
    caught(&header(), declared_in_header, &in_header);
}

#[test]
fn declarations_in_rust_that_drift_are_caught() {
    let in_rust = [
        ("front_least: u64", "front_most: u64"),
        ("a: i64", "a: u64"),
        ("p2: u64", "q2: u64"),
        ("lower: i64, higher: i64", "higher: i64, lower: i64"),
        ("q_zero: f64", "q_zero: u64"),
        ("q2_length: usize", "q_length: usize"),
        ("answer: *mut u8", "answer: *const u8"),
        ("weights_length: usize", "weights_length: u64"),
        ("count: *mut u64", "count: u64"),
        ("fn nodhulika_undo(", "fn nodhulika_redo("),
    ];
    caught(&rust(), declared_in_rust, &in_rust);
}

#[test]
fn a_source_that_drifts_is_caught() {
    let in_rattle = [
        ("file: &[u8]", "file: &mut [u8]"),
        ("arm: i64, flag: u64", "flag: u64, arm: i64"),
        ("flag: u64) -> u64", "flag: u64) -> i64"),
        ("lower: i64, higher: i64", "lower: i64, higher: u64"),
        ("p2_rated: f64", "p2_rated: u64"),
        ("q2: &[u8]", "q2: &mut [u8]"),
        ("weights: &mut [i64]", "weights: &mut [u8]"),
        ("count: &mut u64", "count: u64"),
    ];
    caught(&rattle(), declared_in_rattle, &in_rattle);
}

/// What the header has a name stand for, as `#define NAME 1` or `NAME = 1`.
fn number_in_header(name: &str) -> Option<u64> {
    let code = without_block_comments(&header());
    let mut words = code.split(|c: char| c.is_whitespace() || c == ',' || c == '=');
    words.find(|word| *word == name)?;
    words.find(|word| !word.is_empty())?.parse().ok()
}

/// `NonLifting` as the header writes it, `NODHULIKA_NON_LIFTING`.
fn name_in_header(refusal: Refusal) -> String {
    let mut name = String::from("NODHULIKA");
    for c in format!("{refusal:?}").chars() {
        if c.is_uppercase() {
            name.push('_');
        }
        name.push(c.to_ascii_uppercase());
    }
    name
}

#[test]
fn the_header_has_the_same_numbers() {
    assert_eq!(number_in_header("NODHULIKA_OK"), Some(0));
    for refusal in Refusal::ALL {
        assert_eq!(
            number_in_header(&name_in_header(refusal)),
            Some(refusal.number())
        );
    }
    for (name, size) in [
        ("NODHULIKA_LONGEST_FILE", LONGEST_FILE),
        ("NODHULIKA_LINE", LINE),
        ("NODHULIKA_LONGEST_PLACARD", LONGEST_PLACARD),
        ("NODHULIKA_ANSWER", 24),
        ("NODHULIKA_MOST_ARMS", MOST_ARMS),
    ] {
        assert_eq!(number_in_header(name), Some(size as u64), "{name}");
    }
}

/// What a constant of a crate's source stands for.
fn constant_in(path: &str, name: &str) -> Option<usize> {
    let text = text_of(path);
    let (_, rest) = text.split_once(&format!("pub const {name}: usize = "))?;
    rest.split(';').next()?.replace('_', "").parse().ok()
}

/// The sources prove of these that no file and no placard is longer and no equipment
/// has more arms, and that one has just that length (`file::longest`,
/// `plate::longest`) or as many.
#[test]
fn the_longest_are_those_that_are_promised() {
    for (path, name, size) in [
        ("crates/file/src/lib.rt", "LONGEST", LONGEST_FILE),
        ("crates/plate/src/lib.rt", "LONGEST", LONGEST_PLACARD),
        ("crates/inventory/src/lib.rt", "MOST", MOST_ARMS),
    ] {
        assert_eq!(constant_in(path, name), Some(size), "{path}");
    }
}
