//! The header for C: it compiles without a warning, its inline functions are
//! right, and the examples for C print what they should. And the archive, which calls
//! nothing outside of itself.

use std::env;
use std::path::Path;
use std::process::{Command, Output};

/// Compiles a C program of the repository against the archive, and runs it.
fn run(source: &str, name: &str) -> Output {
    let repository = Path::new(env!("CARGO_MANIFEST_DIR")).join("../..");
    let program = Path::new(env!("CARGO_TARGET_TMPDIR")).join(name);
    let compiler = env::var("CC").unwrap_or_else(|_| "cc".into());
    let compiled = Command::new(&compiler)
        .args(["-std=c99", "-Wall", "-Wextra", "-pedantic", "-Werror"])
        .arg("-I")
        .arg(repository.join("include"))
        .arg(repository.join(source))
        .arg(env!("NODHULIKA_ARCHIVE"))
        .arg("-o")
        .arg(&program)
        .status();
    let compiled = compiled.unwrap_or_else(|error| panic!("{compiler}: {error}"));
    assert!(compiled.success(), "{source} does not compile");
    Command::new(&program).output().expect("the program runs")
}

#[test]
fn its_inline_functions_are_right() {
    let output = run("rust/nodhulika/tests/header.c", "header");
    assert!(
        output.status.success(),
        "{}",
        String::from_utf8_lossy(&output.stderr)
    );
}

#[test]
fn the_example_prints_its_plates() {
    let output = run("examples/plate.c", "plate");
    assert!(
        output.status.success(),
        "{}",
        String::from_utf8_lossy(&output.stderr)
    );
    let plates = "\
as weighed: 288000 g, centre of gravity 63334
0000.000 0000.000 0071.000 0092.000
0000.000 0050.000 0071.000 0092.000
0000.000 0100.000 -------- --------
with the part: 292500 g, centre of gravity 60821
0000.000 0000.000 0064.000 0087.000
0000.000 0050.000 0064.000 0087.000
0000.000 0100.000 -------- --------
taken back: 288000 g, centre of gravity 63334
0000.000 0000.000 0071.000 0092.000
0000.000 0050.000 0071.000 0092.000
0000.000 0100.000 -------- --------
weighed twice: 288000.5 g, centre of gravity 63334
0000.000 0000.000 0071.000 0091.000
0000.000 0050.000 0071.000 0091.000
0000.000 0100.000 -------- --------
the record's file has 119 bytes
";
    assert_eq!(String::from_utf8_lossy(&output.stdout), plates);
}

#[test]
fn the_example_with_an_indicator_prints_what_came_of_it() {
    let output = run("examples/indicator.c", "indicator");
    assert!(
        output.status.success(),
        "{}",
        String::from_utf8_lossy(&output.stderr)
    );
    let lines = "\
not at rest: read again
total 310200 g
moment 19336900000 g x 0.01 mm
centre of gravity 62337 x 0.01 mm
the record's file has 36 bytes
";
    assert_eq!(String::from_utf8_lossy(&output.stdout), lines);
}

/// A handheld may have no C library: not even what compilers call by themselves,
/// as `memcpy`.
#[test]
fn the_archive_calls_nothing() {
    let output = Command::new("nm")
        .args(["--undefined-only", env!("NODHULIKA_ARCHIVE")])
        .output()
        .expect("nm runs, which comes with the C compiler");
    assert!(output.status.success());
    let listed = String::from_utf8_lossy(&output.stdout);
    let calls: Vec<&str> = listed.lines().filter(|line| line.contains(" U ")).collect();
    assert!(calls.is_empty(), "{calls:?}");
}
