//! The samples in examples/: the files are what `sample-bundle` makes, and the lines are what is printed.

use std::fs;
use std::path::Path;

use checks::judges::Judge;
use checks::sample_bundle;
use second::names::name;

fn example(name: &str) -> Vec<u8> {
    let path = Path::new(env!("CARGO_MANIFEST_DIR")).join("../../examples").join(name);
    fs::read(&path).unwrap_or_else(|error| panic!("{}: {error}", path.display()))
}

#[test]
fn the_files_are_what_the_program_makes() {
    let (bundle, lines) = sample_bundle::made();
    let again = "`cargo run --release -p checks --bin sample-bundle -- ../examples` in host/ makes it anew";
    let (messages, printed) = sample_bundle::service();
    let files = [
        ("sample.bundle", bundle),
        ("sample.txt", lines.into_bytes()),
        ("firmware.in", messages.into_bytes()),
        ("firmware.txt", printed.into_bytes()),
    ];
    for (name, made) in files {
        assert!(example(name) == made, "examples/{name} is another one: {again}");
    }
}

#[test]
fn the_second_program_prints_its_lines() {
    let printed = second::bundle::lines(&example("sample.bundle"));
    assert_eq!(String::from_utf8_lossy(&printed), String::from_utf8_lossy(&example("sample.txt")));
}

#[test]
fn the_proved_program_prints_its_lines() {
    let lines = String::from_utf8(example("sample.txt")).expect("lines of text");
    Judge::new("sample").expect(&example("sample.bundle"), &lines);
}

#[test]
fn it_has_every_answer_of_verify() {
    let lines = String::from_utf8(example("sample.txt")).expect("lines of text");
    assert!(lines.lines().any(|line| line == "allow"));
    for number in 1..=21 {
        let line = format!("deny {}", name(number).expect("a name for each answer of verify"));
        assert!(lines.lines().any(|printed| printed == line), "{line} is missing");
    }
}
