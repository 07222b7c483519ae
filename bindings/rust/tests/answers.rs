//! The answers, and the other numbers of the C header, read from it where it is there.

use conguraha::{Answer, BLOCK, KEYS, MAX_BITS, MAX_BYTES, VERSION};
use std::error::Error;
use std::fs;
use std::path::Path;

/// The header, of the repository or of the place where the crate is installed.
fn header() -> Option<String> {
    let folder = Path::new(env!("CARGO_MANIFEST_DIR"));
    let places = ["../../include/conguraha.h", "../../../include/conguraha.h"];
    let header = places
        .iter()
        .find_map(|place| fs::read_to_string(folder.join(place)).ok());
    if header.is_none() {
        println!("passed over: no conguraha.h beside the crate");
    }
    header
}

/// What stands between the two, where the line has both.
fn between<'a>(line: &'a str, before: &str, after: &str) -> Option<&'a str> {
    let (_, rest) = line.split_once(before)?;
    rest.split_once(after).map(|(found, _)| found)
}

/// The header's answers, each with its number: a line is `CONGURAHA_ROOM = 8,`.
fn numbers(header: &str) -> Vec<(&str, usize)> {
    let body = between(header, "enum conguraha_answer {", "};").expect("the enum");
    body.lines().filter_map(number).collect()
}

fn number(line: &str) -> Option<(&str, usize)> {
    let (name, rest) = line.trim().strip_prefix("CONGURAHA_")?.split_once(" = ")?;
    let digits = rest.split(',').next()?;
    Some((name, digits.parse().ok()?))
}

/// The header's sentences, each with its answer's name.
fn sentences(header: &str) -> Vec<(&str, &str)> {
    let body = between(header, "switch (answer) {", "default:").expect("the switch");
    let names = body
        .lines()
        .filter_map(|line| between(line, "case CONGURAHA_", ":"));
    let texts = body
        .lines()
        .filter_map(|line| between(line, "return \"", "\";"));
    names.zip(texts).collect()
}

/// KEY_LENGTH for KeyLength.
fn in_capitals(name: &str) -> String {
    let mut capitals = String::new();
    for letter in name.chars() {
        if letter.is_uppercase() && !capitals.is_empty() {
            capitals.push('_');
        }
        capitals.push(letter.to_ascii_uppercase());
    }
    capitals
}

#[test]
fn answers_are_those_of_the_header() {
    let header = match header() {
        Some(header) => header,
        None => return,
    };
    let (numbers, sentences) = (numbers(&header), sentences(&header));
    assert_eq!(numbers.len(), 18);
    assert_eq!(sentences.len(), 18);
    for ((name, number), (of_name, sentence)) in numbers.iter().zip(&sentences) {
        assert_eq!(name, of_name);
        if *number == 0 {
            continue;
        }
        let answer = Answer::from_number(*number).expect("an answer");
        assert_eq!(in_capitals(&format!("{:?}", answer)), *name);
        assert_eq!(answer.number(), *number);
        assert_eq!(answer.to_string(), *sentence);
    }
    let known = (0..300).filter(|&number| Answer::from_number(number).is_some());
    assert_eq!(known.count(), 17);
}

#[test]
fn constants_are_those_of_the_header() {
    let header = match header() {
        Some(header) => header,
        None => return,
    };
    let defined = |name: &str| {
        let start = format!("#define CONGURAHA_{} ", name);
        let line = header
            .lines()
            .find(|line| line.starts_with(&start))
            .expect(name);
        line[start.len()..]
            .split_whitespace()
            .next()
            .expect(name)
            .to_string()
    };
    assert_eq!(defined("VERSION"), format!("\"{}\"", VERSION));
    assert_eq!(defined("BLOCK"), BLOCK.to_string());
    assert_eq!(defined("KEYS"), KEYS.to_string());
    assert_eq!(defined("MAX_BITS"), MAX_BITS.to_string());
    assert_eq!(defined("MAX_BYTES"), MAX_BYTES.to_string());
    assert_eq!(defined("MAX_UNITS"), "UINT64_MAX");
}

#[test]
fn an_answer_is_an_error() {
    let error: Box<dyn Error + Send + Sync> = Box::new(Answer::Room);
    assert_eq!(
        error.to_string(),
        "the output has too few bytes for what would be written"
    );
}
