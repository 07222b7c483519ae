// The lists of calls in the folder lists, each through the program replay and through the reference: both have to give
// each command's answer, and the same one, also where only a part of it is published.
use crate::answers::Replay;
use crate::list_file::{commands, parts, Answer, Kind};
use crate::process;
use crate::report::{equal, Outcome, Report};
use crate::script::PROGRAM;
use std::fs;

const FOLDER: &str = "lists";

// The files that have to be there, and no other.
const NAMES: &[&str] = &[
    "alike.txt",
    "blocks.txt",
    "bytes.txt",
    "carry.txt",
    "counters.txt",
    "fips197.txt",
    "forecast.txt",
    "lines.txt",
    "modes.txt",
    "padding.txt",
    "places.txt",
    "rfc3962.txt",
    "sessions.txt",
    "sp800-38a.txt",
    "stealing.txt",
];

pub fn run(report: &mut Report) {
    let mut total = 0;
    match files() {
        Ok(files) => {
            for (path, list) in files {
                let count = commands(&list);
                total += count;
                report.test(&format!("{path}: {count} commands"), |_| {
                    compare(&path, &list)
                });
            }
        }
        Err(why) => report.test("the lists are there", |_| Err(why)),
    }
    println!("the lists have {total} commands in all");
}

// Each file's path and bytes, by name.
fn files() -> Result<Vec<(String, Vec<u8>)>, String> {
    let failed = |why| format!("{FOLDER}: {why}");
    let mut names = vec![];
    for entry in fs::read_dir(FOLDER).map_err(failed)? {
        names.push(entry.map_err(failed)?.file_name());
    }
    names.sort();
    if names != NAMES {
        return Err(format!("{FOLDER}: {NAMES:?} are expected, {names:?} came"));
    }
    let path = |name| format!("{FOLDER}/{name}");
    NAMES
        .iter()
        .map(|name| Ok((path(name), fs::read(path(name)).map_err(failed)?)))
        .collect()
}

// The list as the program gets it: without its answers.
fn unanswered(list: &[u8]) -> Vec<u8> {
    let texts = parts(list).into_iter().map(|part| part.text);
    texts.flat_map(|text| [text, b"\n"].concat()).collect()
}

fn compare(path: &str, list: &[u8]) -> Outcome {
    if commands(list) == 0 {
        return Err(format!("{path} has no command"));
    }
    let mut reference = Replay::new();
    let mut printed = process::lines(PROGRAM, &unanswered(list))?.into_iter();
    for part in parts(list) {
        let at = |why: &str| Err(format!("{path}:{}: {why}", part.line));
        let answer = match part.kind {
            Kind::Command(Some(answer)) => answer,
            Kind::Command(None) => return at("a command without its answer"),
            Kind::Stray => return at("an answer with no command before it"),
            Kind::Other => continue,
        };
        let came = printed.next().unwrap_or_else(|| "no line".to_string());
        agree(answer, "replay", &came).or_else(|why| at(&why))?;
        let expected = reference.answer(part.text).unwrap_or_default();
        agree(answer, "the reference", &expected).or_else(|why| at(&why))?;
        equal(|| format!("{path}:{}", part.line), expected, came)?;
    }
    match printed.next() {
        None => Ok(()),
        Some(more) => Err(format!(
            "{path}: replay goes on after its last answer: {more}"
        )),
    }
}

fn agree(answer: Answer, who: &str, came: &str) -> Outcome {
    if answer.agrees(came) {
        return Ok(());
    }
    Err(format!(
        "{} is expected, {who} answers {came}",
        answer.text()
    ))
}
