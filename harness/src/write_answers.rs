// Writes the answers `#>` of list files anew, as the reference gives them; what is published, and all else, stays as it
// is. The exit status is 1 where a published answer is not the reference's, where an answer has no command before it,
// and where a file cannot be read or written.
#![allow(dead_code)]
mod answers;
mod direction;
mod fips197;
mod hex;
mod list_file;
mod reference;

use answers::Replay;
use list_file::{parts, Answer, Kind};
use std::{env, fs, io, process};

// A list with its answers as the reference gives them.
#[derive(Default)]
struct Rewritten {
    list: Vec<u8>,
    commands: usize,
    changed: usize,
    // with their lines
    errors: Vec<(usize, String)>,
}

impl Rewritten {
    fn of(list: &[u8]) -> Rewritten {
        let mut rewritten = Rewritten::default();
        let mut replay = Replay::new();
        for part in parts(list) {
            rewritten.line(part.text);
            match part.kind {
                Kind::Command(before) => {
                    let came = replay.answer(part.text).expect("a command has an answer");
                    rewritten.answer(part.line, before, &came);
                }
                Kind::Stray => {
                    let why = "an answer with no command before it";
                    rewritten.errors.push((part.line, why.to_string()));
                }
                Kind::Other => {}
            }
        }
        rewritten
    }

    fn line(&mut self, text: &[u8]) {
        self.list.extend_from_slice(text);
        self.list.push(b'\n');
    }

    // The answer of the command in this line: the one that stood there, and the reference's.
    fn answer(&mut self, line: usize, before: Option<Answer>, came: &str) {
        self.commands += 1;
        let agrees = before.map_or(false, |answer| answer.agrees(came));
        if let Some(Answer::Published(text)) = before {
            self.line(&[b"#= ", text].concat());
            if !agrees {
                let text = String::from_utf8_lossy(text);
                let why = format!("{text} is published, the reference answers {came}");
                self.errors.push((line, why));
            }
        } else {
            self.line(format!("#> {came}").as_bytes());
            self.changed += !agrees as usize;
        }
    }
}

// Whether the list is as it should be.
fn rewrite(path: &str) -> io::Result<bool> {
    let list = fs::read(path)?;
    let new = Rewritten::of(&list);
    for (line, why) in &new.errors {
        eprintln!("{path}:{line}: {why}");
    }
    if new.list != list {
        fs::write(path, &new.list)?;
    }
    println!(
        "{path}: {} commands, {} answers written anew",
        new.commands, new.changed
    );
    Ok(new.errors.is_empty())
}

fn main() {
    let mut good = true;
    for path in env::args().skip(1) {
        good &= rewrite(&path).unwrap_or_else(|why| {
            eprintln!("{path}: {why}");
            false
        });
    }
    process::exit(!good as i32);
}
