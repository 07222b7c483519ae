//! The project's lists of calls, `lists/*.txt` of the repository, through this crate: each command
//! has to give the answer that stands below it. Where the folder is not there, as beside an
//! installed crate, nothing is compared.

mod common;
mod replay;

use replay::list::{commands, Command};
use replay::Replay;
use std::fs;
use std::path::{Path, PathBuf};

/// Of a hundred answers so many at least are to be compared. The safe calls make no session that
/// has done 2^32 units or more: what a list asks of one is passed over.
const LEAST: usize = 90;

/// The lists, by name.
fn lists() -> Vec<PathBuf> {
    let folder = Path::new(env!("CARGO_MANIFEST_DIR")).join("../../lists");
    let entries = fs::read_dir(folder).into_iter().flatten().flatten();
    let mut lists: Vec<PathBuf> = entries.map(|entry| entry.path()).collect();
    lists.retain(|path| {
        path.extension()
            .map_or(false, |extension| extension == "txt")
    });
    lists.sort();
    lists
}

/// Whether the answer came, and is the list's; `None` where the crate cannot tell.
fn agrees(replay: &mut Replay, command: &Command) -> Option<bool> {
    let came = replay.answer(command.line)?;
    let agrees = command.agrees(&came);
    if !agrees {
        println!(
            "    line {}: {} came, not {}",
            command.number,
            came,
            command.text()
        );
    }
    Some(agrees)
}

#[test]
fn lists_of_calls() {
    let lists = lists();
    if lists.is_empty() {
        println!("passed over: no lists beside the crate");
        return;
    }
    let (mut all, mut compared, mut wrong) = (0, 0, 0);
    for path in lists {
        let list = fs::read(&path).expect("a list");
        let mut replay = Replay::new();
        let commands = commands(&list);
        let answers: Vec<bool> = commands
            .iter()
            .filter_map(|command| agrees(&mut replay, command))
            .collect();
        let name = path.file_name().unwrap_or_default().to_string_lossy();
        println!(
            "{}: {} of {} answers compared",
            name,
            answers.len(),
            commands.len()
        );
        all += commands.len();
        compared += answers.len();
        wrong += answers.iter().filter(|&&agrees| !agrees).count();
    }
    println!(
        "lists: {} of {} answers compared, {} wrong",
        compared, all, wrong
    );
    assert_eq!(wrong, 0);
    assert!(
        compared * 100 >= all * LEAST,
        "too few answers were compared"
    );
}
