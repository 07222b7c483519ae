// A list of lines for the program replay, each with the answer that the reference gives. Tests make the lines.
use crate::answers::{shown, Replay};
use crate::arguments::{any_units, Feed};
use crate::direction::Direction;
use crate::hex::word;
use crate::process;
use crate::reference::{Mode, Session, OLDER_MAX_UNITS};
use crate::report::{equal, Outcome};
use crate::rng::Rng;

pub const PROGRAM: &str = "target/bin/replay";

pub struct Script {
    input: Vec<u8>,
    // of each line that prints, the line and its answer
    answered: Vec<(Vec<u8>, String)>,
    replay: Replay,
    // how often a feed led past the units of the older release
    pub crossed: usize,
}

fn first_word(line: &[u8]) -> &[u8] {
    line.split(|&b| b == b' ').next().unwrap_or(b"")
}

// A line as an error shows it.
fn start_of(line: &[u8]) -> String {
    let start = String::from_utf8_lossy(&line[..line.len().min(600)]).into_owned();
    format!("{start:?}, {} bytes", line.len())
}

impl Script {
    pub fn new() -> Script {
        Script {
            input: vec![],
            answered: vec![],
            replay: Replay::new(),
            crossed: 0,
        }
    }

    // Adds a line.
    pub fn line(&mut self, line: impl AsRef<[u8]>) {
        let line = line.as_ref();
        self.input.extend_from_slice(line);
        self.input.push(b'\n');
        if let Some(answer) = self.replay.answer(line) {
            self.answered.push((line.to_vec(), answer));
        }
    }

    // Adds a line whose answer is known from elsewhere: the reference has to give it too.
    pub fn known(&mut self, line: impl AsRef<[u8]>, answer: &str) -> Outcome {
        let before = self.count();
        self.line(&line);
        let came = self.answered.get(before).map_or("nothing", |a| &a.1);
        equal(|| start_of(line.as_ref()), answer, came)
    }

    // How many lines of it print; the next one is printed at this place.
    pub fn count(&self) -> usize {
        self.answered.len()
    }

    // The answers to a command.
    fn answers_to<'a>(&'a self, command: &'a str) -> impl Iterator<Item = &'a str> {
        let lines = self.answered.iter();
        lines
            .filter(move |(line, _)| first_word(line) == command.as_bytes())
            .map(|(_, answer)| answer.as_str())
    }

    pub fn lines_of(&self, command: &str) -> usize {
        self.answers_to(command).count()
    }

    // How many lines of a command have an answer whose first word is this.
    pub fn how_often(&self, command: &str, first: &str) -> usize {
        let first = first.as_bytes();
        self.answers_to(command)
            .filter(|answer| first_word(answer.as_bytes()) == first)
            .count()
    }

    // The session as the reference has it.
    pub fn now(&self) -> &Session {
        &self.replay.session
    }

    pub fn open(&mut self, mode: Mode, direction: Direction, n: usize, key: &[u8], iv: &[u8]) {
        let (mode, letter) = (mode.name(), direction.letter());
        let (key, iv) = (word(key), word(iv));
        self.line(format!("open {mode} {n} {letter} {key} {iv}"));
    }

    pub fn open_counter(
        &mut self,
        mode: Mode,
        direction: Direction,
        n: usize,
        m: usize,
        key: &[u8],
        iv: &[u8],
    ) {
        let (mode, letter) = (mode.name(), direction.letter());
        let (key, iv) = (word(key), word(iv));
        self.line(format!("open-counter {mode} {n} {m} {letter} {key} {iv}"));
    }

    // A session by hand, with the first `count` bytes of its round keys; those past them are 00.
    pub fn session(&mut self, session: &Session, count: usize) {
        let all = shown(session);
        let (fields, _) = all.rsplit_once(' ').expect("words");
        let keys = word(&session.schedule.keys[..count]);
        self.line(format!("session {fields} {keys}"));
    }

    pub fn feed(&mut self, feed: &Feed) {
        let before = self.now().units;
        self.line(format!(
            "feed {} {} {} {:02x} {}",
            feed.bits,
            feed.out.len(),
            feed.place,
            feed.out.first().unwrap_or(&0),
            word(&feed.input)
        ));
        let after = self.now().units;
        self.crossed += (before <= OLDER_MAX_UNITS && after > OLDER_MAX_UNITS) as usize;
    }

    // Some feeds, refused ones among them. Before some the count of units is set, often close to where feeds end,
    // before some the session is carried over, and before some it is kept or compared.
    pub fn some_feeds(&mut self, rng: &mut Rng, n: usize) {
        for _ in 0..3 + rng.below(9) {
            match rng.below(10) {
                0 | 1 => {
                    let m = self.now().m;
                    self.line(format!("units {}", any_units(rng, m)));
                }
                2 => self.line("carry"),
                3 => self.line(rng.pick(&["keep", "alike"])),
                _ => {}
            }
            self.feed(&Feed::any(rng, n));
        }
    }

    // Runs the lines and compares. The answer is what the program printed, line by line.
    pub fn run(&self) -> Result<Vec<String>, String> {
        let printed = process::lines(PROGRAM, &self.input)?;
        for (i, (line, answer)) in self.answered.iter().enumerate() {
            let came = printed.get(i).map_or("nothing", |l| l.as_str());
            let named = || format!("line {} that prints, {}", i + 1, start_of(line));
            equal(named, answer.as_str(), came)?;
        }
        equal(|| "lines".to_string(), self.count(), printed.len())?;
        Ok(printed)
    }
}
