// What the program replay must print for each line of its input: the commands that stand at the head of
// crates/replay/src/main.rt, over the reference.
use crate::direction::Direction;
use crate::fips197::Schedule;
use crate::hex::{self, hex, word};
use crate::reference::{self, Mode, Session, MAX_BITS, MODES, OLDER_MAX_UNITS};
use std::slice::Split;

// The bytes that INPUT, TEXT and OUTLEN have at most, and those of the longest line.
pub const MAX_BYTES: usize = MAX_BITS / 8 + 64;
pub const MAX_LINE: usize = 2 * MAX_BYTES + 1920;

// A command reads its words in their order and gives the line that is printed. None: a word is bad, and `?` is printed.
type Command = fn(&mut Replay, &mut Words) -> Option<String>;

const COMMANDS: &[(&str, Command)] = &[
    ("open", Replay::open),
    ("open-counter", Replay::open_counter),
    ("session", Replay::session),
    ("show", Replay::show),
    ("feed", Replay::feed),
    ("units", Replay::units),
    ("carry", Replay::carry),
    ("keep", Replay::keep),
    ("alike", Replay::alike),
    ("forecast", forecast),
    ("place", place),
    ("pad", pad),
    ("unpad", unpad),
    ("neighbour", neighbour),
    ("block", block),
    ("steal", steal),
    ("expand", expand),
    ("encrypt", encrypt),
    ("decrypt", decrypt),
];

// The names of all commands.
pub fn names() -> Vec<&'static str> {
    COMMANDS.iter().map(|command| command.0).collect()
}

// What stays from line to line. Both sessions are a refused opening's at first; `alike` compares with the one that is
// kept.
#[derive(Clone)]
pub struct Replay {
    pub session: Session,
    kept: Session,
}

impl Replay {
    pub fn new() -> Replay {
        Replay {
            session: Session::refused(),
            kept: Session::refused(),
        }
    }

    // The line that is printed for this one, both without their line feeds. None for an empty line and for a comment,
    // which print nothing.
    pub fn answer(&mut self, line: &[u8]) -> Option<String> {
        match line.first() {
            None | Some(b'#') => None,
            Some(_) => Some(self.run(line).unwrap_or_else(|| "?".to_string())),
        }
    }

    // A command changes a copy, which is kept where the line is good up to its end.
    fn run(&mut self, line: &[u8]) -> Option<String> {
        if line.len() > MAX_LINE {
            return None;
        }
        let mut words = Words::of(line);
        let name = words.next()?;
        let (_, command) = COMMANDS.iter().find(|c| c.0.as_bytes() == name)?;
        let mut changed = self.clone();
        let answer = command(&mut changed, &mut words)?;
        words.end()?;
        *self = changed;
        Some(answer)
    }

    fn open(&mut self, words: &mut Words) -> Option<String> {
        let (mode, n) = (words.mode()?, words.number()?);
        self.open_under(mode, n, 128, words)
    }

    fn open_counter(&mut self, words: &mut Words) -> Option<String> {
        let (mode, n, m) = (words.mode()?, words.number()?, words.number()?);
        self.open_under(mode, n, m, words)
    }

    // The words that both openings end in: E|D KEY IV.
    fn open_under(&mut self, mode: Mode, n: usize, m: usize, words: &mut Words) -> Option<String> {
        let (direction, key, iv) = (words.direction()?, words.bytes()?, words.bytes()?);
        let (number, session) = Session::open_counter(mode, direction, n, m, &key, &iv);
        self.session = session;
        Some(number.to_string())
    }

    fn session(&mut self, words: &mut Words) -> Option<String> {
        self.session = Session {
            mode: words.mode()?,
            n: words.number()?,
            m: words.number()?,
            direction: words.direction()?,
            schedule: Schedule {
                rounds: words.number()?,
                keys: [0; 240],
            },
            register: words.block()?,
            units: words.number()? as u64,
            closed: words.number_to(1)? == 1,
            runs: 0,
        };
        let keys = words.bytes_to(240)?;
        self.session.schedule.keys[..keys.len()].copy_from_slice(&keys);
        Some("set".to_string())
    }

    fn show(&mut self, _: &mut Words) -> Option<String> {
        Some(shown(&self.session))
    }

    fn feed(&mut self, words: &mut Words) -> Option<String> {
        let (bits, mut out, input) = (words.number()?, words.output()?, words.text()?);
        let (number, runs) = self.session.feed(&input, bits, &mut out.bytes, out.place);
        let Session {
            register,
            units,
            closed,
            ..
        } = &self.session;
        let (out, r, closed) = (word(&out.bytes), hex(register), *closed as u8);
        Some(format!("{number} {out} {r} {units} {closed} {runs}"))
    }

    fn units(&mut self, words: &mut Words) -> Option<String> {
        self.session.units = words.number()? as u64;
        Some(self.session.units.to_string())
    }

    // No part of the session changes.
    fn carry(&mut self, _: &mut Words) -> Option<String> {
        let units = self.session.units;
        (units <= OLDER_MAX_UNITS).then(|| units.to_string())
    }

    fn keep(&mut self, _: &mut Words) -> Option<String> {
        self.kept = self.session.clone();
        Some("kept".to_string())
    }

    fn alike(&mut self, _: &mut Words) -> Option<String> {
        let alike = self.session.alike(&self.kept);
        Some(if alike { "yes" } else { "no" }.to_string())
    }
}

// The words of `session` that give this session; `show` prints them.
pub fn shown(session: &Session) -> String {
    format!(
        "{} {} {} {} {} {} {} {} {}",
        session.mode.name(),
        session.n,
        session.m,
        session.direction.letter(),
        session.schedule.rounds,
        hex(&session.register),
        session.units,
        session.closed as u8,
        hex(&session.schedule.keys)
    )
}

fn forecast(_: &mut Replay, words: &mut Words) -> Option<String> {
    let (mode, n, bits) = (words.mode()?, words.number()?, words.number()?);
    let (number, size, runs) = reference::forecast(mode, n, bits);
    Some(format!("{number} {size} {runs}"))
}

fn place(_: &mut Replay, words: &mut Words) -> Option<String> {
    let (m, iv, block) = (words.number()?, words.block()?, words.block()?);
    let (number, increments) = reference::place(m, iv, block);
    Some(format!("{number} {}", hex(&increments)))
}

fn pad(_: &mut Replay, words: &mut Words) -> Option<String> {
    let (bits, mut out, input) = (words.number()?, words.output()?, words.text()?);
    let (number, length) = reference::pad(&input, bits, &mut out.bytes, out.place);
    Some(format!("{number} {length} {}", word(&out.bytes)))
}

fn unpad(_: &mut Replay, words: &mut Words) -> Option<String> {
    let (bits, input) = (words.number()?, words.text()?);
    let (number, length) = reference::unpad(&input, bits);
    Some(format!("{number} {length}"))
}

fn neighbour(_: &mut Replay, words: &mut Words) -> Option<String> {
    let (iv, text, j) = (words.bytes()?, words.text()?, words.number()?);
    Some(word(reference::neighbour(&iv, &text, j)))
}

fn block(_: &mut Replay, words: &mut Words) -> Option<String> {
    let (key, iv, text) = (words.bytes()?, words.bytes()?, words.text()?);
    let (j, mut out) = (words.number()?, words.output()?);
    let number = reference::single_block(&key, &iv, &text, j, &mut out.bytes, out.place);
    Some(format!("{number} {}", word(&out.bytes)))
}

fn steal(_: &mut Replay, words: &mut Words) -> Option<String> {
    let (direction, key, iv) = (words.direction()?, words.bytes()?, words.bytes()?);
    let (bits, mut out, input) = (words.number()?, words.output()?, words.text()?);
    let (text, place) = (&mut out.bytes, out.place);
    let number = reference::steal(direction, &key, &iv, &input, bits, text, place);
    Some(format!("{number} {}", word(&out.bytes)))
}

fn expand(_: &mut Replay, words: &mut Words) -> Option<String> {
    let (number, schedule) = reference::expand(&words.bytes()?);
    let Schedule { rounds, keys } = schedule;
    Some(format!("{number} {rounds} {}", hex(&keys)))
}

fn encrypt(_: &mut Replay, words: &mut Words) -> Option<String> {
    let (number, block) = reference::encrypt(&words.bytes()?, &words.block()?);
    Some(format!("{number} {}", hex(&block)))
}

fn decrypt(_: &mut Replay, words: &mut Words) -> Option<String> {
    let (number, block) = reference::decrypt(&words.bytes()?, &words.block()?);
    Some(format!("{number} {}", hex(&block)))
}

// An output as it is before the call, and the place in it.
struct Output {
    bytes: Vec<u8>,
    place: usize,
}

// A line's words that are not read yet. Single spaces separate them: between two in a row is an empty word, which is of
// no kind.
struct Words<'a> {
    rest: Split<'a, u8, fn(&u8) -> bool>,
}

impl<'a> Words<'a> {
    fn of(line: &'a [u8]) -> Words<'a> {
        Words {
            rest: line.split(|&b| b == b' '),
        }
    }

    fn next(&mut self) -> Option<&'a [u8]> {
        self.rest.next()
    }

    fn end(&mut self) -> Option<()> {
        match self.rest.next() {
            None => Some(()),
            Some(_) => None,
        }
    }

    fn mode(&mut self) -> Option<Mode> {
        let word = self.next()?;
        MODES.into_iter().find(|m| m.name().as_bytes() == word)
    }

    fn direction(&mut self) -> Option<Direction> {
        match self.next()? {
            b"E" => Some(Direction::Encrypt),
            b"D" => Some(Direction::Decrypt),
            _ => None,
        }
    }

    // Decimal digits, any number of zeros in front, of a number below 2^64.
    fn number(&mut self) -> Option<usize> {
        let word = self.next()?;
        let digits = word.iter().all(u8::is_ascii_digit);
        let text = std::str::from_utf8(word).ok()?;
        digits.then(|| text.parse().ok()).flatten()
    }

    fn number_to(&mut self, most: usize) -> Option<usize> {
        self.number().filter(|&n| n <= most)
    }

    // A key or an IV: `-` or pairs of digits. Those of a bad length are good words, which the calls refuse.
    fn bytes(&mut self) -> Option<Vec<u8>> {
        match self.next()? {
            b"" => None,
            b"-" => Some(vec![]),
            word => hex::bytes(word),
        }
    }

    fn bytes_to(&mut self, most: usize) -> Option<Vec<u8>> {
        self.bytes().filter(|bytes| bytes.len() <= most)
    }

    // INPUT or TEXT.
    fn text(&mut self) -> Option<Vec<u8>> {
        self.bytes_to(MAX_BYTES)
    }

    // 32 digits.
    fn block(&mut self) -> Option<[u8; 16]> {
        self.bytes()?.try_into().ok()
    }

    // OUTLEN, PLACE and FILL, which is two digits.
    fn output(&mut self) -> Option<Output> {
        let (size, place) = (self.number_to(MAX_BYTES)?, self.number()?);
        let fill: [u8; 1] = self.bytes()?.try_into().ok()?;
        Some(Output {
            bytes: vec![fill[0]; size],
            place,
        })
    }
}
