//! A line's words, read by the form of its command. A form has a letter for each word after the
//! name:
//!
//!     m    a mode: ECB, CBC, CFB, OFB or CTR
//!     w    a direction: E or D
//!     n    a decimal number that 64 bits hold
//!     o    the same, an output's length: at most 65,600
//!     f    a byte: two digits
//!     b    bytes: hexadecimal digits, or `-` for none
//!     t    the same, a text: at most 65,600 bytes
//!     s    the same, a block: 16 bytes

use conguraha::{Direction, Mode};

const MAX_BYTES: usize = 65_600;

const FORMS: [(&str, &str); 19] = [
    ("open", "mnwbb"),
    ("open-counter", "mnnwbb"),
    ("feed", "nonft"),
    ("session", "mnnwnsnnb"),
    ("show", ""),
    ("units", "n"),
    ("carry", ""),
    ("keep", ""),
    ("alike", ""),
    ("forecast", "mnn"),
    ("place", "nss"),
    ("pad", "nonft"),
    ("unpad", "nt"),
    ("neighbour", "btn"),
    ("block", "bbtnonf"),
    ("steal", "wbbnonft"),
    ("expand", "b"),
    ("encrypt", "bs"),
    ("decrypt", "bs"),
];

enum Word {
    Mode(Mode),
    Direction(Direction),
    Number(usize),
    Bytes(Vec<u8>),
}

/// The words after the name, counted from 1.
pub struct Words {
    pub name: &'static str,
    words: Vec<Word>,
}

impl Words {
    pub fn mode(&self, k: usize) -> Mode {
        match self.words[k - 1] {
            Word::Mode(mode) => mode,
            _ => panic!("word {} of {} is no mode", k, self.name),
        }
    }

    pub fn direction(&self, k: usize) -> Direction {
        match self.words[k - 1] {
            Word::Direction(direction) => direction,
            _ => panic!("word {} of {} is no direction", k, self.name),
        }
    }

    pub fn number(&self, k: usize) -> usize {
        match self.words[k - 1] {
            Word::Number(number) => number,
            _ => panic!("word {} of {} is no number", k, self.name),
        }
    }

    pub fn bytes(&self, k: usize) -> &[u8] {
        match &self.words[k - 1] {
            Word::Bytes(bytes) => bytes,
            _ => panic!("word {} of {} is no bytes", k, self.name),
        }
    }

    pub fn block(&self, k: usize) -> [u8; 16] {
        self.bytes(k).try_into().expect("a block")
    }
}

/// The line's words, where it names a command and has that command's form.
pub fn read(line: &[u8]) -> Option<Words> {
    let line = std::str::from_utf8(line).ok()?;
    let mut words = line.split(' ');
    let name = words.next()?;
    let (name, form) = FORMS.iter().find(|(known, _)| *known == name)?;
    let words: Vec<&str> = words.collect();
    if words.len() != form.len() {
        return None;
    }
    let words = words
        .iter()
        .zip(form.chars())
        .map(|(word, kind)| word_of(kind, word));
    let words = words.collect::<Option<Vec<Word>>>()?;
    Some(Words { name, words })
}

fn word_of(kind: char, word: &str) -> Option<Word> {
    match kind {
        'm' => mode(word).map(Word::Mode),
        'w' => direction(word).map(Word::Direction),
        'n' => number(word).map(Word::Number),
        'o' => number(word)
            .filter(|&number| number <= MAX_BYTES)
            .map(Word::Number),
        'f' => digits(word)
            .filter(|bytes| bytes.len() == 1)
            .map(Word::Bytes),
        'b' => bytes(word).map(Word::Bytes),
        't' => bytes(word)
            .filter(|bytes| bytes.len() <= MAX_BYTES)
            .map(Word::Bytes),
        's' => bytes(word)
            .filter(|bytes| bytes.len() == 16)
            .map(Word::Bytes),
        _ => None,
    }
}

fn mode(word: &str) -> Option<Mode> {
    match word {
        "ECB" => Some(Mode::Ecb),
        "CBC" => Some(Mode::Cbc),
        "CFB" => Some(Mode::Cfb),
        "OFB" => Some(Mode::Ofb),
        "CTR" => Some(Mode::Ctr),
        _ => None,
    }
}

fn direction(word: &str) -> Option<Direction> {
    match word {
        "E" => Some(Direction::Encrypt),
        "D" => Some(Direction::Decrypt),
        _ => None,
    }
}

/// Digits alone, without a sign.
fn number(word: &str) -> Option<usize> {
    let digits = word.bytes().all(|byte| byte.is_ascii_digit());
    word.parse().ok().filter(|_| digits)
}

fn bytes(word: &str) -> Option<Vec<u8>> {
    match word {
        "-" => Some(vec![]),
        "" => None,
        _ => digits(word),
    }
}

/// Pairs of lower-case digits.
fn digits(word: &str) -> Option<Vec<u8>> {
    let good = word
        .bytes()
        .all(|byte| matches!(byte, b'0'..=b'9' | b'a'..=b'f'));
    if good && word.len() % 2 == 0 {
        Some(crate::common::bytes(word))
    } else {
        None
    }
}
