//! The commands of the lists (crates/replay/src/main.rt of the repository has their forms), each as
//! calls of this crate, and its answer as the program replay prints it.

pub mod list;
mod words;

use crate::common::hex;
use conguraha::{
    aes_decrypt, aes_encrypt, aes_expand, cbc_block, cbc_neighbour, counter_place, cts_decrypt,
    cts_decrypt_bits, cts_encrypt, cts_encrypt_bits, forecast, pad, unpad, Answer, Direction, Fed,
    Mode, Session, Session32, KEYS,
};
use words::{read, Words};

/// What stays from line to line. A session is `None` where this crate cannot make it: it has done
/// more units than an older one holds, and no feed gets there.
pub struct Replay {
    session: Option<Session>,
    kept: Option<Session>,
}

/// The answer to a line that is of no command's form.
const BAD: &str = "?";

impl Replay {
    /// Both sessions are a refused opening's.
    pub fn new() -> Replay {
        Replay {
            session: Some(refused_session()),
            kept: Some(refused_session()),
        }
    }

    /// The line's answer; `None` where it needs a session that this crate cannot make.
    pub fn answer(&mut self, line: &[u8]) -> Option<String> {
        let words = match read(line) {
            Some(words) => words,
            None => return Some(BAD.to_string()),
        };
        match words.name {
            "open" | "open-counter" => Some(self.open(&words)),
            "feed" => self.feed(&words),
            "session" => self.set(&words),
            "show" => self.session.as_ref().map(shown),
            "units" => self.units(&words),
            "carry" => self.carry(),
            "keep" => self.keep(),
            "alike" => self.alike(),
            "block" => block(&words),
            _ => Some(text(&words)),
        }
    }

    fn open(&mut self, words: &Words) -> String {
        let opened = match words.name {
            "open" => Session::open(
                words.mode(1),
                words.direction(3),
                words.number(2),
                words.bytes(4),
                words.bytes(5),
            ),
            _ => Session::open_counter(
                words.mode(1),
                words.direction(4),
                words.number(2),
                words.number(3),
                words.bytes(5),
                words.bytes(6),
            ),
        };
        let number = number(&opened);
        self.session = Some(opened.unwrap_or_else(|_| refused_session()));
        number.to_string()
    }

    /// feed BITS OUTLEN PLACE FILL INPUT
    fn feed(&mut self, words: &Words) -> Option<String> {
        let session = self.session.take()?;
        let (bits, place, input) = (words.number(1), words.number(3), words.bytes(5));
        let mut out = output(words, 2, 4);
        fed_by_bytes(session.clone(), words, &out);
        let (number, session, runs) = match session.feed_bits(input, bits, &mut out, place) {
            Ok(fed) => (0, fed.session, fed.runs),
            Err(refused) => (refused.answer.number(), refused.session, 0),
        };
        let progress = progress(&session);
        self.session = Some(session);
        Some(format!("{} {} {} {}", number, word(&out), progress, runs))
    }

    /// session MODE N M E|D ROUNDS R UNITS CLOSED KEYS
    fn set(&mut self, words: &Words) -> Option<String> {
        let (closed, keys) = (words.number(8), words.bytes(9));
        if closed > 1 || keys.len() > KEYS {
            return Some(BAD.to_string());
        }
        let mut older = Session32 {
            mode: words.mode(1),
            direction: words.direction(4),
            n: words.number(2),
            m: words.number(3),
            rounds: words.number(5),
            keys: [0; KEYS],
            register: words.block(6),
            units: 0,
            closed: closed == 1,
        };
        older.keys[..keys.len()].copy_from_slice(keys);
        self.session = None;
        older.units = words.number(7).try_into().ok()?;
        self.session = Some(Session::carry(older));
        Some("set".to_string())
    }

    /// units COUNT
    fn units(&mut self, words: &Words) -> Option<String> {
        let mut older = older(&self.session.take()?, 0);
        older.units = words.number(1).try_into().ok()?;
        self.session = Some(Session::carry(older));
        Some(words.number(1).to_string())
    }

    fn carry(&mut self) -> Option<String> {
        let session = self.session.as_ref()?;
        let carried = match session.units().try_into() {
            Ok(units) => Session::carry(older(session, units)),
            Err(_) => return Some(BAD.to_string()),
        };
        let units = carried.units();
        assert_eq!(carried, *session);
        self.session = Some(carried);
        Some(units.to_string())
    }

    fn keep(&mut self) -> Option<String> {
        self.kept = self.session.clone();
        self.kept.as_ref().map(|_| "kept".to_string())
    }

    fn alike(&self) -> Option<String> {
        let alike = self.session.as_ref()?.alike(self.kept.as_ref()?);
        Some(if alike { "yes" } else { "no" }.to_string())
    }
}

/// What a refused opening gives in the library; here it gives none.
fn refused_session() -> Session {
    Session::carry(Session32 {
        mode: Mode::Ecb,
        direction: Direction::Encrypt,
        n: 0,
        m: 0,
        rounds: 0,
        keys: [0; KEYS],
        register: [0; 16],
        units: 0,
        closed: true,
    })
}

/// The older session with these parts, and so many units.
fn older(session: &Session, units: u32) -> Session32 {
    Session32 {
        mode: session.mode(),
        direction: session.direction(),
        n: session.n(),
        m: session.m(),
        rounds: session.rounds(),
        keys: *session.round_keys(),
        register: *session.register(),
        units,
        closed: session.closed(),
    }
}

/// Where a feed is one of whole bytes, the call for these does the same.
fn fed_by_bytes(session: Session, words: &Words, out: &[u8]) {
    let (bits, place, input) = (words.number(1), words.number(3), words.bytes(5));
    if bits != 8 * input.len() || place != 0 {
        return;
    }
    let (mut one, mut other) = (out.to_vec(), out.to_vec());
    let by_bytes = told(session.clone().feed(input, &mut one));
    let by_bits = told(session.feed_bits(input, bits, &mut other, 0));
    assert_eq!(by_bytes, by_bits);
    assert_eq!(one, other);
}

type Told = (Session, Result<(usize, Vec<u8>), Answer>);

fn told(fed: Result<Fed, conguraha::Refused>) -> Told {
    match fed {
        Ok(fed) => (fed.session, Ok((fed.runs, fed.written.to_vec()))),
        Err(refused) => (refused.session, Err(refused.answer)),
    }
}

/// The output before the call: its length is word `length`, and each byte is word `fill`.
fn output(words: &Words, length: usize, fill: usize) -> Vec<u8> {
    vec![words.bytes(fill)[0]; words.number(length)]
}

/// The answer to a command that needs no session.
fn text(words: &Words) -> String {
    match words.name {
        "forecast" => cost(words),
        "place" => place(words),
        "pad" => padded(words),
        "unpad" => unpadded(words),
        "neighbour" => neighbour(words),
        "steal" => stolen(words),
        "expand" => expanded(words),
        "encrypt" => answered(aes_encrypt(words.bytes(1), &words.block(2))),
        "decrypt" => answered(aes_decrypt(words.bytes(1), &words.block(2))),
        name => panic!("{} is no command", name),
    }
}

/// forecast MODE N BITS
fn cost(words: &Words) -> String {
    let cost = forecast(words.mode(1), words.number(2), words.number(3));
    let (bytes, runs) = cost.map_or((0, 0), |cost| (cost.bytes, cost.runs));
    format!("{} {} {}", number(&cost), bytes, runs)
}

/// place M IV BLOCK
fn place(words: &Words) -> String {
    let place = counter_place(&words.block(2), &words.block(3), words.number(1));
    answered(place.map(u128::to_be_bytes))
}

/// pad BITS OUTLEN PLACE FILL INPUT
fn padded(words: &Words) -> String {
    let mut out = output(words, 2, 4);
    let bits = pad(words.bytes(5), words.number(1), &mut out, words.number(3));
    format!("{} {} {}", number(&bits), bits.unwrap_or(0), word(&out))
}

/// unpad BITS INPUT
fn unpadded(words: &Words) -> String {
    let bits = unpad(words.bytes(2), words.number(1));
    format!("{} {}", number(&bits), bits.unwrap_or(0))
}

/// neighbour IV TEXT J
fn neighbour(words: &Words) -> String {
    let neighbour = cbc_neighbour(words.bytes(1), words.bytes(2), words.number(3));
    word(neighbour.unwrap_or_default())
}

/// block KEY IV TEXT J OUTLEN PLACE FILL: this crate gives the block as a value, and does not ask
/// whether an output has room for it.
fn block(words: &Words) -> Option<String> {
    let made = cbc_block(
        words.bytes(1),
        words.bytes(2),
        words.bytes(3),
        words.number(4),
    );
    let mut out = output(words, 5, 7);
    if let Ok(made) = made {
        out.get_mut(words.number(6)..)?
            .get_mut(..16)?
            .copy_from_slice(&made);
    }
    Some(format!("{} {}", number(&made), word(&out)))
}

/// steal E|D KEY IV BITS OUTLEN PLACE FILL INPUT
fn stolen(words: &Words) -> String {
    let (key, iv, bits) = (words.bytes(2), words.bytes(3), words.number(4));
    let (place, input) = (words.number(6), words.bytes(8));
    let (by_bits, by_bytes) = match words.direction(1) {
        Direction::Encrypt => (
            cts_encrypt_bits as fn(&[u8], &[u8], &[u8], usize, &mut [u8], usize) -> _,
            cts_encrypt as fn(&[u8], &[u8], &[u8], &mut [u8]) -> _,
        ),
        Direction::Decrypt => (cts_decrypt_bits as _, cts_decrypt as _),
    };
    let mut out = output(words, 5, 7);
    let mut other = out.clone();
    let stolen: Result<(), Answer> = by_bits(key, iv, input, bits, &mut out, place);
    if bits == 8 * input.len() && place == 0 {
        assert_eq!(by_bytes(key, iv, input, &mut other), stolen);
        assert_eq!(other, out);
    }
    format!("{} {}", number(&stolen), word(&out))
}

/// expand KEY
fn expanded(words: &Words) -> String {
    let expanded = aes_expand(words.bytes(1));
    let number = number(&expanded);
    let (rounds, keys) = expanded.map_or((0, [0; KEYS]), |made| (made.rounds, made.keys));
    format!("{} {} {}", number, rounds, word(&keys))
}

/// A number and a block, which is zero bytes where it is refused.
fn answered(block: Result<[u8; 16], Answer>) -> String {
    format!("{} {}", number(&block), word(&block.unwrap_or([0; 16])))
}

fn number<T>(result: &Result<T, Answer>) -> usize {
    result.as_ref().err().map_or(0, |answer| answer.number())
}

/// Bytes as a word.
fn word(bytes: &[u8]) -> String {
    match bytes {
        [] => "-".to_string(),
        _ => hex(bytes),
    }
}

/// MODE N M E|D ROUNDS R UNITS CLOSED KEYS
fn shown(session: &Session) -> String {
    let mode = format!("{:?}", session.mode()).to_uppercase();
    let direction = match session.direction() {
        Direction::Encrypt => "E",
        Direction::Decrypt => "D",
    };
    let settings = format!("{} {} {} {}", mode, session.n(), session.m(), direction);
    let (rounds, keys) = (session.rounds(), word(session.round_keys()));
    format!("{} {} {} {}", settings, rounds, progress(session), keys)
}

/// R UNITS CLOSED
fn progress(session: &Session) -> String {
    let (register, closed) = (word(session.register()), u8::from(session.closed()));
    format!("{} {} {}", register, session.units(), closed)
}
