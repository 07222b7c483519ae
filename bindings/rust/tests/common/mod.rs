//! What several tests need.
#![allow(dead_code)]

use conguraha::{aes_expand, Direction, Mode, Session, Session32};
use std::ops::RangeInclusive;

pub const KEY: [u8; 24] = [0x3c; 24];

pub const IV: [u8; 16] = [0x5a; 16];

pub const MODES: [Mode; 5] = [Mode::Ecb, Mode::Cbc, Mode::Cfb, Mode::Ofb, Mode::Ctr];

pub const DIRECTIONS: [Direction; 2] = [Direction::Encrypt, Direction::Decrypt];

/// The bytes that hexadecimal digits spell.
pub fn bytes(digits: &str) -> Vec<u8> {
    let pair = |at| u8::from_str_radix(&digits[at..at + 2], 16).expect("two digits");
    (0..digits.len()).step_by(2).map(pair).collect()
}

pub fn hex(bytes: &[u8]) -> String {
    bytes.iter().map(|byte| format!("{:02x}", byte)).collect()
}

/// The bits of bytes, highest first.
pub fn bits(bytes: &[u8]) -> Vec<bool> {
    let of_byte = |byte: &u8| -> Vec<bool> { (0..8).map(|i| byte >> (7 - i) & 1 == 1).collect() };
    bytes.iter().flat_map(of_byte).collect()
}

/// Bits as bytes, with 0 for the spare bits.
pub fn packed(bits: &[bool]) -> Vec<u8> {
    let byte = |part: &[bool]| {
        let ones = part.iter().enumerate().filter(|(_, &bit)| bit);
        ones.fold(0, |byte, (i, _)| byte | 0x80 >> i)
    };
    bits.chunks(8).map(byte).collect()
}

/// The n that the mode takes.
pub fn lengths_of(mode: Mode) -> RangeInclusive<usize> {
    match mode {
        Mode::Cfb => 1..=128,
        _ => 128..=128,
    }
}

/// The IV as the mode takes it.
pub fn iv_for(mode: Mode, iv: &[u8]) -> &[u8] {
    match mode {
        Mode::Ecb => &[],
        _ => iv,
    }
}

/// A session under KEY and IV.
pub fn opened(mode: Mode, direction: Direction, n: usize) -> Session {
    Session::open(mode, direction, n, &KEY, iv_for(mode, &IV)).expect("an opening")
}

/// An older session under KEY and IV, encrypting by blocks, that has done so many units.
pub fn older(mode: Mode, units: u32) -> Session32 {
    let expanded = aes_expand(&KEY).expect("an expansion");
    Session32 {
        mode,
        direction: Direction::Encrypt,
        n: 128,
        m: 128,
        rounds: expanded.rounds,
        keys: expanded.keys,
        register: if mode == Mode::Ecb { [0; 16] } else { IV },
        units,
        closed: false,
    }
}

/// Feeds the bits, and gives the next session and the bits that were written.
pub fn fed(session: Session, text: &[bool]) -> (Session, Vec<bool>) {
    let input = packed(text);
    let mut out = vec![0xee; input.len()];
    let fed = session
        .feed_bits(&input, text.len(), &mut out, 0)
        .expect("an accepted feed");
    let mut written = bits(fed.written);
    written.truncate(text.len());
    (fed.session, written)
}

/// Feeds parts of the bits, the next one as long as `part` says, and gives what all have written.
pub fn fed_in_parts(
    mut session: Session,
    text: &[bool],
    mut part: impl FnMut() -> usize,
) -> (Session, Vec<bool>) {
    let (mut rest, mut written) = (text, vec![]);
    while !rest.is_empty() {
        let (now, later) = rest.split_at(part().min(rest.len()));
        let (next, more) = fed(session, now);
        written.extend(more);
        session = next;
        rest = later;
    }
    (session, written)
}

/// Numbers that look random, and are the same in every run (xorshift).
pub struct Random(pub u64);

impl Random {
    pub fn number(&mut self) -> u64 {
        self.0 ^= self.0 << 13;
        self.0 ^= self.0 >> 7;
        self.0 ^= self.0 << 17;
        self.0
    }

    pub fn below(&mut self, limit: usize) -> usize {
        (self.number() % limit as u64) as usize
    }

    pub fn bytes(&mut self, count: usize) -> Vec<u8> {
        (0..count).map(|_| self.number() as u8).collect()
    }
}
