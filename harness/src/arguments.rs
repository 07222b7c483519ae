// Random arguments of calls, good ones and bad ones.
use crate::direction::Direction;
use crate::fips197::Schedule;
use crate::hex::hex;
use crate::reference::{counting, counts, parts, Mode, Session, MAX_UNITS, MODES, OLDER_MAX_UNITS};
use crate::rng::Rng;

// A feed's arguments: most are accepted, some break a question each.
pub struct Feed {
    pub input: Vec<u8>,
    pub bits: usize,
    pub out: Vec<u8>,
    pub place: usize,
}

impl Feed {
    pub fn any(rng: &mut Rng, n: usize) -> Feed {
        let units = rng.below(if n < 8 { 40 } else { 6 });
        let mut bits = units * n.max(1);
        match rng.below(16) {
            0 => bits += rng.below(128),
            1 => bits = rng.number() as usize,
            2 => bits = 0,
            _ => {}
        }
        let needed = parts(bits.min(2000), 8);
        let input_length = match rng.below(12) {
            0 => rng.below(needed + 1),
            _ => needed + rng.below(3),
        };
        let place = match rng.below(16) {
            0 => rng.number() as usize,
            1 => 0,
            _ => rng.below(20),
        };
        let out_length = match rng.below(12) {
            0 => rng.below(needed + 20),
            _ => place.min(50) + needed + rng.below(3),
        };
        Feed {
            input: rng.bytes(input_length),
            bits,
            out: vec![rng.number() as u8; out_length],
            place,
        }
    }

    // As an error shows it.
    pub fn named(&self) -> String {
        let (bits, input, place) = (self.bits, hex(&self.input), self.place);
        format!("{bits} bits of {input} to {place}")
    }
}

pub fn any_direction(rng: &mut Rng) -> Direction {
    *rng.pick(&[Direction::Encrypt, Direction::Decrypt])
}

pub fn any_key(rng: &mut Rng) -> Vec<u8> {
    let length = *rng.pick(&[16, 24, 32]);
    rng.bytes(length)
}

pub fn iv_for(rng: &mut Rng, mode: Mode) -> Vec<u8> {
    rng.bytes(if mode == Mode::Ecb { 0 } else { 16 })
}

// A segment length: the edges and the two that divide nothing are frequent.
pub fn any_n(rng: &mut Rng, mode: Mode) -> usize {
    match mode {
        Mode::Cfb => match rng.below(3) {
            0 => *rng.pick(&[1, 3, 7, 8, 127, 128]),
            _ => 1 + rng.below(128),
        },
        _ => 128,
    }
}

// The bits of a counter: few, so that 2^m units are soon done, and the edges of bytes and words are frequent.
pub fn any_m(rng: &mut Rng, mode: Mode) -> usize {
    match mode {
        Mode::Ctr => match rng.below(3) {
            0 => 1 + rng.below(4),
            1 => *rng.pick(&[7, 8, 9, 31, 32, 33, 63, 64, 65, 127, 128]),
            _ => 1 + rng.below(128),
        },
        _ => 128,
    }
}

// Units done: a few, any, or close to the end of the older release, of today's, or of the counter.
pub fn any_units(rng: &mut Rng, m: usize) -> u64 {
    let end = match rng.below(5) {
        0 => return rng.below(12) as u64,
        1 => return rng.number() >> rng.below(64),
        2 => OLDER_MAX_UNITS,
        3 => MAX_UNITS,
        _ => counts(m).min(MAX_UNITS as u128) as u64,
    };
    end.saturating_sub(rng.below(13) as u64)
}

// A session with anything in its fields, though most have what AES and the mode take.
pub fn session_by_hand(rng: &mut Rng) -> Session {
    let mode = *rng.pick(&MODES);
    let mut session = Session {
        mode,
        direction: any_direction(rng),
        n: any_n(rng, mode),
        m: any_m(rng, mode),
        schedule: Schedule {
            rounds: *rng.pick(&[10, 12, 14]),
            keys: rng.bytes(240).try_into().expect("240 bytes"),
        },
        register: rng.block(),
        units: 0,
        closed: rng.below(8) == 0,
        runs: 0,
    };
    match rng.below(10) {
        0 => session.schedule.rounds = *rng.pick(&[0, 1, 9, 11, 13, 15, 16, 255, usize::MAX]),
        1 => session.schedule.rounds = rng.number() as usize >> rng.below(64),
        2 => session.n = rng.number() as usize >> rng.below(64),
        3 => session.m = rng.number() as usize >> rng.below(64),
        _ => {}
    }
    session.units = any_units(rng, session.m);
    session
}

// The same session but for one thing, or nothing.
pub fn one_thing_else(rng: &mut Rng, session: &Session) -> Session {
    let mut other = session.clone();
    match rng.below(10) {
        0 => other.mode = *rng.pick(&MODES),
        1 => other.direction = any_direction(rng),
        2 => other.n ^= 1 << rng.below(64),
        3 => other.m ^= 1 << rng.below(64),
        4 => other.schedule.rounds = *rng.pick(&[10, 12, 14, 15, 16, usize::MAX]),
        // of 10 and 12 rounds the last key bytes are not compared
        5 => other.schedule.keys[rng.below(240)] ^= 1 << rng.below(8),
        6 => other.register[rng.below(16)] ^= 1 << rng.below(8),
        7 => other.units = rng.number(),
        8 => other.closed ^= true,
        _ => {}
    }
    other
}

// The arguments of a pad, which are a feed's. Most have room for the padding too.
pub fn any_pad(rng: &mut Rng) -> Feed {
    let n = 1 + rng.below(128);
    let mut pad = Feed::any(rng, n);
    let room = if rng.below(4) == 0 { 0 } else { 16 };
    pad.out = vec![rng.number() as u8; pad.out.len() + room];
    pad
}

// A text to unpad and its bits: any bytes, then 0 bits with a 1 among them at most, most often whole blocks.
pub fn any_padded(rng: &mut Rng) -> (Vec<u8>, usize) {
    let length = rng.below(70);
    let front = rng.below(length + 1);
    let mut text = rng.bytes(front);
    text.resize(length, 0);
    if length > 0 {
        let at = rng.below(length);
        text[at] = 1u8.checked_shl(rng.below(9) as u32).unwrap_or(0);
    }
    let whole = 8 * length / 128 * 128;
    let bits = match rng.below(8) {
        0 => rng.below(8 * length + 3),
        1 => whole | 1 << (10 + rng.below(54)),
        _ => whole,
    };
    (text, bits)
}

// One block of a CBC ciphertext.
pub struct Block {
    pub key: Vec<u8>,
    pub iv: Vec<u8>,
    pub text: Vec<u8>,
    pub j: usize,
    pub out: Vec<u8>,
    pub place: usize,
}

impl Block {
    pub fn any(rng: &mut Rng) -> Block {
        let key_length = *rng.pick(&[16, 24, 32, 16, 24, 32, 16, 0, 20]);
        let iv_length = *rng.pick(&[16, 16, 16, 16, 16, 0, 15]);
        let text_length = match rng.below(6) {
            0 => rng.below(50),
            _ => 16 * rng.below(6),
        };
        let j = match rng.below(8) {
            0 => usize::MAX,
            1 => rng.number() as usize,
            _ => rng.below(6),
        };
        let place = match rng.below(8) {
            0 => rng.number() as usize,
            _ => rng.below(24),
        };
        let size = rng.below(48);
        Block {
            key: rng.bytes(key_length),
            iv: rng.bytes(iv_length),
            text: rng.bytes(text_length),
            j,
            out: vec![rng.number() as u8; size],
            place,
        }
    }
}

// The bytes of the shortest message with ciphertext stealing.
pub const LEAST: usize = 17;

// A message with ciphertext stealing: most are accepted, some break one question or more.
pub struct Message {
    pub direction: Direction,
    pub key: Vec<u8>,
    pub iv: Vec<u8>,
    pub input: Vec<u8>,
    pub bits: usize,
    pub out: Vec<u8>,
    pub place: usize,
}

impl Message {
    pub fn any(rng: &mut Rng) -> Message {
        let length = LEAST + rng.below(80);
        let key_length = *rng.pick(&[16, 24, 32]);
        let input_length = length + rng.below(3) * rng.below(20);
        let bits = match rng.below(16) {
            0 => rng.below(8 * length),
            1 => 8 * rng.below(LEAST),
            2 => 8 * length + rng.below(8),
            3 => rng.number() as usize,
            _ => 8 * length,
        };
        let place = match rng.below(16) {
            0 => rng.number() as usize,
            1 => usize::MAX - rng.below(length),
            _ => rng.below(20),
        };
        let size = match rng.below(16) {
            0 => rng.below(length + 20),
            _ => place.min(20) + length + rng.below(3) * rng.below(20),
        };
        Message {
            direction: any_direction(rng),
            key: mostly(rng, key_length),
            iv: mostly(rng, 16),
            input: mostly(rng, input_length),
            bits,
            out: vec![rng.number() as u8; size],
            place,
        }
    }
}

// Some bytes, of this length or in few cases of another.
fn mostly(rng: &mut Rng, length: usize) -> Vec<u8> {
    let length = match rng.below(16) {
        0 => rng.below(2 * length),
        _ => length,
    };
    rng.bytes(length)
}

// Numbers that are no m.
pub const NO_COUNTER: [usize; 9] = [
    0,
    129,
    130,
    255,
    256,
    256 + 13,
    1 << 32,
    (1 << 32) + 32,
    usize::MAX,
];

// Any IV, or one whose counter wraps at once or soon. Where its other bits are 1 too, a carry out of the counter would
// reach all of them.
pub fn any_iv(rng: &mut Rng, m: usize) -> [u8; 16] {
    let mut iv = u128::from_be_bytes(rng.block());
    match rng.below(3) {
        0 => {}
        1 => iv |= counting(m),
        _ => iv = (iv | counting(m)) - (rng.below(20) as u128 & counting(m)),
    }
    if rng.below(4) == 0 {
        iv |= !counting(m);
    }
    iv.to_be_bytes()
}

pub fn any_number(rng: &mut Rng) -> u128 {
    u128::from_be_bytes(rng.block())
}

// The IV's upper bits, and the lowest m bits of a number.
pub fn under(iv: [u8; 16], number: u128, m: usize) -> [u8; 16] {
    (u128::from_be_bytes(iv) & !counting(m) | number & counting(m)).to_be_bytes()
}

// An m, an IV and a block whose place may be asked for.
pub fn any_place(rng: &mut Rng) -> (usize, [u8; 16], [u8; 16]) {
    let counts = 1 + rng.below(128);
    let m = match rng.below(12) {
        0 => *rng.pick(&NO_COUNTER),
        1 => rng.below(300),
        2 => rng.number() as usize,
        _ => counts,
    };
    let (iv, any) = (any_iv(rng, counts), any_number(rng));
    let block = match rng.below(6) {
        0 => any.to_be_bytes(),
        1 => iv,
        // of the upper bits the lowest alone may differ
        2 => under(iv, any, (counts + 1).min(128)),
        _ => under(iv, any, counts),
    };
    (m, iv, block)
}
