// Document 01, and the requests that changed it, once more: written from its text and not from the proved code, over
// the AES of fips197.rs. A text is a vector of bits, and a unit is processed as the rules say, with no thought of
// speed. What no document publishes is compared with this, and the answers of the lists come from it.
use crate::direction::Direction;
use crate::fips197::Schedule;

// The largest feed in bits, and the most units of a session (questions 6 and 9); then the most units before request 07.
pub const MAX_BITS: usize = 524_288;
pub const MAX_UNITS: u64 = 18_446_744_073_709_551_615;
pub const OLDER_MAX_UNITS: u64 = 4_294_967_295;

#[derive(Clone, Copy, Debug, PartialEq)]
pub enum Mode {
    Ecb,
    Cbc,
    Cfb,
    Ofb,
    Ctr,
}

pub const MODES: [Mode; 5] = [Mode::Ecb, Mode::Cbc, Mode::Cfb, Mode::Ofb, Mode::Ctr];

impl Mode {
    pub fn name(self) -> &'static str {
        ["ECB", "CBC", "CFB", "OFB", "CTR"][self as usize]
    }

    // Question 3.
    pub fn takes(self, n: usize) -> bool {
        if self == Mode::Cfb {
            (1..=128).contains(&n)
        } else {
            n == 128
        }
    }

    // Question 14.
    pub fn takes_counter(self, m: usize) -> bool {
        if self == Mode::Ctr {
            (1..=128).contains(&m)
        } else {
            m == 128
        }
    }

    // Question 2.
    pub fn takes_iv(self, iv: &[u8]) -> bool {
        iv.len() == if self == Mode::Ecb { 0 } else { 16 }
    }

    // Question 7 of a feed.
    fn takes_bits(self, n: usize, count: usize) -> bool {
        matches!(self, Mode::Ofb | Mode::Ctr) || count % n == 0
    }
}

// The number of the first question that is answered 'no'; 0 where all are answered 'yes'.
fn first_no(questions: &[(u8, bool)]) -> u8 {
    let no = questions.iter().find(|(_, yes)| !yes);
    no.map_or(0, |&(number, _)| number)
}

// Question 6, where a text has at most `most` bits.
fn bits_there(input: &[u8], count: usize, most: usize) -> bool {
    count <= most && count <= 8 * input.len()
}

// Question 8, of this many bytes that would be written.
fn room_for(bytes: usize, size: usize, place: usize) -> bool {
    place <= size && bytes <= size - place
}

fn write(out: &mut [u8], place: usize, bytes: &[u8]) {
    out[place..place + bytes.len()].copy_from_slice(bytes);
}

// The bits that count, in a block as a number: 2^m - 1.
pub fn counting(m: usize) -> u128 {
    u128::MAX >> (128 - m)
}

// How many values a counter of m bits has: 2^m. 2^128, which no units reach, is no u128.
pub fn counts(m: usize) -> u128 {
    if m < 128 {
        1 << m
    } else {
        u128::MAX
    }
}

// The block whose lowest m bits, as a number, are one higher modulo 2^m, and whose other bits are the same (SP 800-38A,
// appendix B.1).
pub fn incremented(block: [u8; 16], m: usize) -> [u8; 16] {
    let number = u128::from_be_bytes(block);
    (number & !counting(m) | number.wrapping_add(1) & counting(m)).to_be_bytes()
}

// How many increments lead from the IV to a counter block (request 06): the number, and the place.
pub fn place(m: usize, iv: [u8; 16], block: [u8; 16]) -> (u8, [u8; 16]) {
    if !Mode::Ctr.takes_counter(m) {
        return (14, [0; 16]);
    }
    let (first, reached) = (u128::from_be_bytes(iv), u128::from_be_bytes(block));
    if first & !counting(m) != reached & !counting(m) {
        return (16, [0; 16]);
    }
    (0, (reached.wrapping_sub(first) & counting(m)).to_be_bytes())
}

// How many parts of a size cover a length, the last one perhaps shorter.
pub fn parts(length: usize, size: usize) -> usize {
    length / size + (length % size != 0) as usize
}

pub fn bits(bytes: &[u8]) -> Vec<bool> {
    bytes
        .iter()
        .flat_map(|byte| (0..8).map(move |i| byte >> (7 - i) & 1 == 1))
        .collect()
}

// The spare low bits of the last byte are 0.
pub fn bytes(bits: &[bool]) -> Vec<u8> {
    let byte = |part: &[bool]| (0..8).fold(0, |b, i| 2 * b + *part.get(i).unwrap_or(&false) as u8);
    bits.chunks(8).map(byte).collect()
}

fn block(bits: &[bool]) -> [u8; 16] {
    bytes(bits).try_into().expect("128 bits")
}

fn sum(unit: &[bool], other: &[bool]) -> Vec<bool> {
    unit.iter().zip(other).map(|(a, b)| a ^ b).collect()
}

#[derive(Clone)]
pub struct Session {
    pub mode: Mode,
    pub direction: Direction,
    pub n: usize,
    pub m: usize,
    pub schedule: Schedule,
    pub register: [u8; 16],
    pub units: u64,
    pub closed: bool,
    // how often the block functions were run
    pub runs: usize,
}

impl Session {
    pub fn refused() -> Session {
        Session {
            mode: Mode::Ecb,
            direction: Direction::Encrypt,
            n: 0,
            m: 0,
            schedule: Schedule::none(),
            register: [0; 16],
            units: 0,
            closed: true,
            runs: 0,
        }
    }

    pub fn open(
        mode: Mode,
        direction: Direction,
        n: usize,
        key: &[u8],
        iv: &[u8],
    ) -> (u8, Session) {
        Session::open_counter(mode, direction, n, 128, key, iv)
    }

    pub fn open_counter(
        mode: Mode,
        direction: Direction,
        n: usize,
        m: usize,
        key: &[u8],
        iv: &[u8],
    ) -> (u8, Session) {
        let (key_number, schedule) = expand(key);
        let number = first_no(&[
            (1, key_number == 0),
            (2, mode.takes_iv(iv)),
            (3, mode.takes(n)),
            (14, mode.takes_counter(m)),
        ]);
        if number != 0 {
            return (number, Session::refused());
        }
        let session = Session {
            mode,
            direction,
            n,
            m,
            schedule,
            register: iv.try_into().unwrap_or([0; 16]),
            units: 0,
            closed: false,
            runs: 0,
        };
        (0, session)
    }

    // Question 4, of any session, whoever made it.
    fn fields_ok(&self) -> bool {
        self.schedule.rounds_ok() && self.mode.takes(self.n) && self.mode.takes_counter(self.m)
    }

    // The units done, and those of a feed of `count` bits.
    pub fn units_with(&self, count: usize) -> u128 {
        self.units as u128 + parts(count, self.n) as u128
    }

    fn feed_number(&self, limit: u64, input: &[u8], count: usize, size: usize, place: usize) -> u8 {
        if !self.fields_ok() {
            return 4;
        }
        let units = self.units_with(count);
        first_no(&[
            (5, !self.closed),
            (6, bits_there(input, count, MAX_BITS)),
            (7, self.mode.takes_bits(self.n, count)),
            (8, room_for(parts(count, 8), size, place)),
            (9, units <= limit as u128),
            (15, units <= counts(self.m)),
        ])
    }

    // The number and the runs.
    pub fn feed(
        &mut self,
        input: &[u8],
        count: usize,
        out: &mut [u8],
        place: usize,
    ) -> (u8, usize) {
        self.feed_within(MAX_UNITS, input, count, out, place)
    }

    // The same where a session does at most `limit` units.
    pub fn feed_within(
        &mut self,
        limit: u64,
        input: &[u8],
        count: usize,
        out: &mut [u8],
        place: usize,
    ) -> (u8, usize) {
        let number = self.feed_number(limit, input, count, out.len(), place);
        let before = self.runs;
        if number == 0 {
            let text = bits(&input[..parts(count, 8)]);
            let worked: Vec<bool> = text[..count]
                .chunks(self.n)
                .flat_map(|unit| self.unit(unit))
                .collect();
            write(out, place, &bytes(&worked));
        }
        (number, self.runs - before)
    }

    fn enc(&mut self, block: &[u8; 16]) -> [u8; 16] {
        self.runs += 1;
        self.schedule.enc(block)
    }

    fn dec(&mut self, block: &[u8; 16]) -> [u8; 16] {
        self.runs += 1;
        self.schedule.dec(block)
    }

    // One unit by its mode's rule.
    fn unit(&mut self, unit: &[bool]) -> Vec<bool> {
        let register = self.register;
        let decrypting = self.direction == Direction::Decrypt;
        let r = bits(&register);
        self.units += 1;
        self.closed = unit.len() < self.n;
        match self.mode {
            Mode::Ecb if decrypting => bits(&self.dec(&block(unit))),
            Mode::Ecb => bits(&self.enc(&block(unit))),
            Mode::Cbc if decrypting => {
                let plain = sum(&bits(&self.dec(&block(unit))), &r);
                self.register = block(unit);
                plain
            }
            Mode::Cbc => {
                self.register = self.enc(&block(&sum(unit, &r)));
                bits(&self.register)
            }
            Mode::Cfb => {
                let other = sum(unit, &bits(&self.enc(&register)));
                let cipher = if decrypting { unit } else { &other };
                self.register = block(&[&r[self.n..], cipher].concat());
                other
            }
            Mode::Ofb => {
                self.register = self.enc(&register);
                sum(unit, &bits(&self.register))
            }
            Mode::Ctr => {
                let text = sum(unit, &bits(&self.enc(&register)));
                self.register = incremented(register, self.m);
                text
            }
        }
    }

    // The first 16 x (rounds + 1) bytes of the round keys, and all 240 where that is more.
    fn keys_used(&self) -> &[u8] {
        &self.schedule.keys[..16 * (self.schedule.rounds.min(14) + 1)]
    }

    pub fn alike(&self, other: &Session) -> bool {
        self.mode == other.mode
            && self.direction == other.direction
            && self.n == other.n
            && self.m == other.m
            && self.schedule.rounds == other.schedule.rounds
            && self.keys_used() == other.keys_used()
            && self.register == other.register
    }
}

// The three calls of aes: the number, then the rounds and round keys, or a block. A refused call gives zeros.
pub fn expand(key: &[u8]) -> (u8, Schedule) {
    match Schedule::expand(key) {
        Some(schedule) => (0, schedule),
        None => (1, Schedule::none()),
    }
}

pub fn encrypt(key: &[u8], block: &[u8; 16]) -> (u8, [u8; 16]) {
    let (number, schedule) = expand(key);
    (number, schedule.enc(block))
}

pub fn decrypt(key: &[u8], block: &[u8; 16]) -> (u8, [u8; 16]) {
    let (number, schedule) = expand(key);
    (number, schedule.dec(block))
}

// What a feed of `count` bits will cost: the number, the bytes and the runs.
pub fn forecast(mode: Mode, n: usize, count: usize) -> (u8, usize, usize) {
    if !mode.takes(n) {
        return (3, 0, 0);
    }
    match first_no(&[(6, count <= MAX_BITS), (7, mode.takes_bits(n, count))]) {
        0 => (0, parts(count, 8), parts(count, n)),
        number => (number, 0, 0),
    }
}

// The number and the padded length.
pub fn pad(input: &[u8], count: usize, out: &mut [u8], place: usize) -> (u8, usize) {
    let blocks = count / 128 + 1;
    let number = first_no(&[
        (6, bits_there(input, count, MAX_BITS - 1)),
        (8, room_for(16 * blocks, out.len(), place)),
    ]);
    if number != 0 {
        return (number, 0);
    }
    let mut text = bits(&input[..parts(count, 8)]);
    text.truncate(count);
    text.push(true);
    text.resize(128 * blocks, false);
    write(out, place, &bytes(&text));
    (0, text.len())
}

// The number and the length before the padding.
pub fn unpad(input: &[u8], count: usize) -> (u8, usize) {
    let number = first_no(&[
        (6, bits_there(input, count, MAX_BITS)),
        (7, count > 0 && count % 128 == 0),
    ]);
    if number != 0 {
        return (number, 0);
    }
    // request 02: the last 128 bits alone; where they are all 0, as where the first is their only 1
    let first = count - 128;
    let last_one = bits(input)[first..count].iter().rposition(|&bit| bit);
    (0, first + last_one.unwrap_or(0))
}

// Question 11.
fn block_there(text: &[u8], j: usize) -> bool {
    text.len() % 16 == 0 && j < text.len() / 16
}

pub fn neighbour<'a>(iv: &'a [u8], text: &'a [u8], j: usize) -> &'a [u8] {
    if !Mode::Cbc.takes_iv(iv) || !block_there(text, j) {
        &[]
    } else if j == 0 {
        iv
    } else {
        &text[16 * (j - 1)..16 * j]
    }
}

// One block of a CBC ciphertext. The answer is the number.
pub fn single_block(
    key: &[u8],
    iv: &[u8],
    text: &[u8],
    j: usize,
    out: &mut [u8],
    place: usize,
) -> u8 {
    let (key_number, schedule) = expand(key);
    let number = first_no(&[
        (1, key_number == 0),
        (2, Mode::Cbc.takes_iv(iv)),
        (11, block_there(text, j)),
        (8, room_for(16, out.len(), place)),
    ]);
    if number == 0 {
        let cipher = text[16 * j..16 * j + 16].try_into().expect("a block");
        let plain = sum(&bits(&schedule.dec(cipher)), &bits(neighbour(iv, text, j)));
        write(out, place, &bytes(&plain));
    }
    number
}

// Ciphertext stealing of a message (request 03). The answer is the number.
pub fn steal(
    direction: Direction,
    key: &[u8],
    iv: &[u8],
    input: &[u8],
    count: usize,
    out: &mut [u8],
    place: usize,
) -> u8 {
    let (opened, mut session) = Session::open(Mode::Cbc, direction, 128, key, iv);
    if opened != 0 {
        return opened;
    }
    let number = first_no(&[
        (6, bits_there(input, count, MAX_BITS)),
        (13, count % 8 == 0 && count > 128),
        (8, room_for(count / 8, out.len(), place)),
    ]);
    if number == 0 {
        let text = bits(&input[..count / 8]);
        let worked = match direction {
            Direction::Encrypt => steal_encrypt(&mut session, &text),
            Direction::Decrypt => steal_decrypt(&mut session, &text),
        };
        write(out, place, &bytes(&worked));
    }
    number
}

// Where the last 1 to 128 bits of a message begin.
fn last_part(text: &[bool]) -> usize {
    (text.len() - 1) / 128 * 128
}

// X is the ciphertext of the last full block before the tail.
fn steal_encrypt(session: &mut Session, text: &[bool]) -> Vec<bool> {
    let (full, tail) = text.split_at(last_part(text));
    let mut cipher: Vec<bool> = full
        .chunks(128)
        .flat_map(|block| session.unit(block))
        .collect();
    let x = cipher.split_off(full.len() - 128);
    let mut filled = tail.to_vec();
    filled.resize(128, false);
    cipher.extend(bits(&session.enc(&block(&sum(&filled, &x)))));
    cipher.extend(&x[..tail.len()]);
    cipher
}

// The block before the end is decrypted to (tail filled with 00) XOR X, which after the tail has the bits of X.
fn steal_decrypt(session: &mut Session, text: &[bool]) -> Vec<bool> {
    let (full, end) = text.split_at(last_part(text));
    let (front, before_end) = full.split_at(full.len() - 128);
    let mixed = bits(&session.dec(&block(before_end)));
    let x = [end, &mixed[end.len()..]].concat();
    let mut plain: Vec<bool> = front
        .chunks(128)
        .flat_map(|block| session.unit(block))
        .collect();
    plain.extend(session.unit(&x));
    plain.extend(sum(end, &mixed));
    plain
}
