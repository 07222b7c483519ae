// The boundary to the proved code: what crates/conguraha exports, and the chain of crates/chains. A Rattle `&[u8]` is a
// pointer and a length, a `&[u8; 16]` a pointer, and a struct goes by value. What a call writes is lent with filled
// bytes before and after it, so that a byte that it writes beside its place shows.
use crate::direction::Direction;

// The number where a mode is none.
pub const NO_MODE: u8 = 64;

// A session. No struct here has padding: where two agree in each field, they agree in each byte.
#[repr(C)]
#[derive(Clone, Debug, PartialEq)]
pub struct Session {
    pub units: u64,
    pub mode: usize,
    pub n: usize,
    pub m: usize,
    pub rounds: usize,
    pub keys: [u8; 240],
    pub register: [u8; 16],
    pub decrypting: u8,
    pub closed: u8,
    pub spare: [u8; 6],
}

// A session of the release before request 07, whose units were a 32-bit number.
#[repr(C)]
#[derive(Clone, Debug, PartialEq)]
pub struct Session32 {
    pub mode: usize,
    pub decrypting: u8,
    pub spare: [u8; 7],
    pub n: usize,
    pub m: usize,
    pub rounds: usize,
    pub keys: [u8; 240],
    pub register: [u8; 16],
    pub units: u32,
    pub closed: u8,
    pub spare2: [u8; 3],
}

#[repr(C)]
struct Opened {
    session: Session,
    number: usize,
}

#[repr(C)]
struct Fed {
    session: Session,
    runs: usize,
    number: usize,
}

#[repr(C)]
#[derive(Debug, PartialEq)]
pub struct Forecast {
    pub bytes: usize,
    pub runs: usize,
    pub number: usize,
}

#[repr(C)]
#[derive(Debug, PartialEq)]
pub struct CounterPlace {
    pub increments: [u8; 16],
    pub number: usize,
}

#[repr(C)]
#[derive(Debug, PartialEq)]
pub struct Length {
    pub bits: usize,
    pub number: usize,
}

// A part of the IV where `source` is 0, of the ciphertext where it is 1.
#[repr(C)]
#[derive(Debug, PartialEq)]
pub struct Neighbour {
    pub offset: usize,
    pub length: usize,
    pub source: usize,
    pub number: usize,
}

extern "C" {
    fn conguraha1_open(
        mode: usize,
        decrypting: u8,
        n: usize,
        key: *const u8,
        key_length: usize,
        iv: *const u8,
        iv_length: usize,
    ) -> Opened;
    fn conguraha1_open_counter(
        mode: usize,
        decrypting: u8,
        n: usize,
        m: usize,
        key: *const u8,
        key_length: usize,
        iv: *const u8,
        iv_length: usize,
    ) -> Opened;
    fn conguraha1_feed(
        session: Session,
        input: *const u8,
        input_length: usize,
        bits: usize,
        out: *mut u8,
        out_length: usize,
        place: usize,
    ) -> Fed;
    fn conguraha1_carry(older: Session32) -> Session;
    fn conguraha1_alike(a: Session, b: Session) -> u8;
    fn conguraha1_forecast(mode: usize, n: usize, bits: usize) -> Forecast;
    fn conguraha1_counter_place(iv: *const u8, block: *const u8, m: usize) -> CounterPlace;
    fn conguraha1_pad(
        input: *const u8,
        input_length: usize,
        bits: usize,
        out: *mut u8,
        out_length: usize,
        place: usize,
    ) -> Length;
    fn conguraha1_unpad(input: *const u8, input_length: usize, bits: usize) -> Length;
    fn conguraha1_cts_encrypt(
        key: *const u8,
        key_length: usize,
        iv: *const u8,
        iv_length: usize,
        input: *const u8,
        input_length: usize,
        bits: usize,
        out: *mut u8,
        out_length: usize,
        place: usize,
    ) -> u8;
    fn conguraha1_cts_decrypt(
        key: *const u8,
        key_length: usize,
        iv: *const u8,
        iv_length: usize,
        input: *const u8,
        input_length: usize,
        bits: usize,
        out: *mut u8,
        out_length: usize,
        place: usize,
    ) -> u8;
    fn conguraha1_cbc_block(
        key: *const u8,
        key_length: usize,
        iv: *const u8,
        iv_length: usize,
        text: *const u8,
        text_length: usize,
        j: usize,
        out: *mut u8,
        out_length: usize,
        place: usize,
    ) -> u8;
    fn conguraha1_cbc_neighbour(
        iv: *const u8,
        iv_length: usize,
        text: *const u8,
        text_length: usize,
        j: usize,
    ) -> Neighbour;
    fn conguraha1_aes_expand(
        key: *const u8,
        key_length: usize,
        rounds: *mut usize,
        keys: *mut u8,
    ) -> u8;
    fn conguraha1_aes_encrypt(
        key: *const u8,
        key_length: usize,
        block: *const u8,
        out: *mut u8,
    ) -> u8;
    fn conguraha1_aes_decrypt(
        key: *const u8,
        key_length: usize,
        block: *const u8,
        out: *mut u8,
    ) -> u8;
    fn conguraha_aes_chain(
        key: *const u8,
        key_length: usize,
        decrypting: bool,
        block: *mut u8,
        count: usize,
    ) -> u8;
}

const FILL: u8 = 0xa5;
const MARGIN: usize = 32;

// Lends a copy of the output in the middle of filled bytes, and takes back what was written to it.
fn lend<Answer>(out: &mut [u8], call: impl FnOnce(&mut [u8]) -> Answer) -> Answer {
    let lent = MARGIN..MARGIN + out.len();
    let mut room = vec![FILL; lent.end + MARGIN];
    room[lent.clone()].copy_from_slice(out);
    let answer = call(&mut room[lent.clone()]);
    out.copy_from_slice(&room[lent.clone()]);
    room.drain(lent);
    assert!(
        room.into_iter().all(|b| b == FILL),
        "a byte beside the output was written"
    );
    answer
}

// A number that a struct holds in a word.
fn narrow(number: usize) -> u8 {
    number.try_into().expect("a number below 256")
}

impl Session {
    // The number, and what the opening gave. The mode is 0 for ECB, then CBC, CFB, OFB and CTR.
    pub fn open(
        mode: usize,
        decrypting: impl Into<u8>,
        n: usize,
        key: &[u8],
        iv: &[u8],
    ) -> (u8, Session) {
        let (decrypting, key_length, iv_length) = (decrypting.into(), key.len(), iv.len());
        let (key, iv) = (key.as_ptr(), iv.as_ptr());
        let opened =
            unsafe { conguraha1_open(mode, decrypting, n, key, key_length, iv, iv_length) };
        (narrow(opened.number), opened.session)
    }

    // The same with a counter of m bits.
    pub fn open_counter(
        mode: usize,
        decrypting: impl Into<u8>,
        n: usize,
        m: usize,
        key: &[u8],
        iv: &[u8],
    ) -> (u8, Session) {
        let (decrypting, key_length, iv_length) = (decrypting.into(), key.len(), iv.len());
        let (key, iv) = (key.as_ptr(), iv.as_ptr());
        let opened = unsafe {
            conguraha1_open_counter(mode, decrypting, n, m, key, key_length, iv, iv_length)
        };
        (narrow(opened.number), opened.session)
    }

    // The number and the runs of the block cipher; the session moves.
    pub fn feed(&mut self, input: &[u8], bits: usize, out: &mut [u8], place: usize) -> (u8, usize) {
        lend(out, |out| self.feed_bare(input, bits, out, place))
    }

    // The same with the output itself handed over: for measurements.
    pub fn feed_bare(
        &mut self,
        input: &[u8],
        bits: usize,
        out: &mut [u8],
        place: usize,
    ) -> (u8, usize) {
        let fed = unsafe {
            conguraha1_feed(
                self.clone(),
                input.as_ptr(),
                input.len(),
                bits,
                out.as_mut_ptr(),
                out.len(),
                place,
            )
        };
        *self = fed.session;
        (narrow(fed.number), fed.runs)
    }

    pub fn alike(&self, other: &Session) -> u8 {
        unsafe { conguraha1_alike(self.clone(), other.clone()) }
    }
}

impl Session32 {
    // The session carried over.
    pub fn carried(&self) -> Session {
        unsafe { conguraha1_carry(self.clone()) }
    }
}

pub fn forecast(mode: usize, n: usize, bits: usize) -> Forecast {
    unsafe { conguraha1_forecast(mode, n, bits) }
}

pub fn counter_place(iv: &[u8; 16], block: &[u8; 16], m: usize) -> CounterPlace {
    unsafe { conguraha1_counter_place(iv.as_ptr(), block.as_ptr(), m) }
}

pub fn pad(input: &[u8], bits: usize, out: &mut [u8], place: usize) -> Length {
    lend(out, |out| unsafe {
        conguraha1_pad(
            input.as_ptr(),
            input.len(),
            bits,
            out.as_mut_ptr(),
            out.len(),
            place,
        )
    })
}

pub fn unpad(input: &[u8], bits: usize) -> Length {
    unsafe { conguraha1_unpad(input.as_ptr(), input.len(), bits) }
}

// A message with ciphertext stealing. The answer is the number.
pub fn steal(
    direction: Direction,
    key: &[u8],
    iv: &[u8],
    input: &[u8],
    bits: usize,
    out: &mut [u8],
    place: usize,
) -> u8 {
    let call = match direction {
        Direction::Encrypt => conguraha1_cts_encrypt,
        Direction::Decrypt => conguraha1_cts_decrypt,
    };
    lend(out, |out| unsafe {
        call(
            key.as_ptr(),
            key.len(),
            iv.as_ptr(),
            iv.len(),
            input.as_ptr(),
            input.len(),
            bits,
            out.as_mut_ptr(),
            out.len(),
            place,
        )
    })
}

// One block of a CBC ciphertext. The answer is the number.
pub fn cbc_block(key: &[u8], iv: &[u8], text: &[u8], j: usize, out: &mut [u8], place: usize) -> u8 {
    lend(out, |out| unsafe {
        conguraha1_cbc_block(
            key.as_ptr(),
            key.len(),
            iv.as_ptr(),
            iv.len(),
            text.as_ptr(),
            text.len(),
            j,
            out.as_mut_ptr(),
            out.len(),
            place,
        )
    })
}

pub fn cbc_neighbour(iv: &[u8], text: &[u8], j: usize) -> Neighbour {
    unsafe { conguraha1_cbc_neighbour(iv.as_ptr(), iv.len(), text.as_ptr(), text.len(), j) }
}

// The number, the rounds and the round keys.
pub fn expand(key: &[u8]) -> (u8, usize, [u8; 240]) {
    let (mut rounds, mut keys) = (usize::MAX, [FILL; 240]);
    let number = lend(&mut keys, |keys| unsafe {
        conguraha1_aes_expand(key.as_ptr(), key.len(), &mut rounds, keys.as_mut_ptr())
    });
    (number, rounds, keys)
}

// The number and the block.
pub fn encrypt(key: &[u8], block: &[u8; 16]) -> (u8, [u8; 16]) {
    let mut made = [FILL; 16];
    let number = lend(&mut made, |out| unsafe {
        conguraha1_aes_encrypt(key.as_ptr(), key.len(), block.as_ptr(), out.as_mut_ptr())
    });
    (number, made)
}

pub fn decrypt(key: &[u8], block: &[u8; 16]) -> (u8, [u8; 16]) {
    let mut made = [FILL; 16];
    let number = lend(&mut made, |out| unsafe {
        conguraha1_aes_decrypt(key.as_ptr(), key.len(), block.as_ptr(), out.as_mut_ptr())
    });
    (number, made)
}

// The number, and the block after `count` applications of Enc, or Dec.
pub fn chain(key: &[u8], decrypting: bool, block: &[u8; 16], count: usize) -> (u8, [u8; 16]) {
    let mut last = *block;
    let number = lend(&mut last, |block| unsafe {
        conguraha_aes_chain(
            key.as_ptr(),
            key.len(),
            decrypting,
            block.as_mut_ptr(),
            count,
        )
    });
    (number, last)
}
