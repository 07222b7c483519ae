// Debian's libtomcrypt, a portable implementation in C. It has no CFB with short segments. Its counters in CTR are of
// whole bytes; they count up after each block and wrap without a word.
use crate::direction::Direction;
use std::os::raw::{c_char, c_int, c_uchar, c_ulong, c_void};
use std::sync::Once;

#[repr(C)]
struct Descriptor {
    opaque: [u8; 0],
}

type Start =
    unsafe extern "C" fn(c_int, *const c_uchar, *const c_uchar, c_int, c_int, *mut c_void) -> c_int;
type Work = unsafe extern "C" fn(*const c_uchar, *mut c_uchar, c_ulong, *mut c_void) -> c_int;

extern "C" {
    static aes_desc: Descriptor;
    fn register_cipher(cipher: *const Descriptor) -> c_int;
    fn find_cipher(name: *const c_char) -> c_int;
    fn ecb_start(
        cipher: c_int,
        key: *const c_uchar,
        key_length: c_int,
        rounds: c_int,
        state: *mut c_void,
    ) -> c_int;
    fn ctr_start(
        cipher: c_int,
        iv: *const c_uchar,
        key: *const c_uchar,
        key_length: c_int,
        rounds: c_int,
        counter: c_int,
        state: *mut c_void,
    ) -> c_int;
}

// The other starts are declared alike, and so are the functions that process a text.
macro_rules! starts {
    ($($name:ident)*) => {
        extern "C" {
            $(fn $name(
                cipher: c_int,
                iv: *const c_uchar,
                key: *const c_uchar,
                key_length: c_int,
                rounds: c_int,
                state: *mut c_void,
            ) -> c_int;)*
        }
    };
}

macro_rules! works {
    ($($name:ident)*) => {
        extern "C" {
            $(fn $name(
                from: *const c_uchar,
                to: *mut c_uchar,
                length: c_ulong,
                state: *mut c_void,
            ) -> c_int;)*
        }
    };
}

starts! { cbc_start cfb_start ofb_start }
works! { ecb_encrypt cbc_encrypt cfb_encrypt ofb_encrypt ctr_encrypt }
works! { ecb_decrypt cbc_decrypt cfb_decrypt ofb_decrypt ctr_decrypt }

const BIG_ENDIAN: c_int = 0x1000;
static REGISTERED: Once = Once::new();

// Room for any mode's state, which is under 5 KiB.
#[repr(C, align(16))]
struct State([u8; 8192]);

pub struct Cipher {
    state: Box<State>,
    work: Work,
}

impl Cipher {
    // None where the library has no such mode. The names are those of openssl::Cipher, and m is the counter's bits in
    // CTR.
    pub fn new(
        mode: &str,
        m: usize,
        key: &[u8],
        iv: &[u8],
        direction: Direction,
    ) -> Option<Cipher> {
        let (start, encrypt, decrypt): (Option<Start>, Work, Work) = match mode {
            "ecb" => (None, ecb_encrypt, ecb_decrypt),
            "cbc" => (Some(cbc_start), cbc_encrypt, cbc_decrypt),
            "cfb" => (Some(cfb_start), cfb_encrypt, cfb_decrypt),
            "ofb" => (Some(ofb_start), ofb_encrypt, ofb_decrypt),
            "ctr" if m % 8 == 0 => (None, ctr_encrypt, ctr_decrypt),
            _ => return None,
        };
        // the counter's bytes stand in the low byte
        let counter = BIG_ENDIAN | m as c_int / 8;
        let mut state = Box::new(State([0; 8192]));
        let at = &mut *state as *mut State as *mut c_void;
        let length = key.len() as c_int;
        let started = unsafe {
            REGISTERED.call_once(|| assert!(register_cipher(&aes_desc) >= 0));
            let cipher = find_cipher(b"aes\0".as_ptr() as *const c_char);
            assert!(cipher >= 0);
            match start {
                Some(start) => start(cipher, iv.as_ptr(), key.as_ptr(), length, 0, at),
                None if mode == "ecb" => ecb_start(cipher, key.as_ptr(), length, 0, at),
                None => ctr_start(cipher, iv.as_ptr(), key.as_ptr(), length, 0, counter, at),
            }
        };
        assert!(started == 0, "libtomcrypt answers {started}");
        let work = match direction {
            Direction::Encrypt => encrypt,
            Direction::Decrypt => decrypt,
        };
        Some(Cipher { state, work })
    }

    pub fn update(&mut self, input: &[u8], out: &mut [u8]) {
        assert!(input.len() == out.len());
        let at = &mut *self.state as *mut State as *mut c_void;
        let done =
            unsafe { (self.work)(input.as_ptr(), out.as_mut_ptr(), input.len() as c_ulong, at) };
        assert!(done == 0, "libtomcrypt answers {done}");
    }
}
