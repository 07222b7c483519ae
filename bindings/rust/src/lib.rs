//! AES in the modes ECB, CBC, CFB with segments of 1 to 128 bits, OFB and CTR.
//!
//! The code behind it is proved: what each call answers and writes equals its rule, which for AES and
//! the modes is that of FIPS 197 and SP 800-38A, for every input. This crate links that library,
//! `libconguraha.a`, and has no other dependency. It is itself not proved but tested: it lends slices
//! to the library, and puts what comes back into types.
//!
//! ```
//! use conguraha::{Direction, Mode, Session};
//!
//! # fn main() -> Result<(), Box<dyn std::error::Error>> {
//! // SP 800-38A, F.3.7: CFB8-AES128.
//! let key = 0x2b7e151628aed2a6abf7158809cf4f3c_u128.to_be_bytes();
//! let iv = 0x000102030405060708090a0b0c0d0e0f_u128.to_be_bytes();
//! let mut out = [0; 1];
//!
//! let session = Session::open(Mode::Cfb, Direction::Encrypt, 8, &key, &iv)?;
//! let fed = session.feed(&[0x6b], &mut out)?;
//! assert_eq!(fed.written, [0x3b]);
//! let fed = fed.session.feed(&[0xc1], &mut out)?;
//! assert_eq!(fed.written, [0x79]);
//! # Ok(())
//! # }
//! ```
//!
//! A session is opened once and fed as often as there is text. A feed takes it and gives the next
//! one, so that an old state is not fed again by mistake. How a text is cut into feeds changes
//! nothing in what is written, as long as each cut is between units. A unit is what a mode works
//! at a time: a segment of n bits in CFB, a block of 128 bits in the other modes. Each feed
//! prepares its tables anew, so feed what a read gave at once, and not byte by byte.
//!
//! # What a loss does
//!
//! Whole units are lost on the way to a receiver, or inserted. The text that it decrypts is right
//! again at once in ECB, after 1 block in CBC, and in CFB after 128 / n segments, rounded up: for
//! n = 8 these are 16. This is proved for every way of cutting what comes into feeds. In OFB and
//! CTR the text is not right before a new IV. And the loss must be whole units: after one of half a
//! segment the receiver's segments are not the sender's, and the text stays wrong. With n = 1 every
//! loss is whole units; with n = 8 every loss of bytes is.
//!
//! # Answers
//!
//! Every call ends, none panics, and there is no input for which a call is not defined. A call is
//! refused with the first [`Answer`] that applies, of those that stand at the call in the order in
//! which they are asked, and has then written nothing. Lengths of slices are bytes; `bits` are
//! bits, and `n` and `m` too.
//!
//! # Secrets
//!
//! A session holds round keys. It wipes them when it is dropped, and [`wipe()`] clears keys and
//! texts. The library keeps nothing between calls, but what a call had on the stack is not cleared.
//! Tables are read at places that depend on the key, and nothing is promised about time. Nothing
//! here makes IVs or tags: an IV is never used twice to encrypt under one key, and whoever has to
//! notice a changed text needs a tag beside it.

#![deny(missing_docs)]
#![deny(unsafe_code)]
#![deny(unsafe_op_in_unsafe_fn)]

mod answer;
mod block;
mod counter;
mod ffi;
mod message;
mod mode;
mod older;
mod session;
mod wipe;

pub use answer::Answer;
pub use block::{aes_decrypt, aes_encrypt, aes_expand, cbc_block, cbc_neighbour, Expanded};
pub use counter::{counter_place, forecast, Cost};
pub use message::{cts_decrypt, cts_decrypt_bits, cts_encrypt, cts_encrypt_bits, pad, unpad};
pub use mode::{Direction, Mode};
pub use older::Session32;
pub use session::{Fed, Refused, Session};
pub use wipe::wipe;

/// The version, which is that of the library too.
pub const VERSION: &str = env!("CARGO_PKG_VERSION");

/// The bytes of a block, and of an IV.
pub const BLOCK: usize = 16;

/// The bytes of the round keys: 16 for each round and 16 more, and 0 in those after them.
pub const KEYS: usize = 240;

/// The bits of the largest feed.
pub const MAX_BITS: usize = 524_288;

/// The bytes of the largest feed.
pub const MAX_BYTES: usize = 65_536;

/// The units that one session processes, 2^64 - 1.
pub const MAX_UNITS: u64 = u64::MAX;

/// The bits of that many bytes; where no number holds them, the largest, which every call refuses.
fn bits_of(bytes: &[u8]) -> usize {
    bytes.len().saturating_mul(8)
}

/// Its example is tested with those of the documentation.
#[cfg(doctest)]
#[doc = include_str!("../README.md")]
struct Readme;
