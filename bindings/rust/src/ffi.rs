//! What the library exports, as `conguraha.h` declares it, and a safe function over each export.
#![allow(unsafe_code)]

use crate::{BLOCK, KEYS};
use std::mem;
use std::slice;

/// A session as the library holds it. Any bytes are one.
#[repr(C)]
#[derive(Clone, Copy, PartialEq, Eq)]
pub(crate) struct Session {
    pub(crate) units: u64,
    pub(crate) mode: usize,
    pub(crate) n: usize,
    pub(crate) m: usize,
    pub(crate) rounds: usize,
    pub(crate) keys: [u8; KEYS],
    pub(crate) reg: [u8; BLOCK],
    pub(crate) decrypting: u8,
    pub(crate) closed: u8,
    pub(crate) spare: [u8; 6],
}

/// A session of the older release. Any bytes are one.
#[repr(C)]
#[derive(Clone, Copy)]
pub(crate) struct Session32 {
    pub(crate) mode: usize,
    pub(crate) decrypting: u8,
    pub(crate) spare: [u8; 7],
    pub(crate) n: usize,
    pub(crate) m: usize,
    pub(crate) rounds: usize,
    pub(crate) keys: [u8; KEYS],
    pub(crate) reg: [u8; BLOCK],
    pub(crate) units: u32,
    pub(crate) closed: u8,
    pub(crate) spare2: [u8; 3],
}

#[repr(C)]
pub(crate) struct Opened {
    pub(crate) session: Session,
    pub(crate) number: usize,
}

/// The session is as it was handed over, where the feed is refused.
#[repr(C)]
pub(crate) struct Fed {
    pub(crate) session: Session,
    pub(crate) runs: usize,
    pub(crate) number: usize,
}

#[repr(C)]
pub(crate) struct Cost {
    pub(crate) bytes: usize,
    pub(crate) runs: usize,
    pub(crate) number: usize,
}

#[repr(C)]
pub(crate) struct Place {
    pub(crate) increments: [u8; BLOCK],
    pub(crate) number: usize,
}

#[repr(C)]
pub(crate) struct Length {
    pub(crate) bits: usize,
    pub(crate) number: usize,
}

/// `length` bytes from `offset` on, of the IV where `source` is 0, of the ciphertext where it is 1.
#[repr(C)]
pub(crate) struct Neighbour {
    pub(crate) offset: usize,
    pub(crate) length: usize,
    pub(crate) source: usize,
    pub(crate) number: usize,
}

/// So many bytes, each of them the number of its place, or that number's upper byte.
#[allow(dead_code)] // Rust 1.63 does not see that constants use it.
const fn numbered<const SIZE: usize>(upper: bool) -> [u8; SIZE] {
    let mut bytes = [0; SIZE];
    let mut place = 0;
    while place < SIZE {
        bytes[place] = if upper { place >> 8 } else { place } as u8;
        place += 1;
    }
    bytes
}

/// Compiles where the struct has that size, and each field begins at that place: in a struct whose
/// bytes are the numbers of their places, a field's first byte tells its place.
macro_rules! layout {
    ($name:ident, $size:literal, $($field:ident $place:literal),*) => {
        const _: () = {
            assert!(mem::size_of::<$name>() == $size);
            // SAFETY: any bytes are such a struct.
            let low: $name = unsafe { mem::transmute(numbered::<$size>(false)) };
            let high: $name = unsafe { mem::transmute(numbered::<$size>(true)) };
            $(
                // SAFETY: each field has a first byte.
                let first = unsafe { *(&low.$field as *const _ as *const u8) };
                let upper = unsafe { *(&high.$field as *const _ as *const u8) };
                assert!(first as usize + 256 * upper as usize == $place);
            )*
        };
    };
}

const _: () = assert!(mem::size_of::<usize>() == 8);
layout!(
    Session, 304, units 0, mode 8, n 16, m 24, rounds 32, keys 40, reg 280, decrypting 296,
    closed 297, spare 298
);
layout!(
    Session32, 304, mode 0, decrypting 8, n 16, m 24, rounds 32, keys 40, reg 280, units 296,
    closed 300
);
layout!(Opened, 312, session 0, number 304);
layout!(Fed, 320, session 0, runs 304, number 312);
layout!(Cost, 24, bytes 0, runs 8, number 16);
layout!(Place, 24, increments 0, number 16);
layout!(Length, 16, bits 0, number 8);
layout!(Neighbour, 32, offset 0, length 8, source 16, number 24);

impl Session {
    /// The bytes of the struct, to be wiped.
    pub(crate) fn bytes(&mut self) -> &mut [u8] {
        let first = self as *mut Session as *mut u8;
        // SAFETY: these are the struct's bytes, all set since it has no padding; any bytes that
        // are written there are a session.
        unsafe { slice::from_raw_parts_mut(first, mem::size_of::<Session>()) }
    }
}

impl Session32 {
    pub(crate) fn from_bytes(bytes: [u8; 304]) -> Session32 {
        // SAFETY: any bytes are a session.
        unsafe { mem::transmute(bytes) }
    }
}

extern "C" {
    fn conguraha1_open(
        mode: usize,
        decrypting: u8,
        n: usize,
        key: *const u8,
        key_length: usize,
        iv: *const u8,
        iv_length: usize,
    ) -> Opened;
    fn conguraha1_open_counter(
        mode: usize,
        decrypting: u8,
        n: usize,
        m: usize,
        key: *const u8,
        key_length: usize,
        iv: *const u8,
        iv_length: usize,
    ) -> Opened;
    fn conguraha1_feed(
        session: Session,
        input: *const u8,
        input_length: usize,
        bits: usize,
        out: *mut u8,
        out_length: usize,
        place: usize,
    ) -> Fed;
    fn conguraha1_carry(older: Session32) -> Session;
    fn conguraha1_alike(a: Session, b: Session) -> u8;
    fn conguraha1_forecast(mode: usize, n: usize, bits: usize) -> Cost;
    fn conguraha1_counter_place(iv: *const u8, block: *const u8, m: usize) -> Place;
    fn conguraha1_pad(
        input: *const u8,
        input_length: usize,
        bits: usize,
        out: *mut u8,
        out_length: usize,
        place: usize,
    ) -> Length;
    fn conguraha1_unpad(input: *const u8, input_length: usize, bits: usize) -> Length;
    fn conguraha1_cts_encrypt(
        key: *const u8,
        key_length: usize,
        iv: *const u8,
        iv_length: usize,
        input: *const u8,
        input_length: usize,
        bits: usize,
        out: *mut u8,
        out_length: usize,
        place: usize,
    ) -> u8;
    fn conguraha1_cts_decrypt(
        key: *const u8,
        key_length: usize,
        iv: *const u8,
        iv_length: usize,
        input: *const u8,
        input_length: usize,
        bits: usize,
        out: *mut u8,
        out_length: usize,
        place: usize,
    ) -> u8;
    fn conguraha1_cbc_block(
        key: *const u8,
        key_length: usize,
        iv: *const u8,
        iv_length: usize,
        text: *const u8,
        text_length: usize,
        j: usize,
        out: *mut u8,
        out_length: usize,
        place: usize,
    ) -> u8;
    fn conguraha1_cbc_neighbour(
        iv: *const u8,
        iv_length: usize,
        text: *const u8,
        text_length: usize,
        j: usize,
    ) -> Neighbour;
    fn conguraha1_aes_expand(
        key: *const u8,
        key_length: usize,
        rounds: *mut usize,
        keys: *mut u8,
    ) -> u8;
    fn conguraha1_aes_encrypt(
        key: *const u8,
        key_length: usize,
        block: *const u8,
        out: *mut u8,
    ) -> u8;
    fn conguraha1_aes_decrypt(
        key: *const u8,
        key_length: usize,
        block: *const u8,
        out: *mut u8,
    ) -> u8;
}

// SAFETY, of each call below: a slice goes as its pointer and its length, and an array as a pointer
// to as many bytes as the export takes. What is written is lent as `&mut`, so it overlaps nothing
// else. Any number, any length and any session is answered.

pub(crate) fn open(mode: usize, decrypting: u8, n: usize, key: &[u8], iv: &[u8]) -> Opened {
    let (key, key_length) = (key.as_ptr(), key.len());
    let (iv, iv_length) = (iv.as_ptr(), iv.len());
    unsafe { conguraha1_open(mode, decrypting, n, key, key_length, iv, iv_length) }
}

pub(crate) fn open_counter(
    mode: usize,
    decrypting: u8,
    n: usize,
    m: usize,
    key: &[u8],
    iv: &[u8],
) -> Opened {
    let (key, key_length) = (key.as_ptr(), key.len());
    let (iv, iv_length) = (iv.as_ptr(), iv.len());
    unsafe { conguraha1_open_counter(mode, decrypting, n, m, key, key_length, iv, iv_length) }
}

pub(crate) fn feed(
    session: &Session,
    input: &[u8],
    bits: usize,
    out: &mut [u8],
    place: usize,
) -> Fed {
    let (input, input_length) = (input.as_ptr(), input.len());
    let (out, out_length) = (out.as_mut_ptr(), out.len());
    unsafe { conguraha1_feed(*session, input, input_length, bits, out, out_length, place) }
}

pub(crate) fn carry(older: &Session32) -> Session {
    unsafe { conguraha1_carry(*older) }
}

pub(crate) fn alike(a: &Session, b: &Session) -> bool {
    unsafe { conguraha1_alike(*a, *b) != 0 }
}

pub(crate) fn forecast(mode: usize, n: usize, bits: usize) -> Cost {
    unsafe { conguraha1_forecast(mode, n, bits) }
}

pub(crate) fn counter_place(iv: &[u8; BLOCK], block: &[u8; BLOCK], m: usize) -> Place {
    unsafe { conguraha1_counter_place(iv.as_ptr(), block.as_ptr(), m) }
}

pub(crate) fn pad(input: &[u8], bits: usize, out: &mut [u8], place: usize) -> Length {
    let (input, input_length) = (input.as_ptr(), input.len());
    let (out, out_length) = (out.as_mut_ptr(), out.len());
    unsafe { conguraha1_pad(input, input_length, bits, out, out_length, place) }
}

pub(crate) fn unpad(input: &[u8], bits: usize) -> Length {
    unsafe { conguraha1_unpad(input.as_ptr(), input.len(), bits) }
}

pub(crate) fn cts_encrypt(
    key: &[u8],
    iv: &[u8],
    input: &[u8],
    bits: usize,
    out: &mut [u8],
    place: usize,
) -> usize {
    let number = unsafe {
        conguraha1_cts_encrypt(
            key.as_ptr(),
            key.len(),
            iv.as_ptr(),
            iv.len(),
            input.as_ptr(),
            input.len(),
            bits,
            out.as_mut_ptr(),
            out.len(),
            place,
        )
    };
    number.into()
}

pub(crate) fn cts_decrypt(
    key: &[u8],
    iv: &[u8],
    input: &[u8],
    bits: usize,
    out: &mut [u8],
    place: usize,
) -> usize {
    let number = unsafe {
        conguraha1_cts_decrypt(
            key.as_ptr(),
            key.len(),
            iv.as_ptr(),
            iv.len(),
            input.as_ptr(),
            input.len(),
            bits,
            out.as_mut_ptr(),
            out.len(),
            place,
        )
    };
    number.into()
}

pub(crate) fn cbc_block(
    key: &[u8],
    iv: &[u8],
    text: &[u8],
    j: usize,
    out: &mut [u8],
    place: usize,
) -> usize {
    let number = unsafe {
        conguraha1_cbc_block(
            key.as_ptr(),
            key.len(),
            iv.as_ptr(),
            iv.len(),
            text.as_ptr(),
            text.len(),
            j,
            out.as_mut_ptr(),
            out.len(),
            place,
        )
    };
    number.into()
}

pub(crate) fn cbc_neighbour(iv: &[u8], text: &[u8], j: usize) -> Neighbour {
    let (iv, iv_length) = (iv.as_ptr(), iv.len());
    unsafe { conguraha1_cbc_neighbour(iv, iv_length, text.as_ptr(), text.len(), j) }
}

pub(crate) fn aes_expand(key: &[u8], rounds: &mut usize, keys: &mut [u8; KEYS]) -> usize {
    unsafe { conguraha1_aes_expand(key.as_ptr(), key.len(), rounds, keys.as_mut_ptr()) }.into()
}

pub(crate) fn aes_encrypt(key: &[u8], block: &[u8; BLOCK], out: &mut [u8; BLOCK]) -> usize {
    let (key, key_length) = (key.as_ptr(), key.len());
    unsafe { conguraha1_aes_encrypt(key, key_length, block.as_ptr(), out.as_mut_ptr()) }.into()
}

pub(crate) fn aes_decrypt(key: &[u8], block: &[u8; BLOCK], out: &mut [u8; BLOCK]) -> usize {
    let (key, key_length) = (key.as_ptr(), key.len());
    unsafe { conguraha1_aes_decrypt(key, key_length, block.as_ptr(), out.as_mut_ptr()) }.into()
}
