//! Bytes that are no longer needed.
#![allow(unsafe_code)]

use std::ptr;
use std::sync::atomic::{compiler_fence, Ordering};

/// Writes 0 to each byte, and the compiler may not leave it out: for keys and texts that are no
/// longer needed. A [`Session`](crate::Session) wipes itself when it is dropped.
///
/// ```
/// let mut key = *b"sixteen bytes 16";
/// conguraha::wipe(&mut key);
/// assert_eq!(key, [0; 16]);
/// ```
pub fn wipe(bytes: &mut [u8]) {
    for byte in bytes {
        // SAFETY: the reference is to a byte that may be written.
        unsafe { ptr::write_volatile(byte, 0) };
    }
    compiler_fence(Ordering::SeqCst);
}
