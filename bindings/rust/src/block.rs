//! One block: of a CBC ciphertext, or under a key alone.

use crate::{ffi, Answer, BLOCK, KEYS};
use std::fmt;

/// What stands before block `j` of a CBC ciphertext: the IV for j = 0, else block j - 1. Blocks are
/// counted from 0.
///
/// Answers: [`Answer::IvLength`], [`Answer::NoBlock`].
///
/// ```
/// use conguraha::{cbc_neighbour, Answer};
///
/// let (iv, ciphertext) = ([9; 16], [[1; 16], [2; 16]].concat());
/// assert_eq!(cbc_neighbour(&iv, &ciphertext, 0)?, [9; 16]);
/// assert_eq!(cbc_neighbour(&iv, &ciphertext, 1)?, [1; 16]);
/// assert_eq!(cbc_neighbour(&iv, &ciphertext, 2), Err(Answer::NoBlock));
/// # Ok::<(), Answer>(())
/// ```
pub fn cbc_neighbour<'a>(iv: &'a [u8], ciphertext: &'a [u8], j: usize) -> Result<&'a [u8], Answer> {
    let found = ffi::cbc_neighbour(iv, ciphertext, j);
    Answer::check(found.number)?;
    let source = if found.source == 0 { iv } else { ciphertext };
    let behind = source.get(found.offset..).unwrap_or_default();
    Ok(behind.get(..found.length).unwrap_or_default())
}

/// Decrypts block `j` of a CBC ciphertext with its neighbour. Blocks are counted from 0.
///
/// Answers: [`Answer::KeyLength`], [`Answer::IvLength`], [`Answer::NoBlock`].
///
/// ```
/// // SP 800-38A, F.2.1: the second block, read without the others.
/// let key = 0x2b7e151628aed2a6abf7158809cf4f3c_u128.to_be_bytes();
/// let iv = 0x000102030405060708090a0b0c0d0e0f_u128.to_be_bytes();
/// let first = 0x7649abac8119b246cee98e9b12e9197d_u128.to_be_bytes();
/// let second = 0x5086cb9b507219ee95db113a917678b2_u128.to_be_bytes();
/// let text = conguraha::cbc_block(&key, &iv, &[first, second].concat(), 1)?;
/// assert_eq!(text, 0xae2d8a571e03ac9c9eb76fac45af8e51_u128.to_be_bytes());
/// # Ok::<(), conguraha::Answer>(())
/// ```
pub fn cbc_block(
    key: &[u8],
    iv: &[u8],
    ciphertext: &[u8],
    j: usize,
) -> Result<[u8; BLOCK], Answer> {
    let mut out = [0; BLOCK];
    Answer::check(ffi::cbc_block(key, iv, ciphertext, j, &mut out, 0))?;
    Ok(out)
}

/// Encrypts one block under a key: AES itself.
///
/// Answer: [`Answer::KeyLength`].
///
/// ```
/// // FIPS 197, appendix C.1.
/// let key = 0x000102030405060708090a0b0c0d0e0f_u128.to_be_bytes();
/// let block = 0x00112233445566778899aabbccddeeff_u128.to_be_bytes();
/// let made = conguraha::aes_encrypt(&key, &block)?;
/// assert_eq!(made, 0x69c4e0d86a7b0430d8cdb78070b4c55a_u128.to_be_bytes());
/// assert_eq!(conguraha::aes_decrypt(&key, &made)?, block);
/// # Ok::<(), conguraha::Answer>(())
/// ```
pub fn aes_encrypt(key: &[u8], block: &[u8; BLOCK]) -> Result<[u8; BLOCK], Answer> {
    let mut out = [0; BLOCK];
    Answer::check(ffi::aes_encrypt(key, block, &mut out))?;
    Ok(out)
}

/// Decrypts one block under a key. Answer: [`Answer::KeyLength`].
pub fn aes_decrypt(key: &[u8], block: &[u8; BLOCK]) -> Result<[u8; BLOCK], Answer> {
    let mut out = [0; BLOCK];
    Answer::check(ffi::aes_decrypt(key, block, &mut out))?;
    Ok(out)
}

/// A key's round keys. They are as secret as the key: [`wipe`](crate::wipe()) clears them.
#[derive(Clone, PartialEq, Eq)]
pub struct Expanded {
    /// The rounds: 10, 12 or 14.
    pub rounds: usize,
    /// The round keys, 16 bytes for each round and 16 more, and 0 in the bytes after them.
    pub keys: [u8; KEYS],
}

/// Expands a key into its round keys.
///
/// Answer: [`Answer::KeyLength`].
///
/// ```
/// let mut expanded = conguraha::aes_expand(b"sixteen bytes 16")?;
/// assert_eq!(expanded.rounds, 10);
/// assert_eq!(expanded.keys[..16], *b"sixteen bytes 16");
/// conguraha::wipe(&mut expanded.keys);
/// # Ok::<(), conguraha::Answer>(())
/// ```
pub fn aes_expand(key: &[u8]) -> Result<Expanded, Answer> {
    let (mut rounds, mut keys) = (0, [0; KEYS]);
    Answer::check(ffi::aes_expand(key, &mut rounds, &mut keys))?;
    Ok(Expanded { rounds, keys })
}

/// It prints no key.
impl fmt::Debug for Expanded {
    fn fmt(&self, f: &mut fmt::Formatter<'_>) -> fmt::Result {
        f.debug_struct("Expanded")
            .field("rounds", &self.rounds)
            .finish_non_exhaustive()
    }
}
