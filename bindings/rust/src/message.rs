//! Whole texts: padding, and CBC messages with ciphertext stealing.

use crate::{bits_of, ffi, Answer};

/// Pads the first `bits` bits of the input, and writes the padded text, whole blocks, from
/// `out[place]` on. Gives the padded text's bits.
///
/// Padding is one 1 bit, then the fewest 0 bits that reach whole blocks (SP 800-38A, ISO/IEC
/// 7816-4; not PKCS#7).
///
/// Answers: [`Answer::Bits`] (more than the input has, or than 524,287), [`Answer::Room`].
///
/// ```
/// let mut out = [0xff; 20];
/// let bits = conguraha::pad(b"text", 32, &mut out, 2)?;
/// assert_eq!(bits, 128);
/// assert_eq!(out, *b"\xff\xfftext\x80\0\0\0\0\0\0\0\0\0\0\0\xff\xff");
/// assert_eq!(conguraha::unpad(&out[2..], bits)?, 32);
/// # Ok::<(), conguraha::Answer>(())
/// ```
pub fn pad(input: &[u8], bits: usize, out: &mut [u8], place: usize) -> Result<usize, Answer> {
    checked(ffi::pad(input, bits, out, place))
}

/// How many bits of a padded text, the first `bits` bits of the input, stand before its padding.
/// The last block alone is looked at; one of zero bytes counts as padding whole.
///
/// Answers: [`Answer::Bits`], [`Answer::PartUnit`] (not one or more whole blocks).
///
/// ```
/// let padded = 0x6bc1bee22e409f96e93d7e1173900000_u128.to_be_bytes();
/// assert_eq!(conguraha::unpad(&padded, 128)?, 107);
/// # Ok::<(), conguraha::Answer>(())
/// ```
pub fn unpad(input: &[u8], bits: usize) -> Result<usize, Answer> {
    checked(ffi::unpad(input, bits))
}

fn checked(length: ffi::Length) -> Result<usize, Answer> {
    Answer::check(length.number)?;
    Ok(length.bits)
}

/// Encrypts a whole CBC message with ciphertext stealing (RFC 2040; also CBC-CTS, CS3), and writes
/// as many bytes to the front of `out`. A message has 17 to 65,536 bytes.
///
/// Answers: [`Answer::KeyLength`], [`Answer::IvLength`], [`Answer::Bits`] (more than
/// [`MAX_BYTES`](crate::MAX_BYTES)), [`Answer::MessageLength`], [`Answer::Room`].
///
/// ```
/// // RFC 3962, appendix B.
/// let (key, iv) = (b"chicken teriyaki", [0; 16]);
/// let mut sent = [0; 17];
/// conguraha::cts_encrypt(key, &iv, b"I would like the ", &mut sent)?;
/// assert_eq!(sent[..4], [0xc6, 0x35, 0x35, 0x68]);
///
/// let mut text = [0; 17];
/// conguraha::cts_decrypt(key, &iv, &sent, &mut text)?;
/// assert_eq!(text, *b"I would like the ");
/// # Ok::<(), conguraha::Answer>(())
/// ```
pub fn cts_encrypt(key: &[u8], iv: &[u8], text: &[u8], out: &mut [u8]) -> Result<(), Answer> {
    cts_encrypt_bits(key, iv, text, bits_of(text), out, 0)
}

/// Decrypts what [`cts_encrypt`] wrote, and answers as it does.
pub fn cts_decrypt(key: &[u8], iv: &[u8], sent: &[u8], out: &mut [u8]) -> Result<(), Answer> {
    cts_decrypt_bits(key, iv, sent, bits_of(sent), out, 0)
}

/// The same of the first `bits` bits of the input, which are whole bytes, written from `out[place]`
/// on.
///
/// Answers: those of [`cts_encrypt`]; [`Answer::Bits`] also where the input has fewer bits, and
/// [`Answer::MessageLength`] where they are not whole bytes.
///
/// ```
/// use conguraha::{cts_decrypt_bits, cts_encrypt_bits, Answer};
///
/// let (key, iv, text) = ([7; 16], [9; 16], b"the message, and what stands after it");
/// let (mut sent, mut back) = ([0; 32], [0; 32]);
/// cts_encrypt_bits(&key, &iv, text, 8 * 20, &mut sent, 5)?;
/// cts_decrypt_bits(&key, &iv, &sent[5..], 8 * 20, &mut back, 0)?;
/// assert_eq!(back[..20], text[..20]);
///
/// let answer = cts_encrypt_bits(&key, &iv, text, 161, &mut sent, 5).unwrap_err();
/// assert_eq!(answer, Answer::MessageLength);
/// # Ok::<(), Answer>(())
/// ```
pub fn cts_encrypt_bits(
    key: &[u8],
    iv: &[u8],
    input: &[u8],
    bits: usize,
    out: &mut [u8],
    place: usize,
) -> Result<(), Answer> {
    Answer::check(ffi::cts_encrypt(key, iv, input, bits, out, place))
}

/// Decrypts what [`cts_encrypt_bits`] wrote, and answers as it does.
pub fn cts_decrypt_bits(
    key: &[u8],
    iv: &[u8],
    input: &[u8],
    bits: usize,
    out: &mut [u8],
    place: usize,
) -> Result<(), Answer> {
    Answer::check(ffi::cts_decrypt(key, iv, input, bits, out, place))
}
