//! What is computed without running the cipher: a feed's cost, and a counter block's place.

use crate::{ffi, Answer, Mode, BLOCK};

/// What a feed will cost.
#[derive(Clone, Copy, Debug, PartialEq, Eq)]
pub struct Cost {
    /// The bytes that it writes.
    pub bytes: usize,
    /// How often it runs the block cipher.
    pub runs: usize,
}

/// What a feed of that many bits will cost; nothing is run. A feed that is accepted writes that many
/// bytes and makes that many runs of the block cipher.
///
/// Answers: [`Answer::UnitLength`], [`Answer::Bits`] (more than [`MAX_BITS`](crate::MAX_BITS)),
/// [`Answer::PartUnit`].
///
/// ```
/// use conguraha::{forecast, Answer, Cost, Mode};
///
/// assert_eq!(forecast(Mode::Cfb, 3, 27), Ok(Cost { bytes: 4, runs: 9 }));
/// assert_eq!(forecast(Mode::Cfb, 3, 28), Err(Answer::PartUnit));
/// ```
pub fn forecast(mode: Mode, n: usize, bits: usize) -> Result<Cost, Answer> {
    let cost = ffi::forecast(mode as usize, n, bits);
    Answer::check(cost.number)?;
    Ok(Cost {
        bytes: cost.bytes,
        runs: cost.runs,
    })
}

/// The place of a counter block in its message: how often the IV was counted up in its lowest `m`
/// bits to give the block. The counter block of unit t of a session has the place t.
///
/// Answers: [`Answer::CounterLength`], [`Answer::OtherMessage`].
///
/// ```
/// use conguraha::{counter_place, Answer};
///
/// let iv = 0xf0f1f2f3f4f5f6f7f8f9fafbfcfdfeff_u128.to_be_bytes();
/// let block = 0xf0f1f2f3f4f5f6f7f8f9fafbfcfdff02_u128.to_be_bytes();
/// assert_eq!(counter_place(&iv, &block, 32), Ok(3));
/// assert_eq!(counter_place(&iv, &block, 8), Err(Answer::OtherMessage));
/// ```
pub fn counter_place(iv: &[u8; BLOCK], block: &[u8; BLOCK], m: usize) -> Result<u128, Answer> {
    let place = ffi::counter_place(iv, block, m);
    Answer::check(place.number)?;
    Ok(u128::from_be_bytes(place.increments))
}
