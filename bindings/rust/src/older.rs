//! Sessions of the older release.

use crate::{ffi, wipe, Answer, Direction, Mode, BLOCK, KEYS};
use std::fmt;

/// A session of the older release, whose units were a 32-bit number. [`Session::carry`] carries it
/// over.
///
/// It wipes its round keys and its register where it is dropped. But unlike a [`Session`] it has no
/// box: a place from which it was moved keeps a copy.
///
/// [`Session`]: crate::Session
/// [`Session::carry`]: crate::Session::carry
pub struct Session32 {
    /// The mode.
    pub mode: Mode,
    /// The direction.
    pub direction: Direction,
    /// The bits of a unit.
    pub n: usize,
    /// The bits of the counter.
    pub m: usize,
    /// The rounds of AES.
    pub rounds: usize,
    /// The round keys.
    pub keys: [u8; KEYS],
    /// The register.
    pub register: [u8; BLOCK],
    /// The units that were processed so far.
    pub units: u32,
    /// Whether it is closed.
    pub closed: bool,
}

impl Session32 {
    /// The bytes of the struct that the older release's header has.
    pub const BYTES: usize = 304;

    /// Reads that struct, `struct conguraha_session32` of `conguraha.h`, as a program stored it: in
    /// the byte order of this machine. Any bytes are one: of a flag 0 says no and any other value
    /// yes.
    ///
    /// Answer: [`Answer::NoMode`].
    ///
    /// ```
    /// use conguraha::{Answer, Mode, Session, Session32};
    ///
    /// let mut stored = [0; Session32::BYTES];
    /// let older = Session32::from_bytes(&stored)?;
    /// assert_eq!(older.mode, Mode::Ecb);
    /// let refused = Session::carry(older).feed(&[], &mut []).unwrap_err();
    /// assert_eq!(refused.answer, Answer::NotOpened);
    ///
    /// stored[0] = 5;
    /// assert_eq!(Session32::from_bytes(&stored).unwrap_err(), Answer::NoMode);
    /// # Ok::<(), Answer>(())
    /// ```
    pub fn from_bytes(bytes: &[u8; Session32::BYTES]) -> Result<Session32, Answer> {
        let held = ffi::Session32::from_bytes(*bytes);
        Ok(Session32 {
            mode: Mode::from_number(held.mode).ok_or(Answer::NoMode)?,
            direction: Direction::from_flag(held.decrypting),
            n: held.n,
            m: held.m,
            rounds: held.rounds,
            keys: held.keys,
            register: held.reg,
            units: held.units,
            closed: held.closed != 0,
        })
    }

    pub(crate) fn held(&self) -> ffi::Session32 {
        ffi::Session32 {
            mode: self.mode as usize,
            decrypting: self.direction as u8,
            spare: [0; 7],
            n: self.n,
            m: self.m,
            rounds: self.rounds,
            keys: self.keys,
            reg: self.register,
            units: self.units,
            closed: self.closed.into(),
            spare2: [0; 3],
        }
    }
}

impl Drop for Session32 {
    fn drop(&mut self) {
        wipe(&mut self.keys);
        wipe(&mut self.register);
    }
}

/// It prints no key and no register.
impl fmt::Debug for Session32 {
    fn fmt(&self, f: &mut fmt::Formatter<'_>) -> fmt::Result {
        f.debug_struct("Session32")
            .field("mode", &self.mode)
            .field("direction", &self.direction)
            .field("n", &self.n)
            .field("m", &self.m)
            .field("units", &self.units)
            .field("closed", &self.closed)
            .finish_non_exhaustive()
    }
}
