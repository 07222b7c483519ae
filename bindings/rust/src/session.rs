//! Sessions: opened once, and fed as often as there is text.

use crate::{bits_of, ffi, wipe, Answer, Direction, Mode, Session32, BLOCK, KEYS};
use std::error::Error;
use std::fmt;

/// A session: what stays between two feeds.
///
/// It is moved by a feed, which gives the next one. It is not `Copy`, and [`Clone`] is to be
/// called by name.
///
/// It wipes its round keys and its register, by writes that the compiler may not leave out, when
/// it is dropped. They stand in a box for that: a move then moves the box alone, and no copy stays
/// behind that nobody wipes, so that there is no call to be forgotten. What a call had on the
/// stack is not cleared, and neither is a session that is leaked or that stands in a process which
/// is killed.
///
/// Two are equal (`==`) where every part is; [`alike`](Session::alike) leaves units and closing
/// out. Both take longer where more bytes are equal: compare no session with one that a stranger
/// chose.
#[derive(PartialEq, Eq)]
pub struct Session {
    held: Box<ffi::Session>,
}

/// What a feed gave.
#[derive(Debug)]
pub struct Fed<'out> {
    /// The session after it.
    pub session: Session,
    /// How often the block cipher was run: once for each unit, a short one included.
    pub runs: usize,
    /// The part of the output that was written. The spare bits of its last byte are 0.
    pub written: &'out [u8],
}

/// What a refused feed gave. It has written nothing.
///
/// As an error it reads as its answer, and where `?` needs an [`Answer`] it becomes that.
#[derive(Debug)]
pub struct Refused {
    /// The session as it was, which can be fed again.
    pub session: Session,
    /// Why it is refused.
    pub answer: Answer,
}

impl Session {
    /// Opens a session.
    ///
    /// `n` is the segment's bits in CFB, and 128 in the other modes. The IV has 16 bytes, and none
    /// in ECB; it is never used twice to encrypt under one key (SP 800-38A, appendices B and C,
    /// says how to choose it).
    ///
    /// Answers: [`Answer::KeyLength`], [`Answer::IvLength`], [`Answer::UnitLength`].
    ///
    /// ```
    /// use conguraha::{Answer, Direction, Mode, Session};
    ///
    /// let (key, iv) = ([7; 32], [9; 16]);
    /// assert!(Session::open(Mode::Cfb, Direction::Decrypt, 8, &key, &iv).is_ok());
    /// assert!(Session::open(Mode::Ecb, Direction::Decrypt, 128, &key, &[]).is_ok());
    ///
    /// let answer = Session::open(Mode::Cbc, Direction::Decrypt, 8, &key, &iv).unwrap_err();
    /// assert_eq!(answer, Answer::UnitLength);
    /// ```
    pub fn open(
        mode: Mode,
        direction: Direction,
        n: usize,
        key: &[u8],
        iv: &[u8],
    ) -> Result<Session, Answer> {
        Session::opened(ffi::open(mode as usize, direction as u8, n, key, iv))
    }

    /// Opens a session with a counter of `m` bits in CTR.
    ///
    /// The lowest m bits of the IV count up, modulo 2^m, and the other bits stay, so that they can
    /// name the message (SP 800-38A, appendix B). Such a session processes at most 2^m units.
    /// [`open`](Session::open) is this with m = 128; the other modes take no other m.
    ///
    /// Answers: those of `open`, then [`Answer::CounterLength`].
    ///
    /// ```
    /// use conguraha::{Answer, Direction, Mode, Session};
    ///
    /// let (key, iv) = ([7; 16], [9; 16]);
    /// let session = Session::open_counter(Mode::Ctr, Direction::Encrypt, 128, 1, &key, &iv)?;
    /// // Two counter blocks, and no third one.
    /// let mut out = [0; 48];
    /// let refused = session.feed(&[0; 48], &mut out).unwrap_err();
    /// assert_eq!(refused.answer, Answer::CounterLimit);
    /// assert!(refused.session.feed(&[0; 32], &mut out).is_ok());
    /// # Ok::<(), Answer>(())
    /// ```
    pub fn open_counter(
        mode: Mode,
        direction: Direction,
        n: usize,
        m: usize,
        key: &[u8],
        iv: &[u8],
    ) -> Result<Session, Answer> {
        Session::opened(ffi::open_counter(
            mode as usize,
            direction as u8,
            n,
            m,
            key,
            iv,
        ))
    }

    fn opened(opened: ffi::Opened) -> Result<Session, Answer> {
        Answer::check(opened.number)?;
        Ok(Session::holding(opened.session))
    }

    fn holding(held: ffi::Session) -> Session {
        Session {
            held: Box::new(held),
        }
    }

    /// Feeds bytes, and writes as many to the front of `out`.
    ///
    /// How a text is cut into feeds changes nothing in what is written, as long as each cut is
    /// between units. In OFB and CTR the last feed need not be whole blocks: it closes the session.
    /// A feed of no bytes changes nothing. One feed takes at most [`MAX_BYTES`](crate::MAX_BYTES),
    /// so a longer text is cut.
    ///
    /// Answers: [`Answer::NotOpened`], [`Answer::Closed`], [`Answer::Bits`] (more than
    /// `MAX_BYTES`), [`Answer::PartUnit`], [`Answer::Room`], [`Answer::UnitLimit`],
    /// [`Answer::CounterLimit`]. A refused feed gives the session back, and `out` stays as it was.
    ///
    /// ```
    /// use conguraha::{Answer, Direction, Mode, Session};
    ///
    /// let (key, iv) = ([7; 16], [9; 16]);
    /// let mut session = Session::open(Mode::Cfb, Direction::Encrypt, 8, &key, &iv)?;
    /// let mut sent = Vec::new();
    /// let mut out = [0; 4];
    /// for part in b"a text of any length".chunks(4) {
    ///     let fed = session.feed(part, &mut out)?;
    ///     sent.extend(fed.written);
    ///     session = fed.session;
    /// }
    ///
    /// let session = Session::open(Mode::Cfb, Direction::Decrypt, 8, &key, &iv)?;
    /// let refused = session.feed(&sent, &mut out).unwrap_err();
    /// assert_eq!(refused.answer, Answer::Room);
    /// let mut out = [0; 64];
    /// let fed = refused.session.feed(&sent, &mut out)?;
    /// assert_eq!(fed.written, b"a text of any length");
    /// # Ok::<(), Answer>(())
    /// ```
    ///
    /// An old state cannot be fed again:
    ///
    /// ```compile_fail,E0382
    /// # use conguraha::{Answer, Direction, Mode, Session};
    /// # let mut out = [0; 64];
    /// let session = Session::open(Mode::Ofb, Direction::Encrypt, 128, &[7; 16], &[9; 16])?;
    /// let first = session.feed(b"sixteen bytes 16", &mut out)?;
    /// let second = session.feed(b"another 16 bytes", &mut out)?; // not first.session
    /// # Ok::<(), Answer>(())
    /// ```
    pub fn feed<'out>(self, input: &[u8], out: &'out mut [u8]) -> Result<Fed<'out>, Refused> {
        self.feed_bits(input, bits_of(input), out, 0)
    }

    /// Feeds the first `bits` bits of the input, from the highest bit of its first byte on, and
    /// writes as many from `out[place]` on.
    ///
    /// It writes whole bytes; the spare bits of the last one become 0. `bits` are not bytes: 64
    /// bytes are 512 bits.
    ///
    /// Answers: those of [`feed`](Session::feed); [`Answer::Bits`] also where the input has fewer
    /// bits.
    ///
    /// ```
    /// use conguraha::{Answer, Direction, Mode, Session};
    ///
    /// // SP 800-38A, F.3.1: segments of 1 bit.
    /// let key = 0x2b7e151628aed2a6abf7158809cf4f3c_u128.to_be_bytes();
    /// let iv = 0x000102030405060708090a0b0c0d0e0f_u128.to_be_bytes();
    /// let session = Session::open(Mode::Cfb, Direction::Encrypt, 1, &key, &iv)?;
    /// let mut out = [0xff; 3];
    /// let fed = session.feed_bits(&[0b01101011], 5, &mut out, 1)?;
    /// assert_eq!(fed.written, [0b01101000]);
    /// assert_eq!(fed.runs, 5);
    /// assert_eq!(out, [0xff, 0b01101000, 0xff]);
    /// # Ok::<(), Answer>(())
    /// ```
    pub fn feed_bits<'out>(
        mut self,
        input: &[u8],
        bits: usize,
        out: &'out mut [u8],
        place: usize,
    ) -> Result<Fed<'out>, Refused> {
        let fed = ffi::feed(&self.held, input, bits, out, place);
        *self.held = fed.session;
        match Answer::check(fed.number) {
            Ok(()) => Ok(Fed {
                session: self,
                runs: fed.runs,
                written: written(out, bits, place),
            }),
            Err(answer) => Err(Refused {
                session: self,
                answer,
            }),
        }
    }

    /// Whether the two sessions are alike: mode, direction, n, m, rounds, the round keys in use and
    /// the register are equal. Units and closing are not compared.
    ///
    /// ```
    /// use conguraha::{Answer, Direction, Mode, Session};
    ///
    /// // A receiver that came in late is alike the one that was there from the first byte on.
    /// let (key, iv, sent) = ([7; 16], [9; 16], [0x5c; 40]);
    /// let mut out = [0; 40];
    /// let first = Session::open(Mode::Cfb, Direction::Decrypt, 8, &key, &iv)?;
    /// let first = first.feed(&sent, &mut out)?.session;
    /// let late = Session::open(Mode::Cfb, Direction::Decrypt, 8, &key, &[0; 16])?;
    /// let late = late.feed(&sent[24..], &mut out)?.session;
    /// assert!(first.alike(&late));
    /// assert!(first != late);
    /// # Ok::<(), Answer>(())
    /// ```
    #[must_use]
    pub fn alike(&self, other: &Session) -> bool {
        ffi::alike(&self.held, &other.held)
    }

    /// Carries a session of the older release over: every part as it was.
    ///
    /// Feeds then answer and write what they did there; and where that release answered
    /// [`Answer::UnitLimit`], having 4,294,967,295 for its limit, they go on, or answer
    /// [`Answer::CounterLimit`]. It refuses nothing: where the parts are no opened session's, every
    /// feed answers [`Answer::NotOpened`]. An older session that is stored is carried over once:
    /// two that encrypt are one keystream used twice.
    ///
    /// ```
    /// use conguraha::{aes_expand, Answer, Direction, Mode, Session, Session32};
    ///
    /// let expanded = aes_expand(&[7; 16])?;
    /// let older = Session32 {
    ///     mode: Mode::Cfb,
    ///     direction: Direction::Decrypt,
    ///     n: 8,
    ///     m: 128,
    ///     rounds: expanded.rounds,
    ///     keys: expanded.keys,
    ///     register: [9; 16],
    ///     units: u32::MAX,
    ///     closed: false,
    /// };
    /// let mut out = [0; 1];
    /// let fed = Session::carry(older).feed(&[0x3b], &mut out)?;
    /// assert_eq!(fed.session.units(), 4_294_967_296);
    /// # Ok::<(), Answer>(())
    /// ```
    #[must_use]
    pub fn carry(older: Session32) -> Session {
        Session::holding(ffi::carry(&older.held()))
    }

    /// The mode.
    pub fn mode(&self) -> Mode {
        // Whatever makes a session is told one of the five.
        Mode::from_number(self.held.mode).unwrap_or(Mode::Ctr)
    }

    /// The direction.
    pub fn direction(&self) -> Direction {
        Direction::from_flag(self.held.decrypting)
    }

    /// The bits of a unit: the segment length in CFB, 128 in the other modes.
    pub fn n(&self) -> usize {
        self.held.n
    }

    /// The bits of the counter, the lowest of the block, in CTR; 128 in the other modes.
    pub fn m(&self) -> usize {
        self.held.m
    }

    /// The rounds of AES: 10, 12 or 14.
    pub fn rounds(&self) -> usize {
        self.held.rounds
    }

    /// The round keys: as secret as the key, which they begin with.
    pub fn round_keys(&self) -> &[u8; KEYS] {
        &self.held.keys
    }

    /// The register: the IV at first; later the counter block of the next unit in CTR, the last
    /// output block in OFB, which is as secret as the text, and the last 128 bits of ciphertext in
    /// CBC and CFB. In ECB it is zero bytes.
    pub fn register(&self) -> &[u8; BLOCK] {
        &self.held.reg
    }

    /// The units that were processed so far.
    pub fn units(&self) -> u64 {
        self.held.units
    }

    /// Whether the session is closed: an earlier feed in OFB or CTR was not whole blocks.
    pub fn closed(&self) -> bool {
        self.held.closed != 0
    }
}

/// What an accepted feed of a given number of bits wrote.
fn written(out: &[u8], bits: usize, place: usize) -> &[u8] {
    let bytes = bits / 8 + usize::from(bits % 8 != 0);
    let behind = out.get(place..).unwrap_or_default();
    behind.get(..bytes).unwrap_or_default()
}

/// A clone is a session of its own in the same state. To encrypt with both is to use one keystream
/// twice: who has the two ciphertexts then learns of the texts. Clone to decrypt, to compare, or to
/// go back to where a feed began.
impl Clone for Session {
    fn clone(&self) -> Session {
        Session::holding(*self.held)
    }
}

impl Drop for Session {
    fn drop(&mut self) {
        wipe(self.held.bytes());
    }
}

/// It prints no key and no register.
impl fmt::Debug for Session {
    fn fmt(&self, f: &mut fmt::Formatter<'_>) -> fmt::Result {
        f.debug_struct("Session")
            .field("mode", &self.mode())
            .field("direction", &self.direction())
            .field("n", &self.n())
            .field("m", &self.m())
            .field("units", &self.units())
            .field("closed", &self.closed())
            .finish_non_exhaustive()
    }
}

impl fmt::Display for Refused {
    fn fmt(&self, f: &mut fmt::Formatter<'_>) -> fmt::Result {
        self.answer.fmt(f)
    }
}

impl Error for Refused {}

impl From<Refused> for Answer {
    fn from(refused: Refused) -> Answer {
        refused.answer
    }
}

#[cfg(test)]
mod tests {
    use super::{ffi, wipe, Session};
    use crate::{Answer, Direction, Mode, MAX_UNITS};

    fn opened(mode: Mode) -> Session {
        Session::open(mode, Direction::Decrypt, 128, &[7; 16], &[9; 16]).unwrap()
    }

    #[test]
    fn the_unit_limit_is_2_to_the_64_less_1() {
        for mode in [Mode::Cbc, Mode::Cfb, Mode::Ofb, Mode::Ctr] {
            let mut session = opened(mode);
            session.held.units = MAX_UNITS - 2;
            let before = session.clone();
            let mut out = [0xee; 48];
            let refused = session.feed(&[1; 48], &mut out).unwrap_err();
            assert_eq!(refused.answer, Answer::UnitLimit);
            assert_eq!(refused.session, before);
            assert_eq!(out, [0xee; 48]);
            let fed = refused.session.feed(&[1; 32], &mut out).unwrap();
            assert_eq!(fed.session.units(), MAX_UNITS);
        }
    }

    #[test]
    fn a_mode_that_is_none_is_answered() {
        let mut session = opened(Mode::Cbc);
        session.held.mode = 5;
        let refused = session.feed(&[], &mut []).unwrap_err();
        assert_eq!(refused.answer, Answer::NoMode);
        assert!(!refused.session.alike(&refused.session));
    }

    #[test]
    fn a_wiped_session_is_zero_bytes_and_not_opened() {
        let mut session = opened(Mode::Cbc);
        wipe(session.held.bytes());
        assert!(session.held.bytes().iter().all(|&byte| byte == 0));
        assert_eq!(
            session.held.bytes().len(),
            std::mem::size_of::<ffi::Session>()
        );
        let refused = session.feed(&[], &mut []).unwrap_err();
        assert_eq!(refused.answer, Answer::NotOpened);
    }
}
