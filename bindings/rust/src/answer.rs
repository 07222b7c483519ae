//! Why a call is refused.

use std::error::Error;
use std::fmt;

/// Makes the enum `Answer`, and the table `ANSWERS` of each answer's number and sentence. The
/// sentences are those of `conguraha.h`.
macro_rules! answers {
    ($($(#[$more:meta])* $name:ident $number:literal $sentence:literal,)*) => {
        /// Why a call is refused. Each answer has a number, and a sentence as its text.
        ///
        /// ```
        /// use conguraha::{Answer, Direction, Mode, Session};
        ///
        /// let key = b"too short";
        /// let answer = Session::open(Mode::Ecb, Direction::Encrypt, 128, key, b"").unwrap_err();
        /// assert_eq!(answer, Answer::KeyLength);
        /// assert_eq!(answer.number(), 1);
        /// assert_eq!(answer.to_string(), "the key is not 16, 24 or 32 bytes long");
        /// ```
        #[derive(Clone, Copy, Debug, PartialEq, Eq, Hash)]
        #[non_exhaustive]
        pub enum Answer {
            $(
                #[doc = concat!($number, ": ", $sentence, ".")]
                $(#[$more])*
                $name,
            )*
            /// A number that this version does not know.
            Unknown(usize),
        }

        const ANSWERS: &[(Answer, usize, &str)] = &[$((Answer::$name, $number, $sentence)),*];
    };
}

answers! {
    KeyLength 1 "the key is not 16, 24 or 32 bytes long",
    IvLength 2 "the IV is not 16 bytes long, or in ECB not empty",
    UnitLength 3 "n is not 1 to 128 in CFB, or not 128 in another mode",
    /// Here a refused opening gives no session: only a carried one ([`Session::carry`]) answers so.
    ///
    /// [`Session::carry`]: crate::Session::carry
    NotOpened 4 "the session was not opened, or its opening was refused",
    Closed 5 "the session is closed: an earlier feed in OFB or CTR was not whole blocks",
    Bits 6 "there are more bits than the input has, or than one call takes",
    PartUnit 7 "the bits are not whole units (for unpad, not one or more whole blocks)",
    Room 8 "the output has too few bytes for what would be written",
    UnitLimit 9 "the session would have processed more than 2^64 - 1 units",
    NoBlock 11 "the ciphertext is not whole blocks, or has no block of that number",
    /// The program modeline's: no call answers it.
    NotFormed 12 "the text does not have the form that modeline reads",
    MessageLength 13 "the message is not whole bytes, or not longer than 16 bytes",
    CounterLength 14 "m is not 1 to 128 in CTR, or not 128 in another mode",
    CounterLimit 15 "the session would have used more than its 2^m counter blocks",
    OtherMessage 16 "the counter block is not of this message: its upper bits are not the IV's",
    /// A [`Mode`] is always one of them: only [`Session32::from_bytes`] answers so.
    ///
    /// [`Mode`]: crate::Mode
    /// [`Session32::from_bytes`]: crate::Session32::from_bytes
    NoMode 64 "the mode is none of the five",
    /// A `&mut` slice overlaps nothing: no call of this crate answers it.
    Overlap 65 "the output overlaps the input, or something else that is handed over",
}

impl Answer {
    /// The answer's number, which is the same in every language.
    pub fn number(self) -> usize {
        match self {
            Answer::Unknown(number) => number,
            _ => self.row().map_or(0, |row| row.1),
        }
    }

    /// The answer of a number, such as one in a log; none for 0, which is no refusal, and for a
    /// number that is no answer's.
    ///
    /// ```
    /// use conguraha::Answer;
    ///
    /// assert_eq!(Answer::from_number(8), Some(Answer::Room));
    /// assert_eq!(Answer::from_number(0), None);
    /// ```
    pub fn from_number(number: usize) -> Option<Answer> {
        let row = ANSWERS.iter().find(|row| row.1 == number);
        row.map(|row| row.0)
    }

    /// What a call's number says: nothing is refused where it is 0.
    pub(crate) fn check(number: usize) -> Result<(), Answer> {
        match number {
            0 => Ok(()),
            _ => Err(Answer::from_number(number).unwrap_or(Answer::Unknown(number))),
        }
    }

    fn row(self) -> Option<&'static (Answer, usize, &'static str)> {
        ANSWERS.iter().find(|row| row.0 == self)
    }
}

impl fmt::Display for Answer {
    fn fmt(&self, f: &mut fmt::Formatter<'_>) -> fmt::Result {
        f.pad(self.row().map_or("no such answer", |row| row.2))
    }
}

impl Error for Answer {}

#[cfg(test)]
mod tests {
    use super::Answer;

    #[test]
    fn a_number_of_a_later_version_is_kept() {
        let answer = Answer::check(17).unwrap_err();
        assert_eq!(answer, Answer::Unknown(17));
        assert_eq!(answer.number(), 17);
        assert_eq!(answer.to_string(), "no such answer");
    }
}
