//! The words that an opening is told.

/// A mode of operation (SP 800-38A).
#[derive(Clone, Copy, Debug, PartialEq, Eq, Hash)]
pub enum Mode {
    /// Electronic codebook: each block by itself. It has no IV.
    Ecb = 0,
    /// Cipher block chaining.
    Cbc = 1,
    /// Cipher feedback, with segments of 1 to 128 bits.
    Cfb = 2,
    /// Output feedback.
    Ofb = 3,
    /// Counter.
    Ctr = 4,
}

impl Mode {
    pub(crate) fn from_number(number: usize) -> Option<Mode> {
        let modes = [Mode::Ecb, Mode::Cbc, Mode::Cfb, Mode::Ofb, Mode::Ctr];
        modes.get(number).copied()
    }
}

/// Whether a session encrypts or decrypts.
#[derive(Clone, Copy, Debug, PartialEq, Eq, Hash)]
pub enum Direction {
    /// Plaintext is fed, and ciphertext written.
    Encrypt = 0,
    /// Ciphertext is fed, and plaintext written.
    Decrypt = 1,
}

impl Direction {
    /// Of a flag 0 says no and any other value yes.
    pub(crate) fn from_flag(decrypting: u8) -> Direction {
        match decrypting {
            0 => Direction::Encrypt,
            _ => Direction::Decrypt,
        }
    }
}
