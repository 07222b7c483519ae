// The direction of a session, of a call and of the other implementations.
#[derive(Clone, Copy, Debug, PartialEq)]
pub enum Direction {
    Encrypt,
    Decrypt,
}

impl Direction {
    // As the lines of the programs have it.
    pub fn letter(self) -> &'static str {
        match self {
            Direction::Encrypt => "E",
            Direction::Decrypt => "D",
        }
    }
}
