// Bytes in lower-case hexadecimal.
pub fn hex(bytes: &[u8]) -> String {
    const DIGITS: &[u8; 16] = b"0123456789abcdef";
    let digit = |value: u8| DIGITS[value as usize] as char;
    bytes
        .iter()
        .flat_map(|b| [digit(b >> 4), digit(b & 15)])
        .collect()
}

// A word of a line for replay: `-` stands for no bytes.
pub fn word(bytes: &[u8]) -> String {
    match bytes {
        [] => "-".to_string(),
        _ => hex(bytes),
    }
}

fn value(digit: u8) -> Option<u8> {
    match digit {
        b'0'..=b'9' => Some(digit - b'0'),
        b'a'..=b'f' => Some(digit - b'a' + 10),
        _ => None,
    }
}

// The bytes that the digits spell, none for no digits.
pub fn bytes(digits: &[u8]) -> Option<Vec<u8>> {
    let byte = |pair: &[u8]| match *pair {
        [high, low] => Some(16 * value(high)? + value(low)?),
        _ => None,
    };
    digits.chunks(2).map(byte).collect()
}

pub fn from_hex(text: &str) -> Vec<u8> {
    bytes(text.as_bytes()).expect("pairs of hexadecimal digits")
}
