//! Escaped payloads: `\n`, `\t`, `\s`, `\\`, `\xHH`, and `\*NNNNNc` for NNNNN times the byte c.

/// The bytes that an escaped payload stands for.
pub fn unescape(payload: &[u8]) -> Vec<u8> {
    let mut bytes = Vec::new();
    let mut rest = payload;
    while let [first, after @ ..] = rest {
        let (byte, times, left) = match rest {
            [b'\\', b'n', left @ ..] => (b'\n', 1, left),
            [b'\\', b't', left @ ..] => (b'\t', 1, left),
            [b'\\', b's', left @ ..] => (b' ', 1, left),
            [b'\\', b'\\', left @ ..] => (b'\\', 1, left),
            [b'\\', b'x', high, low, left @ ..] => match (digit(*high), digit(*low)) {
                (Some(high), Some(low)) => (16 * high + low, 1, left),
                _ => (*first, 1, after),
            },
            [b'\\', b'*', a, b, c, d, e, byte, left @ ..] => match times(&[*a, *b, *c, *d, *e]) {
                Some(times) => (*byte, times, left),
                None => (*first, 1, after),
            },
            _ => (*first, 1, after),
        };
        bytes.resize(bytes.len() + times, byte);
        rest = left;
    }
    bytes
}

/// The value of decimal digits, leading zeros among them.
fn times(digits: &[u8]) -> Option<usize> {
    match digits.iter().all(u8::is_ascii_digit) {
        true => std::str::from_utf8(digits).ok()?.parse().ok(),
        false => None,
    }
}

/// A lowercase hexadecimal digit.
fn digit(letter: u8) -> Option<u8> {
    match letter {
        b'0'..=b'9' => Some(letter - b'0'),
        b'a'..=b'f' => Some(letter - b'a' + 10),
        _ => None,
    }
}
