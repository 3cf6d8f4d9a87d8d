//! Bytes as hexadecimal digits.

const DIGITS: &[u8; 16] = b"0123456789abcdef";

/// Two lowercase digits a byte.
pub fn encode(bytes: &[u8]) -> String {
    bytes
        .iter()
        .flat_map(|byte| [byte >> 4, byte & 15])
        .map(|half| char::from(DIGITS[usize::from(half)]))
        .collect()
}

/// The bytes that `digits`, in either case, stand for; `None` if their number
/// is odd or one is no digit.
pub fn decode(digits: &[u8]) -> Option<Vec<u8>> {
    let (pairs, []) = digits.as_chunks() else {
        return None;
    };
    pairs
        .iter()
        .map(|&[high, low]| Some(value(high)? << 4 | value(low)?))
        .collect()
}

fn value(digit: u8) -> Option<u8> {
    match digit {
        b'0'..=b'9' => Some(digit - b'0'),
        b'a'..=b'f' => Some(digit - b'a' + 10),
        b'A'..=b'F' => Some(digit - b'A' + 10),
        _ => None,
    }
}

#[cfg(test)]
mod tests {
    use super::{decode, encode};

    #[test]
    fn there_and_back() {
        let all: Vec<u8> = (0..=255).collect();
        let digits = encode(&all);
        assert_eq!(decode(digits.as_bytes()), Some(all.clone()));
        assert_eq!(decode(digits.to_uppercase().as_bytes()), Some(all));
    }

    #[test]
    fn refused() {
        assert_eq!(decode(b"0"), None);
        assert_eq!(decode(b"abc"), None);
        for near in b"/:@G`g \0\x80\xff" {
            assert_eq!(decode(&[*near, b'0']), None);
            assert_eq!(decode(&[b'0', *near]), None);
        }
    }
}
