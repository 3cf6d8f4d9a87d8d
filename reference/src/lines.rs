//! Input taken apart: lines, their words, numbers.

/// The lines of `input` without their ends: a newline, and one carriage return
/// before it. A last line may lack its newline; a newline at the very end
/// begins no further line.
pub fn lines(input: &[u8]) -> impl Iterator<Item = &[u8]> {
    input.split_inclusive(|&byte| byte == b'\n').map(|line| {
        let line = line.strip_suffix(b"\n").unwrap_or(line);
        line.strip_suffix(b"\r").unwrap_or(line)
    })
}

/// The words of `line`, which one or more spaces part.
pub fn words(line: &[u8]) -> impl Iterator<Item = &[u8]> {
    line.split(|&byte| byte == b' ')
        .filter(|word| !word.is_empty())
}

/// The number that `word` writes in decimal digits, of which the first may be
/// zeros; `None` if it is no number or above `most`.
pub fn number(word: &[u8], most: u32) -> Option<u32> {
    if word.is_empty() {
        return None;
    }
    word.iter().try_fold(0, |value: u32, &byte| {
        let digit = char::from(byte).to_digit(10)?;
        let value = value.checked_mul(10)?.checked_add(digit)?;
        (value <= most).then_some(value)
    })
}

#[cfg(test)]
mod tests {
    use super::{lines, number, words};

    fn lines_of(input: &[u8]) -> Vec<&[u8]> {
        lines(input).collect()
    }

    #[test]
    fn ends_of_lines() {
        let none: [&[u8]; 0] = [];
        assert_eq!(lines_of(b""), none);
        assert_eq!(lines_of(b"\n"), [b""]);
        assert_eq!(lines_of(b"a"), [b"a"]);
        assert_eq!(lines_of(b"a\n"), [b"a"]);
        assert_eq!(lines_of(b"a\n\nb"), [&b"a"[..], b"", b"b"]);
    }

    #[test]
    fn one_carriage_return() {
        assert_eq!(lines_of(b"a\r\nb\r"), [b"a", b"b"]);
        assert_eq!(lines_of(b"a\r\r\n"), [b"a\r"]);
        assert_eq!(lines_of(b"a\rb\n"), [b"a\rb"]);
        assert_eq!(lines_of(b"a\r \n"), [b"a\r "]);
    }

    #[test]
    fn spaces() {
        assert_eq!(words(b"   ").count(), 0);
        assert!(words(b"  a  b\t ").eq([&b"a"[..], b"b\t"]));
    }

    #[test]
    fn numbers() {
        assert_eq!(number(b"0", 9), Some(0));
        assert_eq!(number(b"0000000000000000000000009", 9), Some(9));
        assert_eq!(number(b"10", 9), None);
        assert_eq!(number(b"4294967295", u32::MAX), Some(u32::MAX));
        assert_eq!(number(b"4294967296", u32::MAX), None);
        assert_eq!(number(b"18446744073709551617", u32::MAX), None);
        for bad in ["", "+1", "-1", "1a", "0x1", "1.", "\u{0661}"] {
            assert_eq!(number(bad.as_bytes(), 9), None);
        }
    }
}
