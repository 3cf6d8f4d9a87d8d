//! Prints the digest of each message on standard input.
//!
//! A line is `COUNT` or `COUNT HEX`: the bytes of HEX, COUNT times over.

use reference::lines::{lines, number, words};
use reference::{hex, sha256};
use std::io::{self, BufWriter, Read, Write};

const MOST_TIMES: u32 = 1_000_000;
const MOST_BYTES: usize = 16_777_216;

fn main() -> io::Result<()> {
    let mut input = Vec::new();
    io::stdin().read_to_end(&mut input)?;
    let mut out = BufWriter::new(io::stdout().lock());
    for line in lines(&input) {
        match message(line) {
            Some(message) => writeln!(out, "{}", hex::encode(&sha256::digest(&message)))?,
            None => writeln!(out, "refused 1")?,
        }
    }
    out.flush()
}

fn message(line: &[u8]) -> Option<Vec<u8>> {
    let mut words = words(line);
    let times = number(words.next()?, MOST_TIMES)? as usize;
    let bytes = hex::decode(words.next().unwrap_or_default())?;
    let fits = times * bytes.len() <= MOST_BYTES;
    (words.next().is_none() && fits).then(|| bytes.repeat(times))
}

#[cfg(test)]
mod tests {
    use super::message;

    #[test]
    fn taken() {
        assert_eq!(message(b"7"), Some(vec![]));
        assert_eq!(message(b"0 61"), Some(vec![]));
        assert_eq!(message(b" 003  6aF0 "), Some(b"\x6a\xf0".repeat(3)));
        assert_eq!(
            message(b"1000000 61").map(|bytes| bytes.len()),
            Some(1_000_000)
        );
    }

    #[test]
    fn refused() {
        for line in [
            "", "  ", "x", "-1", "1 6", "1 6g", "1 61 61", "1000001", "1\t61",
        ] {
            assert_eq!(message(line.as_bytes()), None, "{line}");
        }
    }

    #[test]
    fn longest_message() {
        let line = |times| format!("{times} {}", "61".repeat(256));
        assert!(message(line(65_536).as_bytes()).is_some());
        assert!(message(line(65_537).as_bytes()).is_none());
    }
}
