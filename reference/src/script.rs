//! Scripts: a `weights` line, then lines in small numbers.

use crate::lines::lines;
use crate::weights::weights;
use std::io::{self, Write};

/// What a script comes to.
pub enum Outcome {
    /// It was read to its end.
    Read,
    /// Its first line gives no weights: nothing was printed.
    BadWeights,
}

/// Reads a script and prints, by number, the pages that are settled and final
/// at its end. Nothing but page 0 is known yet, so that every line is refused.
pub fn rehearse(script: &[u8], out: &mut impl Write) -> io::Result<Outcome> {
    let mut lines = (1..).zip(lines(script));
    let Some(_weights) = lines.next().and_then(|(_, line)| weights(line)) else {
        return Ok(Outcome::BadWeights);
    };
    for (number, _line) in lines {
        writeln!(out, "line {number}: refused 1")?;
    }
    writeln!(out, "settled 0")?;
    writeln!(out, "final")?;
    Ok(Outcome::Read)
}

#[cfg(test)]
mod tests {
    use super::{Outcome, rehearse};

    fn printed(script: &[u8]) -> Option<String> {
        let mut out = Vec::new();
        match rehearse(script, &mut out).unwrap() {
            Outcome::Read => Some(String::from_utf8(out).unwrap()),
            Outcome::BadWeights => {
                assert!(out.is_empty());
                None
            }
        }
    }

    #[test]
    fn weights_alone() {
        for script in ["weights 1", "weights 1\n", "weights 1\r\n"] {
            let out = printed(script.as_bytes());
            assert_eq!(out.as_deref(), Some("settled 0\nfinal\n"));
        }
    }

    #[test]
    fn lines_are_counted_from_the_weights() {
        assert_eq!(
            printed(b"weights 1\npage\n\nx").as_deref(),
            Some(
                "line 2: refused 1\nline 3: refused 1\nline 4: refused 1\n\
                 settled 0\nfinal\n"
            )
        );
    }

    #[test]
    fn bad_weights() {
        for script in ["", "\n", "\nweights 1\n", "page 1 0\n"] {
            assert_eq!(printed(script.as_bytes()), None);
        }
    }
}
