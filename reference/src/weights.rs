//! The voters' weights.

use crate::lines::{number, words};

const MOST_VOTERS: usize = 64;
const MOST_WEIGHT: u32 = 1_000_000;

/// The weights in a line `weights W0 W1 ..`, or `None` if it isn't one: 1 to 64
/// numbers up to 1,000,000, not all of them 0.
pub fn weights(line: &[u8]) -> Option<Vec<u32>> {
    let mut words = words(line);
    if words.next()? != b"weights" {
        return None;
    }
    let weights: Vec<u32> = words
        .map(|word| number(word, MOST_WEIGHT))
        .collect::<Option<_>>()?;
    // No weights at all are also all 0.
    let good = weights.len() <= MOST_VOTERS && weights.iter().any(|&weight| weight > 0);
    good.then_some(weights)
}

#[cfg(test)]
mod tests {
    use super::weights;

    #[test]
    fn taken() {
        assert_eq!(weights(b"weights 1"), Some(vec![1]));
        assert_eq!(
            weights(b"  weights  0 001000000 "),
            Some(vec![0, 1_000_000])
        );
        let line = format!("weights{}", " 1".repeat(64));
        assert_eq!(weights(line.as_bytes()), Some(vec![1; 64]));
    }

    #[test]
    fn refused() {
        for line in [
            "",
            "weights",
            "weights 0 0",
            "weights 1000001",
            "weights 1 x",
            "weights 1 +1",
            "Weights 1",
            "weight 1",
            "weights\t1",
            "weights1",
            "weights 18446744073709551617",
        ] {
            assert_eq!(weights(line.as_bytes()), None, "{line}");
        }
        let line = format!("weights{}", " 1".repeat(65));
        assert_eq!(weights(line.as_bytes()), None);
    }
}
