//! Reads pages on standard input, as lines `page HEX`, and prints what becomes
//! of each; at the end the whole book, a line for each page.

use reference::book::{Answer, Book, Departure};
use reference::hex;
use reference::lines::{lines, words};
use std::io::{self, BufWriter, Read, Write};

fn main() -> io::Result<()> {
    let mut input = Vec::new();
    io::stdin().read_to_end(&mut input)?;
    let mut out = BufWriter::new(io::stdout().lock());
    intake(&input, &mut out)?;
    out.flush()
}

fn intake(input: &[u8], out: &mut impl Write) -> io::Result<()> {
    let mut book = Book::new();
    for line in lines(input) {
        // No bytes at all are malformed like a line that isn't one.
        let (answer, departures) = book.offer(&page_bytes(line).unwrap_or_default());
        match answer {
            Answer::Taken(number) => writeln!(out, "taken {number}")?,
            Answer::Waiting => writeln!(out, "waiting")?,
            Answer::Refused(refusal) => writeln!(out, "refused {}", refusal.number())?,
        }
        for Departure { digest, outcome } in departures {
            let digest = hex::encode(&digest);
            match outcome {
                Ok(number) => writeln!(out, "then taken {number} {digest}")?,
                Err(refusal) => writeln!(out, "then refused {} {digest}", refusal.number())?,
            }
        }
    }
    for (number, entry) in book.entries().iter().enumerate() {
        let digest = hex::encode(&entry.digest);
        let (parent, height) = (entry.parent, entry.page.height);
        writeln!(out, "page {number} {parent} {height} {digest}")?;
    }
    Ok(())
}

/// The bytes in a line `page HEX`.
fn page_bytes(line: &[u8]) -> Option<Vec<u8>> {
    let mut words = words(line);
    if words.next()? != b"page" {
        return None;
    }
    let digits = words.next()?;
    words.next().is_none().then(|| hex::decode(digits))?
}

#[cfg(test)]
mod tests {
    use super::{intake, page_bytes};
    use reference::hex;
    use reference::pages::Page;

    const ZERO: &str = "b2e311f7fd6713310623999c6153df575b0d7022d4c5f9a22b84c72df572456a";

    fn printed(input: &str) -> String {
        let mut out = Vec::new();
        intake(input.as_bytes(), &mut out).unwrap();
        String::from_utf8(out).unwrap()
    }

    fn on(parent: &Page, height: u32) -> Page {
        Page {
            height,
            parent: parent.digest(),
            receipts: vec![],
        }
    }

    #[test]
    fn words_of_a_line() {
        assert_eq!(page_bytes(b"  page  0aFf "), Some(vec![0x0a, 0xff]));
        for line in [
            "",
            "page",
            "page 0",
            "page 0g",
            "page 00 00",
            "Page 00",
            "00",
            "page\t00",
        ] {
            assert_eq!(page_bytes(line.as_bytes()), None, "{line}");
        }
    }

    #[test]
    fn the_book_at_the_end() {
        assert_eq!(printed(""), format!("page 0 0 0 {ZERO}\n"));
        assert_eq!(
            printed("\npage"),
            format!("refused 1\nrefused 1\npage 0 0 0 {ZERO}\n")
        );
    }

    #[test]
    fn answers() {
        let one = on(&Page::zero(), 1);
        let [two, wrong] = [2, 3].map(|height| on(&one, height));
        let input: String = [&two, &wrong, &one, &one]
            .map(|page| format!("page {}\n", hex::encode(&page.encode())))
            .concat();
        let [one, two, wrong] = [one, two, wrong].map(|page| hex::encode(&page.digest()));
        assert_eq!(
            printed(&input),
            format!(
                "waiting\nwaiting\ntaken 1\nthen taken 2 {two}\nthen refused 3 {wrong}\n\
                 refused 2\npage 0 0 0 {ZERO}\npage 1 0 1 {one}\npage 2 1 2 {two}\n"
            )
        );
    }
}
