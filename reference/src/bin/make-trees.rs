//! `make-trees SEED ORDER` prints one tree of pages as lines for `intake`, with
//! some pages that no book takes. Each ORDER has the same pages in another
//! order; in 0, parents come first. In none of them do more than 64 pages wait,
//! and none has more pages than a book holds.

use reference::hex;
use reference::make::arguments;
use reference::pages::Page;
use reference::random::Random;
use reference::trees::{Grown, grown, shuffle};
use std::io::{self, BufWriter, Write};
use std::process::ExitCode;

/// As many as a book holds, beside page 0.
const MOST_PAGES: usize = 4095;
/// Pages that wait for ever, and pages that may wait for each other: together
/// at most 64.
const MOST_LOST: usize = 16;
const MOST_BLOCK: usize = 48;

fn main() -> io::Result<ExitCode> {
    let Some([seed, order]) = arguments() else {
        eprintln!("usage: make-trees SEED ORDER");
        return Ok(ExitCode::from(2));
    };
    let mut out = BufWriter::new(io::stdout().lock());
    for page in pages(seed, order) {
        writeln!(out, "page {}", hex::encode(&page))?;
    }
    out.flush()?;
    Ok(ExitCode::SUCCESS)
}

fn pages(seed: u64, order: u64) -> Vec<Vec<u8>> {
    let mut random = Random::new(seed);
    let tree = tree(&mut random);
    let lost = lost(&mut random);
    // From here on the orders differ.
    let mut random = Random::new(random.bits() ^ order);
    let mut places: Vec<usize> = (0..tree.len()).collect();
    if order > 0 {
        places = parents_first(&mut random, &tree);
        disorder_blocks(&mut random, &mut places);
    }
    let mut pages: Vec<Vec<u8>> = places.iter().map(|&at| tree[at].bytes.clone()).collect();
    for page in lost {
        pages.insert(random.below(pages.len() + 1), page);
    }
    if order > 0 {
        repeat_some(&mut random, &mut pages);
    }
    pages
}

fn tree(random: &mut Random) -> Vec<Grown> {
    let count = match random.below(10) {
        0 => MOST_PAGES,
        1..5 => random.between(1, 40),
        _ => random.between(41, 400),
    };
    let wrong_percent = random.pick(&[0, 0, 5, 20]);
    grown(random, count, wrong_percent, |random| random.bytes(8))
}

/// Pages on a page that is nowhere.
fn lost(random: &mut Random) -> Vec<Vec<u8>> {
    let count = random.pick(&[0, 1, MOST_LOST]);
    (0..count)
        .map(|_| {
            let page = Page {
                height: 1,
                parent: [0; 32],
                receipts: random.bytes(8),
            };
            page.encode()
        })
        .collect()
}

/// A random order in which parents come first.
fn parents_first(random: &mut Random, tree: &[Grown]) -> Vec<usize> {
    // What lies right on top of each page, page 0 being the first.
    let mut tops = vec![Vec::new(); tree.len() + 1];
    for (at, page) in tree.iter().enumerate() {
        tops[page.on].push(at);
    }
    let mut next = tops[0].clone();
    let mut places = Vec::with_capacity(tree.len());
    while !next.is_empty() {
        let at = next.swap_remove(random.below(next.len()));
        places.push(at);
        next.extend(&tops[at + 1]);
    }
    places
}

/// Turns round or shuffles one block after the other. A page then waits for
/// pages of its own block alone.
fn disorder_blocks(random: &mut Random, places: &mut [usize]) {
    let size = random.pick(&[1, 8, MOST_BLOCK]);
    let reverse = random.chance(50);
    for block in places.chunks_mut(size) {
        match reverse {
            true => block.reverse(),
            false => shuffle(random, block),
        }
    }
}

/// Sends some pages again, later on: they are known by then, or their height is
/// wrong and their parent there, so that no more pages wait.
fn repeat_some(random: &mut Random, pages: &mut Vec<Vec<u8>>) {
    for _ in 0..random.below(20) {
        let at = random.below(pages.len());
        let later = random.between(at + 1, pages.len());
        pages.insert(later, pages[at].clone());
    }
}

#[cfg(test)]
mod tests {
    use super::pages;
    use reference::book::{Answer, Book, Refusal};
    use reference::pages::Digest;

    /// The digests of the pages that are there in the end, in their order.
    fn book(seed: u64, order: u64) -> Vec<Digest> {
        let mut book = Book::new();
        for page in pages(seed, order) {
            let (answer, departures) = book.offer(&page);
            assert_ne!(answer, Answer::Refused(Refusal::Full));
            let full = Err(Refusal::Full);
            assert!(departures.iter().all(|departure| departure.outcome != full));
        }
        let mut digests: Vec<_> = book.entries().iter().map(|entry| entry.digest).collect();
        digests.sort();
        digests
    }

    #[test]
    fn one_book_in_every_order() {
        for seed in 0..40 {
            let first = book(seed, 0);
            for order in 1..4 {
                assert!(pages(seed, order) != pages(seed, 0) || first.len() < 4);
                assert_eq!(book(seed, order), first);
            }
        }
    }
}
