//! Random trees of pages, and other orders than the one that they grew in.

use crate::pages::Page;
use crate::random::Random;

/// What each of `count` pages lies on: 0 is page 0, any other number counts
/// these pages from 1. Some trees are one chain, others all branches.
pub fn tree(random: &mut Random, count: usize) -> Vec<usize> {
    let reach = random.pick(&[1, 2, 5, 50, usize::MAX]);
    (0..count)
        .map(|earlier| earlier - random.below(reach.min(earlier + 1)))
        .collect()
}

/// A page of a tree, and what it lies on, numbered as in [`tree`].
#[derive(Clone)]
pub struct Grown {
    pub on: usize,
    pub bytes: Vec<u8>,
}

/// The pages of a tree, each after its parent. So many in a hundred have a
/// height that is wrong; on these lies no other.
pub fn grown(
    random: &mut Random,
    count: usize,
    wrong_percent: usize,
    receipts: fn(&mut Random) -> Vec<u8>,
) -> Vec<Grown> {
    let mut pages = Vec::with_capacity(count);
    // For each page, the number, height and digest of what a page above it is to
    // lie on: itself, or its parent if its own height is wrong.
    let mut places = vec![(0, 0, Page::zero().digest())];
    for at in tree(random, count) {
        let place = places[at];
        let (on, below, parent) = place;
        let wrong = random.chance(wrong_percent);
        let page = Page {
            height: match wrong {
                true => wrong_height(random, below),
                false => below + 1,
            },
            parent,
            receipts: receipts(random),
        };
        pages.push(Grown {
            on,
            bytes: page.encode(),
        });
        places.push(match wrong {
            true => place,
            false => (pages.len(), page.height, page.digest()),
        });
    }
    pages
}

/// Not the height of a page that lies on one of height `below`: near to it, or
/// equal to it in some of its bytes.
pub fn wrong_height(random: &mut Random, below: u32) -> u32 {
    let right = below.wrapping_add(1);
    random.pick(&[
        0,
        below,
        right.wrapping_add(1),
        right.wrapping_sub(2),
        right ^ 1 << 8,
        right ^ 1 << 16,
        right ^ 1 << 31,
        !right,
        right.swap_bytes() | 1 << 30,
    ])
}

pub fn shuffle<T>(random: &mut Random, items: &mut [T]) {
    for at in (1..items.len()).rev() {
        items.swap(at, random.below(at + 1));
    }
}

/// Leaves the order, or turns round or shuffles all or one block after another,
/// of which the sizes are about what the queue of waiting pages holds; of very
/// many items not more, lest most of their pages find no room in it.
pub fn disorder<T>(random: &mut Random, items: &mut [T]) {
    let size = match items.len() {
        0..1000 => random.pick(&[2, 10, 63, 64, 65, 66, 100, usize::MAX]),
        _ => random.pick(&[2, 10, 50, 64]),
    };
    match random.below(5) {
        0 => {}
        1 | 2 => items.chunks_mut(size).for_each(|block| block.reverse()),
        _ => items
            .chunks_mut(size)
            .for_each(|block| shuffle(random, block)),
    }
}

#[cfg(test)]
mod tests {
    use super::{disorder, grown, tree};
    use crate::book::{Answer, Book, Refusal};
    use crate::random::Random;

    #[test]
    fn parents_come_first() {
        for seed in 0..20 {
            let parents = tree(&mut Random::new(seed), 100);
            assert!((0..).zip(parents).all(|(earlier, on)| on <= earlier));
        }
    }

    #[test]
    fn grown_pages_are_taken_or_of_wrong_height() {
        for seed in 0..20 {
            let mut book = Book::new();
            for page in grown(&mut Random::new(seed), 100, 10, |random| random.bytes(8)) {
                let (answer, _) = book.offer(&page.bytes);
                let good = matches!(answer, Answer::Taken(_) | Answer::Refused(Refusal::Height));
                assert!(good, "{answer:?}");
            }
        }
    }

    #[test]
    fn nothing_is_lost_in_disorder() {
        for seed in 0..20 {
            let mut items: Vec<usize> = (0..200).collect();
            disorder(&mut Random::new(seed), &mut items);
            items.sort();
            assert!(items.into_iter().eq(0..200));
        }
    }
}
