//! The numbers of a script: which page each of them stands for.

use crate::pages::{Digest, Page};
use std::collections::HashMap;

/// What is needed of a page to lie on it.
#[derive(Clone, Copy)]
struct Place {
    height: u32,
    digest: Digest,
}

pub struct Numbers {
    /// What each number lies on, as its first line has it.
    parents: HashMap<u32, u32>,
    /// `None` if the way down from there doesn't reach page 0.
    places: HashMap<u32, Option<Place>>,
}

impl Numbers {
    /// Of a script that has these lines `page N M`, in this order.
    pub fn new(lines: impl Iterator<Item = (u32, u32)>) -> Self {
        let mut parents = HashMap::new();
        // 0 is page 0, whatever a line may say.
        for (number, parent) in lines.filter(|&(number, _)| number != 0) {
            parents.entry(number).or_insert(parent);
        }
        let places = places(&parents);
        Self { parents, places }
    }

    /// What the first line for `number` says that it lies on.
    pub fn parent(&self, number: u32) -> Option<u32> {
        self.parents.get(&number).copied()
    }

    /// The page that `number` stands for, given what it lies on.
    pub fn page(&self, number: u32, parent: u32) -> Page {
        match self.places.get(&parent) {
            Some(&Some(place)) => page(number, place),
            // No page has the digest 0, so this one waits for ever.
            _ => Page {
                height: 1,
                parent: [0; 32],
                receipts: receipts(number),
            },
        }
    }
}

/// Goes down from each number, and back up to say where the pages lie.
fn places(parents: &HashMap<u32, u32>) -> HashMap<u32, Option<Place>> {
    let zero = Place {
        height: 0,
        digest: Page::zero().digest(),
    };
    let mut places = HashMap::from([(0, Some(zero))]);
    let mut way = Vec::new();
    for &start in parents.keys() {
        let mut number = start;
        while !places.contains_key(&number)
            && let Some(&parent) = parents.get(&number)
        {
            // Until more is known. So a way that comes back to itself ends here.
            places.insert(number, None);
            way.push(number);
            number = parent;
        }
        let mut below = places.get(&number).copied().flatten();
        while let Some(number) = way.pop() {
            below = below.map(|place| on_top(number, place));
            places.insert(number, below);
        }
    }
    places
}

fn on_top(number: u32, place: Place) -> Place {
    let page = page(number, place);
    Place {
        height: page.height,
        digest: page.digest(),
    }
}

fn page(number: u32, place: Place) -> Page {
    Page {
        height: place.height + 1,
        parent: place.digest,
        receipts: receipts(number),
    }
}

fn receipts(number: u32) -> Vec<u8> {
    number.to_be_bytes().to_vec()
}

#[cfg(test)]
mod tests {
    use super::Numbers;
    use crate::hex;
    use crate::pages::Page;

    fn numbers(lines: &[(u32, u32)]) -> Numbers {
        Numbers::new(lines.iter().copied())
    }

    #[test]
    fn page_1_on_page_0() {
        let page = numbers(&[(1, 0)]).page(1, 0);
        assert_eq!(
            hex::encode(&page.encode()),
            "0100000001b2e311f7fd6713310623999c6153df575b0d7022d4c5f9a22b84c72df572456a000400000001"
        );
        assert_eq!(
            hex::encode(&page.digest()),
            "01065378477b65886bacbc4f7a77774fcc19c5deeb5a6794d177b57e7b9af2d6"
        );
    }

    #[test]
    fn the_order_of_the_lines_does_not_matter() {
        let rising = numbers(&[(1, 0), (2, 1), (3, 2), (4, 1)]);
        let falling = numbers(&[(4, 1), (3, 2), (2, 1), (1, 0)]);
        for (number, parent, height) in [(1, 0, 1), (2, 1, 2), (3, 2, 3), (4, 1, 2)] {
            let page = rising.page(number, parent);
            assert_eq!(page, falling.page(number, parent));
            assert_eq!(page.height, height);
        }
        assert_eq!(rising.page(3, 2).parent, rising.page(2, 1).digest());
    }

    #[test]
    fn the_first_line_counts() {
        let numbers = numbers(&[(1, 0), (1, 2), (2, 1), (0, 1)]);
        assert_eq!(numbers.parent(1), Some(0));
        assert_eq!(numbers.parent(0), None);
        assert_eq!(numbers.parent(3), None);
        assert_eq!(numbers.page(2, 1).height, 2);
    }

    #[test]
    fn ways_that_lead_nowhere() {
        // 1 on itself, 2 and 3 on each other with 4 above, 5 on no page with 6 above.
        let lines = [(1, 1), (2, 3), (3, 2), (4, 3), (5, 7), (6, 5)];
        let numbers = numbers(&lines);
        for (number, parent) in lines {
            let page = Page {
                height: 1,
                parent: [0; 32],
                receipts: vec![0, 0, 0, number as u8],
            };
            assert_eq!(numbers.page(number, parent), page);
        }
    }

    #[test]
    fn a_long_way() {
        let last = 300_000;
        let numbers = Numbers::new((1..=last).map(|number| (number, number - 1)));
        assert_eq!(numbers.page(last, last - 1).height, last);
    }
}
