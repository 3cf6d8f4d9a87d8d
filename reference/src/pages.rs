//! Pages: their parts, their bytes, their digest.

use crate::sha256;

pub type Digest = [u8; 32];

const KIND: u8 = 1;
const MOST_RECEIPTS: usize = 1024;

/// The parts of a page.
#[derive(Clone, Debug, PartialEq, Eq)]
pub struct Page {
    pub height: u32,
    /// The digest of the page that it lies on.
    pub parent: Digest,
    pub receipts: Vec<u8>,
}

impl Page {
    /// Page 0, which is in every book from the start.
    pub fn zero() -> Self {
        Self {
            height: 0,
            parent: [0; 32],
            receipts: Vec::new(),
        }
    }

    /// The page that has these bytes; `None` if they are cut short or too long,
    /// begin with another kind, or have more than 1,024 bytes of receipts.
    pub fn decode(bytes: &[u8]) -> Option<Self> {
        let (&kind, rest) = bytes.split_first()?;
        let (&height, rest) = rest.split_first_chunk()?;
        let (&parent, rest) = rest.split_first_chunk()?;
        let (&length, receipts) = rest.split_first_chunk()?;
        let length = usize::from(u16::from_be_bytes(length));
        let good = kind == KIND && length <= MOST_RECEIPTS && receipts.len() == length;
        good.then(|| Self {
            height: u32::from_be_bytes(height),
            parent,
            receipts: receipts.to_vec(),
        })
    }

    /// The page's bytes. They can be made of up to 65,535 bytes of receipts,
    /// though none of more than 1,024 are taken.
    pub fn encode(&self) -> Vec<u8> {
        let length = u16::try_from(self.receipts.len()).expect("two bytes hold the length");
        [
            &[KIND],
            &self.height.to_be_bytes()[..],
            &self.parent,
            &length.to_be_bytes(),
            &self.receipts,
        ]
        .concat()
    }

    pub fn digest(&self) -> Digest {
        sha256::digest(&self.encode())
    }
}

#[cfg(test)]
mod tests {
    use super::Page;
    use crate::hex;

    fn page(receipts: usize) -> Page {
        Page {
            height: 0x01020304,
            parent: [0xab; 32],
            receipts: vec![7; receipts],
        }
    }

    #[test]
    fn there_and_back() {
        for receipts in [0, 1, 255, 256, 1024] {
            let bytes = page(receipts).encode();
            assert_eq!(bytes.len(), 39 + receipts);
            assert_eq!(Page::decode(&bytes), Some(page(receipts)));
        }
    }

    #[test]
    fn each_part_in_its_place() {
        let bytes = page(2).encode();
        assert_eq!(bytes[..5], [1, 1, 2, 3, 4]);
        assert_eq!(bytes[5..37], [0xab; 32]);
        assert_eq!(bytes[37..], [0, 2, 7, 7]);
    }

    #[test]
    fn page_0() {
        let mut bytes = [0; 39];
        bytes[0] = 1;
        assert_eq!(Page::zero().encode(), bytes);
        assert_eq!(
            hex::encode(&Page::zero().digest()),
            "b2e311f7fd6713310623999c6153df575b0d7022d4c5f9a22b84c72df572456a"
        );
    }

    #[test]
    fn cut_short() {
        let bytes = page(9).encode();
        for len in 0..bytes.len() {
            assert_eq!(Page::decode(&bytes[..len]), None);
        }
    }

    #[test]
    fn too_long() {
        for receipts in [0, 9, 1024] {
            let mut bytes = page(receipts).encode();
            bytes.push(0);
            assert_eq!(Page::decode(&bytes), None);
        }
    }

    #[test]
    fn other_kinds() {
        let mut bytes = page(9).encode();
        for kind in (0..=255).filter(|&kind| kind != 1) {
            bytes[0] = kind;
            assert_eq!(Page::decode(&bytes), None);
        }
    }

    #[test]
    fn too_many_receipts() {
        for receipts in [1025, 2048, 65_535] {
            assert_eq!(Page::decode(&page(receipts).encode()), None);
        }
    }
}
