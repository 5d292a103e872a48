//! Editions, what an object is, and the limits of docs/FORMATS.md.

/// The edition of a heap: how its header words are read, and how large it may be.
#[derive(Clone, Copy, Debug, PartialEq, Eq, PartialOrd, Ord, Hash)]
#[repr(u32)]
pub enum Edition {
    /// References and data words: up to 2^20 words, 1,024 an object, and tags of 32 bits.
    One = 1,
    /// Weak words too, and tags of 16 bits.
    Two = 2,
    /// Up to 2^31 words, an object too, and tags of 14 bits.
    Three = 3,
    /// As three; and a root, a reference or a weak word may be an immediate.
    Four = 4,
}

impl Edition {
    /// The most words of a heap.
    pub const fn max_words(self) -> u64 {
        if (self as u32) < 3 {
            1 << 20
        } else {
            1 << 31
        }
    }

    /// The most words of an object, with its header.
    pub const fn max_object_words(self) -> u64 {
        if (self as u32) < 3 {
            1024
        } else {
            1 << 31
        }
    }

    /// The most roots of a flipped heap, and the most fresh pages of a flip.
    pub const fn max_roots(self) -> u64 {
        if (self as u32) < 3 {
            4096
        } else {
            1 << 20
        }
    }

    /// The most pages of a cycle that another one can follow, fresh ones too.
    pub const fn max_pages(self) -> u64 {
        self.max_words() / PAGE_WORDS as u64
    }

    /// The greatest tag.
    pub const fn max_tag(self) -> u32 {
        match self {
            Edition::One => u32::MAX,
            Edition::Two => 65535,
            Edition::Three | Edition::Four => 16383,
        }
    }
}

/// Word `i` of a heap at rest has this address + `i`.
pub const FROM_SPACE: u64 = 0x1_0000_0000;
/// Word `i` of a flipped heap has this address + `i`.
pub const TO_SPACE: u64 = 0x2_0000_0000;
/// In edition four a value from here on is no reference.
pub const IMMEDIATE: u64 = 1 << 63;
/// The words of a page.
pub const PAGE_WORDS: usize = 64;
/// The most words of an object that a mutator makes, with its header.
pub const MAX_NEW_WORDS: u64 = 64;
/// The most entries of a page in a cycle.
pub const MAX_ENTRIES: u32 = 1024;
/// The most mutators of a crew.
pub const MAX_MUTATORS: u32 = 64;

/// What an object is: one header word, then so many references, weak words and data words, in this order.
#[derive(Clone, Copy, Debug, Default, PartialEq, Eq, Hash)]
pub struct Shape {
    /// References: what they lead to stays.
    pub refs: u32,
    /// Weak words: one becomes null when its object dies.
    pub weak: u32,
    /// Data words, at which nobody looks.
    pub data: u32,
    /// The runtime's.
    pub tag: u32,
}

impl Shape {
    /// The shape that a header word says.
    pub const fn of(edition: Edition, header: u64) -> Shape {
        let many = (header & 0x7fff_ffff) as u32;
        let few = (header >> 31 & 0x1_ffff) as u32;
        let form = if (edition as u32) < 3 { 0 } else { header >> 62 };
        let weak = if matches!(edition, Edition::One) { 0 } else { (header >> 32 & 0xffff) as u32 };
        let (refs, weak, data) = match form {
            0 => ((header & 0xffff) as u32, weak, (header >> 16 & 0xffff) as u32),
            1 => (many, 0, few),
            2 => (few, 0, many),
            _ => (0, many, few),
        };
        let tag = match edition {
            Edition::One => (header >> 32) as u32,
            Edition::Two => (header >> 48) as u32,
            Edition::Three | Edition::Four => (header >> 48 & 0x3fff) as u32,
        };
        Shape { refs, weak, data, tag }
    }

    /// The words of an object of this shape, its header too.
    pub const fn words(self) -> u64 {
        1 + self.refs as u64 + self.weak as u64 + self.data as u64
    }

    /// The header word of an object of this shape; `None` if the edition has none.
    pub const fn header(self, edition: Edition) -> Option<u64> {
        let (refs, weak, data) = (self.refs as u64, self.weak as u64, self.data as u64);
        let (many, few) = (1 << 31, 1 << 17);
        if self.tag > edition.max_tag() {
            return None;
        }
        let one = matches!(edition, Edition::One);
        let tag = (self.tag as u64) << if one { 32 } else { 48 };
        let short = refs < 65536 && data < 65536 && weak < 65536;
        if short && (!one || weak == 0) {
            Some(refs | data << 16 | weak << 32 | tag)
        } else if (edition as u32) < 3 {
            None
        } else if weak == 0 && refs < many && data < few {
            Some(refs | data << 31 | tag | 1 << 62)
        } else if weak == 0 && data < many && refs < few {
            Some(data | refs << 31 | tag | 2 << 62)
        } else if refs == 0 && weak < many && data < few {
            Some(weak | data << 31 | tag | 3 << 62)
        } else {
            None
        }
    }
}
