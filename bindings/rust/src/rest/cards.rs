use alloc::boxed::Box;
use core::fmt;
use core::sync::atomic::{AtomicU8, Ordering};

use super::Space;
use crate::Value;

/// The words of a card.
pub const CARD: u64 = 64;

/// Which words were stored to, by cards: one for each [`CARD`] words of a space, which is dirty or clean. Threads share
/// them, and mark the card of each reference and weak word that they store into an old object
/// ([`Space::store_card`]).
pub struct Cards {
    /// Of each card 0 if it is clean.
    bytes: Box<[AtomicU8]>,
}

impl Cards {
    /// Clean cards for a space with room for so many words.
    pub fn new(words: u64) -> Cards {
        Cards { bytes: (0..words.div_ceil(CARD)).map(|_| AtomicU8::new(0)).collect() }
    }

    fn card(&self, index: u64) -> &AtomicU8 {
        self.bytes.get((index / CARD) as usize).expect("a word that has a card")
    }

    /// Marks the card of the word with this index ([`Space::index_of`]).
    ///
    /// # Panics
    /// If it has none.
    #[inline]
    pub fn mark(&self, index: u64) {
        self.card(index).store(1, Ordering::Relaxed);
    }

    /// Whether the card of the word with this index is dirty.
    ///
    /// # Panics
    /// If it has none.
    pub fn is_dirty(&self, index: u64) -> bool {
        self.card(index).load(Ordering::Relaxed) != 0
    }

    /// How many of the cards of the first words are dirty.
    pub fn dirty(&self, words: u64) -> u64 {
        let first = self.bytes.iter().take(words.div_ceil(CARD) as usize);
        first.filter(|it| it.load(Ordering::Relaxed) != 0).count() as u64
    }

    /// Makes all cards clean, as they may be after a collection but one by age.
    pub fn clean(&mut self) {
        self.bytes().fill(0);
    }

    /// A byte for each card.
    pub(super) fn bytes(&mut self) -> &mut [u8] {
        let (first, count) = (self.bytes.as_mut_ptr(), self.bytes.len());
        // SAFETY: a `u8` has the layout of an `AtomicU8`, and nobody else has a reference to these.
        unsafe { core::slice::from_raw_parts_mut(first.cast(), count) }
    }
}

impl fmt::Debug for Cards {
    fn fmt(&self, to: &mut fmt::Formatter<'_>) -> fmt::Result {
        to.debug_struct("Cards").field("count", &self.bytes.len()).finish_non_exhaustive()
    }
}

impl Space<'_> {
    /// The index of word `k` of an object, as cards and refusals have it.
    #[inline]
    pub fn index_of(&self, object: Value, k: u64) -> u64 {
        object.word().wrapping_sub(self.base).wrapping_add(k).wrapping_add(1)
    }

    /// As [`store_release`](Space::store_release), and marks the card of the word. A new object needs none until the
    /// next collection.
    ///
    /// # Panics
    /// As [`load`](Space::load); if the word has no card.
    #[inline]
    pub fn store_card(&self, cards: &Cards, object: Value, k: u64, value: Value) {
        self.store_release(object, k, value);
        cards.mark(self.index_of(object, k));
    }
}
