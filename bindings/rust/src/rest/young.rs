use super::{Cards, OldTables, Space};
use crate::{Edition, Refusal, Value};

impl Space<'_> {
    /// A collection within the memory by tables that know a watermark: so many words are left.
    fn collect_by(
        &mut self,
        roots: &mut [Value],
        collect: impl FnOnce(Edition, &mut [u64], &mut [Value]) -> Result<u64, Refusal>,
    ) -> Result<u64, Refusal> {
        self.turn_back(roots)?;
        let left = collect(self.edition, self.words(), roots)?;
        self.reset(left);
        Ok(left)
    }

    /// The whole collection by tables that know a watermark ([`OldTables::collect_all`]): what lives is old then, and
    /// the cards may be made clean.
    ///
    /// # Errors
    /// As there, and a space that was turned is turned back.
    pub fn collect_all(
        &mut self,
        old: &mut OldTables,
        roots: &mut [Value],
    ) -> Result<u64, Refusal> {
        self.collect_by(roots, |edition, words, roots| old.collect_all(edition, words, roots))
    }

    /// Collects what is young ([`OldTables::collect_young`]).
    ///
    /// # Errors
    /// As there, and a space that was turned is turned back.
    pub fn collect_young(
        &mut self,
        old: &mut OldTables,
        cards: &mut Cards,
        roots: &mut [Value],
    ) -> Result<u64, Refusal> {
        self.collect_by(roots, |edition, words, roots| {
            old.collect_young(edition, words, cards, roots)
        })
    }

    /// The same by a list of words that were stored ([`OldTables::collect_young_by`], [`index_of`](Space::index_of)).
    ///
    /// # Errors
    /// As there, and a space that was turned is turned back.
    pub fn collect_young_by(
        &mut self,
        old: &mut OldTables,
        fields: &mut [u64],
        roots: &mut [Value],
    ) -> Result<u64, Refusal> {
        self.collect_by(roots, |edition, words, roots| {
            old.collect_young_by(edition, words, fields, roots)
        })
    }

    /// Collects what is young, of which old becomes what survived before ([`OldTables::collect_aging`]).
    ///
    /// # Errors
    /// As there, and a space that was turned is turned back.
    pub fn collect_aging(
        &mut self,
        old: &mut OldTables,
        cards: &mut Cards,
        roots: &mut [Value],
    ) -> Result<u64, Refusal> {
        self.collect_by(roots, |edition, words, roots| {
            old.collect_aging(edition, words, cards, roots)
        })
    }

    /// Raises the watermark behind all objects ([`OldTables::raise`]), with no collection: they are old then, and stay
    /// where they are, with what is pinned among them; the cards are clean. Runs that a collection around pins left are
    /// not used any more, until the next one. So pins and young collections go together: while something young is
    /// pinned, this comes in place of a young collection; and it comes after
    /// [`collect_pinned`](Space::collect_pinned), once [`OldTables::collect_all`] of no words has made the watermark 0.
    ///
    /// # Errors
    /// As there, and a space that was turned is turned back.
    pub fn raise(
        &mut self,
        old: &mut OldTables,
        cards: &mut Cards,
        roots: &mut [Value],
    ) -> Result<u64, Refusal> {
        self.collect_by(roots, |edition, words, _| {
            let watermark = old.raise(edition, words, words.len() as u64)?;
            cards.clean();
            Ok(watermark)
        })
    }

    /// Sets the limit after each collection by tables that know a watermark. It is time to collect again when `nursery`
    /// words more are used, or, if it is 0, when the room is; but a sixteenth of the room stays above the limit
    /// ([`limit_by`](Space::limit_by)). Answers how many words more may be used until then. `None` if there are none:
    /// collect all, and if there are none after that, the heap is full.
    #[must_use = "without words that are left all is to be collected"]
    pub fn limit_by_nursery(&mut self, nursery: u64) -> Option<u64> {
        let most = self.room - self.room.div_ceil(16);
        let left = most.saturating_sub(self.used());
        let more = if nursery == 0 { left } else { nursery.min(left) };
        self.limit = most - left + more;
        (more > 0).then_some(more)
    }

    /// Whether it is better to collect all: more than half of the room is old, or more than a tenth of the cards of old
    /// words are dirty.
    pub fn wants_all(&self, old: &mut OldTables, cards: &Cards) -> bool {
        let watermark = old.watermark();
        watermark > self.room() / 2 || cards.dirty(watermark) > watermark.div_ceil(super::CARD) / 10
    }

    /// For debugging: asks [`OldTables::check`] of a space that is not turned.
    ///
    /// # Errors
    /// As there.
    pub fn check_old(&mut self, old: &mut OldTables, cards: &mut Cards) -> Result<(), Refusal> {
        old.check(self.edition, self.words(), cards)
    }
}
