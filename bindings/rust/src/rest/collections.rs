use super::{Space, Tables};
use crate::refusal::told;
use crate::{sys, Refusal, Value};

impl<'m> Space<'m> {
    /// The whole collection, within the memory: exactly what the roots reach slides to its beginning, and the roots
    /// lead there. Answers the live words. A weak word whose object dies becomes null.
    ///
    /// # Errors
    /// After each all is as it was, but that a space that was turned is turned back. `OutOfMemory`, or a fault that
    /// is there: `BadRoot`, `BadReference`, `BadWeak`, `ObjectTooLong`, `ObjectPastEnd`, `Overlap`.
    pub fn collect(&mut self, roots: &mut [Value]) -> Result<u64, Refusal> {
        self.turn_back(roots)?;
        let (edition, words) = (self.edition as u32, self.words());
        // SAFETY: the arrays are slices.
        let live = told(unsafe {
            sys::compressor_collect_in_place(
                edition,
                words.as_mut_ptr(),
                words.len(),
                roots.as_mut_ptr().cast(),
                roots.len(),
            )
        })?;
        self.reset(live);
        Ok(live)
    }

    /// The same by tables, which takes no memory.
    ///
    /// # Errors
    /// `ShortTables`; as [`collect`](Space::collect).
    pub fn collect_lent(
        &mut self,
        tables: &mut Tables,
        roots: &mut [Value],
    ) -> Result<u64, Refusal> {
        self.turn_back(roots)?;
        let (edition, words) = (self.edition as u32, self.words());
        // SAFETY: the arrays are slices.
        let live = told(unsafe {
            sys::compressor_collect_in_place_lent(
                &mut tables.0,
                edition,
                words.as_mut_ptr(),
                words.len(),
                roots.as_mut_ptr().cast(),
                roots.len(),
            )
        })?;
        self.reset(live);
        Ok(live)
    }

    /// The whole collection into the memory of another space, whatever that has; then the memories change places.
    ///
    /// # Errors
    /// As [`collect`](Space::collect); `TooShort` (the live words), and the other memory is as it was too.
    pub fn collect_into(
        &mut self,
        other: &mut Space<'m>,
        roots: &mut [Value],
    ) -> Result<u64, Refusal> {
        self.turn_back(roots)?;
        let (edition, words, to) = (self.edition as u32, self.words(), other.memory());
        // SAFETY: the arrays are slices.
        let live = told(unsafe {
            sys::compressor_collect(
                edition,
                words.as_ptr(),
                words.len(),
                roots.as_mut_ptr().cast(),
                roots.len(),
                to.as_mut_ptr(),
                to.len(),
            )
        })?;
        self.exchange(other, live);
        Ok(live)
    }

    /// The same by tables, which takes no memory.
    ///
    /// # Errors
    /// `ShortTables`; as [`collect_into`](Space::collect_into).
    pub fn collect_into_lent(
        &mut self,
        tables: &mut Tables,
        other: &mut Space<'m>,
        roots: &mut [Value],
    ) -> Result<u64, Refusal> {
        self.turn_back(roots)?;
        let (edition, words, to) = (self.edition as u32, self.words(), other.memory());
        // SAFETY: the arrays are slices.
        let live = told(unsafe {
            sys::compressor_collect_lent(
                &mut tables.0,
                edition,
                words.as_ptr(),
                words.len(),
                roots.as_mut_ptr().cast(),
                roots.len(),
                to.as_mut_ptr(),
                to.len(),
            )
        })?;
        self.exchange(other, live);
        Ok(live)
    }
}
