use core::fmt;

use super::{Survey, Tables};
use crate::refusal::{or_back, sure, told};
use crate::{sys, Edition, Refusal, Refused, Value};

/// A survey that grows: it marks what roots reach, and later what more roots reach, at the cost of what they newly
/// reach; in between it says what is kept. So roots may lie in many places, and a runtime asks its ephemerons, guardians
/// and finalizers in an order of its own. It borrows the words. Settled it is the [`Survey`] of all that is kept: of
/// roots alone that of [`Survey::by_roots`] of all of them.
///
/// A step that is refused ends it. If it was made by tables, they come back.
pub struct Growing<'w> {
    own: sys::Growing,
    words: &'w [u64],
    kept: u64,
}

// SAFETY: what a handle keeps belongs to no thread; it is used by one call at a time, since each call borrows it to
// write.
unsafe impl Send for Growing<'_> {}

impl<'w> Growing<'w> {
    fn of(words: &'w [u64]) -> Growing<'w> {
        Growing { own: sys::Growing::EMPTY, words, kept: 0 }
    }

    /// Begins: nothing is marked.
    ///
    /// # Errors
    /// `TooLarge`; `OutOfMemory`.
    pub fn begin(edition: Edition, words: &'w [u64]) -> Result<Growing<'w>, Refusal> {
        let mut made = Growing::of(words);
        // SAFETY: the array is a slice.
        told(unsafe {
            sys::compressor_growing_begin(
                edition as u32,
                words.as_ptr(),
                words.len(),
                &mut made.own,
            )
        })?;
        Ok(made)
    }

    /// The same by tables, which go. What grows takes no memory then.
    ///
    /// # Errors
    /// `TooLarge`; `ShortTables`. The tables come back.
    pub fn begin_lent(
        mut tables: Tables,
        edition: Edition,
        words: &'w [u64],
    ) -> Result<Growing<'w>, Refused<Tables>> {
        let mut made = Growing::of(words);
        // SAFETY: the array is a slice.
        let begun = told(unsafe {
            sys::compressor_growing_begin_lent(
                &mut tables.0,
                edition as u32,
                words.as_ptr(),
                words.len(),
                &mut made.own,
            )
        });
        or_back(begun.map(|_| made), tables)
    }

    /// It goes on if the step is done; else it is over.
    fn after(mut self, step: Result<u64, Refusal>) -> Result<Growing<'w>, Refused<Option<Tables>>> {
        match step {
            Ok(kept) => {
                self.kept = kept;
                Ok(self)
            }
            Err(refusal) => Err(Refused { refusal, back: self.into_tables() }),
        }
    }

    /// Marks what more roots reach. It looks at no word of an object that was marked before.
    ///
    /// # Errors
    /// `TooLarge`, too many roots; `OutOfMemory`, or a fault that is there: `BadRoot`, `BadReference`, `BadWeak`,
    /// `ObjectTooLong`, `ObjectPastEnd`, `Overlap`.
    pub fn also(mut self, roots: &[Value]) -> Result<Growing<'w>, Refused<Option<Tables>>> {
        // SAFETY: the arrays are slices.
        let step = told(unsafe {
            sys::compressor_growing_also(
                &mut self.own,
                self.words.as_ptr(),
                self.words.len(),
                roots.as_ptr().cast(),
                roots.len(),
            )
        });
        self.after(step)
    }

    /// Keeps the values of ephemerons, each a holder, a key and a value: a value is kept as soon as the other two are.
    ///
    /// # Errors
    /// As of `also`. `BadRoot` has the number of a word that is a value, among the words of the ephemerons.
    pub fn also_values(
        mut self,
        ephemerons: &[[Value; 3]],
    ) -> Result<Growing<'w>, Refused<Option<Tables>>> {
        // SAFETY: the arrays are slices.
        let step = told(unsafe {
            sys::compressor_growing_also_values(
                &mut self.own,
                self.words.as_ptr(),
                self.words.len(),
                ephemerons.as_ptr().cast(),
                3 * ephemerons.len(),
            )
        });
        self.after(step)
    }

    /// Whether a value is null, an immediate, or leads to an object that is kept so far.
    pub fn keeps(&mut self, value: Value) -> bool {
        sure(sys::compressor_growing_keeps(&mut self.own, value.word())) == 1
    }

    /// How many objects are kept so far.
    pub fn kept(&self) -> u64 {
        self.kept
    }

    /// The survey of all that is kept.
    ///
    /// # Errors
    /// `OutOfMemory`.
    pub fn settle(mut self) -> Result<Survey, Refused<Option<Tables>>> {
        let made = Survey::made(|survey| sys::compressor_growing_settle(&mut self.own, survey));
        match made {
            Ok((survey, _)) => Ok(survey),
            Err(refusal) => Err(Refused { refusal, back: self.into_tables() }),
        }
    }

    /// Ends it, and gives back the tables that it was made by; `None` if there were none.
    pub fn into_tables(mut self) -> Option<Tables> {
        let made = Tables::made(|tables| sys::compressor_growing_return(&mut self.own, tables));
        made.ok().and_then(|(tables, room)| (room > 0).then_some(tables))
    }
}

impl Drop for Growing<'_> {
    fn drop(&mut self) {
        sys::compressor_growing_drop(&mut self.own);
    }
}

impl fmt::Debug for Growing<'_> {
    fn fmt(&self, to: &mut fmt::Formatter<'_>) -> fmt::Result {
        to.debug_struct("Growing").field("kept", &self.kept).finish_non_exhaustive()
    }
}
