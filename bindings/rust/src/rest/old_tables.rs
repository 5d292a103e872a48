use super::Cards;
use crate::handle::handle;
use crate::refusal::{sure, told};
use crate::{sys, Edition, Refusal, Value};

handle! {
    /// Tables for young collections, which know a watermark: the words below it are what the last collection left, and
    /// the objects there are old. A young collection leaves them where they are, and slides what lives above down to
    /// them. So it costs what is young and lives, the roots, and what was stored into old objects. An old object that
    /// nothing reaches stays, with all to which it leads, until all is collected.
    ///
    /// Between two collections the runtime makes its objects from the watermark on, as [`Space`](super::Space) does. It
    /// keeps two things, which a young collection believes, and a debug build asks by [`check`](OldTables::check):
    ///
    /// 1. No header of an old object changes.
    /// 2. A reference or weak word of an old object, dead or not, that leads to no old object is on a dirty card
    ///    ([`Space::store_card`](super::Space::store_card)), or in the list that is handed in.
    ///
    /// If they are neither kept nor asked, the words that are left may be wrong. Memory is safe all the same. Tables go
    /// with one edition as long as they have a watermark.
    ///
    /// ```
    /// use compressor::rest::{Buffer, Cards, OldTables, Space};
    /// use compressor::{Edition, Refusal, Shape, Value};
    ///
    /// # fn main() -> Result<(), Refusal> {
    /// let pair = Shape { refs: 2, weak: 0, data: 0, tag: 1 }.header(Edition::Four).expect("a shape");
    /// let mut space = Space::new(Edition::Four, vec![0; 1 << 16].into(), 0);
    /// let mut old = OldTables::reserve(space.room())?;
    /// let mut cards = Cards::new(space.room());
    /// let mut buffer = Buffer::default();
    ///
    /// let mut roots = [space.alloc(&mut buffer, pair).expect("room")];
    /// assert_eq!(space.collect_all(&mut old, &mut roots)?, 3); // the pair is old
    /// let kept = roots[0];
    /// for n in 0..1000 {
    ///     let made = space.alloc(&mut buffer, pair).expect("room");
    ///     space.store(made, 0, Value::fixnum(n).expect("a small number")); // it is new: no card
    ///     space.store_card(&cards, kept, 0, made);
    /// }
    /// assert_eq!(space.collect_young(&mut old, &mut cards, &mut roots)?, 6);
    /// assert_eq!(roots[0], kept); // it stayed, and of the thousand pairs the last one lives
    /// assert_eq!(space.load(space.load(kept, 0), 0).as_fixnum(), Some(999));
    /// # Ok(())
    /// # }
    /// ```
    OldTables as Old, compressor_old_return
}

impl OldTables {
    /// Tables for heaps of so many words, with watermark 0: three bits a word, 4 bytes for each 64 words, and 12 a word,
    /// of which a collection touches 4 for each young object that it meets, and 4 for each word that leads above. No
    /// collection takes memory.
    ///
    /// # Errors
    /// `OutOfMemory`.
    pub fn reserve(words: u64) -> Result<OldTables, Refusal> {
        Ok(OldTables::made(|old| sys::compressor_old_reserve(words, old))?.0)
    }

    /// The watermark: how many words are old. It is 0 before the first collection.
    pub fn watermark(&mut self) -> u64 {
        sure(sys::compressor_watermark(&mut self.0))
    }

    /// Collects these words, whatever is old, as [`Space::collect`](super::Space::collect) does. Answers the live words,
    /// which are the watermark then, and each card may be clean.
    ///
    /// # Errors
    /// After each all is as it was. `TooLarge`; `ShortTables`; or a fault that is there: `BadRoot`, `BadReference`,
    /// `BadWeak`, `ObjectTooLong`, `ObjectPastEnd`, `Overlap`.
    pub fn collect_all(
        &mut self,
        edition: Edition,
        words: &mut [u64],
        roots: &mut [Value],
    ) -> Result<u64, Refusal> {
        // SAFETY: the arrays are slices.
        told(unsafe {
            sys::compressor_collect_all(
                &mut self.0,
                edition as u32,
                words.as_mut_ptr(),
                words.len(),
                roots.as_mut_ptr().cast(),
                roots.len(),
            )
        })
    }

    /// Collects what is young: above the watermark what the roots and dirty cards reach stays, and slides down to it.
    /// Answers how many words there are then, which are the watermark; the cards are clean. A weak word whose object
    /// dies becomes null.
    ///
    /// # Errors
    /// After each all is as it was. `TooLarge`; `ShortTables`; `FewWords`; `FewCards`; or a fault that is there, as of
    /// [`collect_all`](OldTables::collect_all): what leads neither to a word above the watermark nor to the first word
    /// of an old object is bad. A fault of an old object is not looked for.
    pub fn collect_young(
        &mut self,
        edition: Edition,
        words: &mut [u64],
        cards: &mut Cards,
        roots: &mut [Value],
    ) -> Result<u64, Refusal> {
        let bytes = cards.bytes();
        // SAFETY: the arrays are slices.
        let left = told(unsafe {
            sys::compressor_collect_young(
                &mut self.0,
                edition as u32,
                words.as_mut_ptr(),
                words.len(),
                bytes.as_ptr(),
                bytes.len(),
                roots.as_mut_ptr().cast(),
                roots.len(),
            )
        })?;
        cards.clean();
        Ok(left)
    }

    /// The same by a list in place of cards: the indices of the words that were stored into old objects since the last
    /// collection, in any order, also several times. The call may put it into another one; after it the list may be
    /// empty.
    ///
    /// # Errors
    /// After each all is as it was, but for the order of the list. `TooLarge`; `ShortTables`; `FewWords`; `NotAField`;
    /// or a fault that is there, as of [`collect_young`](OldTables::collect_young).
    pub fn collect_young_by(
        &mut self,
        edition: Edition,
        words: &mut [u64],
        fields: &mut [u64],
        roots: &mut [Value],
    ) -> Result<u64, Refusal> {
        // SAFETY: the arrays are slices.
        told(unsafe {
            sys::compressor_collect_young_by(
                &mut self.0,
                edition as u32,
                words.as_mut_ptr(),
                words.len(),
                fields.as_mut_ptr(),
                fields.len(),
                roots.as_mut_ptr().cast(),
                roots.len(),
            )
        })
    }

    /// As [`collect_young`](OldTables::collect_young), but an object becomes old when it has survived two collections:
    /// the watermark is then where the first object stands that was made since the last one. The cards are made anew:
    /// dirty are those of words of old objects that lead to none.
    ///
    /// # Errors
    /// As of `collect_young`. `FewCards` says how many are wanted, one for each 64 words that the last collection left.
    pub fn collect_aging(
        &mut self,
        edition: Edition,
        words: &mut [u64],
        cards: &mut Cards,
        roots: &mut [Value],
    ) -> Result<u64, Refusal> {
        let bytes = cards.bytes();
        // SAFETY: the arrays are slices.
        told(unsafe {
            sys::compressor_collect_aging(
                &mut self.0,
                edition as u32,
                words.as_mut_ptr(),
                words.len(),
                bytes.as_mut_ptr(),
                bytes.len(),
                roots.as_mut_ptr().cast(),
                roots.len(),
            )
        })
    }

    /// Collects nothing, and makes old all that lies below index `end`, dead or not, where it is. The words from the
    /// watermark up to `end` are a row of objects, of which it reads the headers alone. Of their words those that lead
    /// to no old object have to be on dirty cards then; there are none, if `end` is that of all objects. The answer is
    /// the watermark, `end`.
    ///
    /// # Errors
    /// After each all is as it was. `TooLarge`; `ShortTables`; `FewWords`; `BelowWatermark`; or `NotARow`, where an
    /// object ends behind `end`.
    pub fn raise(&mut self, edition: Edition, words: &[u64], end: u64) -> Result<u64, Refusal> {
        // SAFETY: the array is a slice.
        told(unsafe {
            sys::compressor_old_raise(&mut self.0, edition as u32, words.as_ptr(), words.len(), end)
        })
    }

    /// For debugging: whether what young collections believe is so. It reads all old objects.
    ///
    /// # Errors
    /// A fault that is there: `NotARow`, if the words below the watermark are not the row of objects that the last
    /// collection left; else `LeadsAbove`, a reference or weak word on a clean card that leads to no old object.
    pub fn check(
        &mut self,
        edition: Edition,
        words: &[u64],
        cards: &mut Cards,
    ) -> Result<(), Refusal> {
        let bytes = cards.bytes();
        // SAFETY: the arrays are slices.
        told(unsafe {
            sys::compressor_old_check(
                &mut self.0,
                edition as u32,
                words.as_ptr(),
                words.len(),
                bytes.as_ptr(),
                bytes.len(),
            )
        })?;
        Ok(())
    }
}
