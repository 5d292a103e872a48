use alloc::vec::Vec;

use super::{EndFacts, Heap};
use crate::handle::handle;
use crate::refusal::{filled, or_back, sure, told};
use crate::{sys, Refusal, Refused, Value, PAGE_WORDS};

handle! {
    /// A finished cycle: its pages, their journals, and the roots.
    End, compressor_end_drop
}

/// What an entry of a journal wrote.
#[derive(Clone, Copy, Debug, PartialEq, Eq, Hash)]
#[repr(u8)]
pub enum Kind {
    /// The header word of a new object.
    Header = 0,
    /// A reference.
    Ref = 1,
    /// A data word.
    Data = 2,
    /// A weak word.
    Weak = 3,
}

/// An entry of a journal: one write. The stamps of all entries of all pages are the numbers from 0 on.
#[derive(Clone, Copy, Debug, PartialEq, Eq, Hash)]
pub struct Entry {
    /// Its number in the order of all writes.
    pub stamp: u64,
    /// The word that was written.
    pub value: u64,
    /// The number of the mutator.
    pub writer: u8,
    /// What was written.
    pub kind: Kind,
    /// The number of the word on its page.
    pub offset: u8,
}

impl End {
    /// Its counts.
    pub fn facts(&mut self) -> EndFacts {
        let mut facts = EndFacts::default();
        sure(sys::compressor_end_facts_of(&mut self.0, &mut facts));
        facts
    }

    /// The words of a page, and how many entries it has.
    ///
    /// # Errors
    /// `NoSuchPage`; `NotBuilt`.
    pub fn page(&mut self, page: u64) -> Result<([u64; PAGE_WORDS], u64), Refusal> {
        let mut words = [0; PAGE_WORDS];
        let entries = told(sys::compressor_end_page(&mut self.0, page, &mut words))?;
        Ok((words, entries))
    }

    /// An entry of a page, in the order of the writes.
    ///
    /// # Errors
    /// `NoSuchPage`; `NotBuilt`; `NoSuchEntry`.
    pub fn entry(&mut self, page: u64, number: u64) -> Result<Entry, Refusal> {
        let mut entry = sys::Entry::default();
        told(sys::compressor_end_entry(&mut self.0, page, number, &mut entry))?;
        let kind = match entry.kind {
            0 => Kind::Header,
            1 => Kind::Ref,
            2 => Kind::Data,
            _ => Kind::Weak,
        };
        let sys::Entry { stamp, value, writer, offset, .. } = entry;
        Ok(Entry { stamp, value, writer, kind, offset })
    }

    /// All roots, in the order in which they were handed in.
    ///
    /// # Errors
    /// `OutOfMemory`.
    pub fn roots(&mut self) -> Result<Vec<Value>, Refusal> {
        // SAFETY: the array is a slice.
        filled(|out: &mut [Value]| unsafe {
            sys::compressor_end_roots(&mut self.0, out.as_mut_ptr().cast(), out.len())
        })
    }

    /// How many pages the mutator with this number built.
    ///
    /// # Errors
    /// `NoSuchMutator`.
    pub fn builds(&mut self, mutator: u32) -> Result<u64, Refusal> {
        told(sys::compressor_end_builds(&mut self.0, mutator))
    }

    /// The page that it built as the one with this number.
    ///
    /// # Errors
    /// `NoSuchMutator`; `NoSuchBuild`.
    pub fn build(&mut self, mutator: u32, number: u64) -> Result<u64, Refusal> {
        told(sys::compressor_end_build(&mut self.0, mutator, number))
    }

    /// The heap with which the next cycle begins, with these roots: null, immediates, or objects of the finished
    /// heap. Exactly what they reach is marked. It has the words of all pages.
    ///
    /// # Errors
    /// `TooLarge`; `OutOfMemory`; `BadRoot`. The end comes back.
    pub fn next_by_roots(mut self, roots: &[Value]) -> Result<Heap, Refused<End>> {
        let end = &mut self.0;
        // SAFETY: the array is a slice.
        let made = Heap::made(|heap| unsafe {
            sys::compressor_end_next_by_roots(end, roots.as_ptr().cast(), roots.len(), heap)
        });
        or_back(made.map(|(heap, _)| heap), self)
    }

    /// The same, in which the objects at these rising indices are marked ([`Address::index`](crate::Address::index)).
    ///
    /// # Errors
    /// `TooLarge`; `OutOfMemory`; `MarkNotStart`, `MarksNotRising`, `BadRoot`, `UnmarkedTarget`, the first fault. The
    /// end comes back.
    pub fn next_by_marks(mut self, marks: &[u32], roots: &[Value]) -> Result<Heap, Refused<End>> {
        let end = &mut self.0;
        // SAFETY: the arrays are slices.
        let made = Heap::made(|heap| unsafe {
            sys::compressor_end_next_by_marks(
                end,
                marks.as_ptr(),
                marks.len(),
                roots.as_ptr().cast(),
                roots.len(),
                heap,
            )
        });
        or_back(made.map(|(heap, _)| heap), self)
    }

    /// The heap comes to rest: `words` has then the words of all pages, with addresses of from-space, and `roots` all
    /// roots so. Answers the count of the words, `rest_words` of the facts. Values that the runtime kept become
    /// [`Value::rested`].
    ///
    /// # Errors
    /// `TooShort` (the words; 0, or the roots; 1); `OutOfMemory`.
    pub fn rest(&mut self, words: &mut [u64], roots: &mut [Value]) -> Result<u64, Refusal> {
        // SAFETY: the arrays are slices.
        told(unsafe {
            sys::compressor_end_rest(
                &mut self.0,
                words.as_mut_ptr(),
                words.len(),
                roots.as_mut_ptr().cast(),
                roots.len(),
            )
        })
    }

    /// The bytes of its dump (docs/FORMATS.md), with the counts of its flip.
    ///
    /// # Errors
    /// `OutOfMemory`.
    pub fn write(&mut self) -> Result<Vec<u8>, Refusal> {
        // SAFETY: the array is a slice.
        filled(|out: &mut [u8]| unsafe {
            sys::compressor_end_write(&mut self.0, out.as_mut_ptr(), out.len())
        })
    }
}
