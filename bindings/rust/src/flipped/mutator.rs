use alloc::vec::Vec;

use super::MutatorFacts;
use crate::handle::handle;
use crate::refusal::{filled, sure, told};
use crate::{sys, Address, Refusal, Value, PAGE_WORDS};

handle! {
    /// What one thread needs of a flipped heap.
    ///
    /// It reads and writes objects that it knows: those that slid, that it made, that a read answered it, that are on
    /// a page that it copied, and that another mutator knew when they met. At another address it answers `NotAStart`.
    /// Fields of each kind are counted from 0.
    ///
    /// It is handed back ([`Crew::give`](crate::Crew::give)): if it is dropped, its crew is never finished.
    ///
    /// After `Busy` a call is made again ([`while_busy`](crate::while_busy)); after `OutOfPages` and `JournalFull`
    /// the cycle is ended.
    Mutator, compressor_mutator_drop
}

impl Mutator {
    /// The value of a reference, which the mutator knows from then on.
    ///
    /// # Errors
    /// `NotAStart`; `NoSuchField`; `Busy` or `OutOfMemory`, if the mutator does not know that the page is built.
    pub fn read_ref(&mut self, object: Address, field: u32) -> Result<Value, Refusal> {
        let word = told(sys::compressor_mutator_read_ref(&mut self.0, object.word(), field))?;
        Ok(Value::of_word(word))
    }

    /// The value of a weak word, which the mutator knows from then on.
    ///
    /// # Errors
    /// As [`read_ref`](Mutator::read_ref).
    pub fn read_weak(&mut self, object: Address, field: u32) -> Result<Value, Refusal> {
        let word = told(sys::compressor_mutator_read_weak(&mut self.0, object.word(), field))?;
        Ok(Value::of_word(word))
    }

    /// A data word.
    ///
    /// # Errors
    /// As [`read_ref`](Mutator::read_ref).
    pub fn read_data(&mut self, object: Address, field: u32) -> Result<u64, Refusal> {
        told(sys::compressor_mutator_read_data(&mut self.0, object.word(), field))
    }

    /// The header word of an object, which never changes: [`Shape::of`](crate::Shape::of) says its counts and its tag.
    ///
    /// # Errors
    /// `NotAStart`.
    pub fn header(&mut self, object: Address) -> Result<u64, Refusal> {
        told(sys::compressor_mutator_header(&mut self.0, object.word()))
    }

    /// Writes a reference, whole, and answers the stamp of the entry. The value is null, an immediate in edition
    /// four, or an object that the mutator knows.
    ///
    /// # Errors
    /// `NotAStart` (the object); `NoSuchField`; `NotAStart` (the value); `Busy`, `JournalFull` or `OutOfMemory`.
    pub fn write_ref(
        &mut self,
        object: Address,
        field: u32,
        value: impl Into<Value>,
    ) -> Result<u64, Refusal> {
        let word = value.into().word();
        told(sys::compressor_mutator_write_ref(&mut self.0, object.word(), field, word))
    }

    /// Writes a weak word, in the same way.
    ///
    /// # Errors
    /// As [`write_ref`](Mutator::write_ref).
    pub fn write_weak(
        &mut self,
        object: Address,
        field: u32,
        value: impl Into<Value>,
    ) -> Result<u64, Refusal> {
        let word = value.into().word();
        told(sys::compressor_mutator_write_weak(&mut self.0, object.word(), field, word))
    }

    /// Writes a data word, and answers the stamp of the entry.
    ///
    /// # Errors
    /// `NotAStart`; `NoSuchField`; `Busy`, `JournalFull` or `OutOfMemory`.
    pub fn write_data(&mut self, object: Address, field: u32, word: u64) -> Result<u64, Refusal> {
        told(sys::compressor_mutator_write_data(&mut self.0, object.word(), field, word))
    }

    /// Makes an object with this header word ([`Shape::header`](crate::Shape::header)), of nulls and zeros.
    ///
    /// # Errors
    /// `ObjectTooLarge`; `OutOfPages`; `Busy`, `JournalFull` or `OutOfMemory`.
    pub fn alloc(&mut self, header: u64) -> Result<Address, Refusal> {
        let word = told(sys::compressor_mutator_alloc(&mut self.0, header))?;
        Ok(Value::of_word(word).address().expect("a new object is in to-space"))
    }

    /// Builds a page if nobody has, and answers whether this call did. To sweep is to touch each page below
    /// `compacted_pages` of the facts, by any mutators.
    ///
    /// # Errors
    /// `NoSuchPage`; `Busy` or `OutOfMemory`.
    pub fn touch(&mut self, page: u64) -> Result<bool, Refusal> {
        Ok(told(sys::compressor_mutator_touch(&mut self.0, page))? == 1)
    }

    /// The page's words as the mutator has then seen them, while others go on, and how many entries it has. Builds
    /// the page if nobody has.
    ///
    /// # Errors
    /// `NoSuchPage`; `Busy` or `OutOfMemory`.
    pub fn page(&mut self, page: u64) -> Result<([u64; PAGE_WORDS], u64), Refusal> {
        let mut words = [0; PAGE_WORDS];
        let entries = told(sys::compressor_mutator_page(&mut self.0, page, &mut words))?;
        Ok((words, entries))
    }

    /// Where a root leads.
    ///
    /// # Errors
    /// `NoSuchRoot`.
    pub fn root(&mut self, number: u64) -> Result<Value, Refusal> {
        told(sys::compressor_mutator_root(&mut self.0, number)).map(Value::of_word)
    }

    /// All roots, in the order in which they were handed in.
    ///
    /// # Errors
    /// `OutOfMemory`.
    pub fn roots(&mut self) -> Result<Vec<Value>, Refusal> {
        // SAFETY: the array is a slice.
        filled(|out: &mut [Value]| unsafe {
            sys::compressor_mutator_roots(&mut self.0, out.as_mut_ptr().cast(), out.len())
        })
    }

    /// The page that this mutator built as the one with this number.
    ///
    /// # Errors
    /// `NoSuchBuild`.
    pub fn build(&mut self, number: u64) -> Result<u64, Refusal> {
        told(sys::compressor_mutator_build(&mut self.0, number))
    }

    /// Its counts, as they are now.
    pub fn facts(&mut self) -> MutatorFacts {
        let mut facts = MutatorFacts::default();
        sure(sys::compressor_mutator_facts_of(&mut self.0, &mut facts));
        facts
    }

    /// Each has then seen what the other has seen, and knows the objects that the other knew.
    ///
    /// # Errors
    /// `OtherCrew`.
    pub fn meet(&mut self, other: &mut Mutator) -> Result<(), Refusal> {
        told(sys::compressor_mutator_meet(&mut self.0, &mut other.0)).map(|_| ())
    }
}
