use super::{End, Mutator};
use crate::handle::handle;
use crate::refusal::{or_back, told};
use crate::{sys, Refusal, Refused};

handle! {
    /// The mutators of a flipped heap that no thread has. To drop it drops them, and the cycle is never finished.
    Crew, compressor_crew_drop
}

impl Crew {
    /// Takes out the mutator that was handed back last; after a flip the one with the greatest number.
    ///
    /// # Errors
    /// `NoMutatorLeft`; `OutOfMemory`.
    pub fn take(&mut self) -> Result<Mutator, Refusal> {
        Ok(Mutator::made(|mutator| sys::compressor_crew_take(&mut self.0, mutator))?.0)
    }

    /// Hands a mutator back.
    ///
    /// # Errors
    /// `OtherCrew`, and the mutator comes back.
    pub fn give(&mut self, mut mutator: Mutator) -> Result<(), Refused<Mutator>> {
        let given = told(sys::compressor_crew_give(&mut self.0, &mut mutator.0));
        or_back(given.map(|_| ()), mutator)
    }

    /// Ends the cycle, after all mutators were handed back, in any order. No page has to be swept: if nobody has
    /// built a page, the next heap has its words all the same.
    ///
    /// # Errors
    /// `MutatorMissing`; `OutOfMemory`; `StillShared`, which never comes. The crew comes back with all that it had.
    pub fn finish(mut self) -> Result<End, Refused<Crew>> {
        let made = End::made(|end| sys::compressor_crew_finish(&mut self.0, end));
        or_back(made.map(|(end, _)| end), self)
    }
}
