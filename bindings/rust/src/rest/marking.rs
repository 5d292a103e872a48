use super::{Help, Survey};
use crate::handle::handle;
use crate::refusal::told;
use crate::{sys, Edition, Refusal, Refused, Value};

handle! {
    /// The marking of a heap in steps, by many threads, with no copy: the words are lent to each help.
    ///
    /// Between two helps the runtime may write to the heap. It then hands to [`Marking::meet`] what it writes over, and
    /// each object that it makes, once its words are written. What was not handed in is found by the slide: so slide
    /// all parts before a root is forwarded, as after [`Survey::by_bits`].
    Marking, compressor_marking_drop
}

impl Marking {
    /// Begins, of a heap of so many words; with objects that are made meanwhile, all of its room.
    ///
    /// # Errors
    /// `BadEdition` for editions one and two; `TooLarge`; `BadRoot`; `OutOfMemory`.
    pub fn begin(edition: Edition, words: u64, roots: &[Value]) -> Result<Marking, Refusal> {
        // SAFETY: the array is a slice.
        let made = Marking::made(|marking| unsafe {
            sys::compressor_marking_begin(
                edition as u32,
                words,
                roots.as_ptr().cast(),
                roots.len(),
                marking,
            )
        });
        Ok(made?.0)
    }

    /// Another handle of the same marking, for another thread.
    ///
    /// # Errors
    /// `OutOfMemory`.
    pub fn share(&mut self) -> Result<Marking, Refusal> {
        Ok(Marking::made(|other| sys::compressor_marking_share(&mut self.0, other))?.0)
    }

    /// Looks at some objects, in the words of the heap as they are now; it never waits. `who` is any number: threads
    /// with different ones seldom get in each other's way. Each thread calls it until it is done, and may stop at any
    /// time all the same. Where a helper gets no memory, or finds a bad object, all are done, and [`Marking::finish`]
    /// says it.
    ///
    /// # Errors
    /// `WrongLength`, if these are not as many words as the marking is of.
    pub fn help(&mut self, words: &[u64], who: u64) -> Result<Help, Refusal> {
        // SAFETY: the array is a slice.
        let did = told(unsafe {
            sys::compressor_marking_help(&mut self.0, words.as_ptr(), words.len(), who)
        })?;
        Ok(match did {
            0 => Help::Done,
            1 => Help::Worked,
            _ => Help::Idle,
        })
    }

    /// Meets the objects to which these values lead: roots, new objects, or what is written over.
    ///
    /// # Errors
    /// `BadRoot`, the number of the value; `MarkersBusy`: call again; `OutOfMemory`. Then none of them is met.
    pub fn meet(&mut self, values: &[Value]) -> Result<(), Refusal> {
        // SAFETY: the array is a slice.
        told(unsafe {
            sys::compressor_marking_meet(&mut self.0, values.as_ptr().cast(), values.len())
        })?;
        Ok(())
    }

    /// Ends the marking, after a help that was done, with the roots as they are now.
    ///
    /// # Errors
    /// `StillShared`, if a share is left, and the marking comes back. After the others it is gone: `OutOfMemory`;
    /// `BadObject`; `StillMarking`, if objects wait; `TooLarge`, too many roots; `NotARun`, `ObjectPastEnd`; `BadRoot`,
    /// one to an object that was not met.
    pub fn finish(mut self, roots: &[Value]) -> Result<Survey, Refused<Option<Marking>>> {
        // SAFETY: the array is a slice.
        let made = Survey::made(|survey| unsafe {
            sys::compressor_marking_finish(&mut self.0, roots.as_ptr().cast(), roots.len(), survey)
        });
        match made {
            Ok((survey, _)) => Ok(survey),
            Err(refusal) => {
                let back = (refusal == Refusal::StillShared).then_some(self);
                Err(Refused { refusal, back })
            }
        }
    }
}
