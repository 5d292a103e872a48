use super::Survey;
use crate::handle::handle;
use crate::refusal::{sure, told};
use crate::{sys, Edition, Refusal, Refused, Value};

handle! {
    /// A marking while threads go on. Its one marker hands in an object's row: its header, references and weak words,
    /// as they are then ([`Space::append_row`](super::Space::append_row)). At the second stop, in this order: each
    /// object that was written to since its last look is looked at again, the roots are met, what waits is looked at
    /// until none does, and it is finished. So it is the survey of the words of then, if an object that was not written
    /// to since its last look has the references and weak words that were looked at. If not, a part of the slide may be
    /// refused, as after [`Survey::by_bits`]. Several markers begin by a [`Lane`](super::Lane) each.
    ///
    /// A step that is refused ends the marking, but for `StillWaiting`: survey by the roots.
    Looks, compressor_looks_drop
}

impl Looks {
    /// Begins, of a heap of so many words; with objects that are made meanwhile, all of its room.
    ///
    /// # Errors
    /// `BadEdition` for editions one and two; `TooLarge`; `OutOfMemory`; `BadRoot`.
    pub fn begin(edition: Edition, words: u64, roots: &[Value]) -> Result<Looks, Refusal> {
        // SAFETY: the array is a slice.
        let made = Looks::made(|looks| unsafe {
            sys::compressor_looks_begin(
                edition as u32,
                words,
                roots.as_ptr().cast(),
                roots.len(),
                looks,
            )
        });
        Ok(made?.0)
    }

    /// The indices of the objects that wait to be looked at, the next one first, as many as there is room for: the
    /// first ones of `indices`.
    pub fn waiting<'a>(&mut self, indices: &'a mut [u64]) -> &'a [u64] {
        // SAFETY: the array is a slice.
        let many = sure(unsafe {
            sys::compressor_looks_waiting(&mut self.0, indices.as_mut_ptr(), indices.len())
        });
        &indices[..many as usize]
    }

    /// Looks at the next objects that wait, by their rows in this order, one behind the other.
    ///
    /// # Errors
    /// `NoSuchObject`, if there are more rows than objects wait; `TooShort`, the words of a row; a fault that is there:
    /// `ObjectTooLong`, `ObjectPastEnd`, `Overlap`, `BadReference`, `BadWeak`; `OutOfMemory`.
    pub fn look(mut self, rows: &[u64]) -> Result<Looks, Refusal> {
        // SAFETY: the array is a slice.
        told(unsafe { sys::compressor_looks_look(&mut self.0, rows.as_ptr(), rows.len()) })?;
        Ok(self)
    }

    /// Looks again at the object with this index, by its row. If none was met there, that is no fault: it needs no
    /// look.
    ///
    /// # Errors
    /// `TooShort`; `BadReference`, `BadWeak`; `OutOfMemory`.
    pub fn again(mut self, index: u64, row: &[u64]) -> Result<Looks, Refusal> {
        // SAFETY: the array is a slice.
        let answer =
            unsafe { sys::compressor_looks_again(&mut self.0, index, row.as_ptr(), row.len()) };
        match told(answer) {
            Ok(_) | Err(Refusal::NoSuchObject { .. }) => Ok(self),
            Err(refusal) => Err(refusal),
        }
    }

    /// Meets the objects to which these values lead: the roots of now, or new objects.
    ///
    /// # Errors
    /// `BadRoot`, the number of the value; `OutOfMemory`.
    pub fn meet(mut self, values: &[Value]) -> Result<Looks, Refusal> {
        // SAFETY: the array is a slice.
        told(unsafe {
            sys::compressor_looks_meet(&mut self.0, values.as_ptr().cast(), values.len())
        })?;
        Ok(self)
    }

    /// For debugging: asks of all objects that were looked at, at once, whether they are in these words as they must
    /// be.
    ///
    /// # Errors
    /// `WrongLength`, not as many words as the marking is of; `OutOfMemory`, or a fault that is there: `Changed`,
    /// `Unmarked`, `BadWeak`, or `NotARun`, a word that belongs to no object any more.
    pub fn check(&mut self, words: &[u64]) -> Result<(), Refusal> {
        // SAFETY: the array is a slice.
        told(unsafe { sys::compressor_looks_check(&mut self.0, words.as_ptr(), words.len()) })?;
        Ok(())
    }

    /// Ends the marking, once no object waits.
    ///
    /// # Errors
    /// `StillWaiting`, and the marking comes back; `TooLarge`, too many roots; `BadRoot`, one to an object that was not
    /// met; `OutOfMemory`: then it is gone.
    pub fn finish(mut self, roots: &[Value]) -> Result<Survey, Refused<Option<Looks>>> {
        // SAFETY: the array is a slice.
        let made = Survey::made(|survey| unsafe {
            sys::compressor_looks_finish(&mut self.0, roots.as_ptr().cast(), roots.len(), survey)
        });
        match made {
            Ok((survey, _)) => Ok(survey),
            Err(refusal) => {
                let waits = matches!(refusal, Refusal::StillWaiting { .. });
                Err(Refused { refusal, back: waits.then_some(self) })
            }
        }
    }
}
