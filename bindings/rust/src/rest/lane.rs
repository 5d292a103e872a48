use super::Looks;
use crate::handle::handle;
use crate::refusal::{sure, told};
use crate::{sys, Edition, Refusal, Value};

handle! {
    /// What one of several markers met and looked at itself, while threads go on: it hands in the rows of what waits
    /// here, as of [`Looks`]. An object that several lanes meet waits in the one that met it first. At the second stop
    /// all lanes are joined, in any order, and made [`whole`](Lane::whole); what follows is done by [`Looks`].
    ///
    /// A step that is refused ends the lane: drop the others then, and survey by the roots.
    Lane, compressor_lane_drop
}

impl Lane {
    /// The first lane of a marking of a heap of so many words; with objects that are made meanwhile, all of its room.
    /// It met nothing.
    ///
    /// # Errors
    /// `BadEdition` for editions one and two; `TooLarge`; `OutOfMemory`.
    pub fn begin(edition: Edition, words: u64) -> Result<Lane, Refusal> {
        let made = Lane::made(|lane| sys::compressor_lane_begin(edition as u32, words, lane));
        Ok(made?.0)
    }

    /// One more lane of the same marking, for another thread. It met nothing.
    ///
    /// # Errors
    /// `OutOfMemory`.
    pub fn share(&mut self) -> Result<Lane, Refusal> {
        Ok(Lane::made(|other| sys::compressor_lane_share(&mut self.0, other))?.0)
    }

    /// The indices of the objects that wait to be looked at, the next one first, as many as there is room for: the
    /// first ones of `indices`.
    pub fn waiting<'a>(&mut self, indices: &'a mut [u64]) -> &'a [u64] {
        // SAFETY: the array is a slice.
        let many = sure(unsafe {
            sys::compressor_lane_waiting(&mut self.0, indices.as_mut_ptr(), indices.len())
        });
        &indices[..many as usize]
    }

    /// Meets the objects to which these values lead: roots, or new objects. Each root is met by any lane.
    ///
    /// # Errors
    /// `BadRoot`, the number of the value; `OutOfMemory`.
    pub fn meet(mut self, values: &[Value]) -> Result<Lane, Refusal> {
        // SAFETY: the array is a slice.
        told(unsafe {
            sys::compressor_lane_meet(&mut self.0, values.as_ptr().cast(), values.len())
        })?;
        Ok(self)
    }

    /// Looks at the next objects that wait, by their rows in this order, one behind the other.
    ///
    /// # Errors
    /// As of [`Looks::look`].
    pub fn look(mut self, rows: &[u64]) -> Result<Lane, Refusal> {
        // SAFETY: the array is a slice.
        told(unsafe { sys::compressor_lane_look(&mut self.0, rows.as_ptr(), rows.len()) })?;
        Ok(self)
    }

    /// Lets go of the last objects that wait, as many as there is room for: their indices are the first ones of
    /// `indices`. Another lane has to take them.
    pub fn give<'a>(&mut self, indices: &'a mut [u64]) -> &'a [u64] {
        // SAFETY: the array is a slice.
        let many = sure(unsafe {
            sys::compressor_lane_give(&mut self.0, indices.as_mut_ptr(), indices.len())
        });
        &indices[..many as usize]
    }

    /// What another lane gave waits in this one.
    ///
    /// # Errors
    /// `BadRoot`, the number of an index past the words; `OutOfMemory`.
    pub fn take(mut self, indices: &[u64]) -> Result<Lane, Refusal> {
        // SAFETY: the array is a slice.
        told(unsafe { sys::compressor_lane_take(&mut self.0, indices.as_ptr(), indices.len()) })?;
        Ok(self)
    }

    /// Both lanes, as one.
    ///
    /// # Errors
    /// `OtherHeap`; `Overlap`, a word that both have, as where two lanes took the same index; `OutOfMemory`.
    pub fn join(mut self, mut other: Lane) -> Result<Lane, Refusal> {
        told(sys::compressor_lane_join(&mut self.0, &mut other.0))?;
        Ok(self)
    }

    /// The whole marking, to which all lanes were joined.
    ///
    /// # Errors
    /// `MissingObject`: a lane was not joined, or what it gave was not taken.
    pub fn whole(mut self) -> Result<Looks, Refusal> {
        Ok(Looks::made(|looks| sys::compressor_lane_whole(&mut self.0, looks))?.0)
    }
}
