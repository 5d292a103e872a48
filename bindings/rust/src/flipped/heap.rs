use alloc::vec::Vec;

use super::{HeapFacts, Plan};
use crate::handle::handle;
use crate::refusal::{filled, or_back, sure, told};
use crate::{sys, Edition, Refusal, Refused, Value};

handle! {
    /// Words, roots, and which objects are marked.
    Heap, compressor_heap_drop
}

impl Heap {
    /// A heap of a copy of these words, in which exactly what the roots reach is marked.
    ///
    /// The words are from-space: word `i` has the address [`FROM_SPACE`](crate::FROM_SPACE) + `i`, and the words of
    /// objects lie side by side.
    ///
    /// # Errors
    /// `TooLarge`; `OutOfMemory`; `ObjectPastEnd`, `ObjectTooLong`, `BadRoot`, `UnmarkedTarget`, `BadWeak`, the first
    /// fault of the heap.
    pub fn by_roots(edition: Edition, words: &[u64], roots: &[Value]) -> Result<Heap, Refusal> {
        // SAFETY: the arrays are slices.
        let made = Heap::made(|heap| unsafe {
            sys::compressor_heap_by_roots(
                edition as u32,
                words.as_ptr(),
                words.len(),
                roots.as_ptr().cast(),
                roots.len(),
                heap,
            )
        });
        Ok(made?.0)
    }

    /// The same, in which the objects at these rising indices are marked. Each root and each reference of a marked
    /// object is null, an immediate, or leads to a marked object.
    ///
    /// # Errors
    /// As [`by_roots`](Heap::by_roots), and `MarkNotStart`, `MarksNotRising`.
    pub fn by_marks(
        edition: Edition,
        words: &[u64],
        marks: &[u32],
        roots: &[Value],
    ) -> Result<Heap, Refusal> {
        // SAFETY: the arrays are slices.
        let made = Heap::made(|heap| unsafe {
            sys::compressor_heap_by_marks(
                edition as u32,
                words.as_ptr(),
                words.len(),
                marks.as_ptr(),
                marks.len(),
                roots.as_ptr().cast(),
                roots.len(),
                heap,
            )
        });
        Ok(made?.0)
    }

    /// A heap of the bytes of an image (docs/FORMATS.md).
    ///
    /// # Errors
    /// `OutOfMemory`; `ImageTruncated`, `ImageTrailing`, `ImageBadMagic`; or as [`by_marks`](Heap::by_marks).
    pub fn read(bytes: &[u8]) -> Result<Heap, Refusal> {
        // SAFETY: the array is a slice.
        let made = Heap::made(|heap| unsafe {
            sys::compressor_heap_read(bytes.as_ptr(), bytes.len(), heap)
        });
        Ok(made?.0)
    }

    /// The bytes of its image.
    ///
    /// # Errors
    /// `OutOfMemory`.
    pub fn write(&mut self) -> Result<Vec<u8>, Refusal> {
        // SAFETY: the array is a slice.
        filled(|out: &mut [u8]| unsafe {
            sys::compressor_heap_write(&mut self.0, out.as_mut_ptr(), out.len())
        })
    }

    /// Its counts.
    pub fn facts(&mut self) -> HeapFacts {
        let mut facts = HeapFacts::default();
        sure(sys::compressor_heap_facts_of(&mut self.0, &mut facts));
        facts
    }

    /// Judges what another collector left of this heap: the bytes are a moved heap (docs/FORMATS.md). Answers the
    /// words that moved, those of the marked objects.
    ///
    /// # Errors
    /// `OutOfMemory`; `FileTruncated` to `FileBadField`; `MovedWrongHead` to `MovedWrongWord`, the first fault.
    pub fn judge(&mut self, bytes: &[u8]) -> Result<u64, Refusal> {
        // SAFETY: the array is a slice.
        told(unsafe { sys::compressor_heap_judge(&mut self.0, bytes.as_ptr(), bytes.len()) })
    }

    /// Plans the heap, which goes: the plan has it then.
    ///
    /// # Errors
    /// `OutOfMemory`, and the heap comes back.
    pub fn plan(mut self) -> Result<Plan, Refused<Heap>> {
        let made = Plan::made(|plan| sys::compressor_heap_plan(&mut self.0, plan));
        or_back(made.map(|(plan, _)| plan), self)
    }
}
