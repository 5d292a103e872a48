use core::ops::Range;
use core::sync::atomic::Ordering;

use super::Space;
use crate::{Shape, Value};

/// The most words that a [`Buffer`] takes at once.
pub const CHUNK: u64 = 4096;

/// What one thread allocates from: zeroed words of a space that are its own. After a collection, or with another
/// space, it begins anew.
#[derive(Debug, Default)]
pub struct Buffer {
    /// From this index on.
    at: u64,
    end: u64,
    epoch: u64,
}

impl Space<'_> {
    /// Makes an object with this header word, of nulls and zeros. `None` if there is no room: that is the end of a
    /// program that collects by its limit, since who collects in the middle of a step has to name all of its values.
    #[inline]
    pub fn alloc(&self, buffer: &mut Buffer, header: u64) -> Option<Value> {
        let words = Shape::of(self.edition, header).words();
        if buffer.epoch != self.epoch {
            *buffer = Buffer { at: 0, end: 0, epoch: self.epoch };
        }
        let index = if buffer.end - buffer.at < words {
            self.alloc_slowly(buffer, words)?
        } else {
            let at = buffer.at;
            buffer.at += words;
            at
        };
        self.cells()[index as usize].store(header, Ordering::Relaxed);
        Some(self.object_at(index))
    }

    /// The index of an object for which the buffer has no words. A large one gets words of its own, and so do all where
    /// no more are to be had.
    #[cold]
    fn alloc_slowly(&self, buffer: &mut Buffer, words: u64) -> Option<u64> {
        let taken = self.take(words, if words > CHUNK / 4 { words } else { CHUNK })?;
        if taken.end - taken.start == words {
            return Some(taken.start);
        }
        // It goes on where the last one ended.
        let at = if buffer.end == taken.start { buffer.at } else { taken.start };
        buffer.at = at + words;
        buffer.end = taken.end;
        Some(at)
    }

    /// Takes zeroed words, at least `least`, and else up to `most`; but if there is a limit below the room, no more
    /// than a sixteenth of those up to it, and none above. So threads share what is left, and it is due when it is
    /// used. Runs between pins come first.
    fn take(&self, least: u64, most: u64) -> Option<Range<u64>> {
        let is_limited = self.limit < self.room;
        let in_runs = self.in_runs();
        let some = |used: u64, left: u64| {
            let below = self.limit.saturating_sub(used - in_runs) / 16;
            let some = if is_limited { below } else { left };
            some.clamp(least, most)
        };
        let more = |used: u64| {
            let left = self.room - used;
            (left >= least).then(|| used + some(used, left))
        };
        let taken = match self.take_from_run(least, some(self.used(), most)) {
            Some((start, words)) => start..start + words,
            None => {
                let taken = self.used.fetch_update(Ordering::Relaxed, Ordering::Relaxed, more);
                let start = taken.ok()?;
                start..more(start)?
            }
        };
        for cell in &self.cells()[taken.start as usize..taken.end as usize] {
            cell.store(0, Ordering::Relaxed);
        }
        Some(taken)
    }
}
