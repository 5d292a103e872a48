use alloc::vec;
use alloc::vec::Vec;
use core::cell::RefCell;
use core::sync::atomic::Ordering;

use super::Space;
use crate::refusal::told;
use crate::{sys, Refusal, Shape, Value};

/// Objects of a space that stay where they are, each as long as a [`Pin`] of it lives: since C has its address, or a
/// call of the system fills its words.
///
/// Only [`Space::collect_pinned`] knows them: while one lives collect by no other call, but what is young, once
/// [`Space::raise`] has raised the watermark behind them; and turn no space then.
#[derive(Debug, Default)]
pub struct Pins {
    objects: RefCell<Vec<Value>>,
}

/// While it lives, its object is kept, and has the address that it has now.
///
/// ```
/// use compressor::rest::{Buffer, Pins, Space};
/// use compressor::{Edition, Refusal, Shape, Value};
///
/// # fn main() -> Result<(), Refusal> {
/// let bytes = Shape { refs: 0, weak: 0, data: 8, tag: 1 }.header(Edition::Four).expect("a shape");
/// let mut space = Space::new(Edition::Four, vec![0; 4096].into(), 0);
/// let mut buffer = Buffer::default();
/// space.alloc(&mut buffer, bytes).expect("room"); // dies
/// let made = space.alloc(&mut buffer, bytes).expect("room");
/// let pins = Pins::default();
/// let pin = pins.pin(made);
/// pin.data(&mut space)[3] = 5;
/// assert_eq!(space.collect_pinned(&pins, &mut [])?, 9);
/// assert_eq!(pin.data(&mut space)[3], 5);
/// assert_eq!(space.load_word(made, 3), 5);
/// # Ok(())
/// # }
/// ```
#[derive(Debug)]
#[must_use = "the object stays as long as the pin lives"]
pub struct Pin<'p> {
    pins: &'p Pins,
    object: Value,
}

impl Pins {
    /// A pin of this object. An object may have several.
    pub fn pin(&self, object: Value) -> Pin<'_> {
        self.objects.borrow_mut().push(object);
        Pin { pins: self, object }
    }

    /// How many there are now.
    pub fn count(&self) -> usize {
        self.objects.borrow().len()
    }
}

impl Pin<'_> {
    /// The object.
    pub fn object(&self) -> Value {
        self.object
    }

    /// The data words of the object in its space, as plain ones. Their address is the same each time, and a call of
    /// the system may have it as long as the pin lives; but no other use of these words comes at the same time.
    ///
    /// # Panics
    /// If the object is not within the used words of this space.
    pub fn data<'a>(&'a self, space: &'a mut Space<'_>) -> &'a mut [u64] {
        let (shape, base) = (space.shape(self.object), space.base);
        let data = self.object.word() - base + 1 + u64::from(shape.refs) + u64::from(shape.weak);
        let words = space.words().get_mut(data as usize..);
        words.and_then(|it| it.get_mut(..shape.data as usize)).expect("an object in this space")
    }
}

impl Drop for Pin<'_> {
    fn drop(&mut self) {
        let mut objects = self.pins.objects.borrow_mut();
        if let Some(at) = objects.iter().position(|it| *it == self.object) {
            objects.swap_remove(at);
        }
    }
}

impl Space<'_> {
    /// The whole collection, within the memory, around these objects: they are kept and stay, and all others that they
    /// or the roots reach slide down, each behind the one before it. The roots lead there. Answers the live words. In
    /// editions three and four new objects are made in the runs of free words between them first.
    ///
    /// # Errors
    /// After each all is as it was. `OutOfMemory`, or a fault that is there, as of [`collect`](Space::collect), also
    /// one of what pins reach; `BadPin`, one that leads to no object.
    pub fn collect_pinned(&mut self, pins: &Pins, roots: &mut [Value]) -> Result<u64, Refusal> {
        self.turn_back(roots)?;
        let pinned = pins.objects.borrow();
        let (mut runs, mut run_count) = (vec![0; 2 * pinned.len()], 0);
        let (edition, words) = (self.edition as u32, self.words());
        // SAFETY: the arrays are slices.
        let end = told(unsafe {
            sys::compressor_collect_pinned(
                edition,
                words.as_mut_ptr(),
                words.len(),
                roots.as_mut_ptr().cast(),
                roots.len(),
                pinned.as_ptr().cast(),
                pinned.len(),
                runs.as_mut_ptr(),
                runs.len(),
                &mut run_count,
            )
        })?;
        self.reset(end);
        let of = |run: &[u64]| (run[0], run[1] - run[0]);
        let (starts, free): (Vec<u64>, Vec<u64>) =
            runs.chunks_exact(2).take(run_count as usize).map(of).unzip();
        let free = free.iter().sum();
        self.runs = starts;
        *self.in_runs.get_mut() = free;
        Ok(end - free)
    }

    /// The last words of the first run that has at least `least`, and up to `most`: their first index, and how many
    /// there are. The header of a run says what is left of it, and whoever takes words changes it at once: so all
    /// used words are a row of objects at any time.
    pub(super) fn take_from_run(&self, least: u64, most: u64) -> Option<(u64, u64)> {
        self.runs.iter().find_map(|&start| {
            let header = &self.cells()[start as usize];
            let of = |word| u64::from(Shape::of(self.edition, word).data);
            let less = |word| (of(word) >= least).then(|| word - of(word).min(most));
            let was = header.fetch_update(Ordering::Relaxed, Ordering::Relaxed, less).ok()?;
            let taken = of(was).min(most);
            self.in_runs.fetch_sub(taken, Ordering::Relaxed);
            Some((start + 1 + of(was) - taken, taken))
        })
    }
}
