use alloc::boxed::Box;
use alloc::vec::Vec;
use core::fmt;
use core::marker::PhantomData;
use core::mem::swap;
use core::ptr::{slice_from_raw_parts_mut, NonNull};
use core::slice;
use core::sync::atomic::{AtomicU64, Ordering};

use crate::{Edition, Shape, Value, FROM_SPACE};

/// Memory with the words of a heap at rest, which threads share: objects, the one behind the other, and room.
///
/// Threads load, store and allocate through `&Space`; a collection wants `&mut Space`. One way is a lock for reading
/// and writing (`RwLock<Space>`), which each thread holds to read while it runs, and gives back at a safepoint.
///
/// An object is the value of its header, and word `k` of it is counted from 0 behind that. Each load and store is
/// atomic. It is looked at that it stays within the memory, and not what the object's shape says of the word.
///
/// Its room is best so large that no step of the runtime fails in its middle: memory that nobody has touched costs
/// nothing where it comes zeroed from the system, as that of `vec![0; n]` does. A limit below it says when to
/// collect.
pub struct Space<'m> {
    words: NonNull<AtomicU64>,
    /// How many of them there are.
    length: usize,
    /// Whether they are a box of this space.
    is_owned: bool,
    pub(super) room: u64,
    pub(super) used: AtomicU64,
    /// All of the room, until something else is said.
    pub(super) limit: u64,
    pub(super) edition: Edition,
    /// The address of the first word.
    pub(super) base: u64,
    /// How often it was turned.
    pub(super) turns: u64,
    /// Buffers of another epoch have no words of this space.
    pub(super) epoch: u64,
    /// Where runs of free words begin, between pins, and how many words they have.
    pub(super) runs: Vec<u64>,
    pub(super) in_runs: AtomicU64,
    memory: PhantomData<&'m mut [u64]>,
}

// SAFETY: a space owns its words, or has them alone for 'm, as `&mut [u64]` has; it belongs to no thread.
unsafe impl Send for Space<'_> {}
// SAFETY: through `&Space` each access of a word is atomic.
unsafe impl Sync for Space<'_> {}

/// The number of the next epoch, over all spaces; that of an unused buffer is 0.
static EPOCHS: AtomicU64 = AtomicU64::new(1);

impl Space<'static> {
    /// A space in this memory, whose first `used` words are objects. Of more words than the edition allows the first
    /// ones are used.
    ///
    /// # Panics
    /// If there are not so many words.
    pub fn new(edition: Edition, memory: Box<[u64]>, used: u64) -> Space<'static> {
        let length = memory.len();
        // The box is made again by the drop.
        let words = NonNull::from(Box::leak(memory)).cast();
        Space::of(edition, words, length, true, used)
    }
}

impl<'m> Space<'m> {
    /// The same in memory that is lent, as mapped memory.
    ///
    /// # Panics
    /// If there are not so many words.
    pub fn within(edition: Edition, memory: &'m mut [u64], used: u64) -> Space<'m> {
        let length = memory.len();
        Space::of(edition, NonNull::from(memory).cast(), length, false, used)
    }

    fn of(
        edition: Edition,
        words: NonNull<AtomicU64>,
        length: usize,
        is_owned: bool,
        used: u64,
    ) -> Space<'m> {
        let mut space = Space {
            words,
            length,
            is_owned,
            room: 0,
            used: AtomicU64::new(0),
            limit: 0,
            edition,
            base: FROM_SPACE,
            turns: 0,
            epoch: 0,
            runs: Vec::new(),
            in_runs: AtomicU64::new(0),
            memory: PhantomData,
        };
        space.reset(used);
        space
    }

    /// Its edition.
    pub fn edition(&self) -> Edition {
        self.edition
    }

    /// How many words it has room for.
    pub fn room(&self) -> u64 {
        self.room
    }

    /// The words of all objects and buffers, and of runs of free ones between pins.
    pub fn used(&self) -> u64 {
        self.used.load(Ordering::Relaxed)
    }

    /// The words of those runs alone.
    pub fn in_runs(&self) -> u64 {
        self.in_runs.load(Ordering::Relaxed)
    }

    /// Whether it is time to collect.
    pub fn is_due(&self) -> bool {
        self.used() - self.in_runs() >= self.limit
    }

    /// From so many words on it is time to collect.
    pub fn limit(&self) -> u64 {
        self.limit
    }

    /// From so many words on it is time to collect. A limit stays over collections and resets, cut down to the room;
    /// one of 0, or of all of the room, becomes all of the room that there is then.
    pub fn set_limit(&mut self, words: u64) {
        self.limit = words;
    }

    /// Sets the limit by the words that live, when the space was made and after each collection. It is time to collect
    /// again when `factor` times as many are used, or an eighth of the room more than live, if that is later; but a
    /// sixteenth of the room stays above the limit. Answers how many words more than the live ones may be used until
    /// then. `None` if the live words fill the room but for that sixteenth: the heap is full, and would be due at each
    /// poll.
    ///
    /// The sixteenth is for what all threads make once it is due, each until its next safepoint: if that has no more
    /// words, [`alloc`](Space::alloc) finds room for it. Where it may have more, as by many threads or large objects,
    /// cut the limit down to as many words below the room ([`set_limit`](Space::set_limit)): then the heap is full
    /// where that is not above the live ones.
    ///
    /// ```
    /// use compressor::rest::{Buffer, Space};
    /// use compressor::{Edition, Refusal, Shape, Value};
    ///
    /// # fn main() -> Result<(), Refusal> {
    /// let pair = Shape { refs: 2, weak: 0, data: 0, tag: 1 }.header(Edition::Four).expect("a shape");
    /// let mut space = Space::new(Edition::Four, vec![0; 4096].into(), 0);
    /// let (mut buffer, mut roots) = (Buffer::default(), [Value::NULL]);
    /// let mut left = space.limit_by(0, 2);
    /// while left.is_some() {
    ///     let made = space.alloc(&mut buffer, pair).expect("room above the limit");
    ///     space.store(made, 0, roots[0]);
    ///     roots[0] = made; // all pairs live, so that the heap fills up
    ///     if space.is_due() {
    ///         let live = space.collect(&mut roots)?;
    ///         left = space.limit_by(live, 2);
    ///     }
    /// }
    /// assert!(space.used() >= 4096 / 16 * 15);
    /// # Ok(())
    /// # }
    /// ```
    #[must_use = "without words that are left the heap is full"]
    pub fn limit_by(&mut self, live: u64, factor: u64) -> Option<u64> {
        let most = self.room - self.room.div_ceil(16);
        let left = most.saturating_sub(live);
        let by_factor = live.saturating_mul(factor.saturating_sub(1));
        let more = by_factor.max(self.room.div_ceil(8)).min(left);
        self.limit = most - left + more;
        (more > 0).then_some(more)
    }

    /// From now on the first `used` words of the memory are objects, and all buffers are empty. The limit stays
    /// ([`set_limit`](Space::set_limit)).
    ///
    /// # Panics
    /// If there is no room for so many words.
    pub fn reset(&mut self, used: u64) {
        let room = self.room_in(self.length, used);
        let is_set = self.limit != 0 && self.limit < self.room;
        self.limit = if is_set { self.limit.min(room) } else { room };
        self.room = room;
        *self.used.get_mut() = used;
        self.runs.clear();
        *self.in_runs.get_mut() = 0;
        self.base = FROM_SPACE;
        self.empty_buffers();
    }

    /// The room that a memory of so many words has here, with so many used ones.
    fn room_in(&self, length: usize, used: u64) -> u64 {
        let room = self.edition.max_words().min(length as u64);
        assert!(used <= room, "a space of {room} words has not {used}");
        room
    }

    /// From now on no buffer has words of this space.
    pub(super) fn empty_buffers(&mut self) {
        self.epoch = EPOCHS.fetch_add(1, Ordering::Relaxed);
    }

    /// The object at this index.
    pub(super) fn object_at(&self, index: u64) -> Value {
        Value::of_word(self.base + index)
    }

    /// The memories of two spaces change places. The first `used` words of this one's are objects then; the other one
    /// has none.
    ///
    /// # Panics
    /// If there is no room for so many words.
    pub fn exchange(&mut self, other: &mut Space<'m>, used: u64) {
        self.room_in(other.length, used);
        swap(&mut self.words, &mut other.words);
        swap(&mut self.length, &mut other.length);
        swap(&mut self.is_owned, &mut other.is_owned);
        other.reset(0);
        self.reset(used);
    }

    /// The used words, as plain ones.
    pub fn words(&mut self) -> &mut [u64] {
        let used = *self.used.get_mut() as usize;
        &mut self.memory()[..used]
    }

    /// All words that it has room for, as plain ones.
    pub fn memory(&mut self) -> &mut [u64] {
        // SAFETY: `room` is at most the length of the words, and nobody else has a reference to them.
        unsafe { slice::from_raw_parts_mut(self.words.as_ptr().cast(), self.room as usize) }
    }

    pub(super) fn cells(&self) -> &[AtomicU64] {
        // SAFETY: `room` is at most the length of the words. A `u64` has the layout of an `AtomicU64` here.
        unsafe { slice::from_raw_parts(self.words.as_ptr(), self.room as usize) }
    }

    /// The word of the memory that is so many words behind the header of an object.
    #[inline]
    fn cell(&self, object: Value, behind: u64) -> Option<&AtomicU64> {
        let index = object.word().wrapping_sub(self.base).checked_add(behind)?;
        self.cells().get(index as usize)
    }

    /// Word `k` of an object.
    #[inline]
    fn word(&self, object: Value, k: u64) -> &AtomicU64 {
        match k.checked_add(1).and_then(|behind| self.cell(object, behind)) {
            Some(cell) => cell,
            None => nowhere(object, k),
        }
    }

    /// Word `k` of an object, as a value.
    ///
    /// # Panics
    /// If the object is null or an immediate, or the word is not in the memory.
    #[inline]
    pub fn load(&self, object: Value, k: u64) -> Value {
        Value::of_word(self.load_word(object, k))
    }

    /// Word `k` of an object.
    ///
    /// # Panics
    /// As [`load`](Space::load).
    #[inline]
    pub fn load_word(&self, object: Value, k: u64) -> u64 {
        self.word(object, k).load(Ordering::Relaxed)
    }

    /// Word `k` of an object, and what another thread wrote before it stored the value by
    /// [`store_release`](Space::store_release).
    ///
    /// # Panics
    /// As [`load`](Space::load).
    #[inline]
    pub fn load_acquire(&self, object: Value, k: u64) -> Value {
        Value::of_word(self.word(object, k).load(Ordering::Acquire))
    }

    /// Stores a value as word `k` of an object.
    ///
    /// # Panics
    /// As [`load`](Space::load).
    #[inline]
    pub fn store(&self, object: Value, k: u64, value: Value) {
        self.store_word(object, k, value.word());
    }

    /// Stores a word as word `k` of an object.
    ///
    /// # Panics
    /// As [`load`](Space::load).
    #[inline]
    pub fn store_word(&self, object: Value, k: u64, word: u64) {
        self.word(object, k).store(word, Ordering::Relaxed);
    }

    /// Stores a value, behind all that this thread wrote before: so it shows a new object to others.
    ///
    /// # Panics
    /// As [`load`](Space::load).
    #[inline]
    pub fn store_release(&self, object: Value, k: u64, value: Value) {
        self.word(object, k).store(value.word(), Ordering::Release);
    }

    /// The header word of an object.
    fn head(&self, object: Value) -> &AtomicU64 {
        self.cell(object, 0).expect("an object in this space")
    }

    /// The header word of an object: [`Shape::of`] says its counts and its tag.
    ///
    /// # Panics
    /// If it is not in the memory.
    #[inline]
    pub fn header(&self, object: Value) -> u64 {
        self.head(object).load(Ordering::Relaxed)
    }

    /// Gives an object this header word: so it has another tag, or becomes another one of as many words. If it says
    /// fewer, what is left has to be objects too, as zeros are, or [`turn`](Space::turn) and
    /// [`object_around`](Space::object_around) do not find what lies behind.
    ///
    /// # Panics
    /// If it is not in the memory.
    #[inline]
    pub fn set_header(&self, object: Value, header: u64) {
        self.head(object).store(header, Ordering::Relaxed);
    }

    /// The shape of an object.
    ///
    /// # Panics
    /// If it is not in the memory.
    pub fn shape(&self, object: Value) -> Shape {
        Shape::of(self.edition, self.header(object))
    }

    /// Appends an object's row, for [`Looks`](super::Looks): its header, references and weak words, each as it is at
    /// some time of the call. Of an object that ends past the room, the header alone: the look is refused.
    ///
    /// # Panics
    /// If the object is not in the memory.
    pub fn append_row(&self, object: Value, rows: &mut Vec<u64>) {
        let index = object.word().wrapping_sub(self.base);
        let behind = self.cells().get(index as usize..).unwrap_or_default();
        let (header, behind) = behind.split_first().expect("an object in this space");
        let header = header.load(Ordering::Acquire);
        let shape = Shape::of(self.edition, header);
        let fits = shape.words() <= 1 + behind.len() as u64;
        let fields = if fits { shape.refs as usize + shape.weak as usize } else { 0 };
        rows.push(header);
        rows.extend(behind[..fields].iter().map(|it| it.load(Ordering::Acquire)));
    }

    /// For debugging: the object of the row from the first word on that has the word with this index, as a refusal
    /// names it. `None` if there is none, or if an object before it has more words than are used from there on. Looks
    /// at one object after the other.
    pub fn object_around(&self, index: u64) -> Option<Value> {
        let (mut at, used) = (0, self.used());
        while at < used {
            let words = self.shape(self.object_at(at)).words();
            if words > used - at {
                return None;
            }
            if index.wrapping_sub(at) < words {
                return Some(self.object_at(at));
            }
            at += words;
        }
        None
    }
}

#[cold]
fn nowhere(object: Value, k: u64) -> ! {
    panic!("{object:?} has no word {k} in this space")
}

impl Drop for Space<'_> {
    fn drop(&mut self) {
        if self.is_owned {
            let words = slice_from_raw_parts_mut(self.words.as_ptr().cast::<u64>(), self.length);
            // SAFETY: these words came from a box of so many, and nobody else has them.
            drop(unsafe { Box::from_raw(words) });
        }
    }
}

impl fmt::Debug for Space<'_> {
    fn fmt(&self, to: &mut fmt::Formatter<'_>) -> fmt::Result {
        to.debug_struct("Space")
            .field("edition", &self.edition)
            .field("room", &self.room)
            .field("used", &self.used())
            .finish_non_exhaustive()
    }
}
