//! A flipped heap: threads go on while their heap is compacted, and read, write and allocate by calls of a mutator.
//!
//! A [`Heap`] of words is planned; a [`Plan`] is flipped for a [`Crew`]; each thread takes a [`Mutator`]; all are
//! handed back, and the crew is finished; of the [`End`] the next heap is made, or it comes to rest.

mod crew;
mod end;
mod heap;
mod mutator;
mod plan;

pub use crew::Crew;
pub use end::{End, Entry, Kind};
pub use heap::Heap;
pub use mutator::Mutator;
pub use plan::{Audit, Plan};

/// The counts of a heap.
#[derive(Clone, Copy, Debug, Default, PartialEq, Eq)]
#[repr(C)]
pub struct HeapFacts {
    /// Its words.
    pub words: u64,
    /// Its marked objects.
    pub marked: u64,
    /// Its roots.
    pub roots: u64,
    /// The number of its edition.
    pub edition: u32,
    unused: u32,
}

/// The counts of a plan.
#[derive(Clone, Copy, Debug, Default, PartialEq, Eq)]
#[repr(C)]
pub struct PlanFacts {
    /// The words of the marked objects.
    pub live_words: u64,
    /// Compacted pages; a flip adds fresh ones behind them.
    pub pages: u64,
    /// Of a flip: more are [`TooManyPages`](crate::Refusal::TooManyPages).
    pub most_fresh_pages: u64,
    /// The roots of the heap.
    pub roots: u64,
    /// The number of the heap's edition.
    pub edition: u32,
    unused: u32,
}

/// The counts of a mutator.
#[derive(Clone, Copy, Debug, Default, PartialEq, Eq)]
#[repr(C)]
pub struct MutatorFacts {
    /// Compacted ones first, then fresh ones.
    pub pages: u64,
    /// Those that a sweep touches.
    pub compacted_pages: u64,
    /// Pages that this mutator built.
    pub builds: u64,
    /// Writes and allocations of this mutator.
    pub entries: u64,
    /// The words of all objects that it made.
    pub made_words: u64,
    /// The roots of the heap.
    pub roots: u64,
    /// The number of the heap's edition.
    pub edition: u32,
    /// The mutators of the crew.
    pub mutators: u32,
    /// Its number among them, from 0 on.
    pub number: u32,
    unused: u32,
}

/// The counts of a finished cycle.
#[derive(Clone, Copy, Debug, Default, PartialEq, Eq)]
#[repr(C)]
pub struct EndFacts {
    /// Those that slid, and those of new objects.
    pub live_words: u64,
    /// Compacted ones first, then fresh ones.
    pub pages: u64,
    /// Those of objects that slid.
    pub compacted_pages: u64,
    /// Of all pages: so many [`End::rest`] writes.
    pub rest_words: u64,
    /// The roots of the heap.
    pub roots: u64,
    /// The number of the heap's edition.
    pub edition: u32,
    /// The mutators of the crew.
    pub mutators: u32,
}
