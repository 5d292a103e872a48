//! A compacting garbage collector for runtimes: the library for C by types of Rust. No call here is `unsafe`.
//!
//! **What is proved.** Each call of the library is proved, in Rattle, for a caller that keeps what its header asks.
//! This crate is not proved. It keeps what the header asks by types, and its tests run each call. The code of
//! [`rest::Space`] is its own: loads, stores and allocation there call nothing. docs/PROMISES.md and docs/TRUST.md of
//! the repository say what the promises are, and what they rest on; docs/C.md is the guide to both ways below,
//! docs/RUNTIMES.md that for who writes a runtime at rest, and compressor.h the manual.
//!
//! # Two ways
//!
//! [`rest`]: a heap at rest lies in memory of the runtime's, which reads, writes and allocates there with no call. It
//! stands still for a collection. Begin with this one.
//!
//! ```
//! use compressor::rest::{Buffer, Space};
//! use compressor::{Edition, Refusal, Shape, Value};
//!
//! # fn main() -> Result<(), Refusal> {
//! const PAIR: Shape = Shape { refs: 2, weak: 0, data: 0, tag: 1 };
//! let header = PAIR.header(Edition::Four).expect("a shape of this edition");
//! let mut space = Space::new(Edition::Four, vec![0; 1 << 20].into(), 0);
//! let mut buffer = Buffer::default();
//!
//! // The list 3, 2, 1, and as many pairs that nothing reaches.
//! let mut list = Value::NULL;
//! for n in 1..4 {
//!     space.alloc(&mut buffer, header).expect("room");
//!     let pair = space.alloc(&mut buffer, header).expect("room");
//!     space.store(pair, 0, Value::fixnum(n).expect("a small number"));
//!     space.store(pair, 1, list);
//!     list = pair;
//! }
//!
//! let mut roots = [list];
//! assert_eq!(space.collect(&mut roots)?, 9); // three pairs are live, of three words each
//! [list] = roots;
//! assert_eq!(space.load(list, 0).as_fixnum(), Some(3));
//! # Ok(())
//! # }
//! ```
//!
//! [`flipped`]: threads go on while their heap is compacted, and read, write and allocate by calls of a mutator.
//!
//! ```
//! use compressor::{while_busy, Edition, Heap, Mutator, Refusal, Shape, Value};
//!
//! # fn main() -> Result<(), Refusal> {
//! let node = Shape { refs: 1, weak: 0, data: 1, tag: 0 }.header(Edition::One).expect("a shape");
//! // An object that nothing reaches; and one with the number 5, which is the root.
//! let words = [node, 0, 4, node, 0, 5];
//! let mut plan = Heap::by_roots(Edition::One, &words, &[Value::at(3)])?.plan()?;
//! let mut crew = plan.flip(2, 2)?; // two mutators, a fresh page for each
//!
//! let (mut one, mut other) = (crew.take()?, crew.take()?);
//! std::thread::scope(|threads| {
//!     let sweep = |own: &mut Mutator| {
//!         (0..own.facts().compacted_pages).try_for_each(|it| while_busy(|| own.touch(it)).map(|_| ()))
//!     };
//!     let swept = threads.spawn(move || sweep(&mut other).map(|()| other));
//!     let root = one.root(0)?.address().expect("an object");
//!     let made = while_busy(|| one.alloc(node))?;
//!     while_busy(|| one.write_ref(root, 0, made))?;
//!     assert_eq!(while_busy(|| one.read_data(root, 0))?, 5);
//!     crew.give(one)?;
//!     crew.give(swept.join().expect("the sweep")?)?;
//!     Ok::<(), Refusal>(())
//! })?;
//!
//! let mut end = crew.finish()?;
//! assert_eq!(end.facts().live_words, 6); // the root, and what was made
//! let roots = end.roots()?;
//! let mut next = end.next_by_roots(&roots)?; // and so on, by plan and flip
//! assert_eq!(next.facts().marked, 2);
//! # Ok(())
//! # }
//! ```
//!
//! # Handles
//!
//! [`Heap`], [`Plan`], [`Crew`], [`Mutator`], [`End`], [`rest::Survey`], [`rest::Tables`],
//! [`rest::OldTables`], [`rest::Job`], [`rest::Marking`], [`rest::Looks`], [`rest::Lane`] and [`rest::Pages`] own what the library keeps, and their drop
//! frees it. They go from thread to thread, and are not shared or cloned: where threads use one thing at the same time,
//! each has a share of its own. A method takes `&mut self`, a read too, since a handle is used by one call at a time.
//! What a call uses up it takes by value; if it is refused, that comes back ([`Refused`]).
//!
//! Refusals are numbered by name ([`Refusal`]). `OutOfMemory` may come in place of what is named behind it.
//!
//! # The order of arguments
//!
//! It is that of compressor.h and compressor_rest.h: what is lent, as tables or a buffer, the object, the number of a
//! word, the value; of arrays the words, the roots, the marks or bits, and what is filled. Some calls were released with
//! another one, which they keep: [`collect_into`](rest::Space::collect_into) and
//! [`collect_into_lent`](rest::Space::collect_into_lent) have the space that is filled before the roots;
//! [`Heap::by_marks`] and [`End::next_by_marks`] have the marks before the roots, as in C.
//!
//! # What types do not keep
//!
//! None of this breaks the safety of memory but by the stack or by another allocator:
//!
//! - All roots are handed in, and values of before a collection or a flip are not used behind it.
//! - A call has 16 KiB of the thread's stack.
//! - No call is made from a signal handler, or in the forked child of a process with threads.
//! - `malloc`, `realloc` and `free` are of one allocator, which any thread may call.
//!
//! # To build
//!
//! The library is installed before (`tools/install PREFIX`). The build finds it below `COMPRESSOR_DIR`, if that is
//! set to such a PREFIX, or else by pkg-config, and links the static archive, if it is there; with the feature
//! `shared` the shared library. The build of a crate that depends on this one finds the folders of the headers and of
//! the library in `DEP_COMPRESSOR_INCLUDE` and `DEP_COMPRESSOR_LIBDIR`. It runs on Linux for x86-64.

#![no_std]

#[cfg(not(all(target_os = "linux", target_arch = "x86_64", target_pointer_width = "64")))]
compile_error!("compressor: this library is for x86-64 Linux, 64 bits");

extern crate alloc;

pub mod flipped;
mod handle;
mod refusal;
pub mod rest;
mod shape;
mod sys;
mod value;

pub use flipped::{Crew, End, Heap, Mutator, Plan};
pub use refusal::{while_busy, Refusal, Refused};
pub use shape::{
    Edition, Shape, FROM_SPACE, IMMEDIATE, MAX_ENTRIES, MAX_MUTATORS, MAX_NEW_WORDS, PAGE_WORDS,
    TO_SPACE,
};
pub use value::{Address, Value};

/// The version of the library that is linked: major * 1,000,000 + minor * 1,000 + patch.
pub fn version() -> u32 {
    sys::compressor_version()
}

/// What the library that is linked is, in lines: the first is `compressor` and its version; the others say of what it
/// was made and what proved it, as far as that was told when it was packed, or that it is not known.
pub fn version_text() -> &'static str {
    // SAFETY: the library answers a static text, which ends with 0.
    let text = unsafe { core::ffi::CStr::from_ptr(sys::compressor_version_text()) };
    text.to_str().unwrap_or("")
}
