//! A heap at rest: it lies in memory of the runtime's, which reads, writes and allocates there with no call, and
//! stands still for a collection.
//!
//! A [`Space`] has the words. [`Space::collect`] and its kin are whole collections. In steps a [`Survey`] says which
//! objects are live, slides them, and forwards tables; a [`Job`] is its marking by several threads, a
//! [`Marking`] the same with no copy, and in steps; [`Growing`] takes roots by and by, and says what is kept so far;
//! [`Tables`] are room for one, made before it. By [`Pages`] threads go on while the heap slides, by [`Looks`] while it
//! is marked. By [`OldTables`] what was made since the last collection is collected alone, and the rest stays where it
//! is. By [`Pins`] some objects stay where they are, and all others slide.
//!
//! What the runtime keeps:
//!
//! 1. A live object has its header before the next collection. Room comes zeroed, and a zero is the header of an
//!    object of one word.
//! 2. A reference or weak word of a live object is a [`Value`](crate::Value) that leads to an object, or none; a root
//!    too.
//! 3. No value is kept over a collection, but in roots, in references and weak words of live objects, and in tables
//!    that are forwarded. So collect where all values can be named.
//!
//! Where it breaks the first two, words that are no heap are refused by name, and nothing has changed then. Where it
//! breaks the third nobody sees that: the value may lead to another object. A debug build finds it by [`Space::turn`].
//! Memory is safe in each case. A space lends its words, and is collected, only while nobody else has a reference to
//! it: so all threads stand still.

mod buffer;
mod cards;
mod collections;
mod growing;
mod job;
mod lane;
mod looks;
mod marking;
mod old_tables;
mod pages;
mod pins;
mod space;
mod survey;
mod tables;
mod turning;
mod young;

pub use buffer::{Buffer, CHUNK};
pub use cards::{Cards, CARD};
pub use growing::Growing;
pub use job::{Help, Job};
pub use lane::Lane;
pub use looks::Looks;
pub use marking::Marking;
pub use old_tables::OldTables;
pub use pages::{BuiltPage, Page, Pages};
pub use pins::{Pin, Pins};
pub use space::Space;
pub use survey::Survey;
pub use tables::Tables;
