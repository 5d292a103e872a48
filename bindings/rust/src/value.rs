//! What a root, a reference or a weak word holds.

use core::fmt;
use core::num::NonZeroU64;

use crate::shape::{FROM_SPACE, IMMEDIATE, TO_SPACE};

/// What a root, a reference or a weak word holds: null, where an object is, or, in edition four, an immediate.
///
/// An object is at its address of from-space in a heap at rest, and at one of to-space ([`Address`]) in a flipped
/// heap. An immediate is the runtime's, 63 bits: the library never changes it. Here it is a number of 60 bits of one
/// of 8 kinds; those of kind 0 are the fixnums, and characters, booleans and the like have others.
///
/// A value is only a word. One that leads nowhere is refused by name, or stops the program by a panic, where it is
/// used; one of before a collection may lead to another object.
#[derive(Clone, Copy, Default, PartialEq, Eq, PartialOrd, Ord, Hash)]
#[repr(transparent)]
pub struct Value(u64);

impl Value {
    /// No object.
    pub const NULL: Value = Value(0);

    /// The value that this word is; each word is one.
    pub const fn of_word(word: u64) -> Value {
        Value(word)
    }

    /// The word that this value is.
    pub const fn word(self) -> u64 {
        self.0
    }

    /// The object at this index of the words of a heap at rest.
    pub const fn at(index: u64) -> Value {
        Value(FROM_SPACE.wrapping_add(index))
    }

    /// Whether it is null.
    pub const fn is_null(self) -> bool {
        self.0 == 0
    }

    /// Whether it is neither null nor an immediate.
    pub const fn is_reference(self) -> bool {
        self.0 != 0 && self.0 < IMMEDIATE
    }

    /// Whether it is an immediate.
    pub const fn is_immediate(self) -> bool {
        self.0 >= IMMEDIATE
    }

    /// The object of a flipped heap to which it leads.
    pub const fn address(self) -> Option<Address> {
        match NonZeroU64::new(self.0) {
            Some(word) if self.0.wrapping_sub(TO_SPACE) < 1 << 31 => Some(Address(word)),
            _ => None,
        }
    }

    /// The immediate of this kind, 0 to 7, with this number, -2^59 to 2^59 - 1; `None` for others.
    pub const fn small(kind: u8, number: i64) -> Option<Value> {
        let fits = kind < 8 && number >= -(1 << 59) && number < 1 << 59;
        if fits {
            Some(Value(IMMEDIATE | (number as u64) << 3 | kind as u64))
        } else {
            None
        }
    }

    /// The kind and the number of an immediate.
    pub const fn as_small(self) -> Option<(u8, i64)> {
        if self.is_immediate() {
            Some(((self.0 & 7) as u8, (self.0 << 1) as i64 >> 4))
        } else {
            None
        }
    }

    /// The fixnum of this number: the immediate of kind 0.
    pub const fn fixnum(number: i64) -> Option<Value> {
        Value::small(0, number)
    }

    /// The number of a fixnum.
    pub const fn as_fixnum(self) -> Option<i64> {
        match self.as_small() {
            Some((0, number)) => Some(number),
            _ => None,
        }
    }

    /// The sum of two fixnums, as a heap of edition four has them. `None` if it does not fit, or if one of them is no
    /// fixnum.
    pub const fn fixnum_add(self, other: Value) -> Option<Value> {
        match (self.as_fixnum(), other.as_fixnum()) {
            (Some(a), Some(b)) => Value::fixnum(a + b), // numbers of 60 bits: no overflow
            _ => None,
        }
    }

    /// A value of a finished cycle as it is once that came to rest ([`End::rest`](crate::End::rest)).
    pub const fn rested(self) -> Value {
        if self.is_reference() {
            Value(self.0.wrapping_sub(TO_SPACE - FROM_SPACE))
        } else {
            self
        }
    }
}

impl fmt::Debug for Value {
    fn fmt(&self, to: &mut fmt::Formatter<'_>) -> fmt::Result {
        match self.as_small() {
            Some((kind, number)) => write!(to, "Value({kind}: {number})"),
            None => write!(to, "Value({:#x})", self.0),
        }
    }
}

/// Where an object of a flipped heap is, until the next flip.
#[derive(Clone, Copy, PartialEq, Eq, PartialOrd, Ord, Hash)]
#[repr(transparent)]
pub struct Address(NonZeroU64);

impl Address {
    /// The address as a word.
    pub const fn word(self) -> u64 {
        self.0.get()
    }

    /// The index of the object's header in the words of all pages.
    pub const fn index(self) -> u64 {
        self.0.get().wrapping_sub(TO_SPACE)
    }
}

impl fmt::Debug for Address {
    fn fmt(&self, to: &mut fmt::Formatter<'_>) -> fmt::Result {
        write!(to, "Address({:#x})", self.word())
    }
}

impl From<Address> for Value {
    fn from(address: Address) -> Value {
        Value(address.word())
    }
}

impl From<Option<Address>> for Value {
    fn from(address: Option<Address>) -> Value {
        address.map_or(Value::NULL, Value::from)
    }
}
