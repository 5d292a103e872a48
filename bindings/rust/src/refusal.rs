//! Why a call was refused.

use alloc::vec::Vec;
use core::fmt;

use crate::sys::Answer;

/// The refusals: the number and the name that compressor.h has, the variant with its numbers, in the answer's order.
macro_rules! refusals {
    ($(
        $(#[$doc:meta])*
        $status:literal $name:ident $variant:ident $({ $($number:ident),+ })?;
    )*) => {
        /// Why a call was refused, with the numbers that say where. [`Refusal::name`] is the name in compressor.h.
        ///
        /// What stands at a call says which refusals it has, in the order in which they are looked for. A later
        /// version of the library may have more of them.
        #[derive(Clone, Copy, Debug, PartialEq, Eq, Hash)]
        #[non_exhaustive]
        pub enum Refusal {
            $($(#[$doc])* #[allow(missing_docs)] $variant $({ $($number: u64),+ })?,)*
            /// A status that this version does not know.
            #[allow(missing_docs)]
            Unknown { status: u32, value: u64, other: u32 },
        }

        impl Refusal {
            /// The refusal that an answer says; its status is not 0.
            pub(crate) fn of(answer: Answer) -> Refusal {
                let mut _numbers = [answer.value, u64::from(answer.other)].into_iter();
                match answer.status {
                    $($status => Refusal::$variant $({
                        $($number: _numbers.next().unwrap_or(0)),+
                    })?,)*
                    status => Refusal::Unknown { status, value: answer.value, other: answer.other },
                }
            }

            /// The number that compressor.h gives this refusal.
            pub const fn status(self) -> u32 {
                match self {
                    $(Refusal::$variant { .. } => $status,)*
                    Refusal::Unknown { status, .. } => status,
                }
            }

            /// Its name in compressor.h, without the prefix, as `JOURNAL_FULL`.
            pub const fn name(self) -> &'static str {
                match self {
                    $(Refusal::$variant { .. } => stringify!($name),)*
                    Refusal::Unknown { .. } => "UNKNOWN",
                }
            }
        }

        impl fmt::Display for Refusal {
            /// The name, and each number with what it counts: `BAD_ENTRY, page 3, entry 0`.
            fn fmt(&self, to: &mut fmt::Formatter<'_>) -> fmt::Result {
                to.write_str(self.name())?;
                match *self {
                    $(Refusal::$variant $({ $($number),+ })? => {
                        $($(write!(to, concat!(", ", stringify!($number), " {}"), $number)?;)+)?
                    })*
                    Refusal::Unknown { status, value, other } => {
                        write!(to, ", status {status}, value {value}, other {other}")?;
                    }
                }
                Ok(())
            }
        }
    };
}

refusals! {
    /// Another mutator builds or holds the page, or was faster: call again ([`while_busy`](crate::while_busy)).
    1 BUSY Busy { page };
    /// The object is null. No call here is made with such a one.
    2 NULL_OBJECT NullObject;
    /// The mutator knows of no object at this address.
    3 NOT_A_START NotAStart { address };
    /// The object has no field of this kind with this number.
    4 NO_SUCH_FIELD NoSuchField { field };
    /// The object to be made has more than [`MAX_NEW_WORDS`](crate::MAX_NEW_WORDS).
    6 OBJECT_TOO_LARGE ObjectTooLarge { words };
    /// No fresh page of the mutator's has room: end the cycle.
    7 OUT_OF_PAGES OutOfPages;
    /// The page has as many entries as it may have in a cycle: end the cycle.
    8 JOURNAL_FULL JournalFull { page };
    /// There is no memory. The call may be made again.
    9 OUT_OF_MEMORY OutOfMemory;
    /// A handle is empty. None is here.
    10 EMPTY_HANDLE EmptyHandle { which };
    /// A handle to be filled keeps something. None does here.
    11 NOT_EMPTY NotEmpty { which };
    /// There is no page with this number.
    12 NO_SUCH_PAGE NoSuchPage { page };
    /// There is no root with this number.
    13 NO_SUCH_ROOT NoSuchRoot { number };
    /// Not 1 to [`MAX_MUTATORS`](crate::MAX_MUTATORS).
    14 BAD_MUTATORS BadMutators { count };
    /// The cycle could not be followed by another one; the number is the most fresh pages with which it can.
    15 TOO_MANY_PAGES TooManyPages { most };
    /// The least number of a mutator that was not handed back.
    16 MUTATOR_MISSING MutatorMissing { number };
    /// A mutator of another crew.
    17 OTHER_CREW OtherCrew;
    /// All mutators of the crew were taken.
    18 NO_MUTATOR_LEFT NoMutatorLeft;
    /// Not an edition. No call here is made with such a one.
    19 BAD_EDITION BadEdition { edition };
    /// Nobody built the page: it has the words of the plan ([`Plan::page`](crate::Plan::page)), or zeros if fresh.
    20 NOT_BUILT NotBuilt { page };
    /// The page has no entry with this number.
    21 NO_SUCH_ENTRY NoSuchEntry { number };
    /// An array is too short: the length that it needs. `which` is 1 if that is the roots of
    /// [`End::rest`](crate::End::rest), and else 0.
    22 TOO_SHORT TooShort { length, which };
    /// The mutator has no build with this number.
    23 NO_SUCH_BUILD NoSuchBuild { number };
    /// The cycle had no mutator with this number.
    24 NO_SUCH_MUTATOR NoSuchMutator { number };
    /// The part ends behind the live words.
    25 NO_SUCH_PART NoSuchPart;
    /// The object at this index has not as many words as when it was surveyed.
    26 CHANGED Changed { index };
    /// The reference in the word with this index leads to no live object.
    27 UNMARKED Unmarked { index };
    /// Another handle keeps a share.
    28 STILL_SHARED StillShared;
    /// Not as many words as were surveyed.
    29 OTHER_COUNT OtherCount;
    /// The tables have room for so many words, and there are more.
    30 SHORT_TABLES ShortTables { words };
    /// Not one block of marks for each 64 words, the last ones in part; or not as many words as a marking is of.
    31 WRONG_LENGTH WrongLength;
    /// An option without a meaning. No call here is made with such a one.
    32 BAD_OPTIONS BadOptions { options };
    /// More words, marks or roots than the edition allows.
    33 TOO_LARGE TooLarge;
    /// The object at this index ends behind the words.
    34 OBJECT_PAST_END ObjectPastEnd { index };
    /// The object at this index has more words than the edition allows.
    35 OBJECT_TOO_LONG ObjectTooLong { index };
    /// No object starts at this mark.
    36 MARK_NOT_START MarkNotStart { index };
    /// The mark that is not above the one before it.
    37 MARKS_NOT_RISING MarksNotRising { mark };
    /// The root with this number leads to no object.
    38 BAD_ROOT BadRoot { number };
    /// The reference in the word with this index leads to no marked object.
    39 UNMARKED_TARGET UnmarkedTarget { index };
    /// The bytes end within the image.
    40 IMAGE_TRUNCATED ImageTruncated;
    /// Bytes follow the image.
    41 IMAGE_TRAILING ImageTrailing;
    /// The bytes do not begin as an image does.
    42 IMAGE_BAD_MAGIC ImageBadMagic;
    /// The weak word with this index leads nowhere.
    45 BAD_WEAK BadWeak { index };
    /// The word at this address is another one than it has to be.
    65 WRONG_WORD WrongWord { address };
    /// The reference at this address leads to no object.
    66 LOOSE_REFERENCE LooseReference { address };
    /// An entry of a page that nobody could have written.
    67 BAD_ENTRY BadEntry { page, entry };
    /// Two entries have this stamp.
    68 STAMP_REPEATED StampRepeated { stamp };
    /// No entry has this stamp.
    69 STAMP_MISSING StampMissing { stamp };
    /// The total is not the count of the live words.
    70 WRONG_TOTAL WrongTotal;
    /// The page is built, and not just once in the lists of builds; or it is not built, and in one.
    71 BUILD_UNCLAIMED BuildUnclaimed { page };
    /// The edition, the pages or the roots are not those of this heap.
    72 WRONG_HEAD WrongHead;
    /// A compacted page is not built, and all of them had to be.
    73 PAGE_MISSING PageMissing { page };
    /// The bytes end within the file.
    97 FILE_TRUNCATED FileTruncated;
    /// Bytes follow the file.
    98 FILE_TRAILING FileTrailing;
    /// The bytes do not begin as such a file does.
    99 FILE_BAD_MAGIC FileBadMagic;
    /// A field of the file has a value that it cannot have.
    100 FILE_BAD_FIELD FileBadField;
    /// The word with this index, a reference of a live object, leads to none of the words.
    131 BAD_REFERENCE BadReference { index };
    /// The object at this index has a word with another live object; of lanes: both have the word at this index.
    135 OVERLAP Overlap { index };
    /// The head of a moved heap: 0 its edition, 1 its count of places, 2 that of its roots.
    161 MOVED_WRONG_HEAD MovedWrongHead { part };
    /// This marked object, counted from 0, has a place outside the words.
    162 MOVED_PLACE_OUTSIDE MovedPlaceOutside { object };
    /// These two marked objects overlap.
    163 MOVED_OVERLAP MovedOverlap { object, other };
    /// The root with this number leads elsewhere.
    164 MOVED_WRONG_ROOT MovedWrongRoot { number };
    /// This word of this marked object is another one than it has to be.
    165 MOVED_WRONG_WORD MovedWrongWord { object, word };
    /// The word at this index is the first one of an object, and not live; or it is live, and neither the first word of
    /// an object nor behind a live one.
    192 NOT_A_RUN NotARun { index };
    /// A page of a slide has no words.
    193 NO_SIZE NoSize;
    /// The page was published.
    194 PAGE_HOME PageHome { page };
    /// Another handle has the turn for the page, or had it a moment ago: call again.
    195 PAGE_BUSY PageBusy { page };
    /// This handle has the turn for this page already.
    196 TURN_TAKEN TurnTaken { page };
    /// The page is not published yet.
    197 NOT_HOME NotHome { page };
    /// The handle has no turn. No call here is made by such a one.
    198 NO_TURN NoTurn;
    /// The page has so many words, and the memory has another number.
    199 OTHER_LENGTH OtherLength { words };
    /// Too many other threads marked a moment ago: call again.
    200 MARKERS_BUSY MarkersBusy;
    /// Objects of a marking wait to be looked at.
    201 STILL_MARKING StillMarking;
    /// The object at this index, which a marking met, is too long, ends past the words, or overlaps another one.
    202 BAD_OBJECT BadObject { index };
    /// There are more rows than objects wait; the index is 0. [`Looks::again`](crate::rest::Looks::again) takes it as
    /// done.
    210 NO_SUCH_OBJECT NoSuchObject { index };
    /// The object at this index waits to be looked at.
    211 STILL_WAITING StillWaiting { index };
    /// A lane met the object at this index, and it is in none of those that were joined.
    212 MISSING_OBJECT MissingObject { index };
    /// The lanes are of two editions, or not of as many words.
    213 OTHER_HEAP OtherHeap;
    /// There are fewer words than these, the watermark, or those that are to be old.
    221 FEW_WORDS FewWords { words };
    /// There are fewer cards than these, one for each 64 words below the watermark.
    222 FEW_CARDS FewCards { cards };
    /// No reference or weak word of an old object has this index, which was handed in.
    223 NOT_A_FIELD NotAField { index };
    /// Before the word with this index old objects lie in a row, as the last collection left them, or objects that are
    /// to be old; there it does not go on.
    224 NOT_A_ROW NotARow { index };
    /// The word with this index is a reference or weak word of an old object, its card is clean, and it leads to no
    /// old object.
    225 LEADS_ABOVE LeadsAbove { index };
    /// The pin with this number leads to no word of the heap.
    226 BAD_PIN BadPin { number };
    /// The end is below this, the watermark, which is only raised.
    227 BELOW_WATERMARK BelowWatermark { watermark };
    /// A handle of another kind. None is here.
    255 WRONG_HANDLE WrongHandle;
}

impl core::error::Error for Refusal {}

/// A refusal, and what was handed in, unchanged. By `?` it becomes the refusal alone, and what was handed in is
/// dropped.
pub struct Refused<T> {
    /// Why the call was refused.
    pub refusal: Refusal,
    /// What was handed in.
    pub back: T,
}

impl<T> From<Refused<T>> for Refusal {
    fn from(refused: Refused<T>) -> Refusal {
        refused.refusal
    }
}

impl<T> fmt::Debug for Refused<T> {
    fn fmt(&self, to: &mut fmt::Formatter<'_>) -> fmt::Result {
        to.debug_struct("Refused").field("refusal", &self.refusal).finish_non_exhaustive()
    }
}

impl<T> fmt::Display for Refused<T> {
    fn fmt(&self, to: &mut fmt::Formatter<'_>) -> fmt::Result {
        fmt::Display::fmt(&self.refusal, to)
    }
}

impl<T> core::error::Error for Refused<T> {}

/// The value of an answer, or its refusal.
pub(crate) fn told(answer: Answer) -> Result<u64, Refusal> {
    match answer.status {
        0 => Ok(answer.value),
        _ => Err(Refusal::of(answer)),
    }
}

/// The value of an answer that compressor.h never refuses with a handle that is not empty.
pub(crate) fn sure(answer: Answer) -> u64 {
    match told(answer) {
        Ok(value) => value,
        Err(refusal) => panic!("compressor: the library refuses what it cannot refuse: {refusal}"),
    }
}

/// What was handed in goes if the call is done, and comes back with its refusal.
pub(crate) fn or_back<T, U>(result: Result<T, Refusal>, back: U) -> Result<T, Refused<U>> {
    result.map_err(|refusal| Refused { refusal, back })
}

/// Fills a list by a call that says by `TooShort` how long it has to be.
pub(crate) fn filled<T: Clone + Default>(
    mut call: impl FnMut(&mut [T]) -> Answer,
) -> Result<Vec<T>, Refusal> {
    let mut out = Vec::new();
    loop {
        match told(call(&mut out)) {
            Err(Refusal::TooShort { length, .. }) if length > out.len() as u64 => {
                let more = length as usize - out.len();
                out.try_reserve_exact(more).map_err(|_| Refusal::OutOfMemory)?;
                out.resize(length as usize, T::default());
            }
            told => {
                out.truncate(told? as usize);
                return Ok(out);
            }
        }
    }
}

/// Makes a call until it is not [`Refusal::Busy`].
///
/// A page is busy for some instructions of another thread, or while that thread is stopped there. In a full machine a
/// runtime may rather yield between two calls.
pub fn while_busy<T>(mut call: impl FnMut() -> Result<T, Refusal>) -> Result<T, Refusal> {
    loop {
        match call() {
            Err(Refusal::Busy { .. }) => core::hint::spin_loop(),
            other => return other,
        }
    }
}
