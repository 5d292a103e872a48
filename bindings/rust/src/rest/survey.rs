use super::Tables;
use crate::handle::handle;
use crate::refusal::{or_back, sure, told};
use crate::{sys, Edition, Refusal, Refused, Value};

handle! {
    /// Which objects of a heap at rest are live, and where they slide. It has nothing of the words.
    Survey, compressor_survey_drop
}

impl Survey {
    /// Live is what the roots reach.
    ///
    /// # Errors
    /// `TooLarge`; `OutOfMemory`, or a fault that is there: `BadRoot`, `BadReference`, `BadWeak`, `ObjectTooLong`,
    /// `ObjectPastEnd`, `Overlap`.
    pub fn by_roots(edition: Edition, words: &[u64], roots: &[Value]) -> Result<Survey, Refusal> {
        // SAFETY: the arrays are slices.
        let made = Survey::made(|survey| unsafe {
            sys::compressor_survey_by_roots(
                edition as u32,
                words.as_ptr(),
                words.len(),
                roots.as_ptr().cast(),
                roots.len(),
                survey,
            )
        });
        Ok(made?.0)
    }

    /// The same by tables, which go: the survey has them.
    ///
    /// # Errors
    /// As there, and `ShortTables`. The tables come back.
    pub fn by_roots_lent(
        mut tables: Tables,
        edition: Edition,
        words: &[u64],
        roots: &[Value],
    ) -> Result<Survey, Refused<Tables>> {
        let lent = &mut tables.0;
        // SAFETY: the arrays are slices.
        let made = Survey::made(|survey| unsafe {
            sys::compressor_survey_by_roots_lent(
                lent,
                edition as u32,
                words.as_ptr(),
                words.len(),
                roots.as_ptr().cast(),
                roots.len(),
                survey,
            )
        });
        or_back(made.map(|(survey, _)| survey), tables)
    }

    /// Live are the objects at the bits that are set: bit `i % 64` of block `i / 64` for the object at index `i`, in
    /// `words.len().div_ceil(64)` blocks. Marks may come from anywhere.
    ///
    /// # Errors
    /// `WrongLength`; `TooLarge`; `OutOfMemory`, or a fault that is there: `BadRoot` or `UnmarkedTarget`, a root or a
    /// reference of a marked object that leads to no marked object, `ObjectTooLong`, `ObjectPastEnd`, also of a mark
    /// behind the words (its index, at which there is no word), `Overlap`, `BadWeak`.
    pub fn by_marks(
        edition: Edition,
        words: &[u64],
        roots: &[Value],
        marks: &[u64],
    ) -> Result<Survey, Refusal> {
        // SAFETY: the arrays are slices.
        let made = Survey::made(|survey| unsafe {
            sys::compressor_survey_by_marks(
                edition as u32,
                words.as_ptr(),
                words.len(),
                roots.as_ptr().cast(),
                roots.len(),
                marks.as_ptr(),
                marks.len(),
                survey,
            )
        });
        Ok(made?.0)
    }

    /// The same by bits of the caller's own, with no look at the words: `heads` has those of the first words of the
    /// marked objects, `live` those of all their words, each in `words.div_ceil(64)` blocks. A slide asks of each object
    /// what a survey asks. So slide all parts before a root is forwarded: if one is refused, `Changed` or `Unmarked`,
    /// survey by the roots. If none is, nothing that the roots reach is lost, whoever marked.
    ///
    /// # Errors
    /// `BadEdition` for editions one and two; `TooLarge`; `WrongLength`; `OutOfMemory`, or a fault that is there:
    /// `NotARun` or `ObjectPastEnd`, either also of a bit behind the words (its index, at which there is no word), or
    /// `BadRoot`, one that leads to no marked object.
    pub fn by_bits(
        edition: Edition,
        words: u64,
        roots: &[Value],
        heads: &[u64],
        live: &[u64],
    ) -> Result<Survey, Refusal> {
        // SAFETY: the arrays are slices.
        let made = Survey::made(|survey| unsafe {
            sys::compressor_survey_by_bits(
                edition as u32,
                words,
                roots.as_ptr().cast(),
                roots.len(),
                heads.as_ptr(),
                heads.len(),
                live.as_ptr(),
                live.len(),
                survey,
            )
        });
        Ok(made?.0)
    }

    /// What roots, ephemerons and guarded words hold. An ephemeron is a holder, a key and a value: the value is held as
    /// soon as the other two are. Of the guarded words those come first then that lead to objects which nothing else
    /// holds: the lost ones, whose number comes with the survey. They are held all the same, so that a guardian sees
    /// them once more. Both parts keep their order.
    ///
    /// # Errors
    /// As of `by_roots`. `BadRoot` has the number of a word among the roots, the ephemerons (their values alone) and the
    /// guarded words, counted one behind the other. The guarded words are then as they were.
    pub fn guarded(
        edition: Edition,
        words: &[u64],
        roots: &[Value],
        ephemerons: &[[Value; 3]],
        guarded: &mut [Value],
    ) -> Result<(Survey, usize), Refusal> {
        let mut lost = 0;
        // SAFETY: the arrays are slices, and `lost` is a word of this call.
        let made = Survey::made(|survey| unsafe {
            sys::compressor_survey_guarded(
                edition as u32,
                words.as_ptr(),
                words.len(),
                roots.as_ptr().cast(),
                roots.len(),
                ephemerons.as_ptr().cast(),
                3 * ephemerons.len(),
                guarded.as_mut_ptr().cast(),
                guarded.len(),
                survey,
                &raw mut lost,
            )
        });
        Ok((made?.0, lost as usize))
    }

    /// The words of the live objects: those that slide, from the first word of the new memory on.
    pub fn live_words(&mut self) -> u64 {
        let mut facts = sys::SurveyFacts::default();
        sure(sys::compressor_survey_facts_of(&mut self.0, &mut facts));
        facts.live_words
    }

    /// Another handle of the same survey, for another thread.
    ///
    /// # Errors
    /// `OutOfMemory`.
    pub fn share(&mut self) -> Result<Survey, Refusal> {
        Ok(Survey::made(|other| sys::compressor_survey_share(&mut self.0, other))?.0)
    }

    /// Fills the part with the live words from number `first` on, as they are after the collection. Parts may be
    /// filled at the same time, by shares, which shortened no pause where it was measured, and cost more: fill one.
    /// Together they are the collected heap if each of its words is in one of them.
    ///
    /// # Errors
    /// `NoSuchPart`, `OtherCount`, and the part is as it was; `Changed`, `Unmarked`, and it has any words. If the
    /// words are those of the survey, and the part ends within the live words, it is done.
    pub fn slide(&mut self, words: &[u64], first: u64, part: &mut [u64]) -> Result<(), Refusal> {
        // SAFETY: the arrays are slices.
        let slid = told(unsafe {
            sys::compressor_survey_slide(
                &mut self.0,
                words.as_ptr(),
                words.len(),
                first,
                part.as_mut_ptr(),
                part.len(),
            )
        });
        slid.map(|_| ())
    }

    /// Makes these roots lead to where their objects are after the collection, each once.
    ///
    /// # Errors
    /// `BadRoot`, the first one that leads to no live object; all are as they were.
    pub fn forward(&mut self, roots: &mut [Value]) -> Result<(), Refusal> {
        // SAFETY: the array is a slice.
        let forwarded = told(unsafe {
            sys::compressor_survey_forward(&mut self.0, roots.as_mut_ptr().cast(), roots.len())
        });
        forwarded.map(|_| ())
    }

    /// The same for weak words in tables of the runtime's: one that leads to no live object becomes null. Answers how
    /// many became so.
    pub fn forward_weak(&mut self, words: &mut [Value]) -> u64 {
        // SAFETY: the array is a slice.
        sure(unsafe {
            sys::compressor_survey_forward_weak(&mut self.0, words.as_mut_ptr().cast(), words.len())
        })
    }

    /// Ends the survey, and gives back the tables that it was made by; `None` if there were none.
    ///
    /// # Errors
    /// `StillShared`, and the survey comes back.
    pub fn into_tables(mut self) -> Result<Option<Tables>, Refused<Survey>> {
        let made = Tables::made(|tables| sys::compressor_survey_return(&mut self.0, tables));
        or_back(made.map(|(tables, room)| (room > 0).then_some(tables)), self)
    }
}
