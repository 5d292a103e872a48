use alloc::string::String;

use super::{Crew, PlanFacts};
use crate::handle::handle;
use crate::refusal::{filled, sure, told};
use crate::{sys, Refusal, Value, PAGE_WORDS};

handle! {
    /// Where each object of a heap slides.
    Plan, compressor_plan_drop
}

/// What an audit looks at.
#[derive(Clone, Copy, Debug, Default, PartialEq, Eq)]
pub struct Audit {
    /// Each compacted page has to be built.
    pub whole: bool,
    /// The bytes are a file of words, and no dump.
    pub words: bool,
}

impl Audit {
    fn options(self) -> u32 {
        u32::from(self.whole) | u32::from(self.words) << 1
    }
}

impl Plan {
    /// Its counts.
    pub fn facts(&mut self) -> PlanFacts {
        let mut facts = PlanFacts::default();
        sure(sys::compressor_plan_facts_of(&mut self.0, &mut facts));
        facts
    }

    /// Another handle of the same plan, for another thread.
    ///
    /// # Errors
    /// `OutOfMemory`.
    pub fn share(&mut self) -> Result<Plan, Refusal> {
        Ok(Plan::made(|other| sys::compressor_plan_share(&mut self.0, other))?.0)
    }

    /// Makes each of these values of from-space what the flip makes it. A reference to a marked object becomes its
    /// address of to-space, and another reference null; null and immediates stay. For side tables, each once.
    pub fn forward(&mut self, values: &mut [Value]) {
        // SAFETY: the array is a slice.
        sure(unsafe {
            sys::compressor_plan_forward(&mut self.0, values.as_mut_ptr().cast(), values.len())
        });
    }

    /// The slid words of a compacted page, as nobody has written to them; zeros behind the last one.
    ///
    /// # Errors
    /// `NoSuchPage`; `OutOfMemory`.
    pub fn page(&mut self, page: u64) -> Result<[u64; PAGE_WORDS], Refusal> {
        let mut words = [0; PAGE_WORDS];
        told(sys::compressor_plan_page(&mut self.0, page, &mut words))?;
        Ok(words)
    }

    /// Flips the heap for a new crew of so many mutators, with numbers from 0 on. The plan stays, and may be dropped.
    ///
    /// From now on objects are at addresses of to-space. Of `n` mutators number `k` alone makes objects on the fresh
    /// pages `k`, `k + n`, `k + 2n`.., so one that only sweeps has its share too: ask for more.
    ///
    /// # Errors
    /// `BadMutators`; `TooManyPages`; `OutOfMemory`.
    pub fn flip(&mut self, mutators: u32, fresh_pages: u32) -> Result<Crew, Refusal> {
        let flip =
            |crew: &mut _| sys::compressor_plan_flip(&mut self.0, mutators, fresh_pages, crew);
        Ok(Crew::made(flip)?.0)
    }

    /// Judges a dump (docs/FORMATS.md) for the heap of the plan, and answers its live words. The dump of each
    /// finished cycle is lawful for its own plan.
    ///
    /// # Errors
    /// `OutOfMemory`; `FileTruncated` to `FileBadField`; `WrongWord` to `PageMissing`, the first fault.
    pub fn audit(&mut self, bytes: &[u8], audit: Audit) -> Result<u64, Refusal> {
        let options = audit.options();
        // SAFETY: the array is a slice.
        told(unsafe {
            sys::compressor_plan_audit(&mut self.0, bytes.as_ptr(), bytes.len(), options)
        })
    }

    /// What is wrong with a dump where, in a few lines, with no line feed behind the last one; `None` if there is no
    /// fault.
    ///
    /// # Errors
    /// `OutOfMemory`; `FileTruncated` to `FileBadField`.
    pub fn explain(&mut self, bytes: &[u8], audit: Audit) -> Result<Option<String>, Refusal> {
        let (options, plan) = (audit.options(), &mut self.0);
        // SAFETY: the arrays are slices.
        let text = filled(|out: &mut [u8]| unsafe {
            sys::compressor_plan_explain(
                plan,
                bytes.as_ptr(),
                bytes.len(),
                options,
                out.as_mut_ptr(),
                out.len(),
            )
        })?;
        Ok((!text.is_empty()).then(|| String::from_utf8_lossy(&text).into_owned()))
    }
}
