use super::Survey;
use crate::handle::handle;
use crate::refusal::{or_back, sure, told};
use crate::{sys, Refusal, Refused};

handle! {
    /// The slide of a surveyed heap, page by page, each built by whoever accesses it first. Page `k` has the live words
    /// from number `k * page_words` on; the last one may be shorter.
    Pages, compressor_pages_drop
}

impl Pages {
    /// Begins to slide, in pages of so many words, and says how many there are. The survey goes.
    ///
    /// # Errors
    /// `NoSize`, if a page has no words; `OutOfMemory`: 8 bytes a page, and as many more for a while. The survey comes
    /// back.
    pub fn begin(mut survey: Survey, page_words: u64) -> Result<(Pages, u64), Refused<Survey>> {
        let made =
            Pages::made(|pages| sys::compressor_pages_begin(&mut survey.0, page_words, pages));
        or_back(made, survey)
    }

    /// Another handle of the same pages, for another thread. It has no turn.
    ///
    /// # Errors
    /// `OutOfMemory`.
    pub fn share(&mut self) -> Result<Pages, Refusal> {
        Ok(Pages::made(|other| sys::compressor_pages_share(&mut self.0, other))?.0)
    }

    /// Takes the turn for a page, which this handle has alone until it is published. It tries once, and takes no
    /// memory.
    ///
    /// # Errors
    /// `TurnTaken`, if a [`Page`] of this handle was dropped: it has that turn for ever; `NoSuchPage`; `PageHome`;
    /// `PageBusy`: call again.
    pub fn claim(&mut self, page: u64) -> Result<Page<'_>, Refusal> {
        told(sys::compressor_pages_claim(&mut self.0, page))?;
        Ok(Page(self))
    }

    /// Ends the slide, once all pages are home: the survey comes back. Takes no memory.
    ///
    /// # Errors
    /// `NotHome`, and `StillShared`. The pages come back.
    pub fn end(mut self) -> Result<Survey, Refused<Pages>> {
        let made = Survey::made(|survey| sys::compressor_pages_end(&mut self.0, survey));
        or_back(made.map(|(survey, _)| survey), self)
    }
}

/// The turn for a page. If it is dropped, the page never comes home.
#[derive(Debug)]
#[must_use = "the page never comes home if its turn is dropped"]
pub struct Page<'a>(&'a mut Pages);

impl<'a> Page<'a> {
    /// Fills `page`, which is the memory of the page, out of the words of from-space.
    ///
    /// # Errors
    /// `OtherLength`, if the memory has not as many words as the page; `OtherCount`, `Changed`, `Unmarked`: the words
    /// are not those of the survey. Then the turn is gone, and the page waits again.
    pub fn build(self, words: &[u64], page: &mut [u64]) -> Result<BuiltPage<'a>, Refusal> {
        // SAFETY: the arrays are slices.
        told(unsafe {
            sys::compressor_pages_build(
                &mut self.0 .0,
                words.as_ptr(),
                words.len(),
                page.as_mut_ptr(),
                page.len(),
            )
        })?;
        Ok(BuiltPage(self.0))
    }
}

/// A page that was built. If it is dropped, the page never comes home.
#[derive(Debug)]
#[must_use = "the page never comes home if it is not published"]
pub struct BuiltPage<'a>(&'a mut Pages);

impl BuiltPage<'_> {
    /// Says that the page is home: from now on each handle answers [`Refusal::PageHome`].
    pub fn publish(self) {
        sure(sys::compressor_pages_publish(&mut self.0 .0));
    }
}
