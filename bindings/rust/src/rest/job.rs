use super::Survey;
use crate::handle::handle;
use crate::refusal::sure;
use crate::{sys, Edition, Refusal, Refused, Value};

handle! {
    /// The marking of a heap at rest by many threads.
    Job, compressor_job_drop
}

/// What a call of [`Job::help`] did.
#[derive(Clone, Copy, Debug, PartialEq, Eq, Hash)]
pub enum Help {
    /// Nothing is left to help with: the job may be finished.
    Done,
    /// It looked at some objects: call again.
    Worked,
    /// Other threads have the objects that wait: call again later.
    Idle,
}

impl Job {
    /// A job that marks what these roots reach, in a copy of these words and roots.
    ///
    /// # Errors
    /// `TooLarge`; `OutOfMemory`.
    pub fn begin(edition: Edition, words: &[u64], roots: &[Value]) -> Result<Job, Refusal> {
        // SAFETY: the arrays are slices.
        let made = Job::made(|job| unsafe {
            sys::compressor_job_begin(
                edition as u32,
                words.as_ptr(),
                words.len(),
                roots.as_ptr().cast(),
                roots.len(),
                job,
            )
        });
        Ok(made?.0)
    }

    /// Another handle of the same job, for another thread.
    ///
    /// # Errors
    /// `OutOfMemory`.
    pub fn share(&mut self) -> Result<Job, Refusal> {
        Ok(Job::made(|other| sys::compressor_job_share(&mut self.0, other))?.0)
    }

    /// Looks at some objects; it never waits. `who` is any number: threads with different ones seldom get in each
    /// other's way. Each thread calls it until it is done, and may stop at any time all the same.
    pub fn help(&mut self, who: u64) -> Help {
        match sure(sys::compressor_job_help(&mut self.0, who)) {
            0 => Help::Done,
            1 => Help::Worked,
            _ => Help::Idle,
        }
    }

    /// Finishes a job, whatever was done before. The survey is that of [`Survey::by_roots`].
    ///
    /// # Errors
    /// `StillShared`, if a share is left, and the job comes back; `OutOfMemory` or a fault of the heap, and it is
    /// gone.
    pub fn finish(mut self) -> Result<Survey, Refused<Option<Job>>> {
        match Survey::made(|survey| sys::compressor_job_finish(&mut self.0, survey)) {
            Ok((survey, _)) => Ok(survey),
            Err(refusal) => {
                let back = (refusal == Refusal::StillShared).then_some(self);
                Err(Refused { refusal, back })
            }
        }
    }
}
