//! The job reader as Rattle exports it.

/// The number, the place and the bytes written.
#[derive(Clone, Copy, Debug, PartialEq)]
pub struct Answer {
    pub number: u8,
    pub place: u64,
    pub written: u64,
}

unsafe extern "C" {
    pub(crate) fn finder_run(
        job: *const u8,
        job_len: usize,
        reply: *mut u8,
        reply_len: usize,
        place: *mut u64,
        written: *mut u64,
    ) -> u8;
}

pub fn run(job: &[u8], reply: &mut [u8]) -> Answer {
    let (mut place, mut written) = (u64::MAX, u64::MAX);
    // SAFETY: it takes slices of any length and content, and reaches no memory but theirs, the two numbers' and its own.
    let number = unsafe {
        finder_run(
            job.as_ptr(),
            job.len(),
            reply.as_mut_ptr(),
            reply.len(),
            &mut place,
            &mut written,
        )
    };
    Answer {
        number,
        place,
        written,
    }
}
