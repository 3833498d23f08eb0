//! A stack for `finder_run` alone, filled at random, which shows afterwards how much of it was in use.

use super::guarded::{Guarded, Side};
use crate::finder::{finder_run, Answer};
use crate::random::Random;
use std::arch::asm;

const SEED: u64 = 0x5374_6163;
/// Far more than is used. A run that needs more still comes to the guard page.
const LENGTH: usize = 65_536;
const HEADER: &str = include_str!("../../../include/finder.h");

pub struct Stack(Guarded);

impl Stack {
    pub fn new() -> Self {
        let mut memory = Guarded::new(LENGTH);
        memory.fill(LENGTH, Side::First, &mut Random::new(SEED));
        Stack(memory)
    }

    pub fn run(&mut self, job: &mut Guarded, reply: &mut Guarded) -> Answer {
        let (job, job_length) = job.lent();
        let (reply, reply_length) = reply.lent();
        let (mut place, mut written) = (u64::MAX, u64::MAX);
        let top = self.0.buffer().as_mut_ptr_range().end;
        let number: u8;
        // SAFETY: it reaches no memory but the buffers', the two numbers' and its stack, which is aligned, is nobody else's and ends at a guard page.
        // A function of C keeps r12, from which the stack pointer is put back.
        unsafe {
            asm!(
                "mov r12, rsp",
                "mov rsp, r13",
                "call {run}",
                "mov rsp, r12",
                run = sym finder_run,
                in("rdi") job,
                in("rsi") job_length,
                in("rdx") reply,
                in("rcx") reply_length,
                in("r8") &mut place,
                in("r9") &mut written,
                in("r13") top,
                out("r12") _,
                lateout("al") number,
                clobber_abi("C"),
            );
        }
        Answer {
            number,
            place,
            written,
        }
    }

    /// The bytes from the top down to the last that any run has changed.
    pub fn used(&self) -> usize {
        LENGTH - self.0.kept_at_start()
    }
}

/// The bytes that include/finder.h asks of a host.
pub fn promised() -> usize {
    let mut lines = HEADER.lines();
    let bytes = lines.find_map(|line| line.strip_prefix("#define FINDER_STACK_BYTES "));
    let bytes = bytes.and_then(|bytes| bytes.trim().parse().ok());
    bytes.expect("include/finder.h has FINDER_STACK_BYTES")
}
