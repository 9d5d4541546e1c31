//! Offer and Run.

use crate::Answer;

/// `struct oolong_run_reply`.
#[repr(C)]
#[derive(Clone, Copy, Debug, PartialEq, Eq)]
pub struct RunReply {
    pub number: u16,
    pub place: u16,
    pub stop: u16,
    pub read: u16,
    pub moves: u16,
}

extern "C" {
    #[link_name = "oolong_offer_4"]
    fn oolong_offer(
        script: *const u8,
        script_len: usize,
        block: *const u8,
        block_len: usize,
        flags: *mut u8,
        flags_len: usize,
    ) -> Answer;
    #[link_name = "oolong_run_4"]
    fn oolong_run(
        script: *const u8,
        script_len: usize,
        block: *mut u8,
        block_len: usize,
        choices: *const u8,
        choices_len: usize,
    ) -> RunReply;
}

pub fn offer(script: &[u8], block: &[u8], flags: &mut [u8]) -> Answer {
    unsafe { oolong_offer(script.as_ptr(), script.len(), block.as_ptr(), block.len(), flags.as_mut_ptr(), flags.len()) }
}

pub fn run(script: &[u8], block: &mut [u8], choices: &[u8]) -> RunReply {
    unsafe {
        oolong_run(script.as_ptr(), script.len(), block.as_mut_ptr(), block.len(), choices.as_ptr(), choices.len())
    }
}
