//! The engine's calls, as include/oolong.h declares them, behind safe functions. They ask nothing of the bytes, so there is nothing to test first.

/// `struct oolong_check_reply`.
#[repr(C)]
#[derive(Clone, Copy, Debug, PartialEq, Eq)]
pub struct CheckReply {
    pub number: u16,
    pub place: u16,
    pub start_type: u16,
    pub silent: u16,
}

/// `struct oolong_silent_reply`.
#[repr(C)]
#[derive(Clone, Copy, Debug, PartialEq, Eq)]
pub struct SilentReply {
    pub number: u16,
    pub place: u16,
    pub count: u16,
}

/// `struct oolong_start_reply` and `struct oolong_offer_reply`.
#[repr(C)]
#[derive(Clone, Copy, Debug, PartialEq, Eq)]
pub struct Answer {
    pub number: u16,
    pub place: u16,
}

// The linker's names end in the header's major version.
extern "C" {
    #[link_name = "oolong_check_4"]
    fn oolong_check(script: *const u8, script_len: usize) -> CheckReply;
    #[link_name = "oolong_silent_4"]
    fn oolong_silent(script: *const u8, script_len: usize, node: u32) -> SilentReply;
    #[link_name = "oolong_start_4"]
    fn oolong_start(script: *const u8, script_len: usize, block: *mut u8, block_len: usize) -> Answer;
}

pub fn check(script: &[u8]) -> CheckReply {
    unsafe { oolong_check(script.as_ptr(), script.len()) }
}

pub fn silent(script: &[u8], node: u32) -> SilentReply {
    unsafe { oolong_silent(script.as_ptr(), script.len(), node) }
}

pub fn start(script: &[u8], block: &mut [u8]) -> Answer {
    unsafe { oolong_start(script.as_ptr(), script.len(), block.as_mut_ptr(), block.len()) }
}

mod reading;
mod running;

pub use reading::{read, ReadReply};
pub use running::{offer, run, RunReply};
