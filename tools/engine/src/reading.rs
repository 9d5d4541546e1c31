//! Read.

/// `struct oolong_read_reply`.
#[repr(C)]
#[derive(Clone, Copy, Debug, PartialEq, Eq)]
pub struct ReadReply {
    pub number: u16,
    pub length: u16,
    pub place: u32,
}

extern "C" {
    #[link_name = "oolong_read_4"]
    fn oolong_read(text: *const u8, text_len: usize, file: *mut u8, file_len: usize) -> ReadReply;
}

pub fn read(text: &[u8], file: &mut [u8]) -> ReadReply {
    unsafe { oolong_read(text.as_ptr(), text.len(), file.as_mut_ptr(), file.len()) }
}
