//! A safe wrapper of the proved call `rowfind_answer`. See include/rowfind.h for the numbers. Calls may be made from several
//! threads at once.

/// Bytes of stack with which a thread can make every call: ROWFIND_STACK of include/rowfind.h.
pub const STACK: usize = 160 * 1024;

/// No answer has more bytes: ROWFIND_LONGEST_ANSWER of include/rowfind.h.
pub const LONGEST_ANSWER: usize = 52_877;

extern "C" {
    fn rowfind_answer(
        request: *const u8,
        request_len: usize,
        space: *mut u8,
        space_len: usize,
        length: *mut usize,
    ) -> u32;
}

/// What a call returns: 0 and the length of the answer, or the number of a refusal and 0.
#[derive(Debug, Clone, Copy, PartialEq, Eq)]
pub struct Reply {
    pub number: u32,
    pub length: usize,
}

/// Answers a request text in the lent space. A slice's pointer is never null and its bytes are initialised, which is all
/// that the proved function asks of its caller.
pub fn answer(request: &[u8], space: &mut [u8]) -> Reply {
    let mut length = 0;
    let number = unsafe {
        rowfind_answer(
            request.as_ptr(),
            request.len(),
            space.as_mut_ptr(),
            space.len(),
            &mut length,
        )
    };
    Reply { number, length }
}
