//! The proved archives, called as C calls them: each byte range is a pointer and a length. No entry
//! point requires anything of its arguments, so every wrapper here is safe for every slice.

/// What `include/bhinorpa.h` calls `struct bhinorpa_hashed`.
#[repr(C)]
#[derive(Clone, Copy, Debug, PartialEq, Eq)]
pub struct Hashed {
    pub answer: u32,
    pub bytes: [u8; 32],
}

/// What `include/bhinorpa.h` calls `struct bhinorpa_written`.
#[repr(C)]
#[derive(Clone, Copy, Debug, PartialEq, Eq)]
pub struct Written {
    pub answer: u32,
    pub length: u32,
}

extern "C" {
    fn bhinorpa_verify(
        table: *const u8,
        table_len: usize,
        request: *const u8,
        request_len: usize,
        token: *const u8,
        token_len: usize,
    ) -> u32;
    fn bhinorpa_issue(
        table: *const u8,
        table_len: usize,
        tid: *const u8,
        tid_len: usize,
        kid: *const u8,
        kid_len: usize,
        scope: *const u8,
        scope_len: usize,
        room: *mut u8,
        room_len: usize,
    ) -> Written;
    fn bhinorpa_narrow(
        table: *const u8,
        table_len: usize,
        token: *const u8,
        token_len: usize,
        caveat: *const u8,
        caveat_len: usize,
        room: *mut u8,
        room_len: usize,
    ) -> Written;
    fn bhinorpa_keyed_hash(key: *const u8, key_len: usize, message: *const u8, message_len: usize) -> Hashed;
}

/// Document 01's number for a token's text, 0 to 21, against a key table and a request.
pub fn verify(table: &[u8], request: &[u8], token: &[u8]) -> u32 {
    // SAFETY: all ranges are those of live slices, which the callee only reads.
    unsafe {
        bhinorpa_verify(
            table.as_ptr(),
            table.len(),
            request.as_ptr(),
            request.len(),
            token.as_ptr(),
            token.len(),
        )
    }
}

/// A fresh token's text at the front of the room, or document 01's number and the room as it was.
pub fn issue(table: &[u8], tid: &[u8], kid: &[u8], scope: &[u8], room: &mut [u8]) -> Written {
    // SAFETY: all ranges are those of live slices, of which the callee writes only the room.
    unsafe {
        bhinorpa_issue(
            table.as_ptr(),
            table.len(),
            tid.as_ptr(),
            tid.len(),
            kid.as_ptr(),
            kid.len(),
            scope.as_ptr(),
            scope.len(),
            room.as_mut_ptr(),
            room.len(),
        )
    }
}

/// A child's text at the front of the room, or document 01's number and the room as it was.
pub fn narrow(table: &[u8], token: &[u8], caveat: &[u8], room: &mut [u8]) -> Written {
    // SAFETY: all ranges are those of live slices, of which the callee writes only the room.
    unsafe {
        bhinorpa_narrow(
            table.as_ptr(),
            table.len(),
            token.as_ptr(),
            token.len(),
            caveat.as_ptr(),
            caveat.len(),
            room.as_mut_ptr(),
            room.len(),
        )
    }
}

pub fn keyed_hash(key: &[u8], message: &[u8]) -> Hashed {
    // SAFETY: both ranges are those of live slices, which the callee only reads.
    unsafe { bhinorpa_keyed_hash(key.as_ptr(), key.len(), message.as_ptr(), message.len()) }
}
