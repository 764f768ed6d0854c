//! Functions of the library that are no entry points, as the crates `probe`, `probe_parts` and `probe_records`
//! export them for the tests. None requires anything of its arguments, so every wrapper here is safe.

use archive::Hashed;

/// What one of the probed readers answers; `kind` is 0 or document 01's number, and what the other
/// three mean stands with each reader.
#[repr(C)]
#[derive(Clone, Copy, Debug, PartialEq, Eq)]
pub struct Probed {
    pub kind: u32,
    pub first: u64,
    pub second: u64,
    pub third: u64,
}

/// What a probed reader of a scope, a caveat or a token answers. Kind 0: what the numbers mean stands
/// with each reader. Kind 4, 5 or 6: a defect at the first of them. Numbers without a meaning are 0.
#[repr(C)]
#[derive(Clone, Copy, Debug, PartialEq, Eq)]
pub struct Parts {
    pub kind: u32,
    pub numbers: [u64; 10],
}

/// What the lookup in a key table answers: `found` is 1 and the key stands here, or all is 0.
#[derive(Clone, Copy, Debug, PartialEq, Eq)]
pub struct Key {
    pub found: u32,
    pub bytes: [u8; 32],
}

/// What the probed reader of a request answers. Kind 2: malformed, and all numbers are 0.
#[repr(C)]
#[derive(Clone, Copy, Debug, PartialEq, Eq)]
pub struct RequestParts {
    pub kind: u32,
    pub numbers: [u64; 20],
}

/// What a token is written from: `count` is said of `caveats` and `caveat` together.
#[derive(Clone, Copy, Debug)]
pub struct Fields<'a> {
    pub count: u64,
    pub caveats: &'a [u8],
    pub caveat: &'a [u8],
    pub scope: &'a [u8],
    pub tag: &'a [u8],
    pub kid: &'a [u8],
    pub tid: &'a [u8],
}

extern "C" {
    fn probe_keyed_hash_joined(
        key: *const u8,
        key_len: usize,
        head: *const u8,
        head_len: usize,
        body: *const u8,
        body_len: usize,
    ) -> Hashed;
    fn probe_base64url_decode(text: *const u8, text_len: usize, room: *mut u8, room_len: usize) -> Probed;
    fn probe_base64url_encode(bytes: *const u8, bytes_len: usize, room: *mut u8, room_len: usize) -> Probed;
    fn probe_read_head(s: *const u8, s_len: usize, at: usize) -> Probed;
    fn probe_read_run(s: *const u8, s_len: usize, at: usize, major: u8, low: u64, high: u64) -> Probed;
    fn probe_read_string(s: *const u8, s_len: usize, at: usize, class: u32, low: u64, high: u64) -> Probed;
    fn probe_read_value(s: *const u8, s_len: usize, at: usize, depth: u8) -> Probed;
    fn probe_read_cidr(s: *const u8, s_len: usize) -> Probed;
    fn probe_first_bits_agree(x: *const u8, x_len: usize, y: *const u8, y_len: usize, n: u32) -> Probed;
    fn probe_read_scope(s: *const u8, s_len: usize, at: usize) -> Parts;
    fn probe_read_caveat(s: *const u8, s_len: usize) -> Parts;
    fn probe_read_token(s: *const u8, s_len: usize) -> Parts;
    fn probe_write_token(
        count: u64,
        caveats: *const u8,
        caveats_len: usize,
        caveat: *const u8,
        caveat_len: usize,
        scope: *const u8,
        scope_len: usize,
        tag: *const u8,
        tag_len: usize,
        kid: *const u8,
        kid_len: usize,
        tid: *const u8,
        tid_len: usize,
        room: *mut u8,
        room_len: usize,
    ) -> u64;
    fn probe_table_ok(table: *const u8, table_len: usize) -> u32;
    fn probe_lookup(
        table: *const u8,
        table_len: usize,
        tid: *const u8,
        tid_len: usize,
        kid: *const u8,
        kid_len: usize,
        room: *mut u8,
        room_len: usize,
    ) -> usize;
    fn probe_read_request(s: *const u8, s_len: usize) -> RequestParts;
}

/// The hash of `head` and `body` as one message.
pub fn keyed_hash_joined(key: &[u8], head: &[u8], body: &[u8]) -> Hashed {
    // SAFETY: all ranges are those of live slices, which the callee only reads.
    unsafe {
        probe_keyed_hash_joined(key.as_ptr(), key.len(), head.as_ptr(), head.len(), body.as_ptr(), body.len())
    }
}

/// Kind 0: `first` bytes stand at the front of the room. Kind 3: a fault of the text at `first`. Kind
/// 36: the room is too short.
pub fn decode(text: &[u8], room: &mut [u8]) -> Probed {
    // SAFETY: both ranges are those of live slices, of which the callee writes only the room.
    unsafe { probe_base64url_decode(text.as_ptr(), text.len(), room.as_mut_ptr(), room.len()) }
}

/// Kind 0: a text of `first` characters stands at the front of the room. Kind 36: the room is too short.
pub fn encode(bytes: &[u8], room: &mut [u8]) -> Probed {
    // SAFETY: both ranges are those of live slices, of which the callee writes only the room.
    unsafe { probe_base64url_encode(bytes.as_ptr(), bytes.len(), room.as_mut_ptr(), room.len()) }
}

/// Kind 0: the number, the place behind the head, the major type. Kind 4: a defect at `first`.
pub fn read_head(s: &[u8], at: usize) -> Probed {
    // SAFETY: the range is that of a live slice, which the callee only reads.
    unsafe { probe_read_head(s.as_ptr(), s.len(), at) }
}

/// Kind 0: start and end of the content. Kind 4 or 5: a defect at `first`.
pub fn read_run(s: &[u8], at: usize, major: u8, low: u64, high: u64) -> Probed {
    // SAFETY: the range is that of a live slice, which the callee only reads.
    unsafe { probe_read_run(s.as_ptr(), s.len(), at, major, low, high) }
}

/// Classes: 0 name, 1 printable, 2 path, 3 upper case, all others lowercase hex. Kind 0: start and end
/// of the content. Kind 4 or 5: a defect at `first`.
pub fn read_string(s: &[u8], at: usize, class: u32, low: u64, high: u64) -> Probed {
    // SAFETY: the range is that of a live slice, which the callee only reads.
    unsafe { probe_read_string(s.as_ptr(), s.len(), at, class, low, high) }
}

/// Kind 0: the place behind the value. Kind 4 or 5: a defect at `first`.
pub fn read_value(s: &[u8], at: usize, depth: u8) -> Probed {
    // SAFETY: the range is that of a live slice, which the callee only reads.
    unsafe { probe_read_value(s.as_ptr(), s.len(), at, depth) }
}

/// Kind 0: the address as one number, and how many of its bits count. Kind 4: no prefix's text.
pub fn read_cidr(s: &[u8]) -> Probed {
    // SAFETY: the range is that of a live slice, which the callee only reads.
    unsafe { probe_read_cidr(s.as_ptr(), s.len()) }
}

/// Kind 0, and `first` is 1 where the first `n` bits agree, else 0.
pub fn first_bits_agree(x: &[u8], y: &[u8], n: u32) -> Probed {
    // SAFETY: both ranges are those of live slices, which the callee only reads.
    unsafe { probe_first_bits_agree(x.as_ptr(), x.len(), y.as_ptr(), y.len(), n) }
}

/// Kind 0: start and end of the prefix (0 and 0 without one); how many methods, where the first begins
/// and the last ends; 1 and max_bytes (0 and 0 without it); the place behind the scope.
pub fn read_scope(s: &[u8], at: usize) -> Parts {
    // SAFETY: the range is that of a live slice, which the callee only reads.
    unsafe { probe_read_scope(s.as_ptr(), s.len(), at) }
}

/// The caveat at the front of `s`, with anything behind it. Kind 0: first which t it has, counted in exp,
/// nbf, aud, method, path_prefix, ip_cidr, bytes_le, rate, tenant, amnesia, gov_policy_digest, custom; then
/// its number or truth, or start and end of its text; or how many methods, where the first begins and the
/// last ends; the address and how many of its bits count; per_s and burst; start and end of ns, of the
/// value and of name. The last of the ten numbers is the caveat's length.
pub fn read_caveat(s: &[u8]) -> Parts {
    // SAFETY: the range is that of a live slice, which the callee only reads.
    unsafe { probe_read_caveat(s.as_ptr(), s.len()) }
}

/// Kind 0: how many caveats, where the first begins and the last ends; start and end of the scope;
/// where the tag begins; start and end of kid and of tid.
pub fn read_token(s: &[u8]) -> Parts {
    // SAFETY: the range is that of a live slice, which the callee only reads.
    unsafe { probe_read_token(s.as_ptr(), s.len()) }
}

/// How many bytes of a token stand at the front of the room; 0 if the room is too short.
pub fn write_token(fields: &Fields, room: &mut [u8]) -> u64 {
    // SAFETY: all ranges are those of live slices, of which the callee writes only the room.
    unsafe {
        probe_write_token(
            fields.count,
            fields.caveats.as_ptr(),
            fields.caveats.len(),
            fields.caveat.as_ptr(),
            fields.caveat.len(),
            fields.scope.as_ptr(),
            fields.scope.len(),
            fields.tag.as_ptr(),
            fields.tag.len(),
            fields.kid.as_ptr(),
            fields.kid.len(),
            fields.tid.as_ptr(),
            fields.tid.len(),
            room.as_mut_ptr(),
            room.len(),
        )
    }
}

/// 1 where the whole key table is good, else 0.
pub fn table_ok(table: &[u8]) -> u32 {
    // SAFETY: the range is that of a live slice, which the callee only reads.
    unsafe { probe_table_ok(table.as_ptr(), table.len()) }
}

pub fn lookup(table: &[u8], tid: &[u8], kid: &[u8]) -> Key {
    let mut bytes = [0; 32];
    // SAFETY: all ranges are those of live slices, of which the callee writes only the room.
    let length = unsafe {
        probe_lookup(
            table.as_ptr(),
            table.len(),
            tid.as_ptr(),
            tid.len(),
            kid.as_ptr(),
            kid.len(),
            bytes.as_mut_ptr(),
            bytes.len(),
        )
    };
    Key { found: u32::from(length == bytes.len()), bytes }
}

/// Kind 0: now, body size, skew and 1 for amnesia; 1 and where the peer's four bytes begin (0 and 0
/// without a peer); the same of the digest's 64 digits; 1, per_s and burst (0, 0 and 0 without a rate);
/// start and end of method, of path and of tenant; 1, start and end of the audience (0, 0 and 0 without).
pub fn read_request(s: &[u8]) -> RequestParts {
    // SAFETY: the range is that of a live slice, which the callee only reads.
    unsafe { probe_read_request(s.as_ptr(), s.len()) }
}
