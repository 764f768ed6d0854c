//! Keyed BLAKE3 in plain Rust, as an engineer would write it from the paper: portable, safe, no
//! vector code. It is what the benchmark measures the proved hash against.

const IV: [u32; 8] = [
    0x6a09e667, 0xbb67ae85, 0x3c6ef372, 0xa54ff53a, 0x510e527f, 0x9b05688c, 0x1f83d9ab, 0x5be0cd19,
];
const PERMUTATION: [usize; 16] = [2, 6, 3, 10, 7, 0, 4, 13, 1, 11, 12, 5, 9, 14, 15, 8];

const CHUNK_START: u32 = 1;
const CHUNK_END: u32 = 2;
const PARENT: u32 = 4;
const ROOT: u32 = 8;
const KEYED: u32 = 16;

const BLOCK: usize = 64;
const CHUNK: usize = 1024;

fn g(v: &mut [u32; 16], a: usize, b: usize, c: usize, d: usize, x: u32, y: u32) {
    v[a] = v[a].wrapping_add(v[b]).wrapping_add(x);
    v[d] = (v[d] ^ v[a]).rotate_right(16);
    v[c] = v[c].wrapping_add(v[d]);
    v[b] = (v[b] ^ v[c]).rotate_right(12);
    v[a] = v[a].wrapping_add(v[b]).wrapping_add(y);
    v[d] = (v[d] ^ v[a]).rotate_right(8);
    v[c] = v[c].wrapping_add(v[d]);
    v[b] = (v[b] ^ v[c]).rotate_right(7);
}

fn round(v: &mut [u32; 16], m: &[u32; 16]) {
    g(v, 0, 4, 8, 12, m[0], m[1]);
    g(v, 1, 5, 9, 13, m[2], m[3]);
    g(v, 2, 6, 10, 14, m[4], m[5]);
    g(v, 3, 7, 11, 15, m[6], m[7]);
    g(v, 0, 5, 10, 15, m[8], m[9]);
    g(v, 1, 6, 11, 12, m[10], m[11]);
    g(v, 2, 7, 8, 13, m[12], m[13]);
    g(v, 3, 4, 9, 14, m[14], m[15]);
}

fn permute(m: &mut [u32; 16]) {
    let old = *m;
    for (word, from) in m.iter_mut().zip(PERMUTATION) {
        *word = old[from];
    }
}

fn compress(cv: &[u32; 8], block: &[u32; 16], counter: u64, len: u32, flags: u32) -> [u32; 8] {
    let mut v = [0u32; 16];
    v[..8].copy_from_slice(cv);
    v[8..12].copy_from_slice(&IV[..4]);
    v[12] = counter as u32;
    v[13] = (counter >> 32) as u32;
    v[14] = len;
    v[15] = flags;
    let mut m = *block;
    for i in 0..7 {
        round(&mut v, &m);
        if i < 6 {
            permute(&mut m);
        }
    }
    std::array::from_fn(|i| v[i] ^ v[i + 8])
}

fn words<const N: usize>(bytes: &[u8]) -> [u32; N] {
    std::array::from_fn(|i| u32::from_le_bytes(bytes[i * 4..i * 4 + 4].try_into().unwrap()))
}

fn chunk(key: &[u32; 8], bytes: &[u8], counter: u64, root: u32) -> [u32; 8] {
    let mut cv = *key;
    let mut start = CHUNK_START;
    let mut rest = bytes;
    while rest.len() > BLOCK {
        cv = compress(&cv, &words(&rest[..BLOCK]), counter, BLOCK as u32, KEYED | start);
        start = 0;
        rest = &rest[BLOCK..];
    }
    let mut last = [0u8; BLOCK];
    last[..rest.len()].copy_from_slice(rest);
    let flags = KEYED | start | CHUNK_END | root;
    compress(&cv, &words(&last), counter, rest.len() as u32, flags)
}

fn tree(key: &[u32; 8], bytes: &[u8], counter: u64, root: u32) -> [u32; 8] {
    if bytes.len() <= CHUNK {
        return chunk(key, bytes, counter, root);
    }
    let chunks = (bytes.len() + CHUNK - 1) / CHUNK;
    let left = chunks.next_power_of_two() / 2;
    let (a, b) = bytes.split_at(left * CHUNK);
    let mut both = [0u32; 16];
    both[..8].copy_from_slice(&tree(key, a, counter, 0));
    both[8..].copy_from_slice(&tree(key, b, counter + left as u64, 0));
    compress(key, &both, 0, BLOCK as u32, KEYED | PARENT | root)
}

/// The 32-byte keyed hash of a message of any length.
pub fn keyed_hash(key: &[u8; 32], message: &[u8]) -> [u8; 32] {
    let root = tree(&words(key), message, 0, ROOT);
    let mut out = [0u8; 32];
    for (bytes, word) in out.chunks_exact_mut(4).zip(root) {
        bytes.copy_from_slice(&word.to_le_bytes());
    }
    out
}
