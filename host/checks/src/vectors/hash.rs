//! The file hash.json: the keyed hash by itself. The hashes are the official crate's.

use serde_json::Value;

use super::json::{answered, file as file_of, hexed, object};
use super::parts::KEY;

/// The longest message that is taken.
const LONGEST: usize = 8192;

pub fn file() -> String {
    let about = "Calls of the keyed hash: a key and a message, and the answer and 32 bytes. Byte i of a message is \
                 i modulo 251, as in the published BLAKE3 vectors, whose key is the first one here.";
    file_of(about, hashed().into_iter().chain(refused()).collect())
}

fn laid(answer: u32, name: &str, comment: &str, key: &[u8], length: usize) -> Value {
    let message: Vec<u8> = (0..length).map(|i| (i % 251) as u8).collect();
    let hash = if answer == 0 {
        let key = key.try_into().expect("a key of 32 bytes");
        *blake3::keyed_hash(key, &message).as_bytes()
    } else {
        [0; 32]
    };
    let mut fields = vec![
        ("name", name.into()),
        ("comment", comment.into()),
        ("key", hexed(key)),
        ("message", hexed(&message)),
    ];
    fields.extend(answered(answer, "done"));
    fields.push(("hash", hexed(&hash)));
    object(fields)
}

fn hashed() -> Vec<Value> {
    let of = |name, comment, length| laid(0, name, comment, KEY, length);
    vec![
        of("length-0", "no message", 0),
        of("length-1", "one byte", 1),
        of("length-64", "a whole block", 64),
        of("length-65", "a byte more than a block", 65),
        of("length-1024", "a whole chunk", 1024),
        of("length-1025", "a byte more than a chunk", 1025),
        of("length-3073", "three chunks and a byte: two subtrees of two chunks", 3073),
        of("length-5120", "five chunks: the left subtree has four of them", 5120),
        of("length-8192", "the longest message that is taken", LONGEST),
        laid(0, "key-zero", "a key of 32 zero bytes", &[0; 32], 100),
    ]
}

fn refused() -> Vec<Value> {
    vec![
        laid(37, "length-8193", "a byte more than is taken", KEY, LONGEST + 1),
        laid(37, "key-31", "a key of 31 bytes", &KEY[..31], 1),
        laid(37, "key-33", "a key of 33 bytes", &[&KEY[..], b"!"].concat(), 1),
        laid(37, "key-empty", "no key", b"", 0),
    ]
}
