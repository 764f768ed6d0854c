//! The proved keyed hash beside the official blake3 crate.

use archive::{keyed_hash, Hashed};
use checks::Seeded;
use probes::keyed_hash_joined;

const LIMIT: usize = 8192;
const REFUSED: Hashed = Hashed { answer: 37, bytes: [0; 32] };

fn official(key: &[u8], message: &[u8]) -> Hashed {
    let key: &[u8; 32] = key.try_into().expect("a key of 32 bytes");
    Hashed { answer: 0, bytes: *blake3::keyed_hash(key, message).as_bytes() }
}

#[test]
fn every_length_at_one_key() {
    let mut seeded = Seeded(1);
    let key = seeded.bytes(32);
    let message = seeded.bytes(LIMIT);
    for n in 0..=LIMIT {
        assert_eq!(keyed_hash(&key, &message[..n]), official(&key, &message[..n]), "length {n}");
    }
}

#[test]
fn a_longer_message_is_refused() {
    let key = Seeded(2).bytes(32);
    for n in [LIMIT + 1, LIMIT + 2, 65_536, 1 << 20] {
        assert_eq!(keyed_hash(&key, &vec![7; n]), REFUSED, "length {n}");
    }
}

#[test]
fn a_key_of_another_length_is_refused() {
    let mut seeded = Seeded(3);
    for n in [0, 1, 31, 33, 64, 4096, 65_568] {
        let key = seeded.bytes(n);
        for length in [0, 64, LIMIT, LIMIT + 1] {
            assert_eq!(keyed_hash(&key, &vec![9; length]), REFUSED, "key of {n}, message of {length}");
        }
    }
}

#[test]
fn two_parts_hash_as_their_joined_bytes() {
    let mut seeded = Seeded(4);
    for turn in 0..2000 {
        let key = seeded.bytes(32);
        let length = seeded.below(LIMIT + 1);
        let message = seeded.bytes(length);
        let (head, body) = message.split_at(seeded.below(length + 1));
        assert_eq!(keyed_hash_joined(&key, head, body), official(&key, &message), "turn {turn}");
    }
}

#[test]
fn every_cut_of_a_message_gives_one_hash() {
    let mut seeded = Seeded(5);
    let key = seeded.bytes(32);
    for length in [0, 1, 63, 64, 65, 128, 1023, 1024, 1025, 2049, 3100] {
        let message = seeded.bytes(length);
        let whole = official(&key, &message);
        for cut in 0..=length {
            let (head, body) = message.split_at(cut);
            assert_eq!(keyed_hash_joined(&key, head, body), whole, "length {length}, cut at {cut}");
        }
    }
}

#[test]
fn two_parts_too_long_together_are_refused() {
    let key = Seeded(6).bytes(32);
    let part = vec![1; 65_536];
    for (head, body) in [(0, LIMIT + 1), (1, LIMIT), (LIMIT, 1), (LIMIT + 1, 0), (4097, 4096), (65_536, 65_536)] {
        assert_eq!(keyed_hash_joined(&key, &part[..head], &part[..body]), REFUSED, "{head} and {body}");
    }
    assert_eq!(keyed_hash_joined(&key, &part[..LIMIT], &[]), official(&key, &part[..LIMIT]));
    assert_eq!(keyed_hash_joined(&key[..31], &part[..1], &part[..1]), REFUSED);
}

#[test]
fn the_plain_rust_hash_of_the_benchmark_is_right() {
    let mut seeded = Seeded(7);
    for _ in 0..200 {
        let key: [u8; 32] = seeded.bytes(32).try_into().unwrap();
        let length = seeded.below(LIMIT + 1);
        let message = seeded.bytes(length);
        assert_eq!(plain::keyed_hash(&key, &message), official(&key, &message).bytes, "length {length}");
    }
}
