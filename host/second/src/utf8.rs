//! UTF-8 by the syntax in section 4 of RFC 3629, written out as that section's table.

use std::ops::RangeInclusive;

const TAIL: RangeInclusive<u8> = 0x80..=0xbf;

/// Every sequence that is one character: the range of each of its bytes. Overlong forms, surrogates
/// and all past 10FFFF are shut out by the second byte's range.
const CHARACTERS: [&[RangeInclusive<u8>]; 9] = [
    &[0x00..=0x7f],
    &[0xc2..=0xdf, TAIL],
    &[0xe0..=0xe0, 0xa0..=0xbf, TAIL],
    &[0xe1..=0xec, TAIL, TAIL],
    &[0xed..=0xed, 0x80..=0x9f, TAIL],
    &[0xee..=0xef, TAIL, TAIL],
    &[0xf0..=0xf0, 0x90..=0xbf, TAIL, TAIL],
    &[0xf1..=0xf3, TAIL, TAIL, TAIL],
    &[0xf4..=0xf4, 0x80..=0x8f, TAIL, TAIL],
];

/// Whether the bytes are characters one behind the other, and nothing else.
pub fn is_utf8(mut bytes: &[u8]) -> bool {
    while !bytes.is_empty() {
        match CHARACTERS.iter().find(|character| begins_with(bytes, character)) {
            Some(character) => bytes = &bytes[character.len()..],
            None => return false,
        }
    }
    true
}

fn begins_with(bytes: &[u8], character: &[RangeInclusive<u8>]) -> bool {
    bytes.len() >= character.len() && character.iter().zip(bytes).all(|(range, byte)| range.contains(byte))
}

#[cfg(test)]
mod tests {
    use super::*;

    const SEEDED: usize = 2_000_000;

    fn agrees(bytes: &[u8]) {
        assert_eq!(is_utf8(bytes), std::str::from_utf8(bytes).is_ok(), "{bytes:02x?}");
    }

    #[test]
    fn every_sequence_of_up_to_three_bytes() {
        agrees(&[]);
        for first in 0..=255 {
            agrees(&[first]);
            for second in 0..=255 {
                agrees(&[first, second]);
                for third in 0..=255 {
                    agrees(&[first, second, third]);
                }
            }
        }
    }

    #[test]
    fn seeded_sequences_of_four_bytes() {
        let mut state = 1u64;
        let mut good = 0;
        for turn in 0..SEEDED {
            // Knuth's MMIX generator; its high bits are the good ones.
            state = state.wrapping_mul(6_364_136_223_846_793_005).wrapping_add(1_442_695_040_888_963_407);
            let mut bytes = ((state >> 32) as u32).to_be_bytes();
            if turn % 2 == 0 {
                // A four-byte lead and tails nearly throughout, since free bytes are almost never good.
                let tails = [0xf0 | bytes[0] & 7, bytes[1], 0x80 | bytes[2] & 0x3f, 0x80 | bytes[3] & 0x3f];
                bytes = if turn % 16 == 0 { [tails[0], tails[1], bytes[2], tails[3]] } else { tails };
            }
            agrees(&bytes);
            good += usize::from(is_utf8(&bytes));
        }
        assert!(good > SEEDED / 20, "only {good} of {SEEDED} were good");
    }
}
