//! Base64URL without padding: RFC 4648 section 5, and only the one text that each byte string has.

const ALPHABET: &[u8; 64] = b"ABCDEFGHIJKLMNOPQRSTUVWXYZabcdefghijklmnopqrstuvwxyz0123456789-_";

/// What stands for no character; the numbers of the characters have six bits.
const NONE: u8 = 0xff;

/// The number of each character, laid out once, since every character of a text asks for its own.
const NUMBERS: [u8; 256] = {
    let mut numbers = [NONE; 256];
    let mut number = 0;
    while number < ALPHABET.len() {
        numbers[ALPHABET[number] as usize] = number as u8;
        number += 1;
    }
    numbers
};

/// The bytes of a text, or the place of its first fault. A length that no byte string has is a fault
/// at the end, behind every character; unused bits that are not zero are one of the last character.
pub fn decode(text: &[u8]) -> Result<Vec<u8>, usize> {
    let mut bytes = Vec::with_capacity(text.len() / 4 * 3 + 2);
    let fours = text.chunks_exact(4);
    let rest = fours.remainder();
    for (four, characters) in fours.enumerate() {
        let held = joined(characters).map_err(|place| 4 * four + place)?;
        bytes.extend_from_slice(&held.to_be_bytes()[1..]);
    }
    let held = joined(rest).map_err(|place| text.len() - rest.len() + place)?;
    let (whole, unused) = match rest.len() {
        0 => return Ok(bytes),
        // It began a byte and nothing finished it.
        1 => return Err(text.len()),
        2 => (1, 4),
        _ => (2, 2),
    };
    if held & ((1 << unused) - 1) != 0 {
        return Err(text.len() - 1);
    }
    bytes.extend_from_slice(&(held >> unused).to_be_bytes()[4 - whole..]);
    Ok(bytes)
}

/// The numbers of up to four characters, six bits each, or the place of the first that has none.
fn joined(characters: &[u8]) -> Result<u32, usize> {
    let mut held = 0;
    let mut met = 0;
    for &character in characters {
        let number = NUMBERS[usize::from(character)];
        held = held << 6 | u32::from(number & 63);
        met |= number;
    }
    if met == NONE {
        let none = |&character: &u8| NUMBERS[usize::from(character)] == NONE;
        return Err(characters.iter().position(none).unwrap_or(0));
    }
    Ok(held)
}

/// The text of some bytes.
pub fn encode(bytes: &[u8]) -> Vec<u8> {
    let mut text = Vec::with_capacity(bytes.len() / 3 * 4 + 3);
    let (mut held, mut bits) = (0u32, 0);
    for &byte in bytes {
        held = held << 8 | u32::from(byte);
        bits += 8;
        while bits >= 6 {
            bits -= 6;
            text.push(ALPHABET[(held >> bits) as usize]);
            held &= (1 << bits) - 1;
        }
    }
    if bits > 0 {
        text.push(ALPHABET[(held << (6 - bits)) as usize]);
    }
    text
}

#[cfg(test)]
mod tests {
    use super::*;

    #[test]
    fn the_examples_of_document_01() {
        assert_eq!(encode(&[0xff]), b"_w");
        assert_eq!(decode(b"_w"), Ok(vec![0xff]));
        assert_eq!(decode(b"_x"), Err(1));
        assert_eq!(encode(&[0xfb, 0xff]), b"-_8");
        assert_eq!(decode(b"-_8"), Ok(vec![0xfb, 0xff]));
        assert_eq!(decode(b""), Ok(vec![]));
    }

    #[test]
    fn the_vectors_of_rfc_4648_without_their_padding() {
        let texts = ["", "Zg", "Zm8", "Zm9v", "Zm9vYg", "Zm9vYmE", "Zm9vYmFy"];
        for (length, text) in texts.iter().enumerate() {
            let bytes = &b"foobar"[..length];
            assert_eq!(encode(bytes), text.as_bytes(), "{text}");
            assert_eq!(decode(text.as_bytes()).as_deref(), Ok(bytes), "{text}");
        }
    }

    #[test]
    fn the_first_fault_is_named() {
        assert_eq!(decode(b"A"), Err(1));
        assert_eq!(decode(b"AAAAA"), Err(5));
        assert_eq!(decode(b"AAA=A"), Err(3));
        assert_eq!(decode(b"A+A/"), Err(1));
        assert_eq!(decode(b"Zg=="), Err(2));
        assert_eq!(decode(b"Zm9v\n"), Err(4));
        assert_eq!(decode(b"\x80AAA"), Err(0));
        assert_eq!(decode(b"AAB"), Err(2));
        assert_eq!(decode(b"AAE"), Ok(vec![0, 1]));
    }

    #[test]
    fn the_alphabet_is_that_of_rfc_4648() {
        for character in 0..=255u8 {
            let number = match character {
                b'A'..=b'Z' => character - b'A',
                b'a'..=b'z' => character - b'a' + 26,
                b'0'..=b'9' => character - b'0' + 52,
                b'-' => 62,
                b'_' => 63,
                _ => NONE,
            };
            assert_eq!(NUMBERS[usize::from(character)], number, "{character:02x}");
        }
    }
}
