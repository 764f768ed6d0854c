//! The address of an ip_cidr caveat, from document 01's one sentence: "IPv4 a.b.c.d/n, decimal without
//! leading zeros, n 0 to 32, bits past n zero". And whether the first bits of two byte strings agree.

/// The address as one number, its first byte the highest, and how many of its bits count.
#[derive(Clone, Copy, Debug, PartialEq, Eq)]
pub struct Prefix {
    pub address: u32,
    pub size: u32,
}

/// The prefix that a whole text says, if it is one's.
pub fn read(text: &[u8]) -> Option<Prefix> {
    let (address, size) = std::str::from_utf8(text).ok()?.split_once('/')?;
    let size = decimal(size, 32)?;
    let mut parts = address.split('.');
    let mut number = 0;
    for _ in 0..4 {
        number = number << 8 | decimal(parts.next()?, 255)?;
    }
    if parts.next().is_some() {
        return None;
    }
    // All 32 bits pushed out is more than a shift can do, and leaves none.
    let past = number.checked_shl(size).unwrap_or(0);
    (past == 0).then_some(Prefix { address: number, size })
}

/// A number up to `most`. The standard reader takes "007" and "+7" too; only 7's own text is "7".
fn decimal(text: &str, most: u32) -> Option<u32> {
    let number: u32 = text.parse().ok()?;
    let own = text == "0" || matches!(text.as_bytes()[0], b'1'..=b'9');
    (own && number <= most).then_some(number)
}

/// Whether the first `n` bits of both are the same sequence; a string of fewer bits gives all it has.
pub fn first_bits_agree(x: &[u8], y: &[u8], n: u32) -> bool {
    first_bits(x, n).eq(first_bits(y, n))
}

fn first_bits(bytes: &[u8], n: u32) -> impl Iterator<Item = bool> + '_ {
    let of_byte = |&byte: &u8| (0..8).rev().map(move |place| byte >> place & 1 == 1);
    bytes.iter().flat_map(of_byte).take(n as usize)
}

#[cfg(test)]
mod tests {
    use super::*;

    #[test]
    fn texts_that_are_prefixes() {
        for (text, address, size) in [
            ("0.0.0.0/0", 0, 0),
            ("10.0.0.0/8", 0x0a00_0000, 8),
            ("128.0.0.0/1", 0x8000_0000, 1),
            ("192.168.1.128/25", 0xc0a8_0180, 25),
            ("255.255.255.255/32", 0xffff_ffff, 32),
        ] {
            let wanted = Some(Prefix { address, size });
            assert_eq!(read(text.as_bytes()), wanted, "{text}");
        }
    }

    #[test]
    fn texts_that_are_none() {
        let texts = "/ 10.0.0.0 10.0.0.0/ 10.0.0/8 10.0.0.0.0/8 10..0.0/8 .10.0.0.0/8 10.0.0.0./8 \
            010.0.0.0/8 10.0.0.00/8 10.0.0.0/08 +10.0.0.0/8 10.0.0.0/+8 -0.0.0.0/0 256.0.0.0/8 \
            10.0.0.0/33 10.0.0.1/8 128.0.0.0/0 0.0.0.1/31 10.0.0.0/8/8 4294967296.0.0.0/8 \
            10.0.0.0/4294967304 a.0.0.0/8 0x0a.0.0.0/8 ::/0";
        let blank = ["", " 10.0.0.0/8", "10.0.0.0/8 ", "10.0.0.0/8\n"];
        for text in texts.split(' ').chain(blank) {
            assert_eq!(read(text.as_bytes()), None, "{text}");
        }
        assert_eq!(read(b"10.0.0.0/8\xff"), None);
        assert_eq!(read("1\u{0660}.0.0.0/8".as_bytes()), None);
    }

    #[test]
    fn bits_from_the_highest_of_the_first_byte() {
        assert!(first_bits_agree(&[0b1010_0000], &[0b1011_0000], 3));
        assert!(!first_bits_agree(&[0b1010_0000], &[0b1011_0000], 4));
        assert!(first_bits_agree(&[7, 0x80], &[7, 0xff], 9));
        assert!(!first_bits_agree(&[7, 0x80], &[7, 0xff], 10));
        assert!(first_bits_agree(&[7], &[7, 1], 8));
        assert!(!first_bits_agree(&[7], &[7, 1], 9));
        assert!(first_bits_agree(&[], &[1], 0));
        assert!(!first_bits_agree(&[], &[1], 1));
        assert!(first_bits_agree(&[7], &[7], u32::MAX));
    }
}
