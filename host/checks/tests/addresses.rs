//! Address prefixes and first bits: the proved readers beside the second program's. What is made good
//! or bad on purpose is held to that as well, so that a slip which both readers share shows too.

use checks::beside::{Beside, Outcomes};
use checks::edits::{changes, cuts, spoiled};
use checks::Seeded;
use second::cidr::{first_bits_agree, read, Prefix};

const ALPHABET: &[u8; 12] = b"0123456789./";
/// Numbers past three digits: one more digit, and such as are small again where 32 or 64 bits end.
const WIDE: [&str; 8] = [
    "1000",
    "2550",
    "9999",
    "4294967295",
    "4294967296",
    "4294967304",
    "18446744073709551616",
    "18446744073709551624",
];
/// Before a number all of these are wrong, though many readers pass over one or the other.
const FRONTS: [&str; 10] = ["0", "00", "000", "+", "-", " ", "\t", "0x", "-0", "+0"];

/// What each test compares at least, and how much of that is taken, or agrees, and how much is not.
const SIZES: Outcomes = (118_800, 7000, 111_000);
const BYTES: Outcomes = (8064, 2048, 6016);
const COUNTS: Outcomes = (3024, 99, 2925);
const ZEROS: Outcomes = (1419, 129, 1290);
const MARKS: Outcomes = (1954, 101, 1853);
const CHANGED: Outcomes = (1_030_000, 10_000, 1_020_000);
const ADDED: Outcomes = (1_100_000, 2000, 1_100_000);
const LONG: Outcomes = (671, 10, 661);
const RANDOM: Outcomes = (700_000, 48_000, 650_000);
const LENGTHS: Outcomes = (302_872, 52_000, 250_000);
const ONE_BIT: Outcomes = (99_008, 48_416, 50_592);
const LARGE: Outcomes = (1160, 526, 634);

/// The inputs from a seed together; what is gone through exhaustively comes on top.
const _: () = assert!(SIZES.0 + CHANGED.0 + ADDED.0 + RANDOM.0 + LENGTHS.0 >= 3_200_000);

fn text(address: u32, size: impl std::fmt::Display) -> Vec<u8> {
    let [a, b, c, d] = address.to_be_bytes();
    format!("{a}.{b}.{c}.{d}/{size}").into_bytes()
}

/// The address with its bits past the first `size` cleared.
fn cleared(address: u32, size: u32) -> u32 {
    let past = (1u64 << (32 - size)) - 1;
    address & !(past as u32)
}

/// A good prefix of any size.
fn good(seeded: &mut Seeded) -> (u32, u32) {
    let size = seeded.below(33) as u32;
    (cleared(seeded.next() as u32, size), size)
}

fn good_text(seeded: &mut Seeded) -> Vec<u8> {
    let (address, size) = good(seeded);
    text(address, size)
}

fn take(beside: &mut Beside, address: u32, size: u32) {
    let text = text(address, size);
    assert_eq!(read(&text), Some(Prefix { address, size }));
    beside.cidr(&text);
}

fn refuse(beside: &mut Beside, text: &[u8]) {
    assert_eq!(read(text), None, "{}", String::from_utf8_lossy(text));
    beside.cidr(text);
}

#[test]
fn every_size_and_every_bit_past_it() {
    let mut seeded = Seeded(60);
    let mut beside = Beside::default();
    for size in 0..=32 {
        for turn in 0..200 {
            let any = [0, u32::MAX, seeded.next() as u32][turn.min(2)];
            let address = cleared(any, size);
            take(&mut beside, address, size);
            for bit in size..32 {
                refuse(&mut beside, &text(address | 1 << (31 - bit), size));
            }
            beside.cidr(&text(any, size));
        }
    }
    beside.judged(SIZES);
}

#[test]
fn every_number_in_each_place_of_the_address() {
    let mut seeded = Seeded(61);
    let mut beside = Beside::default();
    for place in 0..4 {
        for _ in 0..2 {
            let others = (seeded.next() as u32).to_be_bytes();
            let numbers = (0..=999).map(|number: u32| number.to_string());
            for (value, number) in numbers.chain(WIDE.map(String::from)).enumerate() {
                let mut parts = others.map(|byte| byte.to_string());
                parts[place] = number;
                let text = format!("{}/32", parts.join(".")).into_bytes();
                assert_eq!(read(&text).is_some(), value <= 255);
                beside.cidr(&text);
            }
        }
    }
    beside.judged(BYTES);
}

#[test]
fn every_number_as_the_size() {
    let mut seeded = Seeded(62);
    let mut beside = Beside::default();
    let numbers = (0..=999).map(|number: u32| number.to_string());
    for (size, number) in numbers.chain(WIDE.map(String::from)).enumerate() {
        for any in [0, u32::MAX, seeded.next() as u32] {
            // Past 32 no bit is cleared: then the size alone is at fault.
            let text = text(cleared(any, size.min(32) as u32), &number);
            assert_eq!(read(&text).is_some(), size <= 32);
            beside.cidr(&text);
        }
    }
    beside.judged(COUNTS);
}

#[test]
fn what_stands_before_a_number() {
    let mut beside = Beside::default();
    let parts = ["0", "1", "7", "9", "10", "32"];
    for (turn, part) in parts.iter().cycle().take(96).enumerate() {
        let mut numbers = [turn / 6, turn, turn / 2, turn / 3].map(|number| number.to_string());
        numbers[turn / 6 % 4] = part.to_string();
        let good = format!("{}/32", numbers.join("."));
        assert!(read(good.as_bytes()).is_some());
        beside.cidr(good.as_bytes());
        for front in FRONTS {
            numbers[turn / 6 % 4] = [front, part].concat();
            refuse(&mut beside, format!("{}/32", numbers.join(".")).as_bytes());
        }
    }
    for size in 0..=32 {
        take(&mut beside, 0, size);
        for front in FRONTS {
            refuse(&mut beside, &text(0, format!("{front}{size}")));
        }
    }
    beside.judged(ZEROS);
}

#[test]
fn marks_missing_doubled_and_in_every_order() {
    let mut seeded = Seeded(63);
    let mut beside = Beside::default();
    for _ in 0..100 {
        let (address, size) = good(&mut seeded);
        take(&mut beside, address, size);
        let good = text(address, size);
        for at in (0..good.len()).filter(|&at| b"./".contains(&good[at])) {
            let (front, behind) = (&good[..at], &good[at + 1..]);
            let mark = good[at..=at].to_vec();
            let other = if mark == b"." { b"/" } else { b"." };
            for marks in [&[][..], &mark.repeat(2), &mark.repeat(3), other] {
                refuse(&mut beside, &[front, marks, behind].concat());
            }
        }
    }
    let orders = (0..=6).flat_map(|count| (0..1 << count).map(move |order| (count, order)));
    for (count, order) in orders {
        let marks = (0..count).map(|place| if order >> place & 1 == 1 { "/" } else { "." });
        let joined: String = marks.flat_map(|mark| [mark, "0"]).collect();
        beside.cidr(joined.as_bytes());
        let whole = ["0", &joined].concat();
        assert_eq!(read(whole.as_bytes()).is_some(), whole == "0.0.0.0/0");
        beside.cidr(whole.as_bytes());
    }
    beside.judged(MARKS);
}

#[test]
fn each_byte_changed_to_every_other() {
    let mut seeded = Seeded(64);
    let mut beside = Beside::default();
    for turn in 0..300 {
        let good = match turn {
            0 => text(0, 0),
            1 => text(u32::MAX, 32),
            _ => good_text(&mut seeded),
        };
        beside.cidr(&good);
        changes(&good, &mut seeded, |changed| beside.cidr(changed));
    }
    beside.judged(CHANGED);
}

#[test]
fn cut_at_every_byte_and_every_byte_added() {
    let mut seeded = Seeded(65);
    let mut beside = Beside::default();
    for _ in 0..300 {
        let good = good_text(&mut seeded);
        beside.cidr(&good);
        for cut in cuts(&good) {
            beside.cidr(cut);
        }
        for at in 0..=good.len() {
            let mut longer = good.clone();
            longer.insert(at, 0);
            for byte in 0..=255 {
                longer[at] = byte;
                beside.cidr(&longer);
            }
        }
    }
    beside.judged(ADDED);
}

#[test]
fn empty_and_long_texts() {
    const LENGTH: usize = 4000;
    let mut seeded = Seeded(66);
    let mut beside = Beside::default();
    refuse(&mut beside, b"");
    for _ in 0..10 {
        let (address, size) = good(&mut seeded);
        take(&mut beside, address, size);
        let good = text(address, size);
        let slash = good.iter().position(|&byte| byte == b'/').unwrap();
        for &byte in ALPHABET.iter().chain(b"\0 \n\xff") {
            let filling = vec![byte; LENGTH - good.len()];
            for at in [0, slash, slash + 1, good.len()] {
                let long = [&good[..at], &filling, &good[at..]].concat();
                assert_eq!(long.len(), LENGTH);
                refuse(&mut beside, &long);
            }
        }
        let random: Vec<u8> = (0..LENGTH).map(|_| ALPHABET[seeded.below(12)]).collect();
        refuse(&mut beside, &random);
        refuse(&mut beside, &good.repeat(LENGTH / good.len()));
    }
    beside.judged(LONG);
}

/// A text with the marks of a prefix in place, and numbers of any one to three digits between them.
fn shaped(seeded: &mut Seeded) -> Vec<u8> {
    let mut shaped = Vec::new();
    for mark in ["", ".", ".", ".", "/"] {
        shaped.extend(mark.bytes());
        let digits = 1 + seeded.below(3);
        shaped.extend((0..digits).map(|_| ALPHABET[seeded.below(10)]));
    }
    shaped
}

#[test]
fn random_texts_and_spoiled_ones() {
    let mut seeded = Seeded(67);
    let mut beside = Beside::default();
    for _ in 0..250_000 {
        let length = seeded.below(20);
        let random: Vec<u8> = (0..length).map(|_| ALPHABET[seeded.below(12)]).collect();
        beside.cidr(&random);
    }
    for _ in 0..150_000 {
        beside.cidr(&shaped(&mut seeded));
        let mut good = good_text(&mut seeded);
        beside.cidr(&spoiled(&good, &mut seeded));
        let at = seeded.below(good.len());
        good[at] = ALPHABET[seeded.below(12)];
        beside.cidr(&good);
    }
    beside.judged(RANDOM);
}

fn flip(bytes: &mut [u8], bit: usize) {
    bytes[bit / 8] ^= 0x80 >> (bit % 8);
}

/// Two strings of these lengths whose first bits are the same, and how many: at the next one they
/// differ, or one of them ends.
fn alike(seeded: &mut Seeded, lengths: (usize, usize)) -> (Vec<u8>, Vec<u8>, usize) {
    let (x, mut y) = (seeded.bytes(lengths.0), seeded.bytes(lengths.1));
    let bits = 8 * lengths.0.min(lengths.1);
    let same = seeded.below(bits + 1);
    for bit in 0..(same + 1).min(bits) {
        let differ = (x[bit / 8] ^ y[bit / 8]) & 0x80 >> (bit % 8) != 0;
        if differ == (bit < same) {
            flip(&mut y, bit);
        }
    }
    (x, y, same)
}

/// Both readers' answer, and what the making of the strings says.
fn bits(beside: &mut Beside, x: &[u8], y: &[u8], n: u32, agree: bool) {
    assert_eq!(first_bits_agree(x, y, n), agree, "first {n} bits");
    beside.first_bits(x, y, n);
}

#[test]
fn first_bits_of_every_two_lengths() {
    let mut seeded = Seeded(68);
    let mut beside = Beside::default();
    for lengths in (0..=16).flat_map(|x| (0..=16).map(move |y| (x, y))) {
        for _ in 0..8 {
            let (x, y, same) = alike(&mut seeded, lengths);
            for n in 0..=130 {
                bits(&mut beside, &x, &y, n, n as usize <= same || x == y);
            }
        }
    }
    beside.judged(LENGTHS);
}

#[test]
fn strings_one_bit_apart() {
    let mut seeded = Seeded(69);
    let mut beside = Beside::default();
    for length in 1..=16 {
        let x = seeded.bytes(length);
        for bit in 0..8 * length {
            let mut y = x.clone();
            flip(&mut y, bit);
            for n in 0..=8 * length + 2 {
                bits(&mut beside, &x, &y, n as u32, n <= bit);
            }
        }
    }
    beside.judged(ONE_BIT);
}

#[test]
fn more_bits_than_there_are() {
    let mut seeded = Seeded(70);
    let mut beside = Beside::default();
    let far = [256, 1 << 16, (1 << 31) - 1, 1 << 31, u32::MAX - 7, u32::MAX];
    for length in [0, 1, 4, 16, 17, 255, 4000] {
        let x = seeded.bytes(length);
        let longer = [&x[..], &[0]].concat();
        let end = 8 * length as u32;
        for n in (end.saturating_sub(20)..end + 20).chain(far) {
            bits(&mut beside, &x, &x, n, true);
            bits(&mut beside, &x, &longer, n, n <= end);
            bits(&mut beside, &longer, &x, n, n <= end);
            bits(&mut beside, &[], &longer, n, n == 0);
        }
    }
    beside.judged(LARGE);
}
