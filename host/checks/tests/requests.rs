//! Requests: the proved reader beside the second program's. What is made good or bad on purpose is held
//! to that as well, so that a slip which both readers share shows too.

use checks::beside::{Beside, Outcomes};
use checks::edits::{changes, cuts, spoiled};
use checks::inputs::{self, hex, EDGES};
use checks::requests::{self, any, flagged, Request, LENGTHS};
use checks::strings::{comes_through, HEX, NAME, UPPER};
use checks::Seeded;
use second::request::{read, Rate};

/// Where skew and flags stand; and the flags, of which amnesia alone has no part.
const SKEW: usize = 16;
const FLAGS: usize = 18;
const AMNESIA: u8 = 1;
const AUDIENCE: u8 = 4;
const DIGEST: u8 = 8;
const ALL: u8 = 31;

/// What each test meets at least: how much, and how much of that is taken, and how much is not.
const GOOD: Outcomes = (30_000, 15_000, 15_000);
const DAMAGED: Outcomes = (220_000, 27_000, 190_000);
const EDITED: Outcomes = (193_000, 47_000, 145_000);
const FLAGGED: Outcomes = (65_536, 512, 65_024);
const SKEWED: Outcomes = (68_536, 1701, 66_835);
const NUMBERS: Outcomes = (7590, 7590, 0);
const TEXTS: Outcomes = (13_524, 3825, 9699);
const TOLD: Outcomes = (458_752, 7, 458_745);
const CHARACTERS: Outcomes = (15_360, 3521, 11_839);
const DIGITS: Outcomes = (33_028, 2048, 30_980);
const ORDERS: Outcomes = (5760, 40, 5700);
const RANDOM: Outcomes = (90_008, 30_000, 60_000);

/// The inputs from a seed together; what is gone through exhaustively comes on top.
const _: () = assert!(GOOD.0 + DAMAGED.0 + EDITED.0 + NUMBERS.0 + RANDOM.0 >= 540_000);

fn take(beside: &mut Beside, request: &[u8]) {
    assert!(read(request).is_some(), "{}", hex(request));
    beside.request(request);
}

fn refuse(beside: &mut Beside, request: &[u8]) {
    assert!(read(request).is_none(), "{}", hex(request));
    beside.request(request);
}

fn judge(beside: &mut Beside, request: &[u8], good: bool) {
    if good { take(beside, request) } else { refuse(beside, request) }
}

/// What is read is what the request was made from.
fn read_back(request: &Request, bytes: &[u8]) {
    let read = read(bytes).unwrap();
    let part = |(from, to): (usize, usize)| bytes[from..to].to_vec();
    let numbers = (read.now, read.body_size, read.skew, read.amnesia, read.rate);
    assert_eq!(
        numbers,
        (request.now, request.body_size, request.skew.into(), request.amnesia, request.rate)
    );
    assert_eq!(read.peer.map(part), request.peer.map(Vec::from));
    assert_eq!(read.digest.map(part), request.digest);
    let texts = [read.method, read.path, read.tenant].map(part);
    assert_eq!(texts, [&request.method, &request.path, &request.tenant].map(Vec::clone));
    assert_eq!(read.audience.map(part), request.audience);
}

#[test]
fn good_ones_and_bytes_behind() {
    let mut seeded = Seeded(140);
    let mut beside = Beside::default();
    for _ in 0..15_000 {
        let request = any(&mut seeded);
        let bytes = request.laid();
        read_back(&request, &bytes);
        beside.request(&bytes);
        let more = 1 + seeded.below(5);
        refuse(&mut beside, &[bytes, seeded.bytes(more)].concat());
    }
    beside.judged(GOOD);
}

#[test]
fn every_edit_of_every_piece() {
    let mut seeded = Seeded(141);
    let mut beside = Beside::default();
    for turn in 0..320 {
        let request = flagged(turn as u8 & ALL, &mut seeded);
        take(&mut beside, &request.laid());
        requests::each(&request, |edited| beside.request(edited));
    }
    beside.judged(DAMAGED);
}

#[test]
fn cut_at_every_byte_and_each_byte_changed() {
    let mut seeded = Seeded(142);
    let mut beside = Beside::default();
    for turn in 0..256 {
        let bytes = flagged(turn as u8 & ALL, &mut seeded).laid();
        for cut in cuts(&bytes) {
            refuse(&mut beside, cut);
        }
        changes(&bytes, &mut seeded, |changed| beside.request(changed));
        for _ in 0..60 {
            beside.request(&spoiled(&bytes, &mut seeded));
        }
    }
    beside.judged(EDITED);
}

#[test]
fn every_flag_byte_over_every_choice_of_parts() {
    let mut seeded = Seeded(143);
    let mut beside = Beside::default();
    for turn in 0..32 * 8 {
        let request = flagged(turn as u8 & ALL, &mut seeded);
        let mut bytes = request.laid();
        let stated = bytes[FLAGS];
        assert_eq!(stated, turn as u8 & ALL);
        for flags in 0..=255 {
            bytes[FLAGS] = flags;
            judge(&mut beside, &bytes, flags | AMNESIA == stated | AMNESIA);
        }
    }
    beside.judged(FLAGGED);
}

#[test]
fn every_skew() {
    let mut seeded = Seeded(144);
    let mut beside = Beside::default();
    let mut bytes = flagged(ALL, &mut seeded).laid();
    for skew in 0..=65_535u16 {
        bytes[SKEW..FLAGS].copy_from_slice(&skew.to_le_bytes());
        judge(&mut beside, &bytes, skew <= 300);
    }
    for _ in 0..200 {
        for skew in [0, 1, 44, 255, 256, 299, 300, 301, 302, 512, 555, 556, 0x2c01, 32_768, 65_535] {
            let request = Request { skew, ..any(&mut seeded) };
            judge(&mut beside, &request.laid(), skew <= 300);
        }
    }
    beside.judged(SKEWED);
}

#[test]
fn any_numbers_and_any_peer() {
    let mut seeded = Seeded(145);
    let mut beside = Beside::default();
    let mut numbers = EDGES.to_vec();
    numbers.extend((0..1500).map(|_| inputs::number(&mut seeded)));
    for number in numbers {
        let good = flagged(ALL, &mut seeded);
        let small = number as u32;
        let rate = |per_s, burst| Some(Rate { per_s, burst });
        let peer = Some(small.to_be_bytes());
        for request in [
            Request { now: number, ..good.clone() },
            Request { body_size: number, ..good.clone() },
            Request { rate: rate(small, 7), ..good.clone() },
            Request { rate: rate(7, small), ..good.clone() },
            Request { peer, ..good.clone() },
        ] {
            let bytes = request.laid();
            read_back(&request, &bytes);
            beside.request(&bytes);
        }
    }
    beside.judged(NUMBERS);
}

/// One of the four texts, its class, and how long it may be.
struct Text {
    longest: usize,
    first: fn(u8) -> bool,
    other: fn(u8) -> bool,
    /// What is asked of it besides.
    whole: fn(&[u8]) -> bool,
    put: fn(&mut Request, Vec<u8>),
    /// A byte that may stand anywhere in it, but perhaps first.
    filling: u8,
}

impl Text {
    /// A good one; of a path the first byte is a slash.
    fn filled(&self, length: usize) -> Vec<u8> {
        let mut text = vec![self.filling; length];
        if let Some(first) = text.first_mut().filter(|first| !(self.first)(**first)) {
            *first = b'/';
        }
        text
    }
}

/// From document 01's words on each, without the reader's classes.
const TEXTS_OF_A_REQUEST: [Text; 4] = [
    Text {
        longest: 16,
        first: |byte| UPPER.contains(&byte),
        other: |byte| UPPER.contains(&byte),
        whole: |_| true,
        put: |request, text| request.method = text,
        filling: b'M',
    },
    Text {
        longest: 1024,
        first: |byte| byte == b'/',
        other: |byte| (0x21..=0x7e).contains(&byte),
        whole: comes_through,
        put: |request, text| request.path = text,
        filling: b'p',
    },
    Text {
        longest: 64,
        first: |byte| NAME.contains(&byte),
        other: |byte| NAME.contains(&byte),
        whole: |_| true,
        put: |request, text| request.tenant = text,
        filling: b't',
    },
    Text {
        longest: 128,
        first: |byte| (0x21..=0x7e).contains(&byte),
        other: |byte| (0x21..=0x7e).contains(&byte),
        whole: |_| true,
        put: |request, text| request.audience = Some(text),
        filling: b'a',
    },
];

#[test]
fn texts_of_every_length() {
    let mut seeded = Seeded(146);
    let mut beside = Beside::default();
    for text in &TEXTS_OF_A_REQUEST {
        for length in (0..=1100).chain(LENGTHS) {
            for flags in [0, AUDIENCE, ALL] {
                let mut request = flagged(flags, &mut seeded);
                (text.put)(&mut request, text.filled(length));
                judge(&mut beside, &request.laid(), (1..=text.longest).contains(&length));
            }
        }
    }
    beside.judged(TEXTS);
}

#[test]
fn every_length_told_of_each_text() {
    let mut seeded = Seeded(147);
    let mut beside = Beside::default();
    for flags in [0, ALL] {
        let mut pieces = flagged(flags, &mut seeded).pieces();
        let texts = if flags == ALL { 4 } else { 3 };
        for text in 1..=texts {
            let at = pieces.len() - 2 * text;
            let (good, length) = (pieces[at].clone(), pieces[at + 1].len());
            for told in 0..=65_535u16 {
                pieces[at] = told.to_le_bytes().to_vec();
                judge(&mut beside, &pieces.concat(), usize::from(told) == length);
            }
            pieces[at] = good;
        }
    }
    beside.judged(TOLD);
}

#[test]
fn every_byte_in_each_text() {
    let mut seeded = Seeded(148);
    let mut beside = Beside::default();
    for text in &TEXTS_OF_A_REQUEST {
        for length in [1, 2, 3, 16, text.longest] {
            for at in [0, length / 2, length - 1] {
                for byte in 0..=255 {
                    let mut content = text.filled(length);
                    content[at] = byte;
                    let mut request = any(&mut seeded);
                    let good = (if at == 0 { text.first } else { text.other })(byte) && (text.whole)(&content);
                    (text.put)(&mut request, content);
                    judge(&mut beside, &request.laid(), good);
                }
            }
        }
    }
    beside.judged(CHARACTERS);
}

#[test]
fn every_byte_in_each_place_of_a_digest() {
    let mut seeded = Seeded(149);
    let mut beside = Beside::default();
    for flags in [DIGEST, ALL] {
        let good = flagged(flags, &mut seeded);
        for at in 0..64 {
            for byte in 0..=255 {
                let mut request = good.clone();
                request.digest.as_mut().unwrap()[at] = byte;
                judge(&mut beside, &request.laid(), HEX.contains(&byte));
            }
        }
        for length in (0..=130).filter(|&length| length != 64) {
            let request = Request { digest: Some(vec![b'0'; length]), ..good.clone() };
            refuse(&mut beside, &request.laid());
        }
    }
    beside.judged(DIGITS);
}

/// Every order of the numbers below `count`.
fn orders(count: usize) -> Vec<Vec<usize>> {
    let Some(last) = count.checked_sub(1) else { return vec![vec![]] };
    let shorter = orders(last);
    let longer = shorter.iter().flat_map(|order| {
        (0..=last).map(move |at| [&order[..at], &[last], &order[at..]].concat())
    });
    longer.collect()
}

#[test]
fn every_order_of_the_parts_and_of_the_texts() {
    let mut seeded = Seeded(150);
    let mut beside = Beside::default();
    for _ in 0..40 {
        let pieces = flagged(ALL, &mut seeded).pieces();
        // Of a request with all its parts: peer, digest and rate, and each text behind its length.
        let parts = [4..5, 5..6, 6..8].map(|part| pieces[part].concat());
        let texts = [8..10, 10..12, 12..14, 14..16].map(|text| pieces[text].concat());
        for order in orders(3) {
            let parts: Vec<u8> = order.iter().flat_map(|&at| parts[at].clone()).collect();
            for order in orders(4) {
                let texts: Vec<u8> = order.iter().flat_map(|&at| texts[at].clone()).collect();
                beside.request(&[pieces[..4].concat(), parts.clone(), texts].concat());
            }
        }
    }
    beside.judged(ORDERS);
}

#[test]
fn random_bytes_behind_a_good_front() {
    let mut seeded = Seeded(151);
    let mut beside = Beside::default();
    for _ in 0..30_000 {
        let length = seeded.below(60);
        let noise = seeded.bytes(length);
        beside.request(&noise);
        let request = any(&mut seeded);
        let bytes = request.laid();
        let front = &bytes[..seeded.below(bytes.len())];
        beside.request(&[front, &noise].concat());
        // Now and body size may be anything.
        take(&mut beside, &[&seeded.bytes(SKEW)[..], &bytes[SKEW..]].concat());
    }
    for length in [1000, 65_535, 65_536, 70_000] {
        let bytes = any(&mut seeded).laid();
        refuse(&mut beside, &[&bytes[..], &vec![0; length]].concat());
        refuse(&mut beside, &[bytes, seeded.bytes(length)].concat());
    }
    beside.judged(RANDOM);
}
