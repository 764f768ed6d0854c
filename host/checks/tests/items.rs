//! CBOR heads, strings and custom values: the proved readers beside the second program's.

use checks::beside::Beside;
use checks::edits::{changes, cuts, embedded, places, spoiled};
use checks::inputs::{self, BAD_UTF8, EDGES, REFUSED};
use checks::Seeded;

const NO_LIMIT: u64 = u64::MAX;
/// The fifth class and all above it are one.
const CLASSES: [u32; 7] = [0, 1, 2, 3, 4, 5, u32::MAX];
/// Bytes about which a range of UTF-8 begins or ends.
const BOUNDS: [u8; 14] = [0, 0x41, 0x7f, 0x80, 0x8f, 0x90, 0x9f, 0xa0, 0xbf, 0xc0, 0xc2, 0xed, 0xf4, 0xff];

/// What each test compares at least, and how much of that both sides take.
const SHORT_ITEMS: (usize, usize) = (262_656, 129_000);
const HEADS: (usize, usize) = (389_000, 276_000);
const PLACES: (usize, usize) = (125_000, 24_000);
const RANGES: (usize, usize) = (48_300, 5700);
const RUNS: (usize, usize) = (258_000, 157_000);
const CONTENTS: (usize, usize) = (55_615, 9200);
const STRINGS: (usize, usize) = (183_000, 21_000);
const VALUES: (usize, usize) = (484_000, 271_000);
const NESTED: (usize, usize) = (59_328, 4700);
const COUNTS: (usize, usize) = (60_000, 19_000);
const UTF8: (usize, usize) = (512_000, 91_000);
const REFUSALS: (usize, usize) = (40_000, 390);
const RANDOM: (usize, usize) = (300_000, 57_000);
const LONG: (usize, usize) = (288, 64);

/// The inputs from a seed together; what is gone through exhaustively comes on top.
const _: () = assert!(
    HEADS.0 + PLACES.0 + RANGES.0 + RUNS.0 + STRINGS.0 + VALUES.0 + NESTED.0 + COUNTS.0 + REFUSALS.0 + RANDOM.0
        >= 1_900_000
);

#[test]
fn every_item_of_one_and_two_bytes() {
    let mut beside = Beside::default();
    for first in 0..=255 {
        beside.head(&[first], 0);
        beside.value(&[first], 0, 1);
        for second in 0..=255 {
            beside.head(&[first, second], 0);
            beside.head(&[first, second], 1);
            beside.value(&[first, second], 0, 0);
            beside.value(&[first, second], 0, 2);
        }
    }
    beside.reached(SHORT_ITEMS);
}

#[test]
fn heads_of_every_width_cut_and_changed() {
    let mut seeded = Seeded(40);
    let mut beside = Beside::default();
    for turn in 0..400 {
        let (major, number) = (turn as u8 % 8, inputs::number(&mut seeded));
        let mut heads = vec![inputs::head(major, number)];
        heads.extend([1, 2, 4, 8].map(|width| inputs::wide_head(major, number, width)));
        for head in heads {
            let (all, at) = embedded(&head, &mut seeded);
            beside.head(&all, at);
            beside.head(&head, 0);
            for cut in cuts(&head) {
                beside.head(cut, 0);
            }
            if turn < 64 {
                changes(&head, &mut seeded, |changed| beside.head(changed, 0));
            }
        }
    }
    beside.reached(HEADS);
}

#[test]
fn every_reader_at_places_inside_and_past_the_end() {
    let mut seeded = Seeded(41);
    let mut beside = Beside::default();
    for _ in 0..600 {
        let s = [inputs::value(&mut seeded, 2), inputs::value(&mut seeded, 1)].concat();
        for at in places(s.len()) {
            beside.head(&s, at);
            beside.run(&s, at, 2, 0, NO_LIMIT);
            beside.string(&s, at, 1, 0, 64);
            beside.value(&s, at, 4);
        }
    }
    for at in places(0) {
        beside.head(&[], at);
        beside.value(&[], at, 0);
    }
    beside.reached(PLACES);
}

#[test]
fn ranges_about_the_length_of_a_run() {
    let mut seeded = Seeded(42);
    let mut beside = Beside::default();
    let lengths: Vec<u64> = (0..=300).chain([65_535, 65_536, 65_537]).chain(EDGES).collect();
    for &length in &lengths {
        let content = seeded.bytes(length.min(70_000) as usize);
        for major in [2, 3] {
            let whole = [inputs::head(major, length), content.clone()].concat();
            let head_alone = inputs::head(major, length);
            let near = [0, length.saturating_sub(1), length, length.saturating_add(1), NO_LIMIT];
            for (low, high) in near.iter().flat_map(|&low| near.map(|high| (low, high))) {
                beside.run(&whole, 0, major, low, high);
                beside.run(&head_alone, 0, major, low, high);
                beside.run(&whole[..whole.len() - 1], 0, major, low, high);
            }
        }
    }
    beside.reached(RANGES);
}

#[test]
fn runs_of_each_major_type_cut_and_changed() {
    let mut seeded = Seeded(43);
    let mut beside = Beside::default();
    for turn in 0..600 {
        let major = turn as u8 % 8;
        let length = if turn < 300 { seeded.below(22) } else { seeded.below(300) };
        let run = inputs::string(major, &seeded.bytes(length));
        for asked in (0..=9).chain([128, 255]) {
            beside.run(&run, 0, asked, 0, NO_LIMIT);
        }
        for cut in cuts(&run) {
            beside.run(cut, 0, major, 1, 64);
        }
        let (all, at) = embedded(&run, &mut seeded);
        beside.run(&all, at, major, 0, 300);
        if turn % 5 == 0 {
            changes(&run, &mut seeded, |changed| beside.run(changed, 0, major, 0, 64));
        }
    }
    beside.reached(RUNS);
}

/// Good content of a class; for a path of no bytes there is none.
fn content(class: u32, length: usize) -> Vec<u8> {
    let mut bytes = vec![if class == 3 { b'G' } else { b'a' }; length];
    if let (2, Some(first)) = (class, bytes.first_mut()) {
        *first = b'/';
    }
    bytes
}

#[test]
fn every_byte_in_content_of_each_class() {
    let mut beside = Beside::default();
    for class in CLASSES {
        for length in [0, 1, 2, 3, 16, 23, 24, 64, 256] {
            let good = content(class, length);
            beside.string(&inputs::string(3, &good), 0, class, 0, 256);
            for at in [0, 1, length / 2, length.saturating_sub(1)].into_iter().filter(|&at| at < length) {
                for byte in 0..=255 {
                    let mut other = good.clone();
                    other[at] = byte;
                    beside.string(&inputs::string(3, &other), 0, class, 1, 256);
                }
            }
        }
    }
    beside.reached(CONTENTS);
}

#[test]
fn strings_of_each_class_cut_and_changed() {
    let mut seeded = Seeded(44);
    let mut beside = Beside::default();
    for turn in 0..700 {
        let class = CLASSES[turn % 7];
        let length = if turn < 200 { turn % 20 } else { seeded.below(280) };
        let string = inputs::string(3, &content(class, length));
        for (low, high) in [(0, NO_LIMIT), (1, 16), (1, 64), (1, 128), (1, 256), (64, 64), (9, 3)] {
            beside.string(&string, 0, class, low, high);
        }
        for cut in cuts(&string) {
            beside.string(cut, 0, class, 1, 256);
        }
        let (all, at) = embedded(&string, &mut seeded);
        beside.string(&all, at, class, 0, 256);
        if turn % 8 == 0 {
            changes(&string, &mut seeded, |changed| beside.string(changed, 0, class, 0, 300));
        }
    }
    beside.reached(STRINGS);
}

#[test]
fn values_cut_and_changed() {
    let mut seeded = Seeded(45);
    let mut beside = Beside::default();
    for turn in 0..1500 {
        let levels = seeded.below(7);
        let value = inputs::value(&mut seeded, levels);
        let (all, at) = embedded(&value, &mut seeded);
        for depth in 0..=5 {
            beside.value(&value, 0, depth);
            beside.value(&all, at, depth);
        }
        if value.len() <= 400 {
            for cut in cuts(&value) {
                beside.value(cut, 0, 4);
            }
        }
        if turn % 5 == 0 {
            changes(&value, &mut seeded, |changed| beside.value(changed, 0, 4));
        }
        for _ in 0..20 {
            beside.value(&spoiled(&value, &mut seeded), 0, 4);
        }
    }
    beside.reached(VALUES);
}

#[test]
fn arrays_in_arrays_about_the_limit() {
    let mut seeded = Seeded(46);
    let mut beside = Beside::default();
    let mut inner: Vec<Vec<u8>> = REFUSED.iter().map(|item| item.to_vec()).collect();
    inner.extend((0..40).map(|_| inputs::value(&mut seeded, 0)));
    inner.extend(EDGES.map(|count| inputs::head(4, count)));
    for levels in 0..=8 {
        for (item, count) in inner.iter().flat_map(|item| [1, 2, 24, NO_LIMIT].map(|count| (item, count))) {
            let nested = inputs::nested(levels, count, item);
            let twice = [&[0x82][..], &nested, &nested].concat();
            for depth in (0..=5).chain([8, 255]) {
                beside.value(&nested, 0, depth);
                beside.value(&twice, 0, depth);
            }
        }
    }
    beside.reached(NESTED);
}

#[test]
fn counts_that_the_elements_do_not_meet() {
    let mut seeded = Seeded(47);
    let mut beside = Beside::default();
    for turn in 0..6000 {
        let held = seeded.below(30);
        let elements: Vec<_> = (0..held).map(|_| inputs::value(&mut seeded, turn % 3)).collect();
        let near = [held.saturating_sub(1) as u64, held as u64, held as u64 + 1];
        for count in near.into_iter().chain([inputs::number(&mut seeded), NO_LIMIT]) {
            let array = [inputs::head(4, count), elements.concat()].concat();
            beside.value(&array, 0, 4);
            beside.value(&[&[0x81], &array[..]].concat(), 0, turn as u8 % 6);
        }
    }
    beside.reached(COUNTS);
}

/// The text alone, in an array, and with good characters around it.
fn text_everywhere(beside: &mut Beside, content: &[u8]) {
    beside.value(&inputs::string(3, content), 0, 0);
    let between = [b"a\xc3\xa9", content, b"z"].concat();
    beside.value(&[vec![0x82, 0x00], inputs::string(3, &between)].concat(), 0, 1);
}

#[test]
fn text_about_the_edges_of_utf8() {
    let mut seeded = Seeded(48);
    let mut beside = Beside::default();
    for bad in BAD_UTF8 {
        text_everywhere(&mut beside, bad);
        for cut in cuts(bad) {
            text_everywhere(&mut beside, cut);
        }
    }
    for lead in 0..=255 {
        for second in 0..=255 {
            text_everywhere(&mut beside, &[lead, second]);
        }
        for (second, third) in BOUNDS.iter().flat_map(|&second| BOUNDS.map(|third| (second, third))) {
            text_everywhere(&mut beside, &[lead, second, third]);
            text_everywhere(&mut beside, &[lead, second, third, 0x80]);
            text_everywhere(&mut beside, &[lead, second, 0xbf, third]);
        }
    }
    for _ in 0..20_000 {
        let text = inputs::utf8(&mut seeded);
        text_everywhere(&mut beside, &text);
        text_everywhere(&mut beside, &spoiled(&text, &mut seeded));
    }
    beside.reached(UTF8);
}

#[test]
fn what_is_refused_inside_what_is_not() {
    let mut seeded = Seeded(49);
    let mut beside = Beside::default();
    for turn in 0..20_000 {
        let held = seeded.below(6);
        let mut elements: Vec<_> = (0..held).map(|_| inputs::value(&mut seeded, 2)).collect();
        elements.insert(seeded.below(held + 1), REFUSED[turn % REFUSED.len()].to_vec());
        let array = inputs::array(&elements);
        beside.value(&array, 0, 4);
        let levels = seeded.below(5);
        beside.value(&inputs::nested(levels, 1, &array), 0, 4);
    }
    beside.reached(REFUSALS);
}

#[test]
fn random_bytes() {
    let mut seeded = Seeded(50);
    let mut beside = Beside::default();
    for turn in 0..60_000 {
        let length = seeded.below(40);
        let s = seeded.bytes(length);
        let at = seeded.below(length + 2);
        let (low, high) = (seeded.below(4) as u64, inputs::number(&mut seeded));
        beside.head(&s, at);
        beside.run(&s, at, 2 + turn as u8 % 2, low, high);
        beside.string(&s, at, turn % 5, low, high);
        beside.value(&s, at, turn as u8 % 6);
        // An array head in front, so that many items of the noise are read.
        beside.value(&[&[0x98, 200], &s[..]].concat(), 0, 4);
    }
    beside.reached(RANDOM);
}

#[test]
fn long_strings_and_arrays() {
    let mut seeded = Seeded(51);
    let mut beside = Beside::default();
    for length in [255, 256, 4095, 4096, 60_000, 65_535, 65_536, 70_000] {
        let strings = [inputs::string(2, &seeded.bytes(length)), inputs::string(3, &b"/p".repeat(length)[..length])];
        let flat = [inputs::head(4, length as u64), vec![0xf6; length]].concat();
        let empties = [inputs::head(4, length as u64), vec![0x80; length]].concat();
        for item in strings.iter().chain([&flat, &empties]) {
            for end in [item.len(), item.len() - 1, item.len() / 2] {
                beside.value(&item[..end], 0, 4);
                beside.value(&item[..end], 0, 1);
                beside.string(&item[..end], 0, 2, 1, NO_LIMIT);
            }
        }
    }
    beside.reached(LONG);
}
