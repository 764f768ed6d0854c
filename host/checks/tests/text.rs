//! Base64URL: the proved decoder and encoder beside the second program's.

use checks::beside::Beside;
use checks::edits::{changes, cuts, spoiled};
use checks::Seeded;

const LETTERS: &[u8; 64] = b"ABCDEFGHIJKLMNOPQRSTUVWXYZabcdefghijklmnopqrstuvwxyz0123456789-_";
/// The longest token's bytes and characters.
const TOKEN: usize = 4096;
const TOKEN_TEXT: usize = 5462;

/// What each test compares at least, and how much of that both sides take.
const LENGTHS: (usize, usize) = (14_448, 9600);
const LETTER_TEXTS: (usize, usize) = (24_080, 7800);
const SHORT_TEXTS: (usize, usize) = (327_936, 65_792);
const POSITIONS: (usize, usize) = (36_864, 2700);
const CHANGED: (usize, usize) = (247_000, 60_000);
const SPOILED: (usize, usize) = (90_000, 8600);
const LONG: (usize, usize) = (258, 70);
const SMALL_ROOMS: (usize, usize) = (3690, 530);

/// The inputs from a seed together; what is gone through exhaustively comes on top.
const _: () = assert!(LENGTHS.0 + LETTER_TEXTS.0 + POSITIONS.0 + CHANGED.0 + SPOILED.0 + SMALL_ROOMS.0 >= 400_000);

fn letters(seeded: &mut Seeded, count: usize) -> Vec<u8> {
    (0..count).map(|_| LETTERS[seeded.below(64)]).collect()
}

/// Rooms for a result of `length`: just enough, one short, none, more by a little and by much.
fn rooms(length: usize) -> [usize; 6] {
    [length, length.saturating_sub(1), 0, length + 1, length + 7, 2 * length + 64]
}

/// Both ways, in rooms of every kind.
fn there_and_back(beside: &mut Beside, bytes: &[u8]) {
    let text = second::base64url::encode(bytes);
    for room in rooms(text.len()) {
        beside.encode(bytes, room);
    }
    for room in rooms(bytes.len()) {
        beside.decode(&text, room);
    }
}

#[test]
fn bytes_of_every_length_to_300() {
    let mut seeded = Seeded(20);
    let mut beside = Beside::default();
    for length in 0..=300 {
        for bytes in [vec![0; length], vec![255; length], seeded.bytes(length), seeded.bytes(length)] {
            there_and_back(&mut beside, &bytes);
        }
    }
    beside.reached(LENGTHS);
}

#[test]
fn letters_of_every_length_to_300() {
    let mut seeded = Seeded(21);
    let mut beside = Beside::default();
    for length in 0..=300 {
        for _ in 0..40 {
            let text = letters(&mut seeded, length);
            beside.decode(&text, length);
            beside.decode(&text, length + 9);
        }
    }
    beside.reached(LETTER_TEXTS);
}

#[test]
fn every_text_of_one_and_two_bytes_and_every_ending_of_three() {
    let mut beside = Beside::default();
    for first in 0..=255 {
        beside.decode(&[first], 4);
        for second in 0..=255 {
            beside.decode(&[first, second], 4);
        }
    }
    for last in 0..64 * 64 * 64 {
        let text = [LETTERS[last >> 12], LETTERS[last >> 6 & 63], LETTERS[last & 63]];
        beside.decode(&text, 4);
    }
    beside.reached(SHORT_TEXTS);
}

#[test]
fn every_byte_at_many_positions() {
    let mut seeded = Seeded(22);
    let mut beside = Beside::default();
    for length in [1, 2, 3, 4, 5, 6, 7, 8, 63, 64, 65, 66, 67, 298, 299, 300] {
        let good = letters(&mut seeded, length);
        for at in [0, 1, 2, 3, 4, 5, length / 2, length - 2.min(length), length - 1] {
            let mut text = good.clone();
            for byte in 0..=255 {
                text[at.min(length - 1)] = byte;
                beside.decode(&text, length);
            }
        }
    }
    beside.reached(POSITIONS);
}

#[test]
fn good_texts_cut_and_changed_at_every_byte() {
    let mut seeded = Seeded(23);
    let mut beside = Beside::default();
    for turn in 0..200 {
        let length = if turn < 40 { turn % 20 } else { seeded.below(200) };
        let text = second::base64url::encode(&seeded.bytes(length));
        for cut in cuts(&text) {
            beside.decode(cut, text.len());
        }
        changes(&text, &mut seeded, |changed| beside.decode(changed, text.len()));
    }
    beside.reached(CHANGED);
}

#[test]
fn spoiled_texts_and_random_bytes() {
    let mut seeded = Seeded(24);
    let mut beside = Beside::default();
    for _ in 0..30_000 {
        let length = seeded.below(60);
        let text = letters(&mut seeded, length);
        let spoiled = spoiled(&text, &mut seeded);
        beside.decode(&spoiled, spoiled.len());
        // Two faults in one text: only the first counts.
        let twice = [spoiled, text].concat();
        beside.decode(&twice, twice.len());
        let bytes = seeded.bytes(length % 9);
        beside.decode(&bytes, bytes.len());
    }
    beside.reached(SPOILED);
}

#[test]
fn texts_about_the_longest_token_and_past_it() {
    let mut seeded = Seeded(25);
    let mut beside = Beside::default();
    for length in [TOKEN - 2, TOKEN - 1, TOKEN, TOKEN + 1, TOKEN + 2, 49_151, 49_152, 70_000] {
        let bytes = seeded.bytes(length);
        there_and_back(&mut beside, &bytes);
    }
    for length in (TOKEN_TEXT - 6..TOKEN_TEXT + 6).chain(65_530..65_545) {
        let mut text = letters(&mut seeded, length);
        beside.decode(&text, length);
        for at in [0, 4095, 4096, length - 2, length - 1] {
            let good = std::mem::replace(&mut text[at], b'=');
            beside.decode(&text, length);
            text[at] = good;
        }
    }
    beside.reached(LONG);
}

#[test]
fn a_small_room_is_never_touched() {
    let mut seeded = Seeded(26);
    let mut beside = Beside::default();
    for length in 0..=40 {
        let bytes = seeded.bytes(length);
        let text = second::base64url::encode(&bytes);
        let bad = [&text[..], b"=A"].concat();
        for room in 0..=text.len() + 2 {
            beside.encode(&bytes, room);
            beside.decode(&text, room);
            beside.decode(&bad, room);
        }
    }
    beside.reached(SMALL_ROOMS);
}
