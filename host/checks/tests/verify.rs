//! Verify: the proved one beside the second program's. What a triple is made for is held to as well, so
//! that a slip which both share shows too.

use checks::cases::{fitting, fitting_for, of_length, retagged, Case, Triple};
use checks::edits::{changes, cuts, spoiled};
use checks::faults::{bad_text, faulty, Fault, FAULTS};
use checks::fitting::{failing, holding, NUMBERS};
use checks::requests::{self, flagged, Request};
use checks::tables::{self, Row};
use checks::tree::Node;
use checks::trees::{self, caveat_of, KINDS};
use checks::verdicts::Verdicts;
use checks::{damage, Seeded};
use second::base64url;
use second::request::Rate;

/// Flags of a request that has every part.
const ALL: u8 = 31;
/// The longest text.
const TEXT: usize = 5462;

/// How many triples each test from a seed compares at least.
const FAULTY: usize = 60_000;
const SUBSETS: usize = 16_384;
const NEAR: usize = 24_000;
const DAMAGED: usize = 60_000;
const TABLES: usize = 20_000;
const REQUESTS: usize = 20_000;
const CHANGED: usize = 20_000;
const SPOILED: usize = 20_000;

/// All of these together.
const _: () =
    assert!(FAULTY + SUBSETS + NEAR + DAMAGED + TABLES + REQUESTS + CHANGED + SPOILED >= 240_000);

#[test]
fn every_answer_is_given_by_its_own_fault_whatever_else_is_wrong_behind_it() {
    let mut seeded = Seeded(160);
    let mut verdicts = Verdicts::default();
    for turn in 0..FAULTY {
        // Without a fault at all once in a while.
        let first = turn % (FAULTS.len() + 3);
        let behind = FAULTS.iter().skip(first + 1).filter(|_| seeded.below(3) == 0);
        let faults: Vec<Fault> = FAULTS.iter().skip(first).take(1).chain(behind).copied().collect();
        let (triple, wanted) = faulty(&faults, &mut seeded);
        verdicts.expect(&triple, wanted);
    }
    verdicts.met(FAULTY, 0..=21, 100);
}

#[test]
fn every_subset_of_the_faults() {
    let mut seeded = Seeded(161);
    let mut verdicts = Verdicts::default();
    for turn in 0..SUBSETS {
        let chosen = FAULTS.iter().enumerate().filter(|(at, _)| turn >> at & 1 == 1);
        let faults: Vec<Fault> = chosen.map(|(_, &fault)| fault).collect();
        let (triple, wanted) = faulty(&faults, &mut seeded);
        verdicts.expect(&triple, wanted);
    }
    verdicts.met(SUBSETS, 0..=12, 4);
}

#[test]
fn every_two_faults_and_every_two_caveats_that_fail() {
    let mut seeded = Seeded(162);
    let mut verdicts = Verdicts::default();
    for (at, &first) in FAULTS.iter().enumerate() {
        for &second in &FAULTS[at + 1..] {
            for _ in 0..8 {
                let (triple, wanted) = faulty(&[first, second], &mut seeded);
                verdicts.expect(&triple, wanted);
            }
        }
    }
    for first in 0..KINDS.len() {
        for second in 0..KINDS.len() {
            // No parts and a time and a size that can be missed: every kind can fail.
            let request = Request { now: 1 << 40, body_size: 1 << 20, ..flagged(0, &mut seeded) };
            let mut case = fitting_for(request, 0, &mut seeded);
            case.caveats = [first, second].map(|kind| failing(kind, &case.request, &mut seeded).unwrap()).into();
            verdicts.expect(&case.laid(), NUMBERS[first]);
        }
    }
    verdicts.met(66 * 8 + 144, 1..=21, 10);
}

#[test]
fn each_kind_of_caveat_on_its_line() {
    let mut seeded = Seeded(163);
    let mut verdicts = Verdicts::default();
    for turn in 0..NEAR {
        let kind = turn % KINDS.len();
        let request = requests::any(&mut seeded);
        let mut case = fitting_for(request, [0, 0, 1, 2][seeded.below(4)], &mut seeded);
        let caveat = match seeded.below(2) {
            0 => holding(kind, &case.request, &mut seeded).map(|caveat| (caveat, 0)),
            _ => failing(kind, &case.request, &mut seeded).map(|caveat| (caveat, NUMBERS[kind])),
        };
        let Some((caveat, wanted)) = caveat else {
            // The request has no part for it, or is out of reach of any limit: then the rest decides.
            verdicts.expect(&case.laid(), 0);
            continue;
        };
        case.caveats.insert(seeded.below(case.caveats.len() + 1), caveat);
        verdicts.expect(&case.laid(), wanted);
    }
    verdicts.met(NEAR, [0].into_iter().chain(10..=21), 500);
}

#[test]
fn every_edit_of_every_node_of_a_token_and_the_same_with_its_tag_made_right() {
    let mut seeded = Seeded(164);
    let mut verdicts = Verdicts::default();
    for turn in 0..8 {
        let case = fitting(turn % 3, &mut seeded);
        let good = case.token();
        damage::each(&case.tree(&case.tag()), |edited| {
            let answer = verdicts.judge(&case.with_token(edited));
            assert!(answer != 0 || edited == good);
            if let Some(tagged) = retagged(edited, case.key()) {
                verdicts.judge(&case.with_token(&tagged));
            }
        });
    }
    verdicts.met(DAMAGED, [0].into_iter().chain(4..=8), 100);
}

#[test]
fn damaged_tables() {
    let mut seeded = Seeded(165);
    let mut verdicts = Verdicts::default();
    while verdicts.compared() < TABLES {
        let case = fitting(seeded.below(3), &mut seeded);
        let good = case.laid();
        let mut judge = |table: &[u8]| {
            verdicts.judge(&Triple { table: table.to_vec(), ..good.clone() });
        };
        tables::each(&case.rows, &mut judge);
        changes(&good.table, &mut seeded, &mut judge);
        cuts(&good.table).for_each(&mut judge);
    }
    verdicts.met(TABLES, [0, 1, 7, 8], 100);
}

#[test]
fn damaged_requests() {
    let mut seeded = Seeded(166);
    let mut verdicts = Verdicts::default();
    while verdicts.compared() < REQUESTS {
        let case = fitting(seeded.below(3), &mut seeded);
        let good = case.laid();
        let mut judge = |request: &[u8]| {
            verdicts.judge(&Triple { request: request.to_vec(), ..good.clone() });
        };
        requests::each(&case.request, &mut judge);
        changes(&good.request, &mut seeded, &mut judge);
        cuts(&good.request).for_each(&mut judge);
    }
    verdicts.met(REQUESTS, [0, 2, 9, 11, 12], 100);
}

/// A long case with a caveat of each of the eleven kinds that can hold.
fn long(seeded: &mut Seeded) -> Case {
    let case = of_length(1700, seeded);
    for t in &KINDS[..11] {
        assert!(case.caveats.iter().any(|caveat| caveat.items[1].content == t.as_bytes()), "{t}");
    }
    case
}

#[test]
fn each_byte_of_a_long_token_changed() {
    let mut seeded = Seeded(167);
    let (mut left, mut right) = (Verdicts::default(), Verdicts::default());
    for _ in 0..2 {
        let case = long(&mut seeded);
        let good = case.token();
        left.expect(&case.laid(), 0);
        let masks = |at| [1, 2, 4, 8, 0x10, 0x20, 0x40, 0x80, 0xff].map(|mask| (at, mask));
        for (at, mask) in (0..good.len()).flat_map(masks) {
            let mut changed = good.clone();
            changed[at] ^= mask;
            let answer = left.judge(&case.with_token(&changed));
            assert_ne!(answer, 0, "byte {at} by {mask:02x}");
            if let Some(tagged) = retagged(&changed, case.key()) {
                right.judge(&case.with_token(&tagged));
            }
        }
    }
    left.met(CHANGED, [4, 5, 6, 7, 8], 100);
    right.met(10_000, [0, 7].into_iter().chain(10..=20), 1);
}

#[test]
fn each_character_of_a_long_text_changed() {
    let mut seeded = Seeded(168);
    let mut verdicts = Verdicts::default();
    let case = long(&mut seeded);
    let triple = case.laid();
    changes(&triple.text, &mut seeded, |text| {
        assert_ne!(verdicts.judge(&case.with_text(text.to_vec())), 0);
    });
    for at in 0..triple.text.len() {
        let mut text = triple.text.clone();
        let letter = b"ABCDEFGHIJKLMNOPQRSTUVWXYZabcdefghijklmnopqrstuvwxyz0123456789-_"[seeded.below(64)];
        let same = std::mem::replace(&mut text[at], letter) == letter;
        assert_eq!(verdicts.judge(&case.with_text(text)) == 0, same, "character {at}");
    }
    for cut in cuts(&triple.text) {
        assert_ne!(verdicts.judge(&case.with_text(cut.to_vec())), 0);
    }
    verdicts.met(10_000, [3, 4, 8], 100);
}

#[test]
fn spoiled_tokens_and_texts() {
    let mut seeded = Seeded(169);
    let mut verdicts = Verdicts::default();
    while verdicts.compared() < SPOILED {
        let case = fitting(seeded.below(6), &mut seeded);
        let token = case.token();
        for _ in 0..8 {
            let bytes = spoiled(&token, &mut seeded);
            verdicts.judge(&case.with_token(&bytes));
            if let Some(tagged) = retagged(&bytes, case.key()) {
                verdicts.judge(&case.with_token(&tagged));
            }
            let text = base64url::encode(&token);
            verdicts.judge(&case.with_text(spoiled(&text, &mut seeded)));
            verdicts.expect(&case.with_text(bad_text(&text, &mut seeded)), 3);
        }
    }
    verdicts.met(SPOILED, [0, 3, 4, 6, 7, 8], 100);
}

#[test]
fn texts_about_the_longest() {
    let mut seeded = Seeded(170);
    let mut verdicts = Verdicts::default();
    for (bytes, characters) in [(4094, 5459), (4095, 5460), (4096, 5462), (4097, 5463), (4098, 5464)] {
        let case = of_length(bytes, &mut seeded);
        let text = case.laid().text;
        assert_eq!(text.len(), characters);
        verdicts.expect(&case.laid(), if characters <= TEXT { 0 } else { 5 });
        let mut wrong = case.tag();
        wrong[31] ^= 1;
        verdicts.expect(&case.with_token(&case.tree(&wrong).laid()), if characters <= TEXT { 8 } else { 5 });
    }
    let case = fitting(1, &mut seeded);
    for length in [TEXT - 2, TEXT - 1, TEXT, TEXT + 1, TEXT + 2, 6000, 8192, 65_535, 65_536, 65_540, 1 << 20] {
        for byte in *b"A=_\0\xff" {
            // No length of 4k + 1 reads; the last letter's unused bits are zero in an A alone.
            let reads = byte == b'A' && length % 4 != 1 || byte == b'_' && length % 4 == 0;
            let wanted = if length > TEXT { 5 } else if reads { 4 } else { 3 };
            verdicts.expect(&case.with_text(vec![byte; length]), wanted);
        }
    }
    verdicts.met(65, [0, 3, 4, 5, 8], 1);
}

#[test]
fn ids_parted_elsewhere_under_one_key_share_their_tags() {
    let mut seeded = Seeded(171);
    let mut verdicts = Verdicts::default();
    let mut case = fitting_for(flagged(0, &mut seeded), 0, &mut seeded);
    let rows = [(&b"a"[..], &b"bc"[..]), (b"ab", b"c")];
    case.rows = rows.map(|(tid, kid)| Row { tid: tid.to_vec(), kid: kid.to_vec(), key: vec![7; 32] }).into();
    case.row = case.rows[0].clone();
    case.request.tenant = b"a".to_vec();
    verdicts.expect(&case.laid(), 0);
    let tag = case.tag();
    case.row = case.rows[1].clone();
    assert_eq!(case.tag(), tag);
    verdicts.expect(&case.laid(), 9);
    case.request.tenant = b"ab".to_vec();
    verdicts.expect(&case.laid(), 0);
    // Under keys of their own they do not.
    case.rows[1].key[31] ^= 1;
    verdicts.expect(&case.laid(), 8);
    case.rows.truncate(1);
    verdicts.expect(&case.laid(), 7);
}

#[test]
fn every_count_of_caveats_with_one_that_fails_in_every_place() {
    let mut seeded = Seeded(172);
    let mut verdicts = Verdicts::default();
    for count in (0..=66).chain([255, 256]) {
        let request = Request { now: 1 << 40, body_size: 1 << 20, ..flagged(ALL, &mut seeded) };
        let mut case = fitting_for(request, 0, &mut seeded);
        case.caveats = vec![caveat_of("bytes_le", Node::number(1 << 20)); count];
        verdicts.expect(&case.laid(), if count <= 64 { 0 } else { 5 });
        for at in 0..count {
            let good = std::mem::replace(&mut case.caveats[at], caveat_of("exp", Node::number(0)));
            verdicts.expect(&case.laid(), if count <= 64 { 13 } else { 5 });
            case.caveats[at] = good;
        }
    }
    verdicts.met(2700, [0, 5, 13], 65);
}

#[test]
fn addresses_of_every_size_and_peers_about_their_ends() {
    let mut seeded = Seeded(173);
    let mut verdicts = Verdicts::default();
    for size in 0..=32 {
        for _ in 0..6 {
            let hosts = (1u64 << (32 - size)) - 1;
            let first = seeded.next() as u32 & !(hosts as u32);
            let last = first | hosts as u32;
            let [a, b, c, d] = first.to_be_bytes();
            let text = format!("{a}.{b}.{c}.{d}/{size}");
            let ends = [first, last, first.wrapping_sub(1), last.wrapping_add(1), seeded.next() as u32];
            for peer in ends.map(Some).into_iter().chain([None]) {
                let inside = peer.is_some_and(|peer| (first..=last).contains(&peer));
                let mut case = fitting_for(flagged(ALL, &mut seeded), 0, &mut seeded);
                case.request.peer = peer.map(u32::to_be_bytes);
                case.caveats = vec![caveat_of("ip_cidr", Node::text(text.as_bytes()))];
                verdicts.expect(&case.laid(), if inside { 0 } else { 16 });
            }
        }
    }
    verdicts.met(33 * 36, [0, 16], 400);
}

#[test]
fn rates_in_every_order() {
    let mut seeded = Seeded(174);
    let mut verdicts = Verdicts::default();
    const NUMBERS: [u32; 6] = [0, 1, 65_535, 65_536, u32::MAX - 1, u32::MAX];
    let two = || NUMBERS.into_iter().flat_map(|x| NUMBERS.map(|y| (x, y)));
    let mut case = fitting_for(flagged(ALL, &mut seeded), 0, &mut seeded);
    for (per_s, burst) in two() {
        for (least, burst_least) in two() {
            case.request.rate = Some(Rate { per_s: least, burst: burst_least });
            case.caveats = vec![caveat_of("rate", trees::rate(burst.into(), per_s.into()))];
            let within = least <= per_s && burst_least <= burst;
            verdicts.expect(&case.laid(), if within { 0 } else { 17 });
        }
        case.request.rate = None;
        verdicts.expect(&case.laid(), 17);
    }
    verdicts.met(36 * 37, [0, 17], 400);
}
