//! Narrow: the proved one beside the second program's, the whole room looked at. What a call is made for is
//! held to as well, so that a slip which both share shows too.

use checks::calls::{Calls, Narrow};
use checks::cases::{fitting, of_length, retagged, Case};
use checks::edits::{changes, cuts, spoiled};
use checks::faults::bad_text;
use checks::narrowing::{bad_caveat, call, child, custom_of, left, wrong, Wrong, BYTES, WRONGS};
use checks::tables;
use checks::tree::Node;
use checks::trees::{self, caveat_of, KINDS};
use checks::{damage, Seeded};
use second::{base64url, caveat};

/// Every number that narrow can answer with.
const ANSWERS: [u32; 14] = [0, 1, 3, 4, 5, 6, 7, 8, 31, 32, 33, 34, 35, 36];
/// The longest text.
const TEXT: usize = 5462;
/// One byte more than a token may have.
const OVER: usize = BYTES + 1;

/// How many calls each test from a seed compares at least.
const FAULTY: usize = 20_000;
const SETS: usize = 4096;
const PAIRS: usize = 1800;
const COUNTS: usize = 4000;
const CAVEATS: usize = 40_000;
const PARENTS: usize = 20_000;
const TABLES: usize = 7000;
const SPOILED: usize = 30_000;

/// All of these together.
const _: () = assert!(FAULTY + SETS + PAIRS + COUNTS + CAVEATS + PARENTS + TABLES + SPOILED >= 100_000);

#[test]
fn every_answer_is_given_by_what_is_wrong_first_whatever_else_is_wrong_behind_it() {
    let mut seeded = Seeded(200);
    let mut calls = Calls::default();
    for turn in 0..FAULTY {
        // With nothing wrong at all once in a while.
        let first = turn % (WRONGS.len() + 3);
        let behind = WRONGS.iter().skip(first + 1).filter(|_| seeded.below(3) == 0);
        let wrongs: Vec<Wrong> = WRONGS.iter().skip(first).take(1).chain(behind).copied().collect();
        let (asked, room, wanted) = wrong(&wrongs, &mut seeded);
        calls.expect(&asked, room, wanted);
    }
    calls.met(FAULTY, &ANSWERS, 200);
}

#[test]
fn every_set_of_things_wrong() {
    let mut seeded = Seeded(201);
    let mut calls = Calls::default();
    for turn in 0..SETS {
        let chosen = WRONGS.iter().enumerate().filter(|(at, _)| turn >> at & 1 == 1);
        let wrongs: Vec<Wrong> = chosen.map(|(_, &wrong)| wrong).collect();
        let (asked, room, wanted) = wrong(&wrongs, &mut seeded);
        calls.expect(&asked, room, wanted);
    }
    calls.met(SETS, &ANSWERS, 4);
}

#[test]
fn of_every_two_things_wrong_and_so_of_every_two_checks_that_follow_each_other_the_first_answers() {
    let mut seeded = Seeded(202);
    let mut calls = Calls::default();
    for (at, &first) in WRONGS.iter().enumerate() {
        for &second in &WRONGS[at + 1..] {
            for _ in 0..40 {
                let (asked, room, wanted) = wrong(&[first, second], &mut seeded);
                calls.expect(&asked, room, wanted);
            }
        }
    }
    calls.met(PAIRS, &ANSWERS[1..ANSWERS.len() - 1], 20);
}

#[test]
fn children_are_what_their_parts_lay_out_at_every_count() {
    let mut seeded = Seeded(203);
    let mut calls = Calls::default();
    let often = [22, 23, 24, 62, 63, 64].repeat(48);
    for (turn, count) in (0..=64).chain(often).chain(0..=64).enumerate() {
        let case = fitting(count, &mut seeded);
        for step in 0..2 {
            let added = trees::caveat((turn + 6 * step) % KINDS.len(), &mut seeded);
            let child = child(&case, &added);
            let asked = call(&case, &added);
            match (count, child.length()) {
                (64, _) => calls.expect(&asked, TEXT, 34),
                (_, OVER..) => calls.expect(&asked, 2 * TEXT, 35),
                _ => calls.hand_out(&asked, &child.laid().text, &mut seeded),
            }
        }
    }
    calls.met(COUNTS, &[0, 34, 36], 90);
}

/// A child of a length that is good or not, by the case and the caveat that it is made of.
fn sized(calls: &mut Calls, case: &Case, added: &Node, seeded: &mut Seeded) {
    let (child, asked) = (child(case, added), call(case, added));
    if child.length() > BYTES {
        for room in [0, TEXT - 1, TEXT, TEXT + 1, 2 * TEXT] {
            calls.expect(&asked, room, 35);
        }
    } else {
        calls.hand_out(&asked, &child.laid().text, seeded);
    }
}

#[test]
fn children_of_4096_bytes_and_about() {
    let mut seeded = Seeded(204);
    let mut calls = Calls::default();
    for count in [0, 1, 12, 21, 22, 23, 24, 25, 62, 63] {
        for _ in 0..4 {
            let case = fitting(count, &mut seeded);
            for length in left(&case) - 3..=left(&case) + 4 {
                let added = custom_of(length, &mut seeded);
                assert_eq!(child(&case, &added).length() + left(&case), BYTES + length);
                sized(&mut calls, &case, &added, &mut seeded);
            }
        }
    }
    calls.met(10 * 4 * 8 * 5, &[0, 35, 36], 300);
}

#[test]
fn parents_of_nearly_4096_bytes_and_caveats_of_every_kind() {
    let mut seeded = Seeded(205);
    let mut calls = Calls::default();
    for length in 4060..=BYTES {
        let case = of_length(length, &mut seeded);
        for kind in 0..KINDS.len() {
            let added = trees::caveat(kind, &mut seeded);
            sized(&mut calls, &case, &added, &mut seeded);
        }
        for short in ["exp", "nbf", "bytes_le"] {
            sized(&mut calls, &case, &caveat_of(short, Node::number(7)), &mut seeded);
        }
    }
    calls.met(37 * 15 * 5, &[0, 35, 36], 200);
}

#[test]
fn parents_of_nearly_4096_bytes_about_the_counts_at_which_something_changes() {
    let mut seeded = Seeded(212);
    let mut calls = Calls::default();
    let exp = caveat_of("exp", Node::number(7));
    assert_eq!(exp.laid().len(), 10);
    let counts = [22, 23, 24, 63, 64].into_iter();
    for (count, free) in counts.flat_map(|count| (0..=14).map(move |free| (count, free))) {
        // All but the last caveat, and then one that leaves so many bytes free.
        let front = fitting(count - 1, &mut seeded);
        let parent = child(&front, &custom_of(left(&front) - free, &mut seeded));
        assert_eq!((parent.caveats.len(), parent.length()), (count, BYTES - free));
        let taken = if count == 23 { 11 } else { 10 };
        match (count, free >= taken) {
            (64, _) => calls.expect(&call(&parent, &exp), TEXT, 34),
            (_, true) => calls.hand_out(&call(&parent, &exp), &child(&parent, &exp).laid().text, &mut seeded),
            _ => calls.expect(&call(&parent, &exp), [0, TEXT, 2 * TEXT][free % 3], 35),
        }
    }
    calls.met(4 * 5 * 5, &[0, 34, 35, 36], 15);
}

#[test]
fn long_caveats_are_too_long_for_the_token_and_never_for_the_hash() {
    let mut seeded = Seeded(206);
    let mut calls = Calls::default();
    for length in [4096, 8142, 8143, 8192, 8193, 60_000, 65_535, 65_536, 65_600, 200_000] {
        let zeros = Node::array(vec![Node::number(0); length]);
        let customs = [Node::bytes(&seeded.bytes(length)), Node::text(&vec![b'a'; length]), zeros];
        for value in customs {
            let added = caveat_of("custom", trees::custom(value, &mut seeded));
            for (count, wanted) in [(0, 35), (1, 35), (23, 35), (63, 35), (64, 34)] {
                let case = fitting(count, &mut seeded);
                calls.expect(&call(&case, &added), [0, TEXT, 4 * length][seeded.below(3)], wanted);
                let (bad, wanted) = bad_caveat(&added, &mut seeded);
                calls.expect(&Narrow { caveat: bad, ..call(&case, &added) }, TEXT, wanted);
            }
        }
        let long = || Node::text(&vec![b'1'; length]);
        for (t, wanted) in [("aud", 32), ("tenant", 32), ("path_prefix", 32), ("ip_cidr", 31), ("", 33)] {
            let case = fitting(seeded.below(65), &mut seeded);
            calls.expect(&call(&case, &caveat_of(t, long())), TEXT, wanted);
        }
    }
    calls.met(300, &[31, 32, 33, 34, 35], 20);
}

#[test]
fn damaged_caveats_of_every_kind() {
    let mut seeded = Seeded(207);
    let mut calls = Calls::default();
    while calls.compared() < CAVEATS {
        for (kind, t) in KINDS.iter().enumerate() {
            let case = fitting(seeded.below(3), &mut seeded);
            let added = match *t {
                "custom" => caveat_of(t, trees::custom(trees::value(1, &mut seeded), &mut seeded)),
                _ => trees::caveat(kind, &mut seeded),
            };
            let good = call(&case, &added);
            let mut ask = |bytes: &[u8]| {
                let handed = calls.call(&Narrow { caveat: bytes.to_vec(), ..good.clone() }, TEXT);
                let one = caveat::read(bytes, 0).is_ok_and(|read| read.next == bytes.len());
                assert_eq!(one, handed.is_ok() || handed == Err(35));
            };
            damage::each(&added, &mut ask);
            cuts(&good.caveat).for_each(&mut ask);
        }
    }
    calls.met(CAVEATS, &[0, 31, 32, 33, 35], 1);
    calls.reached(&[0, 31, 32, 33], 2000);
}

#[test]
fn damaged_parents_and_the_same_with_their_tag_made_right() {
    let mut seeded = Seeded(208);
    let mut calls = Calls::default();
    while calls.compared() < PARENTS {
        let case = fitting(seeded.below(3), &mut seeded);
        let good = call(&case, &trees::caveat(seeded.below(KINDS.len()), &mut seeded));
        let token = case.token();
        damage::each(&case.tree(&case.tag()), |edited| {
            let asked = Narrow { text: base64url::encode(edited), ..good.clone() };
            let handed = calls.call(&asked, TEXT);
            assert!(handed.is_err() || edited == token);
            if let Some(tagged) = retagged(edited, case.key()) {
                let _ = calls.call(&Narrow { text: base64url::encode(&tagged), ..asked }, TEXT);
            }
        });
    }
    calls.met(PARENTS, &[0, 4, 5, 6, 7, 8], 500);
}

#[test]
fn damaged_tables() {
    let mut seeded = Seeded(209);
    let mut calls = Calls::default();
    while calls.compared() < TABLES {
        let case = fitting(seeded.below(3), &mut seeded);
        let good = call(&case, &trees::caveat(seeded.below(KINDS.len()), &mut seeded));
        let mut ask = |table: &[u8]| {
            let _ = calls.call(&Narrow { table: table.to_vec(), ..good.clone() }, TEXT);
        };
        tables::each(&case.rows, &mut ask);
        changes(&good.table, &mut seeded, &mut ask);
        cuts(&good.table).for_each(&mut ask);
    }
    calls.met(TABLES, &[0, 1, 7, 8], 20);
}

#[test]
fn spoiled_texts_tags_and_caveats() {
    let mut seeded = Seeded(210);
    let mut calls = Calls::default();
    while calls.compared() < SPOILED {
        let case = fitting(seeded.below(6), &mut seeded);
        let good = call(&case, &trees::caveat(seeded.below(KINDS.len()), &mut seeded));
        let place = second::token::read(&case.token()).expect("a good token").tag.0;
        for _ in 0..8 {
            let mut tag = case.token();
            tag[place + seeded.below(32)] ^= 1 << seeded.below(8);
            calls.expect(&Narrow { text: base64url::encode(&tag), ..good.clone() }, TEXT, 8);
            calls.expect(&Narrow { text: bad_text(&good.text, &mut seeded), ..good.clone() }, TEXT, 3);
            let text = spoiled(&good.text, &mut seeded);
            let _ = calls.call(&Narrow { text, ..good.clone() }, TEXT);
            let caveat = spoiled(&good.caveat, &mut seeded);
            let _ = calls.call(&Narrow { caveat, ..good.clone() }, TEXT);
        }
    }
    calls.met(SPOILED, &[0, 3, 4, 5, 6, 7, 8, 31, 32, 33], 1);
}

#[test]
fn rooms_of_every_length() {
    let mut seeded = Seeded(211);
    let mut calls = Calls::default();
    for count in [0, 2, 22, 23, 24] {
        let case = fitting(count, &mut seeded);
        let added = caveat_of("exp", Node::number(1_767_225_600));
        let text = child(&case, &added).laid().text;
        for room in (0..text.len() + 70).chain([TEXT, 65_536, 1 << 20]) {
            calls.expect(&call(&case, &added), room, if room < text.len() { 36 } else { 0 });
        }
    }
    calls.met(2000, &[0, 36], 350);
}
