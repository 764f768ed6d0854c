//! Tokens: the proved reader and writer beside the second program's. What is made good or bad on
//! purpose is held to that as well, so that a slip which both readers share shows too.

use checks::beside::{Beside, Counts};
use checks::edits::{changes, cuts, spoiled};
use checks::inputs::{self, EDGES, REFUSED};
use checks::tree::Node;
use checks::trees::{self, token_of, KINDS};
use checks::{damage, strings, Seeded};
use second::cbor::Defect;
use second::token::{read, write, Fields};

const KEYS: [&str; 6] = ["c", "r", "s", "v", "kid", "tid"];
/// Where a token's nodes stand if it has no caveats and its scope no key but methods, of which none.
const TAG: usize = 8;
const V: usize = 10;
const KID: usize = 12;
const TID: usize = 14;

/// What each test meets at least.
const GOOD: Counts = (16_000, 8000, [8000, 0, 0]);
const DAMAGED: Counts = (703_000, 40_000, [410_000, 70_000, 170_000]);
const EDITED: Counts = (251_000, 40_000, [160_000, 530, 45_000]);
const ORDERS: Counts = (117_992, 2, [98_102, 0, 19_888]);
const COUNTS: Counts = (6300, 130, [4800, 1200, 0]);
const EDITIONS: Counts = (6900, 80, [2300, 0, 4400]);
const STRINGS: Counts = (4428, 129, [3079, 1220, 0]);
const PARTS: Counts = (103_000, 6300, [51_000, 3500, 41_000]);
const WRITTEN: Counts = (12_000, 5900, [0, 3, 0]);
const ROOMS: Counts = (15_001, 6429, [0, 0, 0]);
const LARGE: Counts = (128_000, 6600, [72_000, 8500, 40_000]);
const RANDOM: Counts = (121_000, 1000, [91_000, 90, 28_000]);

/// The inputs from a seed together; what is gone through exhaustively comes on top.
const _: () = assert!(GOOD.0 + DAMAGED.0 + EDITED.0 + COUNTS.0 + PARTS.0 + LARGE.0 + RANDOM.0 >= 1_320_000);

fn take(beside: &mut Beside, token: &[u8]) {
    assert!(read(token).is_ok(), "{}", inputs::hex(token));
    beside.token(token);
}

fn refuse(beside: &mut Beside, token: &[u8], number: u32, place: usize) {
    assert_eq!(read(token), Err(Defect { number, place }), "{}", inputs::hex(token));
    beside.token(token);
}

/// A token without caveats and with the shortest scope.
fn bare() -> Node {
    let scope = Node::map(vec![("methods", Node::array(vec![]))]);
    token_of(vec![], scope, &mut Seeded(1))
}

/// Where the node that `index` others stand before begins.
fn place(tree: &Node, index: usize) -> usize {
    let head = tree.clone().node(index).head.len();
    tree.laid_to(index).len() - head
}

fn some(seeded: &mut Seeded) -> Node {
    let count = [0, 1, 2, 3, 4, 5, 12, 23, 24, 64][seeded.below(10)];
    trees::token(count, seeded)
}

#[test]
fn good_ones_and_bytes_left_over() {
    let mut seeded = Seeded(100);
    let mut beside = Beside::default();
    for _ in 0..8000 {
        let mut token = some(&mut seeded).laid();
        take(&mut beside, &token);
        let end = token.len();
        let more = 1 + seeded.below(4);
        token.extend(seeded.bytes(more));
        refuse(&mut beside, &token, 4, end);
    }
    beside.met(GOOD);
}

#[test]
fn every_edit_of_every_node() {
    let mut seeded = Seeded(101);
    let mut beside = Beside::default();
    for turn in 0..80 {
        let token = trees::token([0, 1, 2, 3][turn % 4], &mut seeded);
        damage::each(&token, |edited| beside.token(edited));
    }
    beside.met(DAMAGED);
}

#[test]
fn cut_at_every_byte_and_each_byte_changed() {
    let mut seeded = Seeded(102);
    let mut beside = Beside::default();
    for turn in 0..200 {
        let token = trees::token(turn % 8, &mut seeded).laid();
        for cut in cuts(&token) {
            assert!(read(cut).is_err());
            beside.token(cut);
        }
        changes(&token, &mut seeded, |changed| beside.token(changed));
        for _ in 0..100 {
            beside.token(&spoiled(&token, &mut seeded));
        }
    }
    beside.met(EDITED);
}

/// A map of these keys with the values of a good token.
fn of_keys(token: &Node, keys: &[&str]) -> Node {
    let entry = |&key: &&str| {
        let known = KEYS.iter().position(|&name| name == key);
        let value = known.map_or(Node::number(0), |known| token.items[2 * known + 1].clone());
        [Node::text(key.as_bytes()), value]
    };
    token.holding(keys.iter().flat_map(entry).collect())
}

#[test]
fn every_order_of_the_six_keys() {
    const NAMES: [&str; 7] = ["c", "r", "s", "v", "kid", "tid", "x"];
    let mut beside = Beside::default();
    let token = bare();
    for order in 0..7usize.pow(6) {
        let keys: Vec<&str> = (0..6).map(|place| NAMES[order / 7usize.pow(place) % 7]).collect();
        let bytes = of_keys(&token, &keys).laid();
        let first_wrong = (0..6).find(|&at| keys[at] != KEYS[at]);
        match first_wrong {
            None => take(&mut beside, &bytes),
            Some(at) => {
                let number = if keys[at] == "x" { 6 } else { 4 };
                refuse(&mut beside, &bytes, number, of_keys(&token, &keys[..at]).laid().len());
            }
        }
    }
    for (held, count) in (0..=6).flat_map(|held| (0..=30).chain(EDGES).map(move |count| (held, count))) {
        let bytes = of_keys(&token, &KEYS[..held]).saying(count).laid();
        match count {
            0..=5 => refuse(&mut beside, &bytes, 4, 0),
            6 if held == 6 => take(&mut beside, &bytes),
            6 => refuse(&mut beside, &bytes, 4, bytes.len()),
            _ => refuse(&mut beside, &bytes, 6, 0),
        }
    }
    beside.met(ORDERS);
}

#[test]
fn caveats_about_their_limit_and_counts_that_they_do_not_meet() {
    let mut seeded = Seeded(103);
    let mut beside = Beside::default();
    for held in (0..=67).chain([255, 256]) {
        let mut token = trees::token(held, &mut seeded);
        let bytes = token.laid();
        if held <= 64 {
            take(&mut beside, &bytes);
        } else {
            refuse(&mut beside, &bytes, 5, 3);
        }
        for count in (0..=70).chain(EDGES) {
            let list = token.items[1].saying(count);
            let good = std::mem::replace(&mut token.items[1], list);
            let bytes = token.laid();
            match count {
                65.. => refuse(&mut beside, &bytes, 5, 3),
                _ if count == held as u64 => take(&mut beside, &bytes),
                _ => {
                    assert_eq!(read(&bytes).map_err(|defect| defect.number), Err(4));
                    beside.token(&bytes);
                }
            }
            token.items[1] = good;
        }
    }
    beside.met(COUNTS);
}

#[test]
fn v_of_every_value_and_type() {
    let mut seeded = Seeded(104);
    let mut beside = Beside::default();
    let mut token = bare();
    let at = place(&token, V);
    // Among them 1 again where 8, 16 or 32 bits end.
    let mut numbers: Vec<u64> = (0..300).chain(EDGES).chain([65_537, (1 << 32) + 1]).collect();
    numbers.extend((0..2000).map(|_| inputs::number(&mut seeded)));
    for number in numbers {
        *token.node(V) = Node::number(number);
        match number {
            1 => take(&mut beside, &token.laid()),
            _ => {
                refuse(&mut beside, &token.laid(), 6, at);
                // What is behind another edition is not looked at.
                refuse(&mut beside, &token.laid_to(V), 6, at);
            }
        }
        *token.node(V) = Node::negative(number);
        refuse(&mut beside, &token.laid(), 4, at);
    }
    // -2, "1", 1.0 in each width, 1 under every longer head, and all that has no place in a token.
    let none: [&[u8]; 10] = [
        b"\x21", b"\x611", b"\xf9\x3c\x00", b"\xfa\x3f\x80\0\0", b"\xfb\x3f\xf0\0\0\0\0\0\0", b"\x18\x01",
        b"\x19\0\x01", b"\x1a\0\0\0\x01", b"\x1b\0\0\0\0\0\0\0\x01", b"\x41\x01",
    ];
    for item in none.iter().chain(&REFUSED[..REFUSED.len() - 2]) {
        *token.node(V) = Node::raw(item);
        refuse(&mut beside, &token.laid(), 4, at);
    }
    beside.met(EDITIONS);
}

#[test]
fn tags_and_names_of_every_length() {
    let mut beside = Beside::default();
    for length in (0..=300).chain([4096]).chain(65_535..=65_601) {
        let bytes = vec![b'a'; length];
        let tag_good = length == 32;
        for (index, item, good, number) in [
            (TAG, Node::bytes(&bytes), tag_good, 4),
            (TAG, Node::text(&bytes), false, 4),
            (KID, Node::text(&bytes), (1..=64).contains(&length), 5),
            (KID, Node::bytes(&bytes), false, 4),
            (TID, Node::text(&bytes), (1..=64).contains(&length), 5),
            (TID, Node::array(vec![]).saying(length as u64), false, 4),
        ] {
            let mut token = bare();
            let at = place(&token, index);
            *token.node(index) = item;
            if good {
                take(&mut beside, &token.laid());
                refuse(&mut beside, &token.laid_to(index), 4, at);
            } else {
                refuse(&mut beside, &token.laid(), number, at);
                refuse(&mut beside, &token.laid_to(index), number, at);
            }
        }
    }
    beside.met(STRINGS);
}

/// A caveat in the middle of a token, good or not, and the same read where it lies.
fn in_the_middle(token: &[u8], at: usize) -> bool {
    let alone = probes::read_caveat(&token[at..]);
    let whole = probes::read_token(token);
    if alone.kind != 0 {
        assert_eq!((whole.kind, whole.numbers[0]), (alone.kind, alone.numbers[0] + at as u64));
    }
    alone.kind == 0
}

#[test]
fn a_caveat_in_a_token_is_read_as_it_is_alone() {
    let mut seeded = Seeded(105);
    let mut beside = Beside::default();
    for turn in 0..KINDS.len() * 5 {
        let mut tree = trees::token(3, &mut seeded);
        let mut before = tree.clone();
        before.items[1] = tree.items[1].holding(tree.items[1].items[..1].to_vec());
        let at = before.items[1].laid().len() + 3;
        let caveat = trees::caveat(turn % KINDS.len(), &mut seeded);
        let mut taken = 0;
        damage::each(&caveat, |edited| {
            tree.items[1].items[1] = Node::raw(edited);
            let token = tree.laid();
            taken += usize::from(in_the_middle(&token, at));
            beside.token(&token);
        });
        assert!(taken > 0);
    }
    beside.met(PARTS);
}

#[test]
fn the_caveats_of_a_token_end_where_it_says() {
    let mut seeded = Seeded(106);
    for _ in 0..2000 {
        let tree = some(&mut seeded);
        let (caveats, token) = (&tree.items[1].items, tree.laid());
        let read = probes::read_token(&token);
        let [count, mut at, end, scope, behind, ..] = read.numbers.map(|number| number as usize);
        assert_eq!((read.kind, count), (0, caveats.len()));
        for caveat in caveats {
            let alone = probes::read_caveat(&caveat.laid());
            assert_eq!(probes::read_caveat(&token[at..]), alone);
            assert_eq!(alone.kind, 0);
            at += alone.numbers[9] as usize;
        }
        assert_eq!(at, end);
        assert_eq!(probes::read_scope(&token, scope).numbers[7] as usize, behind);
    }
}

#[test]
fn what_is_written_and_read_back() {
    let mut seeded = Seeded(107);
    let mut beside = Beside::default();
    for turn in 0..1500 {
        let held = if turn < 200 { turn % 66 } else { seeded.below(8) };
        let caveats: Vec<Node> = (0..held).map(|kind| trees::caveat(kind % 12, &mut seeded)).collect();
        let caveats = caveats.iter().flat_map(Node::laid).collect::<Vec<u8>>();
        let one_more = turn % 2 == 1 && held < 64;
        let caveat = if one_more { trees::caveat(turn % 12, &mut seeded).laid() } else { vec![] };
        let (scope, tag) = (trees::scope(&mut seeded).laid(), seeded.bytes(32));
        let (kid, tid) = (strings::name(&mut seeded), strings::name(&mut seeded));
        let fields = Fields {
            count: (held + usize::from(one_more)) as u64,
            caveats: &caveats,
            caveat: &caveat,
            scope: &scope,
            tag: &tag,
            kid: &kid,
            tid: &tid,
        };
        rooms(&mut beside, &fields);
        let token = write(&fields);
        assert_eq!(read(&token).is_ok(), fields.count <= 64);
        beside.token(&token);
    }
    beside.met(WRITTEN);
}

#[test]
fn every_count_and_parts_of_every_length_written() {
    const NONE: Fields =
        Fields { count: 0, caveats: b"", caveat: b"", scope: b"", tag: b"", kid: b"", tid: b"" };
    let mut seeded = Seeded(110);
    let mut beside = Beside::default();
    for count in (0..=300).chain(EDGES) {
        rooms(&mut beside, &Fields { count, ..NONE });
    }
    for length in (0..=300).chain([4096, 65_535, 65_536]) {
        let part = &seeded.bytes(length)[..];
        for fields in [
            Fields { caveats: part, ..NONE },
            Fields { caveat: part, ..NONE },
            Fields { scope: part, ..NONE },
            Fields { tag: part, ..NONE },
            Fields { kid: part, ..NONE },
            Fields { tid: part, ..NONE },
        ] {
            rooms(&mut beside, &fields);
        }
    }
    beside.met(ROOMS);
}

/// Writes into rooms about the length of the token and far from it.
fn rooms(beside: &mut Beside, fields: &Fields) {
    let length = write(fields).len();
    for room in [0, 1, length / 2, length - 1, length, length + 1, length + 40] {
        beside.write(fields, room);
    }
}

#[test]
fn tokens_of_sixty_four_caveats_edited() {
    let mut seeded = Seeded(108);
    let mut beside = Beside::default();
    let token = trees::token(64, &mut seeded);
    take(&mut beside, &token.laid());
    damage::each(&token, |edited| beside.token(edited));
    for length in [255, 256, 4096, 60_000, 70_000] {
        let value = trees::custom(Node::bytes(&seeded.bytes(length)), &mut seeded);
        let caveats = vec![trees::caveat_of("custom", value), trees::caveat(0, &mut seeded)];
        let token = token_of(caveats, trees::scope(&mut seeded), &mut seeded).laid();
        take(&mut beside, &token);
        refuse(&mut beside, &[&token[..], &[0]].concat(), 4, token.len());
    }
    beside.met(LARGE);
}

#[test]
fn random_bytes_behind_a_good_front() {
    let mut seeded = Seeded(109);
    let mut beside = Beside::default();
    for _ in 0..60_000 {
        let length = seeded.below(30);
        let noise = seeded.bytes(length);
        beside.token(&noise);
        let tree = trees::token(seeded.below(5), &mut seeded);
        let front = tree.laid_to(seeded.below(tree.size()));
        beside.token(&[front, noise].concat());
    }
    for _ in 0..1000 {
        take(&mut beside, &some(&mut seeded).laid());
    }
    beside.met(RANDOM);
}
