//! Caveats of all kinds: the proved reader beside the second program's. What is made good or bad on
//! purpose is held to that as well, so that a slip which both readers share shows too.

use checks::beside::{Beside, Counts};
use checks::damage::{self, NAMES};
use checks::edits::{changes, cuts, maps, spoiled, Keyed};
use checks::inputs::{self, BAD_UTF8, EDGES, REFUSED};
use checks::tree::Node;
use checks::trees::{self, caveat_of, nested, KINDS};
use checks::Seeded;
use second::caveat::{read, Demand};
use second::cbor::Defect;

const DIGEST: usize = 10;
const CUSTOM: usize = 11;

/// What each test meets at least.
const GOOD: Counts = (120_000, 120_000, [0, 0, 0]);
const DAMAGED: Counts = (434_000, 28_000, [250_000, 21_000, 120_000]);
const EDITED: Counts = (817_000, 110_000, [320_000, 380, 370_000]);
const MIXED: Counts = (44_600, 1300, [7100, 10, 36_000]);
const ORDERS: Counts = (28_674, 123, [13_413, 0, 15_138]);
const STRINGS: Counts = (4089, 577, [1888, 1624, 0]);
const METHODS: Counts = (1200, 270, [130, 780, 0]);
const RATES: Counts = (12_100, 3100, [4300, 4600, 0]);
const ADDRESSES: Counts = (8000, 4100, [3800, 0, 0]);
const VALUES: Counts = (60_000, 10_000, [37_000, 11_000, 0]);
const SIMPLE: Counts = (9504, 807, [8697, 0, 0]);
const RANDOM: Counts = (200_000, 8000, [130_000, 40, 61_000]);

/// The inputs from a seed together; what is gone through exhaustively comes on top.
const _: () = assert!(GOOD.0 + DAMAGED.0 + EDITED.0 + MIXED.0 + VALUES.0 + RANDOM.0 >= 1_670_000);

fn take(beside: &mut Beside, caveat: &[u8]) {
    assert_eq!(read(caveat, 0).map(|caveat| caveat.next), Ok(caveat.len()), "{}", inputs::hex(caveat));
    beside.caveat(caveat);
}

fn refuse(beside: &mut Beside, caveat: &[u8], number: u32, place: usize) {
    assert_eq!(read(caveat, 0), Err(Defect { number, place }), "{}", inputs::hex(caveat));
    beside.caveat(caveat);
}

/// Where the value of a caveat of this kind begins.
fn value_place(t: &str) -> usize {
    6 + t.len()
}

#[test]
fn good_ones_with_and_without_bytes_behind() {
    let mut seeded = Seeded(90);
    let mut beside = Beside::default();
    for turn in 0..60_000 {
        let mut caveat = trees::caveat(turn % KINDS.len(), &mut seeded).laid();
        take(&mut beside, &caveat);
        let behind = 1 + seeded.below(9);
        caveat.extend(seeded.bytes(behind));
        beside.caveat(&caveat);
    }
    beside.met(GOOD);
}

#[test]
fn every_edit_of_every_node() {
    let mut seeded = Seeded(91);
    let mut beside = Beside::default();
    for turn in 0..20 * KINDS.len() {
        let caveat = trees::caveat(turn % KINDS.len(), &mut seeded);
        damage::each(&caveat, |edited| beside.caveat(edited));
    }
    beside.met(DAMAGED);
}

#[test]
fn cut_at_every_byte_and_each_byte_changed() {
    let mut seeded = Seeded(92);
    let mut beside = Beside::default();
    for turn in 0..30 * KINDS.len() {
        let caveat = trees::caveat(turn % KINDS.len(), &mut seeded).laid();
        for cut in cuts(&caveat) {
            assert!(read(cut, 0).is_err());
            beside.caveat(cut);
        }
        changes(&caveat, &mut seeded, |changed| beside.caveat(changed));
        for _ in 0..40 {
            beside.caveat(&spoiled(&caveat, &mut seeded));
        }
    }
    beside.met(EDITED);
}

#[test]
fn every_t_with_the_value_of_every_kind() {
    let mut seeded = Seeded(93);
    let mut beside = Beside::default();
    for _ in 0..60 {
        for (kind, t) in (0..KINDS.len()).flat_map(|kind| NAMES.map(|name| (kind, name))) {
            let caveat = caveat_of(t, trees::demand(kind, &mut seeded)).laid();
            if t == KINDS[kind] {
                take(&mut beside, &caveat);
            } else if KINDS.contains(&t) {
                beside.caveat(&caveat);
            } else {
                refuse(&mut beside, &caveat, 6, 3);
                // What is behind an unknown t is not looked at.
                refuse(&mut beside, &caveat[..3 + inputs::string(3, t.as_bytes()).len()], 6, 3);
            }
        }
    }
    for length in [24, 255, 256, 300, 65_536] {
        refuse(&mut beside, &caveat_of(&"e".repeat(length), Node::number(0)).laid(), 6, 3);
    }
    for content in BAD_UTF8 {
        let unknown = [b"\xa2\x61t", &inputs::string(3, content)[..]].concat();
        refuse(&mut beside, &unknown, 6, 3);
    }
    beside.met(MIXED);
}

/// Reads a caveat that a map of keys is, or is in.
fn keyed(beside: &mut Beside, caveat: &[u8], map: &Keyed, good: &[&str]) {
    beside.caveat(caveat);
    if map.whole {
        assert_eq!(read(caveat, 0).is_ok(), map.keys == good, "{:?}", map.keys);
    }
}

#[test]
fn every_sequence_of_keys_under_every_count() {
    let mut beside = Beside::default();
    let value = |key: &str| if key == "t" { b"\x63exp".to_vec() } else { vec![7] };
    maps(&["t", "v", "x", "ns"], 4, value, |map| keyed(&mut beside, &map.bytes, &map, &["t", "v"]));
    let number = |_: &str| vec![7];
    maps(&["burst", "per_s", "rate", ""], 4, number, |map| {
        let caveat = caveat_of("rate", Node::raw(&map.bytes)).laid();
        keyed(&mut beside, &caveat, &map, &["burst", "per_s"]);
    });
    let text = |_: &str| b"\x61a".to_vec();
    maps(&["ns", "cbor", "name", "v"], 4, text, |map| {
        let caveat = caveat_of("custom", Node::raw(&map.bytes)).laid();
        keyed(&mut beside, &caveat, &map, &["ns", "cbor", "name"]);
    });
    beside.met(ORDERS);
}

/// A text of good content whole, cut behind its head and cut by a byte; of a length out of range `wrong`.
fn lengths(beside: &mut Beside, t: &str, content: Vec<u8>, (low, high): (usize, usize), wrong: u32) {
    let length = content.len();
    let caveat = caveat_of(t, Node::text(&content));
    let bytes = caveat.laid();
    if (low..=high).contains(&length) {
        take(beside, &bytes);
        refuse(beside, &bytes[..bytes.len() - 1], 4, value_place(t));
        refuse(beside, &caveat.laid_to(4), 4, value_place(t));
    } else {
        refuse(beside, &bytes, wrong, value_place(t));
        refuse(beside, &caveat.laid_to(4), wrong, value_place(t));
    }
}

#[test]
fn strings_of_every_length() {
    let mut beside = Beside::default();
    for length in (0..=260).chain([511, 512, 4096]).chain(65_535..=65_601) {
        let (content, a) = (|byte| vec![byte; length], || Node::text(b"a"));
        lengths(&mut beside, "aud", content(b'~'), (1, 128), 5);
        lengths(&mut beside, "path_prefix", b"/p".repeat(length)[..length].to_vec(), (1, 256), 5);
        lengths(&mut beside, "tenant", content(b'-'), (1, 64), 5);
        lengths(&mut beside, KINDS[DIGEST], content(b'f'), (64, 64), 4);
        // A wrong length of the digest is told at its head even where its content is bad too.
        if length != 64 {
            let place = value_place(KINDS[DIGEST]);
            refuse(&mut beside, &caveat_of(KINDS[DIGEST], Node::text(&content(b'G'))).laid(), 4, place);
        }
        // The strings around a custom value stand second and sixth among keys and values.
        for (item, place) in [(1, 16), (5, 30)] {
            let mut custom = Node::map(vec![("ns", a()), ("cbor", a()), ("name", a())]);
            custom.items[item] = Node::text(&content(b'.'));
            let caveat = caveat_of("custom", custom).laid();
            match length {
                1..=64 => take(&mut beside, &caveat),
                _ => refuse(&mut beside, &caveat, 5, place),
            }
        }
    }
    beside.met(STRINGS);
}

#[test]
fn lists_of_methods_about_their_limits() {
    let mut seeded = Seeded(98);
    let mut beside = Beside::default();
    let place = value_place("method");
    for held in 0..=20 {
        let list = trees::methods(held, &mut seeded);
        for count in (0..=24).chain(EDGES) {
            let caveat = caveat_of("method", list.saying(count)).laid();
            match count {
                17.. => refuse(&mut beside, &caveat, 5, place),
                _ if count > held as u64 => refuse(&mut beside, &caveat, 4, caveat.len()),
                // What the count leaves out lies behind the caveat.
                _ => beside.caveat(&caveat),
            }
        }
    }
    for length in 0..=300 {
        let list = Node::array(vec![Node::text(b"GET"), Node::text(&vec![b'Z'; length])]);
        let caveat = caveat_of("method", list).laid();
        match length {
            1..=16 => take(&mut beside, &caveat),
            _ => refuse(&mut beside, &caveat, 5, place + 5),
        }
    }
    beside.met(METHODS);
}

#[test]
fn rates_about_their_limit() {
    let mut seeded = Seeded(94);
    let mut beside = Beside::default();
    let mut numbers = EDGES.to_vec();
    numbers.extend((0..60).map(|_| inputs::number(&mut seeded)));
    let good = |number: u64| number < 1 << 32;
    for (&burst, &per_s) in numbers.iter().flat_map(|burst| numbers.iter().map(move |per_s| (burst, per_s))) {
        let caveat = caveat_of("rate", trees::rate(burst, per_s)).laid();
        let second = 23 + inputs::head(0, burst).len();
        match (good(burst), good(per_s)) {
            (true, true) => {
                assert_eq!(read(&caveat, 0).map(|read| read.demand), Ok(Demand::Rate { per_s, burst }));
                beside.caveat(&caveat);
            }
            (false, _) => refuse(&mut beside, &caveat, 5, 17),
            _ => refuse(&mut beside, &caveat, 5, second),
        }
        let mut other = trees::rate(burst, per_s);
        other.items[3] = Node::negative(per_s);
        let (number, place) = if good(burst) { (4, second) } else { (5, 17) };
        refuse(&mut beside, &caveat_of("rate", other).laid(), number, place);
    }
    beside.met(RATES);
}

#[test]
fn addresses_and_what_is_none() {
    let mut seeded = Seeded(95);
    let mut beside = Beside::default();
    let spellings = "10.0.0.0/8 0.0.0.0/0 255.255.255.255/32 10.0.0.1/8 10.0.0.0 10.0.0.0/ 10.0.0/8 \
        10.0.0.0.0/8 010.0.0.0/8 10.0.0.0/08 256.0.0.0/8 10.0.0.0/33 128.0.0.0/0 10.0.0.0/8/8 ::/0 / .../ \
        +1.0.0.0/8 -0.0.0.0/0";
    let others = ["", " 10.0.0.0/8", "10.0.0.0/8 ", "10.0.0.0/8\n", "10.0.0.0/8\0"];
    for (place, spelling) in spellings.split_whitespace().chain(others).enumerate() {
        let caveat = caveat_of("ip_cidr", Node::text(spelling.as_bytes())).laid();
        match place {
            0..=2 => take(&mut beside, &caveat),
            _ => refuse(&mut beside, &caveat, 4, 14),
        }
    }
    for length in [24, 255, 256, 4000, 65_536] {
        let place = value_place("ip_cidr") + inputs::head(3, length as u64).len();
        refuse(&mut beside, &caveat_of("ip_cidr", Node::text(&vec![b'1'; length])).laid(), 4, place);
    }
    for _ in 0..4000 {
        let good = trees::demand(5, &mut seeded).content;
        take(&mut beside, &caveat_of("ip_cidr", Node::text(&good)).laid());
        let spoiled = spoiled(&good, &mut seeded);
        beside.caveat(&caveat_of("ip_cidr", Node::text(&spoiled)).laid());
    }
    beside.met(ADDRESSES);
}

/// A custom caveat around a value that begins at `VALUE`.
fn around(value: Node) -> Vec<u8> {
    let (ns, name) = (Node::text(b"ns"), Node::text(b"name"));
    caveat_of(KINDS[CUSTOM], Node::map(vec![("ns", ns), ("cbor", value), ("name", name)])).laid()
}

const VALUE: usize = 24;

#[test]
fn custom_values_about_their_depth() {
    let mut seeded = Seeded(96);
    let mut beside = Beside::default();
    // The last two are cut, and may be good with what is behind them.
    let refused = &REFUSED[..REFUSED.len() - 2];
    for turn in 0..12_000 {
        let (levels, within) = (turn % 7, turn % 5);
        let caveat = around(nested(levels, trees::value(0, &mut seeded)));
        match levels {
            0..=4 => take(&mut beside, &caveat),
            _ => refuse(&mut beside, &caveat, 5, VALUE + 4),
        }
        let item = Node::raw(refused[turn % refused.len()]);
        refuse(&mut beside, &around(nested(within, item)), 4, VALUE + within);
        let text = Node::text(BAD_UTF8[turn % BAD_UTF8.len()]);
        refuse(&mut beside, &around(nested(within, text)), 4, VALUE + within + 1);
        let count = [0, 1, 24, u64::MAX][turn % 4];
        beside.caveat(&around(nested(levels, Node::array(vec![]).saying(count))));
        beside.caveat(&around(nested(levels, Node::raw(REFUSED[turn % REFUSED.len()]))));
    }
    beside.met(VALUES);
}

#[test]
fn numbers_and_truths_under_every_head() {
    let mut beside = Beside::default();
    for t in ["exp", "nbf", "bytes_le", "amnesia"] {
        for first in 0..=255u8 {
            for width in 0..=8 {
                let value = [&[first][..], &[0xff; 8][..width]].concat();
                beside.caveat(&caveat_of(t, Node::raw(&value)).laid());
            }
            let truth = t == "amnesia" && (0xf4..=0xf5).contains(&first);
            let number = t != "amnesia" && first < 24;
            let caveat = caveat_of(t, Node::raw(&[first])).laid();
            assert_eq!(read(&caveat, 0).is_ok(), truth || number, "{t} {first:02x}");
        }
        for (number, width) in EDGES.iter().flat_map(|&number| [1, 2, 4, 8].map(|width| (number, width))) {
            let value = inputs::wide_head(0, number, width);
            beside.caveat(&caveat_of(t, Node::raw(&value)).laid());
        }
    }
    beside.met(SIMPLE);
}

#[test]
fn random_bytes_behind_a_good_front() {
    let mut seeded = Seeded(97);
    let mut beside = Beside::default();
    for turn in 0..100_000 {
        let length = seeded.below(30);
        let noise = seeded.bytes(length);
        beside.caveat(&noise);
        let tree = trees::caveat(turn % KINDS.len(), &mut seeded);
        let front = tree.laid_to(seeded.below(tree.size()));
        beside.caveat(&[front, noise].concat());
    }
    beside.met(RANDOM);
}
