//! Scopes: the proved reader beside the second program's. What is made good or bad on purpose is held
//! to that as well, so that a slip which both readers share shows too.

use checks::beside::{Beside, Counts};
use checks::edits::{changes, cuts, embedded, maps, places, spoiled};
use checks::inputs::{self, EDGES};
use checks::tree::Node;
use checks::{damage, trees, Seeded};
use second::cbor::Defect;
use second::scope::read;

/// What each test meets at least.
const GOOD: Counts = (30_000, 30_000, [0, 0, 0]);
const DAMAGED: Counts = (184_000, 12_000, [100_000, 42_000, 22_000]);
const EDITED: Counts = (167_000, 8900, [89_000, 580, 68_000]);
const PLACES: Counts = (51_200, 600, [50_000, 0, 50]);
const ORDERS: Counts = (22_266, 769, [8619, 0, 12_878]);
const METHODS: Counts = (8500, 3400, [3300, 1700, 0]);
const PREFIXES: Counts = (1986, 256, [1282, 448, 0]);
const NUMBERS: Counts = (6000, 3000, [3000, 0, 0]);
const RANDOM: Counts = (81_000, 3900, [65_000, 180, 11_000]);

/// The inputs from a seed together; what is gone through exhaustively comes on top.
const _: () = assert!(GOOD.0 + DAMAGED.0 + EDITED.0 + PLACES.0 + RANDOM.0 >= 510_000);

fn take(beside: &mut Beside, scope: &[u8]) {
    assert_eq!(read(scope, 0).map(|scope| scope.next), Ok(scope.len()));
    beside.scope(scope, 0);
}

fn refuse(beside: &mut Beside, scope: &[u8], number: u32, place: usize) {
    assert_eq!(read(scope, 0), Err(Defect { number, place }));
    beside.scope(scope, 0);
}

#[test]
fn good_ones_alone_and_between_other_bytes() {
    let mut seeded = Seeded(80);
    let mut beside = Beside::default();
    for _ in 0..15_000 {
        let scope = trees::scope(&mut seeded).laid();
        take(&mut beside, &scope);
        let (all, at) = embedded(&scope, &mut seeded);
        beside.scope(&all, at);
    }
    beside.met(GOOD);
}

#[test]
fn every_edit_of_every_node() {
    let mut seeded = Seeded(81);
    let mut beside = Beside::default();
    for _ in 0..60 {
        let scope = trees::scope(&mut seeded);
        damage::each(&scope, |edited| beside.scope(edited, 0));
    }
    beside.met(DAMAGED);
}

#[test]
fn cut_at_every_byte_and_each_byte_changed() {
    let mut seeded = Seeded(82);
    let mut beside = Beside::default();
    for _ in 0..200 {
        let scope = trees::scope(&mut seeded).laid();
        for cut in cuts(&scope) {
            assert!(read(cut, 0).is_err());
            beside.scope(cut, 0);
        }
        changes(&scope, &mut seeded, |changed| beside.scope(changed, 0));
        for _ in 0..20 {
            beside.scope(&spoiled(&scope, &mut seeded), 0);
        }
    }
    beside.met(EDITED);
}

#[test]
fn at_places_inside_and_past_the_end() {
    let mut seeded = Seeded(83);
    let mut beside = Beside::default();
    for _ in 0..300 {
        let two = [trees::scope(&mut seeded).laid(), trees::scope(&mut seeded).laid()].concat();
        for at in places(two.len()) {
            beside.scope(&two, at);
        }
    }
    for at in places(0) {
        beside.scope(&[], at);
    }
    beside.met(PLACES);
}

/// The scope's keys in the order in which they stand; only methods is required.
const KEYS: [&str; 3] = ["prefix", "methods", "max_bytes"];
const METHODS_KEY: usize = 1;

fn good_value(key: &str) -> Vec<u8> {
    let value: &[u8] = match key {
        "prefix" => b"\x62/a",
        "methods" => b"\x82\x61A\x61B",
        _ => b"\x18\x2a",
    };
    value.to_vec()
}

/// Whether these keys make a scope, from document 01's sentence on them.
fn in_order(keys: &[&str]) -> bool {
    let place = |key| KEYS.iter().position(|known| known == key);
    let places: Option<Vec<usize>> = keys.iter().map(place).collect();
    places.is_some_and(|places| places.contains(&METHODS_KEY) && places.windows(2).all(|two| two[0] < two[1]))
}

#[test]
fn every_sequence_of_keys_under_every_count() {
    let mut beside = Beside::default();
    maps(&["prefix", "methods", "max_bytes", "kid", ""], 4, good_value, |map| {
        beside.scope(&map.bytes, 0);
        if map.whole {
            assert_eq!(read(&map.bytes, 0).is_ok(), in_order(map.keys), "{:?}", map.keys);
        }
    });
    beside.met(ORDERS);
}

fn with_methods(methods: Node) -> (Vec<u8>, usize) {
    let scope = Node::map(vec![("methods", methods)]).laid();
    (scope, 9)
}

#[test]
fn lists_of_methods_about_their_limits() {
    let mut seeded = Seeded(84);
    let mut beside = Beside::default();
    for held in 0..=20 {
        let list = trees::methods(held, &mut seeded);
        for count in (0..=24).chain(EDGES) {
            let (scope, place) = with_methods(list.saying(count));
            match count {
                17.. => refuse(&mut beside, &scope, 5, place),
                _ if count > held as u64 => refuse(&mut beside, &scope, 4, scope.len()),
                // What the count leaves out lies behind the scope.
                _ => beside.scope(&scope, 0),
            }
        }
        for at in 0..held.min(16) {
            for length in 0..=18 {
                let mut list = trees::methods(held.min(16), &mut seeded);
                list.items[at] = Node::text(&vec![b'Z'; length]);
                let (scope, _) = with_methods(list.clone());
                assert_eq!(read(&scope, 0).is_ok(), (1..=16).contains(&length));
                beside.scope(&scope, 0);
                // A length out of range is told before the bytes are missed.
                beside.scope(&Node::map(vec![("methods", list)]).laid_to(3 + at), 0);
            }
        }
    }
    beside.met(METHODS);
}

#[test]
fn prefixes_of_every_length() {
    let mut beside = Beside::default();
    for length in (0..=260).chain([511, 512, 4096]).chain(65_535..=65_601) {
        let methods = ("methods", Node::array(vec![]));
        for first in [b'/', b'a'] {
            let mut path = vec![b'p'; length];
            if let Some(byte) = path.first_mut() {
                *byte = first;
            }
            let scope = Node::map(vec![("prefix", Node::text(&path)), methods.clone()]);
            let bytes = scope.laid();
            match (length, first) {
                (0, _) | (257.., _) => refuse(&mut beside, &bytes, 5, 8),
                (_, b'/') => take(&mut beside, &bytes),
                _ => refuse(&mut beside, &bytes, 4, 8 + inputs::head(3, length as u64).len()),
            }
            for cut in [scope.laid_to(2), bytes[..bytes.len() - 10].to_vec()] {
                beside.scope(&cut, 0);
            }
        }
    }
    beside.met(PREFIXES);
}

#[test]
fn any_number_as_max_bytes() {
    let mut seeded = Seeded(85);
    let mut beside = Beside::default();
    let mut numbers = EDGES.to_vec();
    numbers.extend((0..3000).map(|_| inputs::number(&mut seeded)));
    for number in numbers {
        let entries = |value| vec![("methods", Node::array(vec![])), ("max_bytes", value)];
        let scope = Node::map(entries(Node::number(number))).laid();
        assert_eq!(read(&scope, 0).map(|scope| scope.max_bytes), Ok(Some(number)));
        beside.scope(&scope, 0);
        refuse(&mut beside, &Node::map(entries(Node::negative(number))).laid(), 4, 20);
    }
    beside.met(NUMBERS);
}

#[test]
fn random_bytes_behind_a_good_front() {
    let mut seeded = Seeded(86);
    let mut beside = Beside::default();
    for _ in 0..40_000 {
        let length = seeded.below(30);
        let noise = seeded.bytes(length);
        beside.scope(&noise, 0);
        let tree = trees::scope(&mut seeded);
        let front = tree.laid_to(seeded.below(tree.size()));
        beside.scope(&[front, noise].concat(), 0);
    }
    for _ in 0..1000 {
        take(&mut beside, &trees::scope(&mut seeded).laid());
    }
    beside.met(RANDOM);
}
