//! Prefixes and paths about the edge where one ends (document 02, M-100), of those that may stand (M-106): the
//! proved verify beside the second program's, with the prefix in the scope, in a path_prefix or in both, and either
//! beside the sentence put another way: a path is the prefix, or begins with the prefix and one "/" that is its last
//! byte or follows it. And the same segment by segment.

use checks::cases::{fitting_for, Case};
use checks::requests::{self, Request};
use checks::strings;
use checks::tree::Node;
use checks::trees::caveat_of;
use checks::verdicts::Verdicts;
use checks::Seeded;

/// How many pairs are compared from a seed.
const PAIRS: usize = 50_000;

const CTX_BAD: u32 = 2;
const PARSE_CBOR: u32 = 4;
const PATH: u32 = 11;

/// The longest prefix and the longest path.
const LONGEST: (usize, usize) = (256, 1024);

fn wanted(prefix: &[u8], path: &[u8]) -> u32 {
    let folder = [prefix.strip_suffix(b"/").unwrap_or(prefix), b"/"].concat();
    let fits = path == prefix || path.starts_with(&folder);
    assert_eq!(fits, by_segments(prefix, path));
    if fits { 0 } else { PATH }
}

/// A prefix's segments are the first ones of the path; without its last one if that is empty, and then the path
/// has one more.
fn by_segments(prefix: &[u8], path: &[u8]) -> bool {
    let [mut front, all] = [prefix, path].map(|text| text.split(|&byte| byte == b'/').collect::<Vec<_>>());
    let folder = front.last() == Some(&&b""[..]);
    front.truncate(front.len() - usize::from(folder));
    all.starts_with(&front) && all.len() >= front.len() + usize::from(folder)
}

/// A case in which all but the path holds, with the prefix in the scope (0), in a caveat (1) or in both (2).
fn placed(prefix: &[u8], path: &[u8], place: usize, seeded: &mut Seeded) -> Case {
    let request = Request { path: path.to_vec(), ..requests::any(seeded) };
    let mut case = fitting_for(request, 0, seeded);
    let mut entries = vec![("methods", Node::array(vec![Node::text(&case.request.method)]))];
    if place != 1 {
        entries.insert(0, ("prefix", Node::text(prefix)));
    }
    if place != 0 {
        case.caveats.push(caveat_of("path_prefix", Node::text(prefix)));
    }
    case.scope = Node::map(entries);
    case
}

/// A path, and one of its fronts with one byte more, one less, another last one or none of these.
fn near(seeded: &mut Seeded) -> (Vec<u8>, Vec<u8>) {
    let mut path = strings::path(LONGEST.1, seeded);
    let mut prefix = path[..1 + seeded.below(path.len().min(LONGEST.0))].to_vec();
    let edge = prefix.len();
    match seeded.below(8) {
        0 => prefix.push(b"/?#1"[seeded.below(4)]),
        1 => prefix.push(b'/'),
        2 => *prefix.last_mut().expect("a byte") = b'/',
        3 => path.truncate(edge),
        4 => path.insert(edge, b"/?#1.~"[seeded.below(6)]),
        5 => path.insert(edge, b'/'),
        6 => path[edge - 1..].fill(b'/'),
        _ => {}
    }
    prefix[0] = b'/';
    path[0] = b'/';
    prefix.truncate(LONGEST.0);
    path.truncate(LONGEST.1);
    (strings::cleaned(prefix), strings::cleaned(path))
}

#[test]
fn pairs_about_the_edge() {
    let mut seeded = Seeded(100);
    let mut verdicts = Verdicts::default();
    for turn in 0..PAIRS {
        let (prefix, path) = near(&mut seeded);
        let case = placed(&prefix, &path, turn % 3, &mut seeded);
        verdicts.expect(&case.laid(), wanted(&prefix, &path));
    }
    verdicts.met(PAIRS, [0, PATH], PAIRS / 4);
}

/// Every text of 1 to `most` bytes that begins with a "/" and goes on with "/", "1" and ".".
fn short(most: usize) -> Vec<Vec<u8>> {
    let mut all = vec![b"/".to_vec()];
    for length in 1..most {
        let last = all.iter().filter(|text| text.len() == length);
        let longer: Vec<Vec<u8>> =
            last.flat_map(|text| b"/1.".map(|byte| [&text[..], &[byte]].concat())).collect();
        all.extend(longer);
    }
    all
}

#[test]
fn every_short_prefix_and_every_short_path() {
    let mut seeded = Seeded(101);
    let mut verdicts = Verdicts::default();
    let (prefixes, paths) = (short(4), short(6));
    for prefix in &prefixes {
        for (turn, path) in paths.iter().enumerate() {
            let case = placed(prefix, path, turn % 3, &mut seeded);
            let wanted = match (strings::comes_through(path), strings::comes_through(prefix)) {
                (false, _) => CTX_BAD,
                (true, false) => PARSE_CBOR,
                (true, true) => wanted(prefix, path),
            };
            verdicts.expect(&case.laid(), wanted);
        }
    }
    verdicts.met(prefixes.len() * paths.len(), [0, CTX_BAD, PARSE_CBOR, PATH], 200);
}
