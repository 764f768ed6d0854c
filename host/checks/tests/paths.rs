//! Paths that proxies rewrite (document 02, M-106): in a request, in a scope's prefix and in path_prefix the proved
//! readers beside the second program's, and both beside what a proxy makes of the path. Faults stand at every place
//! about the edges of the blocks that the proved reader takes a path in.

use checks::beside::{Beside, Outcomes};
use checks::calls::Calls;
use checks::cases::fitting;
use checks::requests::{self, Request};
use checks::strings::{self, comes_through};
use checks::tree::Node;
use checks::trees::caveat_of;
use checks::verdicts::Verdicts;
use checks::{issuing, narrowing, Seeded};
use second::caveat;
use second::cbor::Defect;

const PATHS: usize = 100_000;

/// What each test meets at least: how much is compared, how much of that is taken, and how much is not. A path is
/// read once by its class and, unless it is too long for one, three times in its places.
const SEEDED: Outcomes = (390_000, 270_000, 110_000);
const SHORT: Outcomes = (21_844, 1360, 20_484);
const PLACED: Outcomes = (26_112, 5656, 20_456);

const PREFIX: usize = 256;
const CLASS: u32 = 2;

fn scope_of(prefix: &[u8]) -> Node {
    Node::map(vec![("prefix", Node::text(prefix)), ("methods", Node::array(vec![]))])
}

/// A path as its class, as a request's, as a prefix and as a path_prefix, which is answered with the place of its
/// first byte where it is refused.
fn judge(beside: &mut Beside, path: &[u8], request: &mut Request) {
    let good = comes_through(path);
    let said = String::from_utf8_lossy(path);
    beside.string(&Node::text(path).laid(), 0, CLASS, 1, 1024);
    request.path = path.to_vec();
    let laid = request.laid();
    assert_eq!(second::request::read(&laid).is_some(), good, "{said}");
    beside.request(&laid);
    if path.len() > PREFIX {
        return;
    }
    let (scope, caveat) = (scope_of(path).laid(), caveat_of("path_prefix", Node::text(path)).laid());
    let head = Node::text(path).laid().len() - path.len();
    let at = |place: usize| (!good).then_some(Defect { number: 4, place: place + head });
    assert_eq!(second::scope::read(&scope, 0).err(), at(8), "{said}");
    assert_eq!(caveat::read(&caveat, 0).err(), at(17), "{said}");
    beside.scope(&scope, 0);
    beside.caveat(&caveat);
}

/// Few bytes, so that every fault comes often, and the longer a text the fewer of them.
fn any(seeded: &mut Seeded) -> Vec<u8> {
    let length = [8, 20, 40, 100, 300][seeded.below(5)];
    let length = 1 + seeded.below(length);
    let mut path: Vec<u8> = (0..length).map(|_| b"//..aab-"[seeded.below(8)]).collect();
    if seeded.below(8) == 0 {
        path[seeded.below(length)] = b'%';
    }
    path[0] = b'/';
    // Cleaned but for a stretch, or not at all.
    match seeded.below(4) {
        0 => path,
        1 => strings::cleaned(path),
        _ => {
            let at = 1 + seeded.below(length);
            let mut clean = strings::cleaned(path.clone());
            let end = length.min(at + 4);
            clean[at.min(end)..end].copy_from_slice(&path[at.min(end)..end]);
            clean
        }
    }
}

#[test]
fn paths_from_a_seed() {
    let mut seeded = Seeded(106);
    let mut beside = Beside::default();
    let mut request = requests::any(&mut seeded);
    for _ in 0..PATHS {
        judge(&mut beside, &any(&mut seeded), &mut request);
    }
    beside.judged(SEEDED);
}

#[test]
fn every_short_path() {
    let mut request = requests::any(&mut Seeded(107));
    let mut beside = Beside::default();
    let mut all = vec![b"/".to_vec()];
    for _ in 0..6 {
        for path in &all {
            judge(&mut beside, path, &mut request);
        }
        all = all.iter().flat_map(|path| b"/.a%".map(|byte| [&path[..], &[byte]].concat())).collect();
    }
    for path in &all {
        judge(&mut beside, path, &mut request);
    }
    beside.judged(SHORT);
}

/// What is refused wherever it stands, and beside it what is not.
const FAULTS: [&str; 8] = ["//", "/./", "/../", "%", "/.", "/..", "/.//", "/..%"];
const GOOD: [&str; 8] = ["/.a/", "/..a/", "/.../", "/a./", "/a../", "/.-", "/....", "/_"];

#[test]
fn faults_at_every_place() {
    let mut request = requests::any(&mut Seeded(108));
    let mut beside = Beside::default();
    for fault in FAULTS.into_iter().chain(GOOD) {
        for before in 1..=102 {
            // At the end, before a segment, and before another fault.
            for behind in ["", "/b", "b/..", "/b/c-d-e-f-g-h-i-j-k-l-m-n-o-p-q-r-s-t-u-v"] {
                let mut path = b"/".to_vec();
                path.resize(before, b'a');
                path.extend([fault.as_bytes(), behind.as_bytes()].concat());
                judge(&mut beside, &path, &mut request);
            }
        }
    }
    beside.judged(PLACED);
}

/// Verify, issue and narrow with the path in each place, all else good: 2 in a request, 4 in a token or a scope, 31
/// in a caveat.
#[test]
fn each_entry_point_answers() {
    let mut seeded = Seeded(109);
    let (mut verdicts, mut issued, mut narrowed) = (Verdicts::default(), Calls::default(), Calls::default());
    for _ in 0..5000 {
        let path = any(&mut seeded);
        let answer = |bad: u32| if comes_through(&path) { 0 } else { bad };
        let mut case = fitting(0, &mut seeded);
        case.scope = Node::map(vec![("methods", Node::array(vec![Node::text(&case.request.method)]))]);
        case.request.body_size = 0;
        let good = case.clone();
        case.request.path = path.clone();
        verdicts.expect(&case.laid(), answer(2));
        if path.len() > PREFIX {
            continue;
        }
        let caveat = caveat_of("path_prefix", Node::text(&path));
        narrowed.expect(&narrowing::call(&good, &caveat), 5462, answer(31));
        if comes_through(&path) {
            continue;
        }
        // Under a path that itself is good.
        case.request.path = b"/".to_vec();
        case.caveats = vec![caveat];
        verdicts.expect(&case.laid(), 4);
        case.caveats.clear();
        case.scope = Node::map(vec![("prefix", Node::text(&path)), ("methods", Node::array(vec![]))]);
        verdicts.expect(&case.laid(), 4);
        issued.expect(&issuing::call(&case), 5462, 4);
    }
    verdicts.met(7500, [0, 2, 4], 1000);
    issued.met(1200, &[4], 1200);
    narrowed.met(4000, &[0, 31], 1000);
}
