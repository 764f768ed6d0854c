//! The vectors in vectors/, as whoever reads the files finds them: they are what `vectors` makes, the proved
//! functions and the second program's answer each case as it says, and vectors/README.md counts them right.

use std::collections::{BTreeMap, BTreeSet};
use std::fs;
use std::path::Path;

use checks::vectors;
use second::base64url;
use second::names::name;
use serde_json::Value;

/// What a room holds before a call; no text has such a byte.
const FILLER: u8 = b'.';

fn read(name: &str) -> String {
    let path = Path::new(env!("CARGO_MANIFEST_DIR")).join("../../vectors").join(name);
    fs::read_to_string(&path).unwrap_or_else(|error| panic!("{}: {error}", path.display()))
}

/// One case of a file, by the names of its fields.
struct Case(Value);

fn cases(file: &str) -> Vec<Case> {
    let whole: Value = serde_json::from_str(&read(file)).expect("JSON");
    whole["cases"].as_array().expect("a list of cases").iter().cloned().map(Case).collect()
}

impl Case {
    fn text(&self, field: &str) -> &str {
        self.0[field].as_str().unwrap_or_else(|| panic!("no {field}: {}", self.0["name"]))
    }

    fn bytes(&self, field: &str) -> Vec<u8> {
        unhexed(self.text(field))
    }

    fn number(&self, field: &str) -> usize {
        self.0[field].as_u64().unwrap_or_else(|| panic!("no {field}: {}", self.0["name"])) as usize
    }

    fn list(&self, field: &str) -> Vec<&str> {
        let list = self.0[field].as_array().unwrap_or_else(|| panic!("no {field}: {}", self.0["name"]));
        list.iter().map(|text| text.as_str().expect("a text")).collect()
    }

    fn answer(&self) -> u32 {
        self.number("answer") as u32
    }

    /// What issue or narrow must hand back and leave in the room.
    fn written(&self) -> ((u32, u32), Vec<u8>) {
        let text = if self.answer() == 0 { self.text("text") } else { "" };
        assert_eq!(self.answer() == 0, self.0.get("text").is_some(), "{}", self.0["name"]);
        let mut room = vec![FILLER; self.number("room")];
        room[..text.len()].copy_from_slice(text.as_bytes());
        ((self.answer(), text.len() as u32), room)
    }
}

fn unhexed(digits: &str) -> Vec<u8> {
    let digit = |at: usize| u8::from_str_radix(&digits[at..at + 2], 16).expect("hex digits");
    (0..digits.len()).step_by(2).map(digit).collect()
}

#[test]
fn the_files_are_what_the_program_makes() {
    let again = "`cargo run --release -p checks --bin vectors -- ../vectors` in host/ makes it anew";
    for (name, made) in vectors::files() {
        assert!(read(name) == made, "vectors/{name} is another one: {again}");
    }
}

#[test]
fn verify() {
    for case in cases("verify.json") {
        let (table, request, token) = (case.bytes("table"), case.bytes("request"), case.text("token").as_bytes());
        let name = case.text("name");
        assert_eq!(archive::verify(&table, &request, token), case.answer(), "the proved one on {name}");
        assert_eq!(second::verify(&table, &request, token), case.answer(), "the second program on {name}");
    }
}

/// Both programs hand back what the case says and leave such a room.
fn held(case: &Case, proved: impl Fn(&mut [u8]) -> (u32, u32), second: impl Fn(&mut [u8]) -> (u32, u32)) {
    let calls: [(&str, &dyn Fn(&mut [u8]) -> (u32, u32)); 2] =
        [("the proved one", &proved), ("the second program", &second)];
    for (program, call) in calls {
        let mut room = vec![FILLER; case.number("room")];
        let (written, (wanted, left)) = (call(&mut room), case.written());
        assert_eq!(written, wanted, "answer and length by {program} on {}", case.text("name"));
        assert!(room == left, "{program} leaves another room on {}", case.text("name"));
    }
}

#[test]
fn issue() {
    for case in cases("issue.json") {
        let (table, scope) = (case.bytes("table"), case.bytes("scope"));
        let (tid, kid) = (case.text("tid").as_bytes(), case.text("kid").as_bytes());
        let proved = |room: &mut [u8]| {
            let written = archive::issue(&table, tid, kid, &scope, room);
            (written.answer, written.length)
        };
        let second = |room: &mut [u8]| {
            let written = second::issue(&table, tid, kid, &scope, room);
            (written.answer, written.length)
        };
        held(&case, proved, second);
    }
}

#[test]
fn narrow() {
    for case in cases("narrow.json") {
        let (table, token, caveat) = (case.bytes("table"), case.text("token").as_bytes(), case.bytes("caveat"));
        let proved = |room: &mut [u8]| {
            let written = archive::narrow(&table, token, &caveat, room);
            (written.answer, written.length)
        };
        let second = |room: &mut [u8]| {
            let written = second::narrow(&table, token, &caveat, room);
            (written.answer, written.length)
        };
        held(&case, proved, second);
    }
}

#[test]
fn hash() {
    for case in cases("hash.json") {
        let (key, message, name) = (case.bytes("key"), case.bytes("message"), case.text("name"));
        let hashed = archive::keyed_hash(&key, &message);
        assert_eq!((hashed.answer, hashed.bytes.to_vec()), (case.answer(), case.bytes("hash")), "{name}");
        if let (0, Ok(key)) = (case.answer(), key[..].try_into()) {
            assert_eq!(blake3::keyed_hash(key, &message).as_bytes()[..], case.bytes("hash"), "{name}");
        }
    }
}

/// The links over a chain's parts, laid out here as document 01 writes them.
fn links(case: &Case) -> Vec<Vec<u8>> {
    let key: [u8; 32] = case.bytes("key").try_into().expect("a key of 32 bytes");
    let mac = |parts: &[&[u8]]| blake3::keyed_hash(&key, &parts.concat()).as_bytes().to_vec();
    let (tid, kid) = (case.text("tid").as_bytes(), case.text("kid").as_bytes());
    let mut links = vec![mac(&[b"ron-auth/v1\0init", tid, kid, &case.bytes("scope")])];
    for caveat in case.list("caveats") {
        links.push(mac(&[b"ron-auth/v1\0caveat", &links[links.len() - 1], &unhexed(caveat)]));
    }
    links
}

#[test]
fn chain() {
    for case in cases("chain.json") {
        let name = case.text("name");
        let said: Vec<Vec<u8>> = case.list("links").into_iter().map(unhexed).collect();
        assert_eq!(said, links(&case), "{name}");
        let texts = case.list("texts");
        assert_eq!(texts.len(), said.len(), "{name}");
        let (tid, kid, key) = (case.text("tid").as_bytes(), case.text("kid").as_bytes(), case.bytes("key"));
        let table = second::table::write(&[second::table::Row { tid, kid, key: &key }]);
        let mut room = vec![0; 5462];
        let written = archive::issue(&table, tid, kid, &case.bytes("scope"), &mut room);
        let mut made = vec![room[..written.length as usize].to_vec()];
        for caveat in case.list("caveats") {
            let written = archive::narrow(&table, &made[made.len() - 1], &unhexed(caveat), &mut room);
            made.push(room[..written.length as usize].to_vec());
        }
        assert_eq!(made, texts.iter().map(|text| text.as_bytes().to_vec()).collect::<Vec<_>>(), "{name}");
        for (text, link) in made.iter().zip(&said) {
            let token = base64url::decode(text).expect("a text");
            let (from, to) = second::token::read(&token).expect("a token").tag;
            assert_eq!(&token[from..to], link, "the tag in {name}");
        }
    }
}

/// How often each answer stands in a file, each with its right name.
fn answers(file: &str, zero: &str) -> BTreeMap<u32, usize> {
    let mut counts = BTreeMap::new();
    for case in cases(file) {
        let answer = case.answer();
        let named = if answer == 0 { zero } else { name(answer).expect("a number of document 01") };
        assert_eq!(case.text("answer_name"), named, "{}", case.text("name"));
        *counts.entry(answer).or_default() += 1;
    }
    counts
}

#[test]
fn every_answer_is_there_as_often_as_it_should_be() {
    let files = [
        ("verify.json", "allow", (0..=21).collect::<BTreeSet<u32>>()),
        ("issue.json", "done", BTreeSet::from([0, 1, 4, 5, 6, 7, 36])),
        ("narrow.json", "done", [0, 1].into_iter().chain(3..=8).chain(31..=36).collect()),
        ("hash.json", "done", BTreeSet::from([0, 37])),
    ];
    for (file, zero, wanted) in files {
        let counts = answers(file, zero);
        assert_eq!(counts.keys().copied().collect::<BTreeSet<_>>(), wanted, "{file}");
        for (answer, count) in counts {
            assert!(count >= 2, "{file} has answer {answer} {count} times");
        }
    }
}

#[test]
fn names_are_unique_and_the_readme_counts_the_cases() {
    let readme = read("README.md");
    for (file, _) in vectors::files() {
        let cases = cases(file);
        let names: BTreeSet<&str> = cases.iter().map(|case| case.text("name")).collect();
        assert_eq!(names.len(), cases.len(), "names in {file}");
        assert!(cases.iter().all(|case| !case.text("comment").is_empty()), "comments in {file}");
        let row = format!("| `{file}` | {} |", cases.len());
        assert!(readme.contains(&row), "vectors/README.md has no line that begins with {row}");
    }
}
