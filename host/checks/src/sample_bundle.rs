//! The samples in examples/: one bundle with two tenants' keys, their requests, tokens that are allowed, and
//! one token at least for each reason to deny, and the messages of the module's example. Each token stands
//! with the line that is printed for it. The tokens are made by the proved issue and narrow, but for one that
//! these refuse today.

use second::request::Rate;

use crate::bundles::{Bundle, REQUEST, TABLE, TOKEN};
use crate::cases::Case;
use crate::requests::Request;
use crate::tables::{self, Row};
use crate::tree::Node;
use crate::trees::{caveat_of, rate};

/// The first second of 2026, in UTC.
pub const NEW_YEAR: u64 = 1_767_225_600;

/// How many seconds a day has.
const DAY: u64 = 86_400;

pub const DIGEST: &[u8; 64] = b"9f86d081884c7d659a2feaa0c55ad015a3bf4f1b2b0b822cd15d6c15b0f00a08";

/// Keys by tenant, name and the byte that this sample's keys are made of. The workshop's is a year old, and
/// no table has it any more.
const WORKSHOP: (&str, &str, u8) = ("workshop", "kid-2025-10", 1);
const WORKSHOP_OLD: (&str, &str, u8) = ("workshop", "kid-2024-10", 2);
const CONTRACTOR: (&str, &str, u8) = ("contractor", "kid-2025-11", 3);

/// One record, and for a token its line.
struct Step {
    kind: u16,
    body: Vec<u8>,
    line: &'static str,
}

/// The bundle, and all its lines.
pub fn made() -> (Vec<u8>, String) {
    let groups = [begun(), texts(), tokens(), scopes(), caveats_of_numbers(), caveats_of_texts(), others()];
    let steps: Vec<Step> = groups.into_iter().flatten().collect();
    let lines = steps.iter().filter(|step| step.kind == TOKEN).map(|step| format!("{}\n", step.line));
    let lines: String = lines.collect();
    let records = steps.into_iter().map(|step| (step.kind, step.body)).collect();
    (Bundle { records }.laid(), lines)
}

/// Before any table and request, and then the first of each.
fn begun() -> Vec<Step> {
    vec![
        token("deny ctx.bad", fresh(WORKSHOP)),
        table(&[CONTRACTOR, WORKSHOP]),
        token("deny ctx.bad", fresh(WORKSHOP)),
        request(read_count()),
        token("allow", fresh(WORKSHOP)),
    ]
}

/// Texts that are no tokens.
fn texts() -> Vec<Step> {
    let padded = [&fresh(WORKSHOP)[..], b"="].concat();
    vec![
        token("deny parse.b64", padded),
        token("deny parse.cbor", vec![]),
        // a6 61 63 98 41: a map of six, of which the first is a list of 65 caveats.
        token("deny parse.bounds", b"pmFjmEE".to_vec()),
        // a7: a map of seven.
        token("deny schema.unknown_field", b"pw".to_vec()),
    ]
}

/// Tokens under a key that is gone, with another tag, and of another tenant.
fn tokens() -> Vec<Step> {
    vec![
        token("deny kid.unknown", fresh(WORKSHOP_OLD)),
        token("deny mac.mismatch", forged(WORKSHOP)),
        token("deny tenant.mismatch", fresh(CONTRACTOR)),
    ]
}

/// What the scope does not reach. Each request stays for the tokens behind it.
fn scopes() -> Vec<Step> {
    vec![
        request(Request { method: b"DELETE".to_vec(), ..read_count() }),
        token("deny caveat.method", fresh(WORKSHOP)),
        request(Request { path: b"/relay/2/count".to_vec(), ..read_count() }),
        token("deny caveat.path", fresh(WORKSHOP)),
        request(Request { path: b"/relay/12".to_vec(), ..read_count() }),
        token("deny caveat.path", fresh(WORKSHOP)),
        request(Request { body_size: 513, ..read_count() }),
        token("deny caveat.bytes", fresh(WORKSHOP)),
        request(Request { path: b"/relay/1/../2/count".to_vec(), ..read_count() }),
        token("deny ctx.bad", fresh(WORKSHOP)),
        request(read_count()),
        token("deny parse.cbor", old(WORKSHOP)),
    ]
}

/// One caveat each that holds and then one that does not.
fn caveats_of_numbers() -> Vec<Step> {
    let with = |t, v| narrowed(WORKSHOP, &[caveat_of(t, v)]);
    let seconds = Node::number;
    vec![
        token("allow", with("exp", seconds(NEW_YEAR - 300))),
        token("deny caveat.exp", with("exp", seconds(NEW_YEAR - 301))),
        token("allow", with("nbf", seconds(NEW_YEAR + 300))),
        token("deny caveat.nbf", with("nbf", seconds(NEW_YEAR + 301))),
        token("allow", with("bytes_le", Node::number(16))),
        token("deny caveat.bytes", with("bytes_le", Node::number(15))),
        token("allow", with("rate", rate(10, 5))),
        token("deny caveat.rate", with("rate", rate(10, 4))),
        token("allow", with("amnesia", Node::simple(20))),
        token("deny caveat.amnesia", with("amnesia", Node::simple(21))),
    ]
}

fn caveats_of_texts() -> Vec<Step> {
    let with = |t, text: &str| narrowed(WORKSHOP, &[caveat_of(t, Node::text(text.as_bytes()))]);
    let methods = |list: &[&str]| Node::array(list.iter().map(|method| Node::text(method.as_bytes())).collect());
    let for_methods = |list: &[&str]| narrowed(WORKSHOP, &[caveat_of("method", methods(list))]);
    let digest = std::str::from_utf8(DIGEST).expect("hex digits");
    vec![
        token("allow", with("aud", "relay-1")),
        token("deny caveat.aud", with("aud", "relay-2")),
        token("allow", for_methods(&["PUT", "GET"])),
        token("deny caveat.method", for_methods(&[])),
        token("allow", with("path_prefix", "/relay/1/")),
        token("deny caveat.path", with("path_prefix", "/relay/1/c")),
        token("allow", with("ip_cidr", "10.0.0.0/8")),
        token("deny caveat.ip", with("ip_cidr", "10.2.0.0/16")),
        token("allow", with("tenant", "workshop")),
        token("deny caveat.tenant", with("tenant", "contractor")),
        token("allow", with("gov_policy_digest", digest)),
        token("deny caveat.policy_digest", with("gov_policy_digest", &"0".repeat(64))),
    ]
}

/// A caveat that never holds, the first of two that do not, the other tenant, and tables that change.
fn others() -> Vec<Step> {
    let text = |text: &str| Node::text(text.as_bytes());
    let custom = Node::map(vec![("ns", text("shop")), ("cbor", Node::array(vec![])), ("name", text("shift"))]);
    let late = [caveat_of("aud", text("relay-2")), caveat_of("exp", Node::number(0))];
    let tenant = b"contractor".to_vec();
    let mut broken = table(&[CONTRACTOR, WORKSHOP]);
    broken.body.pop();
    vec![
        token("deny caveat.custom.unknown", narrowed(WORKSHOP, &[caveat_of("custom", custom)])),
        token("deny caveat.aud", narrowed(WORKSHOP, &late)),
        request(Request { tenant, peer: None, rate: None, audience: None, digest: None, ..read_count() }),
        token("allow", fresh(CONTRACTOR)),
        token("deny caveat.ip", narrowed(CONTRACTOR, &[caveat_of("ip_cidr", text("0.0.0.0/0"))])),
        broken,
        token("deny table.bad", fresh(CONTRACTOR)),
        table(&[WORKSHOP]),
        token("deny kid.unknown", fresh(CONTRACTOR)),
        table(&[CONTRACTOR, WORKSHOP]),
        token("allow", fresh(CONTRACTOR)),
    ]
}

/// The messages that examples/firmware.c is tried on, and what it prints for them. The workshop may read
/// and write the count; the contractor, until the day after, may read it on relay 1.
pub fn service() -> (String, String) {
    let texts = [fresh(WORKSHOP), read_only(), forged(WORKSHOP)];
    let [workshop, contractor, forged] = texts.map(|text| String::from_utf8(text).expect("a token's text"));
    let long = "1".repeat(513);
    let steps = [
        (format!("clock {NEW_YEAR}\nswitch\nswitch\nswitch"), ""),
        (format!("GET /relay/1/count workshop - {workshop}"), "count 3"),
        (format!("PUT /relay/1/count workshop 100 {workshop}"), "count 100"),
        ("switch".to_owned(), ""),
        (format!("GET /relay/1/count contractor - {contractor}"), "count 101"),
        (format!("PUT /relay/1/count contractor 0 {contractor}"), "refused: caveat.method"),
        (format!("GET /relay/1/count contractor - {contractor}"), "count 101"),
        (format!("PUT /relay/1/count workshop 0 {contractor}"), "refused: tenant.mismatch"),
        (format!("PUT /relay/1/count workshop 0 {forged}"), "refused: mac.mismatch"),
        (format!("PUT /relay/1/count workshop 0 {workshop}="), "refused: parse.b64"),
        (format!("PUT /relay/1/count workshop {long} {workshop}"), "refused: caveat.bytes"),
        (format!("put /relay/1/count workshop 0 {workshop}"), "refused: ctx.bad"),
        ("PUT /relay/1/count workshop 0".to_owned(), "the message is not whole"),
        (format!("PUT /relay/1/count workshop many {workshop}"), "the new count is no number"),
        (format!("GET /relay/2/count contractor - {contractor}"), "refused: caveat.path"),
        (format!("PUT /relay/12/count workshop 0 {workshop}"), "refused: caveat.path"),
        (format!("PUT /relay/2/../1/count workshop 0 {workshop}"), "refused: ctx.bad"),
        (format!("GET /relay/1/name contractor - {contractor}"), "there is nothing under this path"),
        (format!("clock {}", NEW_YEAR + DAY + 301), ""),
        (format!("GET /relay/1/count contractor - {contractor}"), "refused: caveat.exp"),
        (format!("GET /relay/1/count workshop - {workshop}"), "count 101"),
    ];
    let messages = steps.iter().map(|(message, _)| format!("{message}\n")).collect();
    let printed = steps.iter().filter(|(_, line)| !line.is_empty()).map(|(_, line)| format!("{line}\n")).collect();
    (messages, printed)
}

fn read_only() -> Vec<u8> {
    let get = Node::array(vec![Node::text(b"GET")]);
    let audience = Node::text(b"relay-1");
    let caveats =
        [("method", get), ("aud", audience), ("exp", Node::number(NEW_YEAR + DAY))].map(|(t, v)| caveat_of(t, v));
    narrowed(CONTRACTOR, &caveats)
}

fn token(line: &'static str, text: Vec<u8>) -> Step {
    Step { kind: TOKEN, body: text, line }
}

fn table(keys: &[(&str, &str, u8)]) -> Step {
    let rows: Vec<Row> = keys.iter().map(|&key| row(key)).collect();
    Step { kind: TABLE, body: tables::laid(&rows), line: "" }
}

fn request(request: Request) -> Step {
    Step { kind: REQUEST, body: request.laid(), line: "" }
}

/// The workshop reads the count of relay 1 at the new year, with a body of 16 bytes.
pub fn read_count() -> Request {
    Request {
        now: NEW_YEAR,
        body_size: 16,
        skew: 300,
        amnesia: false,
        peer: Some([10, 1, 2, 3]),
        digest: Some(DIGEST.to_vec()),
        rate: Some(Rate { per_s: 5, burst: 10 }),
        method: b"GET".to_vec(),
        path: b"/relay/1/count".to_vec(),
        tenant: b"workshop".to_vec(),
        audience: Some(b"relay-1".to_vec()),
    }
}

fn row((tid, kid, byte): (&str, &str, u8)) -> Row {
    Row { tid: tid.into(), kid: kid.into(), key: vec![byte; 32] }
}

/// A token that may GET and PUT under /relay/1 with bodies of up to 512 bytes.
fn fresh(key: (&str, &str, u8)) -> Vec<u8> {
    let scope = Node::map(vec![
        ("prefix", Node::text(b"/relay/1")),
        ("methods", Node::array(vec![Node::text(b"GET"), Node::text(b"PUT")])),
        ("max_bytes", Node::number(512)),
    ]);
    let row = row(key);
    let mut room = vec![0; 5462];
    let written = archive::issue(&row.record(), &row.tid, &row.kid, &scope.laid(), &mut room);
    assert_eq!(written.answer, 0, "a scope and a key that are good");
    room.truncate(written.length as usize);
    room
}

/// An old token, for /relay//1 and rightly tagged. It was readable until prefixes that proxies rewrite were refused;
/// issue hands out none today, so the second program's chain tags it.
fn old(key: (&str, &str, u8)) -> Vec<u8> {
    let get = Node::array(vec![Node::text(b"GET")]);
    let scope = Node::map(vec![("prefix", Node::text(b"/relay//1")), ("methods", get)]);
    let row = row(key);
    Case { rows: vec![row.clone()], row, request: read_count(), scope, caveats: vec![] }.laid().text
}

/// The same as the fresh one with one character of its tag changed, which lies in the middle of the token.
fn forged(key: (&str, &str, u8)) -> Vec<u8> {
    let mut text = fresh(key);
    let at = text.len() / 2;
    text[at] = if text[at] == b'A' { b'B' } else { b'A' };
    text
}

/// The fresh token with these caveats.
fn narrowed(key: (&str, &str, u8), caveats: &[Node]) -> Vec<u8> {
    caveats.iter().fold(fresh(key), |parent, caveat| {
        let mut room = vec![0; 5462];
        let written = archive::narrow(&row(key).record(), &parent, &caveat.laid(), &mut room);
        assert_eq!(written.answer, 0, "a parent and a caveat that are good");
        room.truncate(written.length as usize);
        room
    })
}
