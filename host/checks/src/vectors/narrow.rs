//! The file narrow.json. The texts are the second program's; which calls have one is said here.

use second::base64url;
use serde_json::Value;

use super::json::{answered, file as file_of, hexed, object, text};
use super::parts::{custom, fresh, idle, methods, row, tree, words, NEW_YEAR};
use crate::calls::characters;
use crate::cases::Case;
use crate::tables;
use crate::tree::Node;
use crate::trees::{caveat_of, nested, rate};

/// How many characters the longest text has.
const ENOUGH: usize = 5462;

/// A call of narrow, and the answer that it must get.
struct Narrow {
    answer: u32,
    name: &'static str,
    comment: &'static str,
    table: Vec<u8>,
    token: Vec<u8>,
    caveat: Vec<u8>,
    room: usize,
}

pub fn file() -> String {
    let about = "Calls of narrow: a key table's records, a token's text, a caveat and the length of the room; the \
                 answer and, where it is 0, the text at the front of the room.";
    let groups = [done(), rooms(), parents(), unread(), out_of_bounds(), unknown(), full(), sizes(), order()];
    file_of(about, groups.iter().flatten().map(laid).collect())
}

fn laid(case: &Narrow) -> Value {
    let mut fields = vec![
        ("name", case.name.into()),
        ("comment", case.comment.into()),
        ("table", hexed(&case.table)),
        ("token", text(&case.token)),
        ("caveat", hexed(&case.caveat)),
        ("room", case.room.into()),
    ];
    fields.extend(answered(case.answer, "done"));
    if case.answer == 0 {
        let mut room = vec![0; case.room];
        let written = second::narrow(&case.table, &case.token, &case.caveat, &mut room);
        fields.push(("text", text(&room[..written.length as usize])));
    }
    object(fields)
}

/// The call that narrows the token of a case.
fn of(answer: u32, name: &'static str, comment: &'static str, parent: &Case, caveat: &[u8]) -> Narrow {
    let (table, token) = (tables::laid(&parent.rows), base64url::encode(&parent.token()));
    Narrow { answer, name, comment, table, token, caveat: caveat.to_vec(), room: ENOUGH }
}

/// The fresh token narrowed.
fn fresh_by(answer: u32, name: &'static str, comment: &'static str, caveat: Node) -> Narrow {
    of(answer, name, comment, &fresh(), &caveat.laid())
}

fn idles(count: usize) -> Case {
    Case { caveats: vec![idle(); count], ..fresh() }
}

fn exp() -> Node {
    caveat_of("exp", Node::number(NEW_YEAR))
}

/// A custom caveat that makes of a token a child of so many bytes.
fn filling(parent: &Case, length: usize) -> Vec<u8> {
    let child = |caveat: &Node| Case { caveats: [&parent.caveats[..], &[caveat.clone()]].concat(), ..parent.clone() };
    let held = |count: &usize| custom(Node::bytes(&vec![0xff; *count]));
    let left = length - child(&held(&0)).length();
    let caveat = (0..=left).rev().take(4).map(|count| held(&count)).find(|caveat| child(caveat).length() == length);
    caveat.expect("a caveat of that size").laid()
}

fn done() -> Vec<Narrow> {
    let once = Case { caveats: vec![exp()], ..fresh() };
    let rate = caveat_of("rate", rate(10, 5));
    let deep = custom(nested(4, Node::negative(0)));
    vec![
        fresh_by(0, "exp", "the first caveat", exp()),
        of(0, "exp-again", "the same caveat a second time", &once, &exp().laid()),
        of(0, "method", "a second caveat", &once, &caveat_of("method", methods(&["GET"])).laid()),
        fresh_by(0, "rate", "a caveat whose value is a map", rate),
        fresh_by(0, "custom-deep", "-1 inside four arrays", deep),
        fresh_by(0, "tenant-other", "a caveat that cannot hold is added as any other", {
            caveat_of("tenant", words("contractor"))
        }),
        of(0, "caveats-23", "the last count that stands in one byte", &idles(22), &idle().laid()),
        of(0, "caveats-24", "the first count that takes a byte more", &idles(23), &idle().laid()),
        of(0, "caveats-64", "as many caveats as there may be", &idles(63), &idle().laid()),
    ]
}

fn rooms() -> Vec<Narrow> {
    let length = characters(Case { caveats: vec![exp()], ..fresh() }.length());
    let room = |answer, name, comment, room| Narrow { room, ..fresh_by(answer, name, comment, exp()) };
    vec![
        room(0, "room-exact", "as much room as the text takes", length),
        room(36, "room-one-less", "a byte less", length - 1),
        room(36, "room-none", "no room", 0),
    ]
}

/// What is wrong with table and parent; the caveat and the room are good.
fn parents() -> Vec<Narrow> {
    let parent = |answer, name, comment, token: &[u8]| {
        Narrow { token: token.to_vec(), ..fresh_by(answer, name, comment, exp()) }
    };
    let laid = fresh().token();
    let good = base64url::encode(&laid);
    let mut edition = tree();
    edition.items[7] = Node::number(2);
    let untagged = base64url::encode(&fresh().tree(&[0; 32]).laid());
    let gone = base64url::encode(&Case { row: row("workshop", "kid-2024-10"), ..fresh() }.token());
    let many = base64url::encode(&idles(65).token());
    let left_over = base64url::encode(&[&laid[..], b"\0"].concat());
    vec![
        Narrow { table: vec![0], ..fresh_by(1, "table-cut", "a record of one byte", exp()) },
        parent(3, "text-padded", "padding behind the text", &[&good[..], b"="].concat()),
        parent(3, "text-unused-bits", "unused low bits that are not zero", b"_x"),
        parent(4, "text-empty", "no text", b""),
        parent(4, "token-left-over", "a byte behind the token", &left_over),
        parent(5, "text-5463", "a text that is too long", &[b'='; 5463]),
        parent(5, "token-caveats-65", "a parent of 65 caveats", &many),
        parent(6, "token-seven-entries", "a map of seven", b"pw"),
        parent(6, "token-v-2", "an edition that is not known", &base64url::encode(&edition.laid())),
        parent(7, "kid-gone", "the table has no such kid", &gone),
        parent(8, "tag-zero", "32 zero bytes as the tag", &untagged),
    ]
}

fn unread() -> Vec<Narrow> {
    let raw = |name, comment, caveat: &[u8]| of(31, name, comment, &fresh(), caveat);
    let laid = exp().laid();
    vec![
        raw("caveat-missing", "no bytes", b""),
        raw("caveat-cut", "the last byte is missing", &laid[..laid.len() - 1]),
        raw("caveat-left-over", "a byte behind the caveat", &[&laid[..], b"\0"].concat()),
        raw("caveat-two", "two caveats", &[&laid[..], &laid].concat()),
        raw("caveat-list", "a list of one caveat", &[b"\x81", &laid[..]].concat()),
        raw("caveat-long-head", "exp 23 in a head of two bytes", b"\xa2\x61t\x63exp\x61v\x18\x17"),
        fresh_by(31, "cidr-bit-past", "10.0.0.1/8 has a bit past the eighth", {
            caveat_of("ip_cidr", words("10.0.0.1/8"))
        }),
        fresh_by(31, "prefix-slashes", "// in a prefix", caveat_of("path_prefix", words("/relay//1"))),
        fresh_by(31, "prefix-dots", "a segment ..", caveat_of("path_prefix", words("/relay/.."))),
        fresh_by(31, "prefix-percent", "% in a prefix", caveat_of("path_prefix", words("/relay/%31"))),
    ]
}

fn out_of_bounds() -> Vec<Narrow> {
    vec![
        fresh_by(32, "tenant-empty", "an empty tenant", caveat_of("tenant", words(""))),
        fresh_by(32, "aud-129", "an audience that is too long", caveat_of("aud", words(&"a".repeat(129)))),
        fresh_by(32, "methods-17", "one method more than there may be", caveat_of("method", methods(&["GET"; 17]))),
        fresh_by(32, "rate-2-32", "a burst of 2^32", caveat_of("rate", rate(1 << 32, 5))),
        fresh_by(32, "depth-5", "a fifth array", custom(nested(4, Node::array(vec![])))),
    ]
}

fn unknown() -> Vec<Narrow> {
    let three = vec![("t", words("exp")), ("v", Node::number(0)), ("w", Node::number(0))];
    let zone = Node::map(vec![("t", words("exp")), ("w", Node::number(0))]);
    vec![
        fresh_by(33, "caveat-t-unknown", "a kind that is none of the twelve", caveat_of("until", Node::number(0))),
        fresh_by(33, "caveat-three-entries", "an entry behind the two", Node::map(three)),
        fresh_by(33, "caveat-key-unknown", "w, where v should stand", zone),
    ]
}

fn full() -> Vec<Narrow> {
    let long = custom(Node::bytes(&[0xff; 5000])).laid();
    vec![
        of(34, "caveats-65", "one caveat more than there may be", &idles(64), &idle().laid()),
        of(34, "order-full-size", "64 caveats, and a long one: the count comes first", &idles(64), &long),
        Narrow { room: 0, ..of(34, "order-full-room", "64 caveats, and no room", &idles(64), &idle().laid()) },
        of(33, "order-unknown-full", "64 caveats, and an unknown one: its reading comes first", &idles(64), b"\xa3"),
    ]
}

fn sizes() -> Vec<Narrow> {
    let (parent, growing) = (fresh(), idles(23));
    let [most, over] = [4096, 4097].map(|length| filling(&parent, length));
    let [most_growing, over_growing] = [4096, 4097].map(|length| filling(&growing, length));
    let long = custom(Node::bytes(&[0xff; 5000])).laid();
    vec![
        of(0, "size-4096", "a child of 4,096 bytes, 5,462 characters", &parent, &most),
        of(35, "size-4097", "a byte more", &parent, &over),
        of(0, "size-4096-growing", "the same where the head of the list grows by a byte", &growing, &most_growing),
        of(35, "size-4097-growing", "4,096 bytes but for the head that grows", &growing, &over_growing),
        of(35, "size-caveat-alone", "a good caveat that is longer than any token", &parent, &long),
        Narrow { room: 0, ..of(35, "order-size-room", "a byte too many, and no room", &parent, &over) },
        Narrow { room: 5461, ..of(36, "size-4096-room", "4,096 bytes, and room for 5,461", &parent, &most) },
    ]
}

/// The parent is judged whole before a byte of the caveat is.
fn order() -> Vec<Narrow> {
    let nothing = |answer, name, comment| Narrow { room: 0, ..of(answer, name, comment, &fresh(), b"") };
    let long = vec![b'='; 6000];
    let untagged = base64url::encode(&fresh().tree(&[0; 32]).laid());
    vec![
        Narrow { table: vec![0], token: long.clone(), ..nothing(1, "order-table-text", "bad table, text, caveat") },
        Narrow { token: long, ..nothing(5, "order-length-text", "too long, of bad characters; a bad caveat") },
        Narrow { table: vec![], ..nothing(7, "order-key-caveat", "no key, and no caveat") },
        Narrow { token: untagged, ..nothing(8, "order-tag-caveat", "a wrong tag, and no caveat") },
        nothing(31, "order-caveat-room", "no caveat, and no room"),
    ]
}
