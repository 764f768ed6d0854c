//! What is wrong with a case, in the order in which verify must answer. Faults are put into a good case
//! independently of each other, so that any number of them may stand together and the first one counts.

use second::chain::official;
use second::{base64url, records};

use crate::cases::{fitting_for, shorten, Case, Triple, CAVEATS};
use crate::fitting::{self, Broken, NUMBERS};
use crate::inputs;
use crate::requests;
use crate::strings;
use crate::tables::{self, Row};
use crate::tree::Node;
use crate::trees::{self, KINDS};
use crate::Seeded;

/// In the order in which they are answered.
#[derive(Clone, Copy, Debug, PartialEq, Eq)]
pub enum Fault {
    Table,
    Request,
    Length,
    Text,
    Reading,
    Key,
    Tag,
    Tenant,
    Method,
    Path,
    Bytes,
    Caveat,
}

pub const FAULTS: [Fault; 12] = [
    Fault::Table,
    Fault::Request,
    Fault::Length,
    Fault::Text,
    Fault::Reading,
    Fault::Key,
    Fault::Tag,
    Fault::Tenant,
    Fault::Method,
    Fault::Path,
    Fault::Bytes,
    Fault::Caveat,
];

/// Where v and kid stand among a token's keys and values.
const V: usize = 7;
const KID: usize = 9;

/// Bytes that no text holds.
const STRANGE: &[u8; 12] = b"=+/ \n\0.,~\x7f\x80\xff";

/// A triple with these faults, and the answer that the first of them must get.
pub fn faulty(faults: &[Fault], seeded: &mut Seeded) -> (Triple, u32) {
    let is = |fault| faults.contains(&fault);
    let mut request = requests::any(seeded);
    if is(Fault::Bytes) {
        request.body_size = request.body_size.max(1);
    }
    let mut case = fitting_for(request, [0, 1, 2, 3, 5, 12, 23, 24, 64][seeded.below(9)], seeded);
    let broken = Broken { method: is(Fault::Method), path: is(Fault::Path), bytes: is(Fault::Bytes) };
    case.scope = fitting::scope(broken, &case.request, seeded);
    let caveat = if is(Fault::Caveat) { break_caveat(&mut case, seeded) } else { 0 };
    let (triple, reading) = laid_with(case, faults, seeded);
    let numbers = [1, 2, 5, 3, reading, 7, 8, 9, 10, 11, 12, caveat];
    let first = FAULTS.iter().position(|&fault| is(fault));
    (triple, first.map_or(0, |first| numbers[first]))
}

/// The case as it lies with those of these faults that are not of its scope and its caveats, and the number
/// that goes with the one of reading.
pub fn laid_with(case: Case, faults: &[Fault], seeded: &mut Seeded) -> (Triple, u32) {
    let (token, reading) = token(&case, faults, seeded);
    (lay(case, &token, faults, seeded), reading)
}

/// Puts a caveat that does not hold behind some that do and before some of which nothing is said, and
/// says its number.
fn break_caveat(case: &mut Case, seeded: &mut Seeded) -> u32 {
    let first = seeded.below(KINDS.len());
    let mut kinds = (0..KINDS.len()).map(|step| (first + step) % KINDS.len());
    let (kind, caveat) = kinds
        .find_map(|kind| Some((kind, fitting::failing(kind, &case.request, seeded)?)))
        .expect("a custom caveat never holds");
    case.caveats.truncate(CAVEATS - 1);
    let at = seeded.below(case.caveats.len() + 1);
    for behind in &mut case.caveats[at..] {
        if seeded.below(2) == 0 {
            *behind = trees::caveat(seeded.below(KINDS.len()), seeded);
        }
    }
    shorten(&mut case.caveats);
    case.caveats.insert(at, caveat);
    NUMBERS[kind]
}

/// The token, its tag wrong or right, and bytes that do not read if they are to; and the number of that.
fn token(case: &Case, faults: &[Fault], seeded: &mut Seeded) -> (Vec<u8>, u32) {
    let tag = if faults.contains(&Fault::Tag) { wrong_tag(case, seeded) } else { case.tag().to_vec() };
    let mut tree = case.tree(&tag);
    if !faults.contains(&Fault::Reading) {
        return (tree.laid(), 0);
    }
    let (at, item, number) = match seeded.below(4) {
        0 => (KID, Node::text(&[b'k'; 65]), 5),
        1 => (V, Node::number(2 + inputs::number(seeded) / 2), 6),
        2 => (V, Node::negative(1), 4),
        _ => return ([&tree.laid()[..], b"\0"].concat(), 4),
    };
    tree.items[at] = item;
    (tree.laid(), number)
}

/// One that is off by a bit, nothing, under another key, of fewer caveats, of other order, or over the
/// last caveat alone.
fn wrong_tag(case: &Case, seeded: &mut Seeded) -> Vec<u8> {
    let right = case.tag();
    let mut off = right;
    off[[0, 31, 31, seeded.below(32)][seeded.below(4)]] ^= 1 << seeded.below(8);
    let mut other = case.clone();
    other.row.key[[0, 31, seeded.below(32)][seeded.below(3)]] ^= 1 << seeded.below(8);
    let reversed: Vec<Node> = case.caveats.iter().rev().cloned().collect();
    let fewer = &case.caveats[..case.caveats.len().saturating_sub(1)];
    let last = case.caveats.last().map_or(vec![], Node::laid);
    let alone = official(case.key(), &[b"ron-auth/v1\0caveat", &last[..]].concat());
    let tags = [off, [0; 32], other.tag(), case.tag_over(fewer), case.tag_over(&reversed), alone];
    let tag = tags[seeded.below(tags.len())];
    if tag == right { off.to_vec() } else { tag.to_vec() }
}

/// The case as it lies, with what is wrong outside the token put in.
fn lay(mut case: Case, token: &[u8], faults: &[Fault], seeded: &mut Seeded) -> Triple {
    let is = |fault| faults.contains(&fault);
    if is(Fault::Tenant) {
        case.request.tenant = strings::other_name(&case.request.tenant, seeded);
    }
    if is(Fault::Key) {
        case.rows.retain(|row| *row != case.row);
    }
    let mut triple = case.with_token(token);
    if is(Fault::Table) {
        triple.table = bad_table(&case.rows, seeded);
    }
    if is(Fault::Request) {
        triple.request = bad_request(&case, seeded);
    }
    if is(Fault::Text) {
        triple.text = bad_text(&triple.text, seeded);
    }
    if is(Fault::Length) {
        let length = [5463, 5464, 6000, 8192, 65_536, 65_540, 70_000][seeded.below(7)];
        triple.text.resize(length.max(triple.text.len()), [b'A', b'='][seeded.below(2)]);
    }
    triple
}

/// The rows with something wrong among them or behind them.
pub fn bad_table(rows: &[Row], seeded: &mut Seeded) -> Vec<u8> {
    let table = tables::laid(rows);
    let row = Row::new(b"~", b"k", seeded);
    let long = Row::new(b"zz", &[b'z'; 65], seeded);
    match seeded.below(7) {
        0 => [&table[..], b"\0"].concat(),
        1 => [&table[..], &row.record()].concat(),
        2 => [&table[..], &long.record()].concat(),
        3 => [&table[..], &records::write(257, &Row::new(b"zz", b"z", seeded).body())].concat(),
        4 => tables::laid(&tables::rows(65, seeded)),
        5 if !rows.is_empty() => table[..table.len() - 1].to_vec(),
        _ => {
            let again = rows.first().cloned().unwrap_or(row);
            [&again.record()[..], &again.record(), &table].concat()
        }
    }
}

pub fn bad_request(case: &Case, seeded: &mut Seeded) -> Vec<u8> {
    let mut request = case.request.clone();
    let laid = request.laid();
    match seeded.below(7) {
        0 => return [&laid[..], b"\0"].concat(),
        1 => return laid[..laid.len() - 1].to_vec(),
        2 => return vec![],
        3 => request.skew = 301 + seeded.below(1000) as u16,
        4 => request.method[0] = b'g',
        5 => request.path[0] = b'o',
        _ => {
            let mut laid = laid;
            laid[18] |= 0x20 << seeded.below(3);
            return laid;
        }
    }
    request.laid()
}

/// A text that is none: a byte that it may not hold, padding, a length that none has, unused bits.
pub fn bad_text(text: &[u8], seeded: &mut Seeded) -> Vec<u8> {
    let mut bad = text.to_vec();
    let strange = STRANGE[seeded.below(STRANGE.len())];
    match seeded.below(4) {
        0 => bad.resize(text.len() + 1 + (8 - text.len() % 4) % 4, b'A'),
        1 if text.len() % 4 > 1 => {
            // The letter that stands behind this one in the alphabet, so that the lowest bit is set.
            let last = base64url::decode(&[b"AAA", &text[text.len() - 1..]].concat()).map_or(0, |bytes| bytes[2]);
            let next = base64url::encode(&[0, 0, last | 1]);
            *bad.last_mut().expect("a text that is not empty") = next[3];
        }
        2 => bad.push(strange),
        _ => {
            let at = seeded.below(text.len());
            bad[at] = strange;
        }
    }
    bad
}
