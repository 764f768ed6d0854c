//! Bundles from a seed: tables, requests and tokens that fit each other or do not, in any order; what is
//! done to the records to make bundles that are none; and such as have a length about the longest.

use std::collections::BTreeMap;

use second::names::name;
use second::records;

use crate::cases::{fitting, Case};
use crate::edits::spoiled;
use crate::faults::{bad_request, bad_table, bad_text, faulty, Fault, FAULTS};
use crate::requests;
use crate::tables::{self, Row};
use crate::Seeded;

/// How many bytes a bundle may have.
pub const LONGEST: usize = 65_536;

pub const TABLE: u16 = 16;
pub const REQUEST: u16 = 32;
pub const TOKEN: u16 = 48;

/// Kinds that no bundle has: those about the three and that of a row, and such as are one of the three in
/// one byte, the wrong way round or but for one bit.
pub const OTHER_KINDS: [u16; 27] = [
    0, 1, 2, 3, 15, 17, 18, 31, 33, 47, 49, 64, 112, 144, 256, 272, 288, 304, 4096, 4112, 8192, 12_288, 12_336,
    32_784, 32_816, 65_328, 65_535,
];

/// How many bytes stand before a record's body.
const HEAD: usize = 4;

/// How many cases the records of one bundle are of.
const CASES: usize = 3;

/// Records that together are no longer than a bundle may be.
#[derive(Clone, Debug, Default)]
pub struct Bundle {
    pub records: Vec<(u16, Vec<u8>)>,
}

impl Bundle {
    pub fn length(&self) -> usize {
        self.records.iter().map(|(_, body)| HEAD + body.len()).sum()
    }

    pub fn laid(&self) -> Vec<u8> {
        self.records.iter().flat_map(|(kind, body)| records::write(*kind, body)).collect()
    }

    /// Puts records behind the others, all of them or, where they are too long together, none.
    fn add(&mut self, records: Vec<(u16, Vec<u8>)>) -> bool {
        let more = Bundle { records };
        let holds = self.length() + more.length() <= LONGEST;
        if holds {
            self.records.extend(more.records);
        }
        holds
    }

    /// Where each record begins.
    fn starts(&self) -> Vec<usize> {
        let mut at = 0;
        let mut starts = Vec::new();
        for (_, body) in &self.records {
            starts.push(at);
            at += HEAD + body.len();
        }
        starts
    }
}

/// A line as document 01 writes it, for a number that verify answers with.
fn line(answer: u32) -> String {
    let name = name(answer).expect("a number that has a name");
    if answer == 0 { format!("{name}\n") } else { format!("deny {name}\n") }
}

/// Triples one behind the other, each with its own table and request, many of them with things wrong; and
/// the lines that they are made for.
pub fn triples(count: usize, seeded: &mut Seeded) -> (Bundle, String) {
    let (mut bundle, mut lines) = (Bundle::default(), String::new());
    for _ in 0..count {
        let first = seeded.below(FAULTS.len() + 3);
        let behind = FAULTS.iter().skip(first + 1).filter(|_| seeded.below(3) == 0);
        let faults: Vec<Fault> = FAULTS.iter().skip(first).take(1).chain(behind).copied().collect();
        let (triple, answer) = faulty(&faults, seeded);
        let mut state = vec![(TABLE, triple.table), (REQUEST, triple.request)];
        if seeded.below(2) == 0 {
            state.swap(0, 1);
        }
        state.push((TOKEN, triple.text));
        if bundle.add(state) {
            lines += &line(answer);
        }
    }
    (bundle, lines)
}

/// Cases under one table, of which a bundle's records are taken in any order.
struct Pool {
    rows: Vec<Row>,
    cases: Vec<Case>,
}

impl Pool {
    fn new(seeded: &mut Seeded) -> Pool {
        let count = |seeded: &mut Seeded| [0, 0, 1, 2, 4, 24][seeded.below(6)];
        let mut cases: Vec<Case> = (0..CASES).map(|_| fitting(count(seeded), seeded)).collect();
        // Where two cases have a row under the same ids, the later one's stays, and both have it.
        let all = cases.iter().flat_map(|case| &case.rows);
        let by_ids: BTreeMap<_, _> = all.map(|row| ((row.tid.clone(), row.kid.clone()), row.clone())).collect();
        let rows: Vec<Row> = by_ids.into_values().collect();
        cases.iter_mut().for_each(|case| case.rows = rows.clone());
        Pool { rows, cases }
    }

    fn table(&self, seeded: &mut Seeded) -> Vec<u8> {
        let mut rows = self.rows.clone();
        match seeded.below(6) {
            0 => return bad_table(&rows, seeded),
            1 => drop(rows.remove(seeded.below(rows.len()))),
            2 => rows = self.cases[seeded.below(CASES)].rows[..1].to_vec(),
            _ => {}
        }
        tables::laid(&rows)
    }

    fn request(&self, case: usize, seeded: &mut Seeded) -> Vec<u8> {
        let case = &self.cases[case];
        match seeded.below(8) {
            0 => bad_request(case, seeded),
            1 | 2 => requests::near(&case.request, seeded).laid(),
            _ => case.request.laid(),
        }
    }

    fn text(&self, case: usize, seeded: &mut Seeded) -> Vec<u8> {
        let case = &self.cases[case];
        let text = case.laid().text;
        match seeded.below(12) {
            0 => bad_text(&text, seeded),
            1 => spoiled(&text, seeded),
            2 => case.with_token(&spoiled(&case.token(), seeded)).text,
            3 => {
                let mut tag = case.tag();
                tag[seeded.below(32)] ^= 1 << seeded.below(8);
                case.with_token(&case.tree(&tag).laid()).text
            }
            4 => [&text[..], b"\n"].concat(),
            5 => vec![b'A'; [0, 0, 0, 1, 4, 5462, 5463][seeded.below(7)]],
            _ => text,
        }
    }
}

/// Tables, requests and tokens in any order, the first of each kind sometimes late or missing; most tokens
/// are of the case whose request was last.
pub fn mixed(count: usize, seeded: &mut Seeded) -> Bundle {
    let pool = Pool::new(seeded);
    let mut bundle = Bundle::default();
    let mut last = 0;
    if seeded.below(4) > 0 {
        bundle.add(vec![(TABLE, tables::laid(&pool.rows)), (REQUEST, pool.request(last, seeded))]);
    }
    while bundle.records.len() < count {
        let record = match seeded.below(12) {
            0 => (TABLE, pool.table(seeded)),
            1..=3 => {
                last = seeded.below(CASES);
                (REQUEST, pool.request(last, seeded))
            }
            turn => {
                let case = if turn == 4 { seeded.below(CASES) } else { last };
                (TOKEN, pool.text(case, seeded))
            }
        };
        if !bundle.add(vec![record]) {
            break;
        }
    }
    bundle
}

/// Shows `check` the bundle cut in each record: in its head, behind that, in its body, before its last byte.
pub fn cut(bundle: &Bundle, seeded: &mut Seeded, mut check: impl FnMut(&[u8])) {
    let laid = bundle.laid();
    for (start, (_, body)) in bundle.starts().into_iter().zip(&bundle.records) {
        let length = HEAD + body.len();
        for kept in [1, 2, 3, HEAD, HEAD + seeded.below(body.len() + 1), length - 1] {
            check(&laid[..start + kept.min(length)]);
        }
    }
}

/// Shows `check` the bundle with a record of each other kind at some place, put in or in another's place.
pub fn other_kinds(bundle: &Bundle, seeded: &mut Seeded, mut check: impl FnMut(&[u8])) {
    for kind in OTHER_KINDS {
        let at = seeded.below(bundle.records.len());
        let mut changed = bundle.clone();
        changed.records[at].0 = kind;
        check(&changed.laid());
        let mut more = bundle.clone();
        let length = [0, 1, 40][seeded.below(3)];
        more.records.insert(at, (kind, seeded.bytes(length)));
        check(&more.laid());
    }
}

/// Shows `check` the bundle with one record's length told as others, and with what follows where it is.
pub fn lengths(bundle: &Bundle, seeded: &mut Seeded, mut check: impl FnMut(&[u8])) {
    let mut laid = bundle.laid();
    let starts = bundle.starts();
    let at = seeded.below(starts.len());
    let body = &bundle.records[at].1;
    let told = body.len() as u16;
    let near = [-256, -4, -1, 1, 4, 256].map(|step| told.wrapping_add_signed(step));
    for other in near.into_iter().chain([0, told.swap_bytes(), told | 0x8000, u16::MAX]) {
        laid[starts[at]..starts[at] + 2].copy_from_slice(&other.to_le_bytes());
        check(&laid);
    }
}

/// A bundle and as many bytes behind it as there are to this length, as the body of one record or as
/// records without a body and a rest.
pub fn filled(bundle: &Bundle, length: usize, seeded: &mut Seeded) -> Vec<u8> {
    let mut laid = bundle.laid();
    let left = length.saturating_sub(laid.len());
    let kind = [TABLE, REQUEST, TOKEN][seeded.below(3)];
    if left >= HEAD && left - HEAD <= usize::from(u16::MAX) && seeded.below(2) == 0 {
        laid.extend(records::write(kind, &vec![b'A'; left - HEAD]));
    } else {
        laid.extend(records::write(kind, b"").iter().cycle().take(left));
    }
    laid
}
