//! Bundles: tables, requests and tokens as records one behind the other. Each is judged by itself before it is
//! laid, unless it is wanted as it is; what is read may have a rest that is no record.

use crate::order::Placed;
use crate::parts::{named, Part};
use crate::problem::{refused, wrong, Done};
use crate::words::BundleWords;
use crate::{explain, files, library, records, request};

pub const TABLE: u16 = 16;
pub const REQUEST: u16 = 32;
pub const TOKEN: u16 = 48;

/// The longest body that a record can have.
const RECORD: usize = 65_535;

/// The bundle's bytes.
pub fn made(words: &BundleWords) -> Done<Vec<u8>> {
    let mut bundle = Vec::new();
    for part in &words.parts.0 {
        let (kind, body) = record(part, !words.as_is)?;
        let Ok(_) = u16::try_from(body.len()) else {
            return wrong(format!("{}: a record has at most 65,535 bytes", named(part)));
        };
        bundle.extend(records::record(kind, &body));
    }
    if bundle.len() > files::BUNDLE {
        return wrong(format!("the bundle would have {} bytes, and at most 65,536 are judged", bundle.len()));
    }
    Ok(bundle)
}

fn record(part: &Placed<Part>, judged: bool) -> Done<(u16, Vec<u8>)> {
    let what = named(part);
    let bad = |answer: u32| judged && answer != 0;
    // What is laid as it is may be as long as a record.
    let most = |most: usize| if judged { most } else { RECORD };
    match (part.option, &part.value) {
        ("table", Part::File(file)) => {
            let table = files::read(file, most(files::TABLE))?;
            let answer = library::table_answer(&table);
            if bad(answer) { refused(answer, what, None) } else { Ok((TABLE, table)) }
        }
        ("request", Part::File(file)) => {
            let request = files::read(file, most(files::REQUEST))?;
            let answer = library::request_answer(&request);
            if bad(answer) { refused(answer, what, None) } else { Ok((REQUEST, request)) }
        }
        (_, Part::Asked(words)) => {
            let request = request::made(words)?;
            let answer = library::request_answer(&request);
            if bad(answer) {
                return explain::request(words, answer).map_err(|problem| problem.of(&what));
            }
            Ok((REQUEST, request))
        }
        (_, value) => {
            let text = match value {
                Part::File(file) => files::line(file, most(files::TEXT))?,
                Part::Text(text) => text.clone().into_bytes(),
                Part::Asked(_) => Vec::new(),
            };
            let answer = library::token_answer(&text);
            if bad(answer) { explain::token(&text, &what, "", answer) } else { Ok((TOKEN, text)) }
        }
    }
}

/// One record where it lies in a bundle.
pub struct Record<'a> {
    pub at: usize,
    pub kind: u16,
    pub body: &'a [u8],
}

/// The records in order, and why the rest is none, if there is a rest.
pub fn records(bundle: &[u8]) -> (Vec<Record<'_>>, Option<String>) {
    let (mut records, mut at) = (Vec::new(), 0);
    if bundle.len() > files::BUNDLE {
        return (records, Some("over 65,536 bytes".to_owned()));
    }
    while at < bundle.len() {
        let Some(&[low, high, kind_low, kind_high]) = bundle.get(at..at + 4) else {
            return (records, Some(format!("at byte {at} a record is cut")));
        };
        let (length, kind) = (u16::from_le_bytes([low, high]), u16::from_le_bytes([kind_low, kind_high]));
        let from = at + 4;
        if ![TABLE, REQUEST, TOKEN].contains(&kind) {
            return (records, Some(format!("at byte {at} stands a record of kind {kind}")));
        }
        let Some(body) = bundle.get(from..from + usize::from(length)) else {
            return (records, Some(format!("at byte {at} a record is cut")));
        };
        records.push(Record { at, kind, body });
        at = from + body.len();
    }
    (records, None)
}
