//! A bundle in words: its records in order, each token with the answer that it gets there.

use serde_json::{json, Value};

use crate::bundle::{records, Record, REQUEST, TABLE};
use crate::show::{Shown, Tag};
use crate::{library, names, show};

/// What the bundle holds, and whether it was read to its end.
pub fn shown(bundle: &[u8]) -> (Shown, bool) {
    let (records, rest) = records(bundle);
    // Before any table there is an empty one; before any request there is none, which counts as malformed.
    let (mut table, mut request): (&[u8], &[u8]) = (b"", b"");
    let (mut lines, mut json) = (Vec::new(), Vec::new());
    for (number, record) in (1..).zip(&records) {
        let (said, shown) = match record.kind {
            TABLE => {
                table = record.body;
                of_table(table)
            }
            REQUEST => {
                request = record.body;
                of_request(request)
            }
            _ => of_token(record.body, archive::verify(table, request, record.body)),
        };
        lines.push(format!("record {number} at byte {}: {said}", record.at));
        json.push(of_record(record, &said, shown.as_ref()));
        lines.extend(shown.into_iter().flat_map(|shown| shown.lines).map(|line| format!("  {line}")));
    }
    lines.extend(rest.iter().map(|why| format!("bundle.bad: {why}")));
    let whole = rest.is_none();
    (Shown { lines, json: json!({"records": json, "bundle_bad": rest}) }, whole)
}

fn of_record(record: &Record, said: &str, shown: Option<&Shown>) -> Value {
    json!({"at": record.at, "record": said, "holds": shown.map(|shown| &shown.json)})
}

fn of_table(table: &[u8]) -> (String, Option<Shown>) {
    match library::table_answer(table) {
        0 => {
            let shown = show::table(table, false);
            (format!("table, rows {}", shown.lines.len()), Some(shown))
        }
        answer => (format!("table, {}", names::name(answer)), None),
    }
}

fn of_request(request: &[u8]) -> (String, Option<Shown>) {
    match library::request_answer(request) {
        0 => ("request".to_owned(), show::request(request)),
        answer => (format!("request, {}", names::name(answer)), None),
    }
}

fn of_token(text: &[u8], answer: u32) -> (String, Option<Shown>) {
    let readable = library::token_answer(text) == 0;
    let is = match answer {
        library::TABLE_BAD | library::CTX_BAD => "not judged",
        library::KID_UNKNOWN | library::MAC_MISMATCH => names::name(answer),
        _ => "right",
    };
    let shown = if readable { show::token(text, &Tag { is, said: is.to_owned() }) } else { None };
    (format!("token, {}", names::line(answer)), shown)
}
