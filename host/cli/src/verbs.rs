//! What each verb does: bytes from words, the library's answer, and where the result goes.

use std::path::Path;

use serde_json::json;

use crate::caveats::{Caveat, Caveats};
use crate::library::{CAV_CBOR, CTX_BAD, KID_UNKNOWN, MAC_MISMATCH, TABLE_BAD};
use crate::out::{self, Out};
use crate::problem::{refused, wrong, Done, Problem};
use crate::values::{as_hex, Ids};
use crate::words::{
    CaveatVerb, HashWords, IssueWords, NarrowWords, RequestVerb, ScopeVerb, ShowWords, TableWords, Verb, VerifyWords,
};
use crate::{bundle, explain, files, library, make, names, pages, racks, records, request, show};

/// The status that the command ends with.
pub fn done(verb: Verb) -> Done<u8> {
    match verb {
        Verb::Table(words) => table(&words),
        Verb::Scope(words) => scope(&words),
        Verb::Caveat(words) => caveat(&words),
        Verb::Issue(words) => issue(&words),
        Verb::Narrow(words) => narrow(&words),
        Verb::Request(words) => request(&words),
        Verb::Verify(words) => return verify(&words),
        Verb::Bundle(words) => bundle::made(&words).and_then(|bundle| words.out.put(&bundle)),
        Verb::Show(words) => return show(&words),
        Verb::Hash(words) => hash(&words),
        Verb::Man => out::print(&pages::man()),
        Verb::Completions { shell } => out::print(&pages::completions(shell)),
    }
    .map(|()| 0)
}

fn table(words: &TableWords) -> Done<()> {
    let rows = make::rows(words)?;
    let records = rows.iter().map(|row| records::row(&row.ids.tid, &row.ids.kid, &row.key));
    match records.collect::<Option<Vec<_>>>().map(|records| records.concat()) {
        Some(table) if library::table_is_good(&table) => words.out.put_table(&table, &words.from),
        _ => explain::table(&rows, TABLE_BAD),
    }
}

fn request(words: &RequestVerb) -> Done<()> {
    let request = request::made(&words.request)?;
    match library::request_answer(&request) {
        0 => words.out.put(&request),
        answer => explain::request(&words.request, answer),
    }
}

fn scope(words: &ScopeVerb) -> Done<()> {
    let scope = make::scope(&words.scope)?;
    match library::scope_answer(&scope) {
        0 => words.out.put(format!("{}\n", as_hex(&scope)).as_bytes()),
        answer => explain::scope(&words.scope, answer),
    }
}

fn caveat(words: &CaveatVerb) -> Done<()> {
    let mut lines = String::new();
    for (place, caveat) in numbered(&words.caveats.read()?) {
        let bytes = caveat.bytes()?;
        let answer = library::caveat_answer(&bytes);
        if answer != 0 {
            return explain::caveat(caveat, &place, answer);
        }
        lines += &format!("{}\n", as_hex(&bytes));
    }
    words.out.put(lines.as_bytes())
}

/// Caveats, and how each is called: by its place too where there are several.
fn numbered(caveats: &Caveats) -> Vec<(String, &Caveat)> {
    let count = caveats.0.len();
    let called = |(place, caveat): (usize, &Caveat)| match count {
        1 => caveat.words(),
        _ => format!("caveat {place} of {count}, {}", caveat.words()),
    };
    (1..).zip(&caveats.0).map(|(place, caveat)| (called((place, caveat)), caveat)).collect()
}

fn issue(words: &IssueWords) -> Done<()> {
    let scope = match &words.scope_hex {
        Some(hex) => hex.bytes("scope")?,
        None => make::scope(&words.scope)?,
    };
    let table = files::read(&words.table, files::TABLE)?;
    let named = format!("the table in {}", files::named(&words.table));
    let token = match library::issue(&table, &words.tid, &words.kid, &scope) {
        Ok(token) => token,
        Err(answer @ TABLE_BAD) => return refused(answer, named, None),
        Err(answer @ KID_UNKNOWN) => {
            return explain::ids(&Ids { tid: words.tid.clone(), kid: words.kid.clone() }, &named, answer);
        }
        Err(answer) => {
            let hex = words.scope_hex.as_ref();
            return hex.map_or_else(|| explain::scope(&words.scope, answer), |hex| explain::scope_hex(hex, answer));
        }
    };
    hand_out(&table, token, ("the fresh token", &named), &words.caveats, &words.out)
}

fn narrow(words: &NarrowWords) -> Done<()> {
    let (token, what) = words.token.text()?;
    let table = files::read(&words.table, files::TABLE)?;
    let named = format!("the table in {}", files::named(&words.table));
    hand_out(&table, token, (&what, &named), &words.caveats, &words.out)
}

/// Narrows a token by caveats, one after the other, and writes its text. `names` are the token's and the table's.
fn hand_out(table: &[u8], mut token: Vec<u8>, names: (&str, &str), caveats: &Caveats, out: &Out) -> Done<()> {
    for (place, caveat) in numbered(&caveats.read()?) {
        token = match library::narrow(table, &token, &caveat.bytes()?) {
            Ok(child) => child,
            // Up to the tag the answer is about the token or the table, and behind it about the caveat.
            Err(answer @ ..=MAC_MISMATCH) => return explain::token(&token, names.0, names.1, answer),
            Err(answer @ CAV_CBOR..) => return explain::caveat(caveat, &place, answer),
            Err(answer) => return refused(answer, place, None),
        };
    }
    put_text(token, out)
}

/// Behind the text stands a newline, as people and shells expect of a line.
fn put_text(mut token: Vec<u8>, out: &Out) -> Done<()> {
    token.push(b'\n');
    out.put(&token)
}

fn verify(words: &VerifyWords) -> Done<u8> {
    let (token, what) = words.token.text()?;
    let request = match &words.file {
        Some(file) => files::read(file, files::REQUEST)?,
        None => request::made(&words.request)?,
    };
    let table = files::read(&words.table, files::TABLE)?;
    let answer = archive::verify(&table, &request, &token);
    let line = if words.json {
        json!({"answer": answer, "name": names::name(answer), "meaning": names::meaning(answer)}).to_string()
    } else {
        names::line(answer)
    };
    words.out.put(format!("{line}\n").as_bytes())?;
    let why: Done<u8> = match answer {
        0 => return Ok(0),
        CTX_BAD if words.file.is_none() => explain::request(&words.request, answer),
        CTX_BAD => refused(answer, words.file.iter().map(|file| request_named(file)).collect::<String>(), None),
        TABLE_BAD..=MAC_MISMATCH => {
            explain::token(&token, &what, &format!("the table in {}", files::named(&words.table)), answer)
        }
        // The rest is the request's or the time's doing, and the line says it.
        _ => return Ok(1),
    };
    if let Err(problem) = why {
        problem.tell();
    }
    Ok(1)
}

fn request_named(file: &Path) -> String {
    format!("the request in {}", files::named(file))
}

fn show(words: &ShowWords) -> Done<u8> {
    if let Some(file) = &words.bundle {
        let (shown, whole) = racks::shown(&files::read(file, files::BUNDLE)?);
        words.out.put(shown.text(words.json).as_bytes())?;
        return Ok(u8::from(!whole));
    }
    let (shown, status) = if words.token.there() { show_token(words)? } else { (show_part(words)?, 0) };
    match shown {
        Some(shown) => words.out.put(shown.text(words.json).as_bytes()).map(|()| status),
        None => wrong("this cannot be shown"),
    }
}

fn show_part(words: &ShowWords) -> Done<Option<show::Shown>> {
    let good = |answer: u32, what: String| if answer == 0 { Ok(()) } else { refused(answer, what, None) };
    if let Some(file) = &words.table {
        return Ok(Some(show::table(&make::table(file)?, words.keys)));
    }
    if let Some(file) = &words.request {
        let body = files::read(file, files::REQUEST)?;
        good(library::request_answer(&body), request_named(file))?;
        return Ok(show::request(&body));
    }
    if let Some(hex) = &words.scope {
        let scope = hex.bytes("scope")?;
        return match library::scope_answer(&scope) {
            0 => Ok(show::scope(&scope)),
            answer => explain::scope_hex(hex, answer),
        };
    }
    if let Some(hex) = &words.caveat {
        let caveat = hex.bytes("caveat")?;
        good(library::caveat_answer(&caveat), format!("--caveat {}", hex.said()))?;
        return Ok(show::caveat(&caveat));
    }
    Ok(None)
}

/// The token, and the status: 1 where its key is unknown or its tag is wrong.
fn show_token(words: &ShowWords) -> Done<(Option<show::Shown>, u8)> {
    let (text, what) = words.token.text()?;
    match library::token_answer(&text) {
        0 => {}
        answer => return explain::token(&text, &what, "", answer),
    }
    let (is, said, status) = match &words.table {
        None => ("not judged", "not judged: --table FILE says whether key and tag are right".to_owned(), 0),
        Some(file) => {
            let (table, named) = (make::table(file)?, files::named(file));
            match library::tag_answer(&table, &text, &show::tid(&text).unwrap_or_default()) {
                0 => ("right", format!("right by the key of {named}"), 0),
                answer @ KID_UNKNOWN => (names::name(answer), format!("kid.unknown: {named} has no such key"), 1),
                answer => (names::name(answer), format!("mac.mismatch: not what the key of {named} gives"), 1),
            }
        }
    };
    Ok((show::token(&text, &show::Tag { is, said }), status))
}

fn hash(words: &HashWords) -> Done<()> {
    let (key, message) = (words.key.bytes("key")?, files::read(&words.file, files::MESSAGE)?);
    let hashed = archive::keyed_hash(&key, &message);
    if hashed.answer != 0 {
        let long = message.len() > files::MESSAGE;
        let what = if long { files::named(&words.file) } else { "--key".to_owned() };
        let why = if long { "at most 8,192 bytes are hashed" } else { explain::KEY };
        return Err(Problem::Refused(hashed.answer, format!("{what}: {why}")));
    }
    words.out.put(format!("{}\n", as_hex(&hashed.bytes)).as_bytes())
}
