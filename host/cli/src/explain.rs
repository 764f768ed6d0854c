//! Why the library refuses, in words. The library stays the judge: a word is named here only where the library
//! refuses that word alone, beside others that it takes, and the rule is said with the library's answer.

use std::slice;

use crate::caveats::{Caveat, Value};
use crate::library::{
    caveat_answer, request_answer, scope_answer, table_is_good, KID_UNKNOWN, MAC_MISMATCH, PARSE_B64, PARSE_BOUNDS,
    TABLE_BAD, UNKNOWN_FIELD,
};
use crate::make::{scope_of, Laid};
use crate::problem::{refused, said, Done};
use crate::records::row;
use crate::request::{self, RequestWords};
use crate::values::{Custom, Hex, Ids, Methods};
use crate::words::ScopeWords;
use crate::{files, items, show};

pub const METHOD: &str = "a method is 1 to 16 letters A to Z";
pub const METHODS: &str = "a list has at most 16 methods";
pub const PREFIX: &str = "a path prefix is 1 to 256 characters from ! to ~, the first of them /";
pub const PATH: &str = "a path is 1 to 1,024 characters from ! to ~, the first of them /";
pub const PERCENT: &str = "a path has no %, since proxies rewrite what stands behind it";
pub const SLASHES: &str = "a path has no //, since proxies make one / of it";
pub const DOTS: &str = "no segment of a path is . or .., since proxies resolve these";
pub const NAME: &str = "1 to 64 letters, digits, -, . and _ are needed";
pub const AUDIENCE: &str = "an audience is 1 to 128 characters from ! to ~";
pub const DIGEST: &str = "a digest has 64 hex digits";
pub const SKEW: &str = "a skew is at most 300 seconds";
pub const NETWORK: &str =
    "a network is written a.b.c.d/n, n from 0 to 32, without leading zeros, and its bits past n are zero";
pub const CUSTOM: &str = "a value is one integer, byte string, text, true, false or null, or arrays of these up to \
                          four deep, in deterministic CBOR";
pub const KEY: &str = "a key has 64 hex digits";
pub const ROWS: &str = "a table has at most 64 rows";
pub const TWICE: &str = "a table has each pair of ids once";

/// The word at fault and the rule that it breaks.
type Fault = Option<(String, &'static str)>;

fn told<T>(answer: u32, fault: Fault, all: &str) -> Done<T> {
    match fault {
        Some((word, rule)) => refused(answer, word, Some(rule)),
        None => refused(answer, all, None),
    }
}

/// Whether the library takes a list of methods, as a scope has it.
fn methods_taken(list: &[String]) -> bool {
    let methods = Some(Methods(list.to_vec()));
    scope_answer(&scope_of(&ScopeWords { methods, ..ScopeWords::default() })) == 0
}

/// The count is judged before any method is.
fn methods_fault(option: &str, list: &[String]) -> Fault {
    if !methods_taken(&vec!["A".to_owned(); list.len()]) {
        return Some((format!("--{option} {}", said(&list.join(","))), METHODS));
    }
    let bad = list.iter().find(|&method| !methods_taken(slice::from_ref(method)));
    bad.map(|method| (format!("--{option} {}", said(method)), METHOD))
}

/// Why a path is refused: its form of so many characters, or what proxies would rewrite in it.
fn path_rule(path: &str, most: usize, form: &'static str) -> &'static str {
    let formed = path.starts_with('/') && path.len() <= most && path.bytes().all(|byte| byte.is_ascii_graphic());
    let segment = |text: &str| path.split('/').any(|segment| segment == text);
    if !formed {
        form
    } else if path.contains('%') {
        PERCENT
    } else if path.contains("//") {
        SLASHES
    } else if segment(".") || segment("..") {
        DOTS
    } else {
        form
    }
}

fn prefix_rule(prefix: &str) -> &'static str {
    path_rule(prefix, 256, PREFIX)
}

pub fn scope<T>(words: &ScopeWords, answer: u32) -> Done<T> {
    let methods = words.methods.as_ref().and_then(|methods| methods_fault("methods", &methods.0));
    let prefix = words.prefix.as_ref().filter(|prefix| {
        let (prefix, methods) = (Some(prefix.to_string()), Some(Methods::default()));
        scope_answer(&scope_of(&ScopeWords { prefix, methods, max_bytes: None })) != 0
    });
    // In the order of the scope's bytes, so that the fault named is the one that was answered.
    let prefix = prefix.map(|prefix| (format!("--prefix {}", said(prefix)), prefix_rule(prefix)));
    told(answer, prefix.or(methods), "the scope")
}

/// Why a scope's bytes are refused that came in hex.
pub fn scope_hex<T>(hex: &Hex, answer: u32) -> Done<T> {
    let why = match answer {
        PARSE_BOUNDS => "something in it is too long, too short or too many",
        UNKNOWN_FIELD => "it has a key that no scope has",
        _ => "this is no scope in deterministic CBOR",
    };
    refused(answer, format!("--scope {}", hex.said()), Some(why))
}

pub fn request<T>(words: &RequestWords, answer: u32) -> Done<T> {
    let taken = |words: RequestWords| request_answer(&request::body(&words, 0)) == 0;
    let plain = || RequestWords::plain("t");
    let skew = words.skew.map(|skew| skew.to_string());
    let path = path_rule(words.path.as_deref().unwrap_or_default(), 1024, PATH);
    let words_alone = [
        ("skew", &skew, SKEW, RequestWords { skew: words.skew, ..plain() }),
        ("digest", &words.digest, DIGEST, RequestWords { digest: words.digest.clone(), ..plain() }),
        ("method", &words.method, METHOD, RequestWords { method: words.method.clone(), ..plain() }),
        ("path", &words.path, path, RequestWords { path: words.path.clone(), ..plain() }),
        ("tenant", &words.tenant, NAME, RequestWords { tenant: words.tenant.clone(), ..plain() }),
        ("aud", &words.aud, AUDIENCE, RequestWords { aud: words.aud.clone(), ..plain() }),
    ];
    let fault = words_alone.into_iter().find(|(_, value, _, alone)| value.is_some() && !taken(alone.clone()));
    let fault = fault.map(|(option, value, rule, _)| {
        let value = value.as_deref().unwrap_or_default();
        (format!("--{option} {}", said(value)), rule)
    });
    told(answer, fault, "the request")
}

/// Why rows make no table.
pub fn table<T>(rows: &[Laid], answer: u32) -> Done<T> {
    let mut faults = rows.iter().filter_map(|row| {
        let (part, rule) = row_fault(&row.ids, &row.key)?;
        Some((format!("{} {}, {part}", row.word, row.ids), rule))
    });
    let twice = rows.windows(2).find(|two| two[0].ids == two[1].ids);
    let twice = twice.map(|two| (format!("{} {}", two[1].word, two[1].ids), TWICE));
    let many = (rows.len() > 64).then(|| (format!("{} rows", rows.len()), ROWS));
    told(answer, faults.next().or(twice).or(many), "the table")
}

/// The part of a row that the library refuses beside others that it takes, and its rule.
fn row_fault(Ids { tid, kid }: &Ids, key: &[u8]) -> Option<(&'static str, &'static str)> {
    let bad = |tid: &str, kid: &str, key: &[u8]| !row(tid, kid, key).is_some_and(|row| table_is_good(&row));
    let parts = [
        (bad(tid, "k", &[0; 32]), "tid", NAME),
        (bad("t", kid, &[0; 32]), "kid", NAME),
        (bad("t", "k", key), "key", KEY),
    ];
    parts.into_iter().find(|(bad, ..)| *bad).map(|(_, part, rule)| (part, rule))
}

/// Why there is no key under these ids.
pub fn ids<T>(ids: &Ids, table: &str, answer: u32) -> Done<T> {
    let [tid, kid] = [&ids.tid, &ids.kid].map(|id| said(id));
    match row_fault(ids, &[0; 32]) {
        Some(("tid", rule)) => refused(answer, format!("--tid {tid}"), Some(rule)),
        Some((_, rule)) => refused(answer, format!("--kid {kid}"), Some(rule)),
        None => refused(answer, format!("--tid {tid} --kid {kid}"), Some(&format!("{table} has no key under these"))),
    }
}

/// Why a caveat is refused; `what` says which one it is.
pub fn caveat<T>(caveat: &Caveat, what: &str, answer: u32) -> Done<T> {
    let rule = match &caveat.value {
        Value::Methods(list) => methods_fault(caveat.option, &list.0).map(|(_, rule)| rule),
        Value::Custom(custom) => {
            return match custom_fault(custom) {
                Some((part, rule)) => refused(answer, format!("{what}, {part}"), Some(rule)),
                None => refused(answer, what, None),
            };
        }
        Value::Text(text) => match caveat.option {
            "aud" => Some(AUDIENCE),
            "path-prefix" => Some(prefix_rule(text)),
            "ip-cidr" => Some(NETWORK),
            "tenant" => Some(NAME),
            "gov-policy-digest" => Some(DIGEST),
            _ => None,
        },
        _ => None,
    };
    // An answer about the token's size, say, is no fault of the caveat's words.
    let own = caveat.bytes().is_ok_and(|bytes| caveat_answer(&bytes) != 0);
    refused(answer, what, rule.filter(|_| own))
}

/// The part that is refused and its rule, in the order of the value's bytes: ns, cbor, name.
fn custom_fault(Custom { ns, name, value }: &Custom) -> Option<(&'static str, &'static str)> {
    let refused = |ns: &str, value: Vec<u8>, name: &str| {
        let v = items::map(&[("ns", items::text(ns)), ("cbor", value), ("name", items::text(name))]);
        caveat_answer(&items::map(&[("t", items::text("custom")), ("v", v)])) != 0
    };
    let value = value.bytes("custom").unwrap_or_default();
    if refused(ns, items::truth(true), "n") {
        return Some(("ns", NAME));
    }
    if refused("n", value, "n") {
        return Some(("value", CUSTOM));
    }
    refused("n", items::truth(true), name).then_some(("name", NAME))
}

/// Why a token's text is refused, or its key or tag by a table; `what` says which token it is.
pub fn token<T>(text: &[u8], what: &str, table: &str, answer: u32) -> Done<T> {
    match answer {
        TABLE_BAD => refused(answer, table, None),
        PARSE_B64 => refused(answer, what, Some(&text_fault(text))),
        PARSE_BOUNDS if text.len() > files::TEXT => {
            refused(answer, what, Some("a token has at most 5,462 characters"))
        }
        KID_UNKNOWN | MAC_MISMATCH => {
            let ids = show::ids(text).unwrap_or_default();
            let why = match answer {
                KID_UNKNOWN => format!("{table} has no key under its ids, {ids}"),
                _ => format!("its tag is not the one that the key {ids} of {table} gives"),
            };
            refused(answer, what, Some(&why))
        }
        _ => refused(answer, what, None),
    }
}

/// What is met where a text is no Base64URL.
fn text_fault(text: &[u8]) -> String {
    let letter = |byte: &u8| byte.is_ascii_alphanumeric() || matches!(byte, b'-' | b'_');
    let Some(at) = text.iter().position(|byte| !letter(byte)) else {
        let four = text.len() % 4 == 1;
        return if four { "a character is missing or too many" } else { "its last character has bits that mean nothing" }
            .to_owned();
    };
    let met = match text[at] {
        b'\r' => "a carriage return",
        b'\n' if at + 1 == text.len() => "a newline too many",
        b'\n' => "a second line",
        b' ' => "a space",
        b'\t' => "a tab",
        b'=' => "padding, which a token has not,",
        b'+' | b'/' => "a letter of plain Base64, where a token has - and _,",
        _ => "a character that is no letter of Base64URL",
    };
    format!("{met} stands behind its first {at} characters")
}
