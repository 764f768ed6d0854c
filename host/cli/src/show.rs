//! Tables, requests, scopes, caveats and tokens in words, a line for each field, or in JSON. Each was judged by
//! the library first, so what is read here is good; a reading that fails all the same shows nothing.

use serde_json::{json, Map, Value};

use crate::items::{Item, Tree};
use crate::records::{rows, Fields};
use crate::times;
use crate::values::{as_hex, Ids};

/// A thing in lines, and the same in JSON.
pub struct Shown {
    pub lines: Vec<String>,
    pub json: Value,
}

impl Shown {
    pub fn text(&self, json: bool) -> String {
        if json {
            return format!("{:#}\n", self.json);
        }
        self.lines.iter().map(|line| format!("{line}\n")).collect()
    }
}

/// Of a good table; keys are shown only when asked for.
pub fn table(table: &[u8], keys: bool) -> Shown {
    let rows = rows(table);
    let line = |(ids, key): &(Ids, Vec<u8>)| {
        let key = if keys { format!(" {}", as_hex(key)) } else { String::new() };
        format!("{}/{}{key}", ids.tid, ids.kid)
    };
    let row = |(ids, key): &(Ids, Vec<u8>)| {
        let mut row = json!({"tid": ids.tid, "kid": ids.kid});
        if keys {
            row["key"] = as_hex(key).into();
        }
        row
    };
    let json = json!({"rows": rows.iter().map(row).collect::<Vec<_>>()});
    Shown { lines: rows.iter().map(line).collect(), json }
}

/// Of a good request.
pub fn request(body: &[u8]) -> Option<Shown> {
    let mut fields = Fields(body);
    let (now, size, skew, flags) = (fields.number(8)?, fields.number(8)?, fields.number(2)?, fields.number(1)?);
    let mut shown = Entries::default();
    shown.time("now", now);
    shown.put("body_size", size.to_string(), size.into());
    shown.put("skew", skew.to_string(), skew.into());
    shown.put("amnesia", (flags & 1 == 1).to_string(), (flags & 1 == 1).into());
    if flags & 2 != 0 {
        let address: Vec<String> = fields.take(4)?.iter().map(u8::to_string).collect();
        shown.text("peer", &address.join("."));
    }
    if flags & 8 != 0 {
        shown.text("digest", &String::from_utf8_lossy(fields.take(64)?));
    }
    if flags & 16 != 0 {
        let (per_s, burst) = (fields.number(4)?, fields.number(4)?);
        shown.put("rate", format!("{per_s},{burst}"), json!({"per_s": per_s, "burst": burst}));
    }
    let names = ["method", "path", "tenant", "aud"];
    for name in &names[..if flags & 4 != 0 { 4 } else { 3 }] {
        shown.text(name, &fields.text(2)?);
    }
    Some(shown.done())
}

/// Of a good scope's bytes.
pub fn scope(bytes: &[u8]) -> Option<Shown> {
    Some(scope_of(&Item::read(bytes)?))
}

fn scope_of(scope: &Item) -> Shown {
    let mut shown = Entries::default();
    if let Some(prefix) = scope.get("prefix").and_then(Item::text) {
        shown.text("prefix", prefix);
    }
    if let Some(methods) = scope.get("methods") {
        shown.put("methods", methods_said(methods), texts(methods));
    }
    if let Some(most) = scope.get("max_bytes").and_then(Item::number) {
        shown.put("max_bytes", most.to_string(), most.into());
    }
    shown.done()
}

fn texts(list: &Item) -> Value {
    list.list().unwrap_or_default().iter().filter_map(Item::text).collect()
}

fn methods_said(list: &Item) -> String {
    let methods: Vec<&str> = list.list().unwrap_or_default().iter().filter_map(Item::text).collect();
    if methods.is_empty() { "(none)".to_owned() } else { methods.join(",") }
}

/// Of a good caveat's bytes.
pub fn caveat(bytes: &[u8]) -> Option<Shown> {
    Some(caveat_of(&Item::read(bytes)?))
}

fn caveat_of(caveat: &Item) -> Shown {
    let t = caveat.get("t").and_then(Item::text).unwrap_or_default();
    let mut shown = Entries::default();
    shown.json.insert("t".to_owned(), t.into());
    let Some(v) = caveat.get("v") else { return shown.done() };
    let mut date = None;
    let (said, json) = match (&v.tree, t) {
        (Tree::Unsigned(seconds), "exp" | "nbf") => {
            date = times::date(*seconds);
            (times::written(*seconds), json!(seconds))
        }
        (Tree::Unsigned(number), _) => (number.to_string(), json!(number)),
        (Tree::Text(text), _) => (text.clone(), json!(text)),
        (Tree::List(_), _) => (methods_said(v), texts(v)),
        (Tree::Map(_), "rate") => {
            let [per_s, burst] = ["per_s", "burst"].map(|key| v.get(key).and_then(Item::number).unwrap_or_default());
            (format!("{per_s},{burst}"), json!({"per_s": per_s, "burst": burst}))
        }
        (Tree::Map(_), _) => custom(v),
        _ => (v.to_string(), json!(matches!(v.tree, Tree::True))),
    };
    shown.json.insert("v".to_owned(), json);
    shown.json.extend(date.map(|date| ("date".to_owned(), date.into())));
    shown.lines.push(format!("{t} {said}"));
    shown.done()
}

/// A custom value is shown in RFC 8949's notation, and in JSON with its bytes too, since JSON has no bytes.
fn custom(v: &Item) -> (String, Value) {
    let [ns, name] = ["ns", "name"].map(|key| v.get(key).and_then(Item::text).unwrap_or_default());
    let (value, bytes) = v.get("cbor").map(|value| (value.to_string(), as_hex(&value.bytes))).unwrap_or_default();
    (format!("{ns}/{name}={value}"), json!({"ns": ns, "name": name, "cbor": bytes, "value": value}))
}

/// What is said of a token's tag, in a word for JSON and in words for people.
pub struct Tag {
    pub is: &'static str,
    pub said: String,
}

/// Of a readable token's text.
pub fn token(text: &[u8], tag: &Tag) -> Option<Shown> {
    let token = Item::read(&decoded(text))?;
    let mut shown = Entries::default();
    for id in ["tid", "kid"] {
        shown.text(id, token.get(id)?.text()?);
    }
    let scope = scope_of(token.get("r")?);
    shown.lines.extend(scope.lines.iter().map(|line| format!("scope {line}")));
    shown.json.insert("scope".to_owned(), scope.json);
    let caveats: Vec<Shown> = token.get("c")?.list()?.iter().map(caveat_of).collect();
    let numbered = (1..).zip(&caveats).flat_map(|(n, caveat)| caveat.lines.iter().map(move |line| (n, line)));
    shown.lines.extend(numbered.map(|(n, line)| format!("caveat {n} {line}")));
    shown.json.insert("caveats".to_owned(), caveats.into_iter().map(|caveat| caveat.json).collect());
    let Tree::Bytes(bytes) = &token.get("s")?.tree else { return None };
    shown.put("tag", format!("{} ({})", as_hex(bytes), tag.said), as_hex(bytes).into());
    shown.json.insert("tag_is".to_owned(), tag.is.into());
    Some(shown.done())
}

/// A readable token's tid, and both its ids as TID/KID.
pub fn tid(text: &[u8]) -> Option<String> {
    Item::read(&decoded(text))?.get("tid")?.text().map(str::to_owned)
}

pub fn ids(text: &[u8]) -> Option<String> {
    let token = Item::read(&decoded(text))?;
    Some(format!("{}/{}", token.get("tid")?.text()?, token.get("kid")?.text()?))
}

/// The fields of one thing as they come.
#[derive(Default)]
struct Entries {
    lines: Vec<String>,
    json: Map<String, Value>,
}

impl Entries {
    fn put(&mut self, name: &str, said: String, json: Value) {
        self.lines.push(format!("{name} {said}"));
        self.json.insert(name.to_owned(), json);
    }

    fn text(&mut self, name: &str, text: &str) {
        self.put(name, text.to_owned(), text.into());
    }

    fn time(&mut self, name: &str, seconds: u64) {
        self.put(name, times::written(seconds), seconds.into());
        self.json.extend(times::date(seconds).map(|date| ("date".to_owned(), date.into())));
    }

    fn done(self) -> Shown {
        Shown { lines: self.lines, json: self.json.into() }
    }
}

/// The bytes of a good text.
fn decoded(text: &[u8]) -> Vec<u8> {
    const LETTERS: &[u8; 64] = b"ABCDEFGHIJKLMNOPQRSTUVWXYZabcdefghijklmnopqrstuvwxyz0123456789-_";
    let (mut held, mut bits, mut bytes) = (0u32, 0, Vec::new());
    for letter in text.iter().filter_map(|letter| LETTERS.iter().position(|known| known == letter)) {
        held = held << 6 | letter as u32;
        bits += 6;
        if bits >= 8 {
            bits -= 8;
            bytes.push((held >> bits) as u8);
        }
    }
    bytes
}
