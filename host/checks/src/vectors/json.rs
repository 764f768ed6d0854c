//! How the vectors' files are written as JSON: bytes in hex, tokens and ids as texts, and each answer by number
//! and by name, so that a program in any language can read them.

use second::names::name;
use serde_json::{Map, Value};

use crate::inputs::hex;

/// A whole file: what its calls are, and its cases.
pub fn file(about: &str, cases: Vec<Value>) -> String {
    let whole = object(vec![("about", about.into()), ("cases", cases.into())]);
    serde_json::to_string_pretty(&whole).expect("JSON of strings and numbers") + "\n"
}

/// The fields in the order in which they are given.
pub fn object(fields: Vec<(&str, Value)>) -> Value {
    Value::Object(fields.into_iter().map(|(key, value)| (key.to_owned(), value)).collect::<Map<_, _>>())
}

pub fn hexed(bytes: &[u8]) -> Value {
    hex(bytes).into()
}

/// Tokens and ids are texts in JSON; of bytes that are none there is no case.
pub fn text(bytes: &[u8]) -> Value {
    std::str::from_utf8(bytes).expect("a token or an id that is UTF-8").into()
}

/// The answer by number and by name. The name of 0 is "allow" for verify, and for all others "done".
pub fn answered(answer: u32, zero: &str) -> [(&'static str, Value); 2] {
    let name = if answer == 0 { zero } else { name(answer).expect("a number of document 01") };
    [("answer", answer.into()), ("answer_name", name.into())]
}
