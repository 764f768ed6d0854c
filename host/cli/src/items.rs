//! Items of CBOR: written from words, read as trees, and said back in words (RFC 8949's diagnostic notation).

use std::fmt;

use crate::values::as_hex;

/// The shortest head, which is the only one that the library takes.
fn head(major: u8, number: u64) -> Vec<u8> {
    let bytes = number.to_be_bytes();
    let (low, width) = match number {
        0..=23 => return vec![major << 5 | number as u8],
        24..=0xff => (24, 1),
        0x100..=0xffff => (25, 2),
        0x1_0000..=0xffff_ffff => (26, 4),
        _ => (27, 8),
    };
    [&[major << 5 | low], &bytes[8 - width..]].concat()
}

pub fn unsigned(number: u64) -> Vec<u8> {
    head(0, number)
}

pub fn text(text: &str) -> Vec<u8> {
    [head(3, text.len() as u64), text.into()].concat()
}

pub fn texts(list: &[String]) -> Vec<u8> {
    [head(4, list.len() as u64), list.iter().flat_map(|word| text(word)).collect()].concat()
}

pub fn truth(truth: bool) -> Vec<u8> {
    head(7, 20 + u64::from(truth))
}

/// The entries as they stand: their order is the caller's.
pub fn map(entries: &[(&str, Vec<u8>)]) -> Vec<u8> {
    let entries_laid = entries.iter().flat_map(|(key, value)| [text(key), value.clone()]);
    [head(5, entries.len() as u64), entries_laid.flatten().collect()].concat()
}

/// An item of the types that the library takes, with the bytes that it was read from.
#[derive(Debug)]
pub struct Item {
    pub bytes: Vec<u8>,
    pub tree: Tree,
}

#[derive(Debug)]
pub enum Tree {
    Unsigned(u64),
    /// -1 and this number less.
    Negative(u64),
    Bytes(Vec<u8>),
    Text(String),
    List(Vec<Item>),
    Map(Vec<(Item, Item)>),
    False,
    True,
    Null,
}

impl Item {
    /// The one item that the bytes are; nothing where they are none. What is shown was judged by the library
    /// before, so that is not met.
    pub fn read(bytes: &[u8]) -> Option<Item> {
        let (item, rest) = read(bytes)?;
        rest.is_empty().then_some(item)
    }

    /// The value of a map's key.
    pub fn get(&self, key: &str) -> Option<&Item> {
        let Tree::Map(entries) = &self.tree else { return None };
        entries.iter().find(|(known, _)| known.text() == Some(key)).map(|(_, value)| value)
    }

    pub fn text(&self) -> Option<&str> {
        if let Tree::Text(text) = &self.tree { Some(text) } else { None }
    }

    pub fn number(&self) -> Option<u64> {
        if let Tree::Unsigned(number) = self.tree { Some(number) } else { None }
    }

    pub fn list(&self) -> Option<&[Item]> {
        if let Tree::List(items) = &self.tree { Some(items) } else { None }
    }
}

type Read<'a, T> = Option<(T, &'a [u8])>;

fn read(s: &[u8]) -> Read<'_, Item> {
    let (major, number, behind) = number(s)?;
    let (tree, rest) = match major {
        0 => (Tree::Unsigned(number), behind),
        1 => (Tree::Negative(number), behind),
        2 | 3 => {
            let length = usize::try_from(number).ok().filter(|&length| length <= behind.len())?;
            let (content, rest) = behind.split_at(length);
            let text = || Tree::Text(String::from_utf8_lossy(content).into_owned());
            (if major == 2 { Tree::Bytes(content.to_vec()) } else { text() }, rest)
        }
        4 => many(number, behind, read).map(|(items, rest)| (Tree::List(items), rest))?,
        5 => many(number, behind, entry).map(|(entries, rest)| (Tree::Map(entries), rest))?,
        7 => match number {
            20 => (Tree::False, behind),
            21 => (Tree::True, behind),
            22 => (Tree::Null, behind),
            _ => return None,
        },
        _ => return None,
    };
    Some((Item { bytes: s[..s.len() - rest.len()].to_vec(), tree }, rest))
}

fn number(s: &[u8]) -> Option<(u8, u64, &[u8])> {
    let (&first, rest) = s.split_first()?;
    let width = match first & 31 {
        low @ 0..=23 => return Some((first >> 5, low.into(), rest)),
        24 => 1,
        25 => 2,
        26 => 4,
        27 => 8,
        _ => return None,
    };
    let bytes = rest.get(..width)?;
    let number = bytes.iter().fold(0, |number, &byte| number << 8 | u64::from(byte));
    Some((first >> 5, number, &rest[width..]))
}

fn entry(s: &[u8]) -> Read<'_, (Item, Item)> {
    let (key, rest) = read(s)?;
    let (value, rest) = read(rest)?;
    Some(((key, value), rest))
}

fn many<T>(count: u64, s: &[u8], one: fn(&[u8]) -> Read<'_, T>) -> Read<'_, Vec<T>> {
    let (mut all, mut rest) = (Vec::new(), s);
    for _ in 0..count {
        let (item, behind) = one(rest)?;
        all.push(item);
        rest = behind;
    }
    Some((all, rest))
}

impl fmt::Display for Item {
    fn fmt(&self, f: &mut fmt::Formatter) -> fmt::Result {
        let joined = |all: Vec<String>| all.join(", ");
        match &self.tree {
            Tree::Unsigned(number) => write!(f, "{number}"),
            Tree::Negative(number) => write!(f, "{}", -1 - i128::from(*number)),
            Tree::Bytes(bytes) => write!(f, "h'{}'", as_hex(bytes)),
            Tree::Text(text) => f.write_str(&quoted(text)),
            Tree::List(items) => write!(f, "[{}]", joined(items.iter().map(Item::to_string).collect())),
            Tree::Map(entries) => {
                write!(f, "{{{}}}", joined(entries.iter().map(|(key, value)| format!("{key}: {value}")).collect()))
            }
            Tree::False => f.write_str("false"),
            Tree::True => f.write_str("true"),
            Tree::Null => f.write_str("null"),
        }
    }
}

/// In quotes and escaped as in JSON, with nothing left that a terminal would act upon.
fn quoted(text: &str) -> String {
    let escaped = |letter: char| match letter {
        '"' | '\\' => format!("\\{letter}"),
        '\'' => letter.to_string(),
        _ if letter.escape_debug().len() == 1 => letter.to_string(),
        _ => letter.encode_utf16(&mut [0; 2]).iter().map(|half| format!("\\u{half:04x}")).collect(),
    };
    format!("\"{}\"", text.chars().map(escaped).collect::<String>())
}

#[cfg(test)]
mod tests {
    use super::*;

    fn said(bytes: &[u8]) -> Option<String> {
        Item::read(bytes).map(|item| item.to_string())
    }

    #[test]
    fn document_01s_numbers_and_scope() {
        for (number, bytes) in [
            (23, &b"\x17"[..]),
            (24, b"\x18\x18"),
            (255, b"\x18\xff"),
            (256, b"\x19\x01\x00"),
            (65_535, b"\x19\xff\xff"),
            (65_536, b"\x1a\x00\x01\x00\x00"),
            (4_294_967_296, b"\x1b\x00\x00\x00\x01\x00\x00\x00\x00"),
        ] {
            assert_eq!(unsigned(number), bytes);
            assert_eq!(said(bytes), Some(number.to_string()));
        }
        let scope = map(&[("methods", texts(&["GET".to_owned()]))]);
        assert_eq!(scope, b"\xa1\x67methods\x81\x63GET");
        assert_eq!(said(&scope).as_deref(), Some("{\"methods\": [\"GET\"]}"));
    }

    #[test]
    fn items_in_words() {
        assert_eq!(said(b"\x85\x20\x41\xff\xf4\xf6\x80").as_deref(), Some("[-1, h'ff', false, null, []]"));
        assert_eq!(said(b"\x63a\x1bb").as_deref(), Some("\"a\\u001bb\""));
        assert_eq!(said(b"\x64'\"\\\0").as_deref(), Some("\"'\\\"\\\\\\u0000\""));
        assert_eq!(said(b"\x3b\xff\xff\xff\xff\xff\xff\xff\xff").as_deref(), Some("-18446744073709551616"));
        assert_eq!(texts(&[]), [0x80]);
        for bad in [&b""[..], b"\x61", b"\x00\x00", b"\x9b\xff\xff\xff\xff\xff\xff\xff\xff", b"\xf7", b"\x1f"] {
            assert_eq!(said(bad), None, "{bad:02x?}");
        }
        let item = Item::read(b"\x82\x01\x61a").expect("two items in a list");
        let parts: Vec<&[u8]> = item.list().expect("a list").iter().map(|item| &item.bytes[..]).collect();
        assert_eq!(parts, [&b"\x01"[..], b"\x61a"]);
    }
}
