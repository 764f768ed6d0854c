//! What one word may be. Words are read before anything else is done, so that one that means nothing is refused
//! with nothing read or written.

use std::fmt;
use std::net::Ipv4Addr;
use std::path::{Path, PathBuf};
use std::str::FromStr;

use crate::files;
use crate::problem::{said, wrong, Done};
use crate::times;

/// Bytes in hex: on the command line, or in a file, where keys are better kept.
#[derive(Clone, Debug)]
pub enum Hex {
    Digits(Vec<u8>),
    In(PathBuf),
}

/// As many digits as the bytes of the longest token have, and more than any key, scope or caveat that is taken.
const DIGITS: usize = 8192;

impl FromStr for Hex {
    type Err = String;

    fn from_str(value: &str) -> Result<Hex, String> {
        match value.strip_prefix('@') {
            Some("") => Err("a file's name is missing behind the @".to_owned()),
            Some(name) => Ok(Hex::In(name.into())),
            None if value == "-" => Ok(Hex::In("-".into())),
            None => digits(value).map(Hex::Digits),
        }
    }
}

impl Hex {
    /// The file that it is in, if it is not on the command line.
    pub fn file(&self) -> Option<&Path> {
        if let Hex::In(file) = self { Some(file) } else { None }
    }

    /// As it stands in messages.
    pub fn said(&self) -> String {
        match self {
            Hex::Digits(bytes) => said(&as_hex(bytes)),
            Hex::In(file) => format!("in {}", files::named(file)),
        }
    }

    /// With the bytes of its file in the place of the file, which may be readable once only.
    pub fn read(&self, option: &str) -> Done<Hex> {
        self.bytes(option).map(Hex::Digits)
    }

    /// The bytes; `option` is named where its file does not have them.
    pub fn bytes(&self, option: &str) -> Done<Vec<u8>> {
        let file = match self {
            Hex::Digits(bytes) => return Ok(bytes.clone()),
            Hex::In(file) => file,
        };
        let held = files::line(file, DIGITS)?;
        if held.len() > DIGITS {
            return wrong(format!("--{option} in {}: over {DIGITS} hex digits", files::named(file)));
        }
        let bytes = digits(&String::from_utf8_lossy(&held));
        bytes.or_else(|error| wrong(format!("--{option} in {}: {error}", files::named(file))))
    }
}

/// Hex digits of either case.
fn digits(text: &str) -> Result<Vec<u8>, String> {
    let mut digits = Vec::new();
    for letter in text.chars() {
        match letter.to_digit(16) {
            Some(digit) => digits.push(digit as u8),
            None if letter == '\n' => {
                return Err(format!("a line ends behind {} hex digits, and one item in hex is one line", digits.len()));
            }
            None => return Err(format!("{letter:?} is no hex digit")),
        }
    }
    if digits.len() % 2 != 0 {
        return Err(format!("an odd number of hex digits, {}, is no row of bytes", digits.len()));
    }
    Ok(digits.chunks(2).map(|two| two[0] * 16 + two[1]).collect())
}

pub fn as_hex(bytes: &[u8]) -> String {
    bytes.iter().map(|byte| format!("{byte:02x}")).collect()
}

/// The two ids that a key stands under.
#[derive(Clone, Debug, PartialEq, Eq, PartialOrd, Ord)]
pub struct Ids {
    pub tid: String,
    pub kid: String,
}

impl fmt::Display for Ids {
    fn fmt(&self, f: &mut fmt::Formatter) -> fmt::Result {
        f.write_str(&said(&format!("{}/{}", self.tid, self.kid)))
    }
}

impl FromStr for Ids {
    type Err = String;

    fn from_str(value: &str) -> Result<Ids, String> {
        let (tid, kid) = value.split_once('/').ok_or("TID/KID is needed")?;
        Ok(Ids { tid: tid.to_owned(), kid: kid.to_owned() })
    }
}

/// A row of a table, with the key in hex.
#[derive(Clone, Debug)]
pub struct Row {
    pub ids: Ids,
    pub key: Hex,
}

impl FromStr for Row {
    type Err = String;

    fn from_str(value: &str) -> Result<Row, String> {
        let (ids, key) = value.split_once('=').ok_or("TID/KID=KEY is needed, the key in hex, @FILE or -")?;
        Ok(Row { ids: ids.parse()?, key: key.parse()? })
    }
}

/// How many in a second, and how many at once.
#[derive(Clone, Copy, Debug)]
pub struct Rate {
    pub per_s: u32,
    pub burst: u32,
}

impl FromStr for Rate {
    type Err = String;

    fn from_str(value: &str) -> Result<Rate, String> {
        let parts = value.split_once(',').ok_or("PER_S,BURST is needed, as 5,10")?;
        Ok(Rate { per_s: below(parts.0)?, burst: below(parts.1)? })
    }
}

/// The library would refuse a larger number too, but its record has four bytes.
fn below(value: &str) -> Result<u32, String> {
    let number = number(value).ok().and_then(|number| u32::try_from(number).ok());
    number.ok_or_else(|| "each of the two numbers is 0 to 4294967295".to_owned())
}

pub fn number(value: &str) -> Result<u64, String> {
    let digits = value.bytes().all(|digit| digit.is_ascii_digit());
    value.parse().ok().filter(|_| digits).ok_or_else(|| "a number is 0 to 18446744073709551615".to_owned())
}

/// The request has two bytes for it; the library says what more is too much.
pub fn skew(value: &str) -> Result<u16, String> {
    let number = number(value).ok().and_then(|number| u16::try_from(number).ok());
    number.ok_or_else(|| "a skew is 0 to 300 seconds".to_owned())
}

pub fn truth(value: &str) -> Result<bool, String> {
    value.parse().map_err(|_| "true or false is needed".to_owned())
}

pub fn time(value: &str) -> Result<u64, String> {
    times::read(value)
}

pub fn peer(value: &str) -> Result<Ipv4Addr, String> {
    value.parse().map_err(|_| "an address is written 10.1.2.3".to_owned())
}

/// A digest is text of lowercase digits; upper case is taken here as for all hex.
pub fn digest(value: &str) -> Result<String, String> {
    Ok(value.to_ascii_lowercase())
}

/// Words parted by commas; no word at all is an empty list.
#[derive(Clone, Debug, Default)]
pub struct Methods(pub Vec<String>);

impl FromStr for Methods {
    type Err = String;

    fn from_str(value: &str) -> Result<Methods, String> {
        Ok(Methods(value.split(',').filter(|_| !value.is_empty()).map(str::to_owned).collect()))
    }
}

/// A custom caveat: its value is one item of CBOR, which is the writer's own affair, so it comes in hex.
#[derive(Clone, Debug)]
pub struct Custom {
    pub ns: String,
    pub name: String,
    pub value: Hex,
}

impl FromStr for Custom {
    type Err = String;

    fn from_str(value: &str) -> Result<Custom, String> {
        let parts = value.split_once('=').and_then(|(ids, value)| Some((ids.split_once('/')?, value)));
        let ((ns, name), value) = parts.ok_or("NS/NAME=VALUE is needed, with the value's CBOR in hex")?;
        Ok(Custom { ns: ns.to_owned(), name: name.to_owned(), value: value.parse()? })
    }
}
