//! Items one behind the other, lists of them, and maps whose keys are known names in one order. What
//! document 01 says of maps stands here once, for all five kinds that a token is made of.

use crate::cbor::{head, malformed, out_of_bounds, run, string, unknown, Class, Defect, ARRAY, MAP, TEXT};

/// Start and end of some bytes.
pub type Span = (usize, usize);

/// The items of an array, as they lie: how many, where the first begins and where the last ends.
#[derive(Clone, Copy, Debug, PartialEq, Eq)]
pub struct List {
    pub count: u64,
    pub from: usize,
    pub to: usize,
}

/// A place that moves on behind each item that is read well.
pub(crate) struct Cursor<'a> {
    pub s: &'a [u8],
    pub at: usize,
}

impl<'a> Cursor<'a> {
    /// The number in a head of type `major`.
    pub fn number(&mut self, major: u8) -> Result<u64, Defect> {
        let head = head(self.s, self.at)?;
        if head.major != major {
            return Err(malformed(self.at));
        }
        self.at = head.next;
        Ok(head.value)
    }

    /// The same where a number over `most` is out of bounds.
    pub fn at_most(&mut self, major: u8, most: u64) -> Result<u64, Defect> {
        let at = self.at;
        let number = self.number(major)?;
        if number > most { Err(out_of_bounds(at)) } else { Ok(number) }
    }

    pub fn text(&mut self, class: Class, low: u64, high: u64) -> Result<Span, Defect> {
        let span = string(self.s, self.at, class, low, high)?;
        self.at = span.1;
        Ok(span)
    }

    /// A string of type `major` and of any content, `low` to `high` bytes long.
    pub fn run(&mut self, major: u8, low: u64, high: u64) -> Result<Span, Defect> {
        let span = run(self.s, self.at, major, low, high)?;
        self.at = span.1;
        Ok(span)
    }

    /// A text that has neither a range nor a class: a key, t, an address.
    pub fn any_text(&mut self) -> Result<Span, Defect> {
        self.run(TEXT, 0, u64::MAX)
    }

    /// An array of up to `most` items.
    pub fn list(
        &mut self,
        most: u64,
        mut item: impl FnMut(&mut Self) -> Result<(), Defect>,
    ) -> Result<List, Defect> {
        let count = self.at_most(ARRAY, most)?;
        let from = self.at;
        for _ in 0..count {
            item(self)?;
        }
        Ok(List { count, from, to: self.at })
    }
}

/// A string without a range of its own: a wrong length is as malformed as anything else about it.
pub(crate) fn without_range(read: Result<Span, Defect>) -> Result<Span, Defect> {
    read.map_err(|defect| malformed(defect.place))
}

/// A key that a map knows.
pub(crate) struct Key {
    pub name: &'static str,
    required: bool,
}

pub(crate) const fn required(name: &'static str) -> Key {
    Key { name, required: true }
}

pub(crate) const fn optional(name: &'static str) -> Key {
    Key { name, required: false }
}

/// A map that is being read. The next key is read as soon as the value before it ends, so that its
/// defects are met in the order in which they lie.
pub(crate) struct Map<'c, 'a> {
    cursor: &'c mut Cursor<'a>,
    head: usize,
    known: &'static [Key],
    /// How many of the known keys can no longer come.
    passed: usize,
    left: u64,
    met: Option<&'static str>,
}

impl<'c, 'a> Map<'c, 'a> {
    pub fn open(cursor: &'c mut Cursor<'a>, known: &'static [Key]) -> Result<Self, Defect> {
        let head = cursor.at;
        let left = cursor.number(MAP)?;
        let least = known.iter().filter(|key| key.required).count();
        if left > known.len() as u64 {
            return Err(unknown(head));
        }
        if left < least as u64 {
            return Err(malformed(head));
        }
        let mut map = Map { cursor, head, known, passed: 0, left, met: None };
        map.key()?;
        Ok(map)
    }

    /// The value under a key that may be absent. Keys are asked for in their order.
    pub fn may<T>(
        &mut self,
        name: &str,
        value: impl FnOnce(&mut Cursor<'a>) -> Result<T, Defect>,
    ) -> Result<Option<T>, Defect> {
        if self.met != Some(name) {
            return Ok(None);
        }
        let read = value(self.cursor)?;
        self.key()?;
        Ok(Some(read))
    }

    /// The value under a required key.
    pub fn must<T>(
        &mut self,
        name: &str,
        value: impl FnOnce(&mut Cursor<'a>) -> Result<T, Defect>,
    ) -> Result<T, Defect> {
        self.may(name, value)?.ok_or(malformed(self.head))
    }

    fn key(&mut self) -> Result<(), Defect> {
        self.met = None;
        if self.left == 0 {
            return Ok(());
        }
        self.left -= 1;
        let at = self.cursor.at;
        let (from, to) = self.cursor.any_text()?;
        let content = &self.cursor.s[from..to];
        let found = self.known.iter().position(|key| key.name.as_bytes() == content).ok_or(unknown(at))?;
        // A key that can no longer come has no such range: it is repeated or out of order.
        let skipped = self.known.get(self.passed..found).ok_or(malformed(at))?;
        if skipped.iter().any(|key| key.required) {
            return Err(malformed(at));
        }
        self.passed = found + 1;
        self.met = Some(self.known[found].name);
        Ok(())
    }
}

#[cfg(test)]
mod tests {
    use super::*;
    use crate::cbor::UNSIGNED;

    const KEYS: [Key; 3] = [optional("a"), required("b"), optional("c")];

    type Read = Result<(Option<u64>, u64, Option<u64>, usize), Defect>;

    /// The numbers under the three keys, and the place behind the map.
    fn read(s: &[u8]) -> Read {
        let mut cursor = Cursor { s, at: 0 };
        let mut map = Map::open(&mut cursor, &KEYS)?;
        let a = map.may("a", |cursor| cursor.number(UNSIGNED))?;
        let b = map.must("b", |cursor| cursor.number(UNSIGNED))?;
        let c = map.may("c", |cursor| cursor.number(UNSIGNED))?;
        Ok((a, b, c, cursor.at))
    }

    #[test]
    fn keys_that_may_be_absent() {
        assert_eq!(read(b"\xa1\x61b\x02"), Ok((None, 2, None, 4)));
        assert_eq!(read(b"\xa2\x61a\x01\x61b\x02\xff"), Ok((Some(1), 2, None, 7)));
        assert_eq!(read(b"\xa2\x61b\x02\x61c\x03"), Ok((None, 2, Some(3), 7)));
        assert_eq!(read(b"\xa3\x61a\x01\x61b\x02\x61c\x03"), Ok((Some(1), 2, Some(3), 10)));
    }

    #[test]
    fn the_count_is_judged_at_the_head() {
        assert_eq!(read(b"\xa0"), Err(malformed(0)));
        assert_eq!(read(b"\xa4\xff"), Err(unknown(0)));
        assert_eq!(read(b"\xbb\xff\xff\xff\xff\xff\xff\xff\xff"), Err(unknown(0)));
        assert_eq!(read(b"\xb8\x04"), Err(malformed(0)));
        assert_eq!(read(b"\x84"), Err(malformed(0)));
        assert_eq!(read(b""), Err(malformed(0)));
    }

    #[test]
    fn keys_are_judged_before_their_values() {
        assert_eq!(read(b"\xa2\x61a\x01\x61c\xff"), Err(malformed(4)));
        assert_eq!(read(b"\xa2\x61b\x02\x61b\xff"), Err(malformed(4)));
        assert_eq!(read(b"\xa2\x61b\x02\x61a\xff"), Err(malformed(4)));
        assert_eq!(read(b"\xa3\x61b\x02\x61c\x03\x61a\xff"), Err(malformed(7)));
        assert_eq!(read(b"\xa3\x61b\x02\x61c\x03\x61d\xff"), Err(unknown(7)));
        assert_eq!(read(b"\xa1\x60\xff"), Err(unknown(1)));
        assert_eq!(read(b"\xa1\x61\x80"), Err(unknown(1)));
        assert_eq!(read(b"\xa1\x41b\x02"), Err(malformed(1)));
        assert_eq!(read(b"\xa1\x78\x01b\x02"), Err(malformed(1)));
        assert_eq!(read(b"\xa1\x62b"), Err(malformed(1)));
        assert_eq!(read(b"\xa1"), Err(malformed(1)));
    }

    #[test]
    fn what_is_absent_at_the_end_is_at_the_head() {
        assert_eq!(read(b"\xa1\x61a\x01"), Err(malformed(0)));
        assert_eq!(read(b"\xa1\x61a\x20"), Err(malformed(3)));
        assert_eq!(read(b"\xa1\x61c\x01"), Err(malformed(1)));
    }
}
