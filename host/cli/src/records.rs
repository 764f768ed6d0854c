//! House records, laid from their fields and read again: a table is made of them, a row each, and so is a bundle.
//! What is laid may be bad, and the library says so; what is read was judged by it first.

use crate::values::Ids;

/// A row's record, where its ids have a byte for their lengths.
pub fn row(tid: &str, kid: &str, key: &[u8]) -> Option<Vec<u8>> {
    let mut body = Vec::new();
    for id in [tid, kid] {
        body.push(u8::try_from(id.len()).ok()?);
        body.extend(id.bytes());
    }
    body.extend(key);
    Some(record(1, &body))
}

/// A house record; whoever calls has seen that two bytes can say the body's length.
pub fn record(kind: u16, body: &[u8]) -> Vec<u8> {
    [&(body.len() as u16).to_le_bytes(), &kind.to_le_bytes(), body].concat()
}

/// The rows of a good table.
pub fn rows(table: &[u8]) -> Vec<(Ids, Vec<u8>)> {
    let mut fields = Fields(table);
    std::iter::from_fn(|| {
        fields.take(4)?;
        let (tid, kid) = (fields.text(1)?, fields.text(1)?);
        Some((Ids { tid, kid }, fields.take(32)?.to_vec()))
    })
    .collect()
}

/// What is left to read.
pub struct Fields<'a>(pub &'a [u8]);

impl<'a> Fields<'a> {
    pub fn take(&mut self, length: usize) -> Option<&'a [u8]> {
        let front = self.0.get(..length)?;
        self.0 = &self.0[length..];
        Some(front)
    }

    /// The lowest byte comes first.
    pub fn number(&mut self, width: usize) -> Option<u64> {
        Some(self.take(width)?.iter().rev().fold(0, |number, &byte| number << 8 | u64::from(byte)))
    }

    /// Behind its length.
    pub fn text(&mut self, width: usize) -> Option<String> {
        let length = self.number(width)?;
        Some(String::from_utf8_lossy(self.take(length as usize)?).into_owned())
    }
}
