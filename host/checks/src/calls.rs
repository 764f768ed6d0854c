//! The proved issue and narrow beside the second program's. Each call looks at the whole room and at what
//! lies about it, and each answer is counted.

use std::collections::BTreeMap;

use crate::beside::pattern;
use crate::inputs::hex;
use crate::Seeded;

/// How many bytes on either side of a room are looked at, which nobody may write.
const ABOUT: usize = 32;

/// What issue is lent, but for the room.
#[derive(Clone, Debug)]
pub struct Issue {
    pub table: Vec<u8>,
    pub tid: Vec<u8>,
    pub kid: Vec<u8>,
    pub scope: Vec<u8>,
}

/// What narrow is lent, but for the room.
#[derive(Clone, Debug)]
pub struct Narrow {
    pub table: Vec<u8>,
    pub text: Vec<u8>,
    pub caveat: Vec<u8>,
}

/// A call that both sides can be asked; each answers with a number and a length.
pub trait Call {
    fn proved(&self, room: &mut [u8]) -> (u32, u32);
    fn wanted(&self, room: &mut [u8]) -> (u32, u32);
    fn said(&self) -> String;
}

impl Call for Issue {
    fn proved(&self, room: &mut [u8]) -> (u32, u32) {
        let written = archive::issue(&self.table, &self.tid, &self.kid, &self.scope, room);
        (written.answer, written.length)
    }

    fn wanted(&self, room: &mut [u8]) -> (u32, u32) {
        let written = second::issue(&self.table, &self.tid, &self.kid, &self.scope, room);
        (written.answer, written.length)
    }

    fn said(&self) -> String {
        let [table, tid, kid, scope] = [&self.table, &self.tid, &self.kid, &self.scope].map(|part| hex(part));
        format!("issue: table {table}, tid {tid}, kid {kid}, scope {scope}")
    }
}

impl Call for Narrow {
    fn proved(&self, room: &mut [u8]) -> (u32, u32) {
        let written = archive::narrow(&self.table, &self.text, &self.caveat, room);
        (written.answer, written.length)
    }

    fn wanted(&self, room: &mut [u8]) -> (u32, u32) {
        let written = second::narrow(&self.table, &self.text, &self.caveat, room);
        (written.answer, written.length)
    }

    fn said(&self) -> String {
        let text = String::from_utf8_lossy(&self.text);
        format!("narrow: table {}, token {text}, caveat {}", hex(&self.table), hex(&self.caveat))
    }
}

/// How many calls were compared, by the answer that both sides gave.
#[derive(Default)]
pub struct Calls {
    counts: BTreeMap<u32, usize>,
}

impl Calls {
    /// What both sides hand out into a room of this length: a text or the number of a refusal.
    pub fn call(&mut self, call: &impl Call, length: usize) -> Result<Vec<u8>, u32> {
        let whole = pattern(length + 2 * ABOUT);
        let (mut proved, mut wanted) = (whole.clone(), whole);
        let inside = ABOUT..ABOUT + length;
        let said = call.proved(&mut proved[inside.clone()]);
        let (answer, written) = call.wanted(&mut wanted[inside.clone()]);
        assert_eq!(said, (answer, written), "room of {length}, {}", call.said());
        if proved != wanted {
            let at = proved.iter().zip(&wanted).position(|(x, y)| x != y);
            panic!("room of {length} differs at {:?} less {ABOUT}, {}", at, call.said());
        }
        *self.counts.entry(answer).or_default() += 1;
        let text = &proved[inside][..written as usize];
        if answer == 0 { Ok(text.to_vec()) } else { Err(answer) }
    }

    /// The same of a call that was made to be answered so; what both sides have wrong shows here.
    pub fn expect(&mut self, call: &impl Call, length: usize, wanted: u32) {
        let answer = self.call(call, length).err().unwrap_or(0);
        assert_eq!(answer, wanted, "both with room of {length} on {}", call.said());
    }

    /// A call that is made to hand out this text, into rooms that are exactly enough, longer, one short,
    /// and empty.
    pub fn hand_out(&mut self, call: &impl Call, text: &[u8], seeded: &mut Seeded) {
        for longer in [0, 1, 1 + seeded.below(300)] {
            let handed = self.call(call, text.len() + longer);
            assert_eq!(handed.as_deref(), Ok(text), "room longer by {longer}, {}", call.said());
        }
        for length in [text.len() - 1, seeded.below(text.len()), 0] {
            assert_eq!(self.call(call, length), Err(36), "room of {length}, {}", call.said());
        }
    }

    pub fn compared(&self) -> usize {
        self.counts.values().sum()
    }

    /// As many calls were compared, and each of these numbers was the answer so often, and no other number
    /// ever; else the inputs are not what they were.
    pub fn met(&self, compared: usize, answers: &[u32], each: usize) {
        println!("{} calls, by answer {:?}", self.compared(), self.counts);
        assert!(self.compared() >= compared, "{} calls compared of {compared}", self.compared());
        self.reached(answers, each);
        let other = self.counts.keys().find(|answer| !answers.contains(answer));
        assert_eq!(other, None, "an answer that was not made for");
    }

    /// Each of these numbers was the answer so often.
    pub fn reached(&self, answers: &[u32], each: usize) {
        for answer in answers {
            let count = self.counts.get(answer).copied().unwrap_or(0);
            assert!(count >= each, "{count} answers {answer} of {each}");
        }
    }
}

/// How many characters the text of so many bytes has, as document 01 counts them.
pub fn characters(bytes: usize) -> usize {
    4 * (bytes / 3) + [0, 2, 3][bytes % 3]
}

/// How long a room is for a text: too short by one or more, or enough, often just so.
pub fn room(text: usize, short: bool, seeded: &mut Seeded) -> usize {
    let lengths = if short {
        [text - 1, text - 1, seeded.below(text), text / 2, 0]
    } else {
        [text, text, text + 1, text + seeded.below(300), text.max(5462)]
    };
    lengths[seeded.below(lengths.len())]
}
