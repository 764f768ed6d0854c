//! Good requests from a seed, with the parts that are asked for, and what is done to one piece of a
//! request to make bad ones.

use std::mem;

use second::request::{self, Rate};

use crate::inputs;
use crate::strings;
use crate::Seeded;

/// Lengths about the limits of the four texts and of the number that tells one.
pub const LENGTHS: [usize; 26] = [
    0, 1, 2, 15, 16, 17, 18, 63, 64, 65, 66, 127, 128, 129, 130, 255, 256, 257, 1023, 1024, 1025, 1026, 4096,
    65_535, 65_536, 65_540,
];

#[derive(Clone, Debug)]
pub struct Request {
    pub now: u64,
    pub body_size: u64,
    pub skew: u16,
    pub amnesia: bool,
    pub peer: Option<[u8; 4]>,
    pub digest: Option<Vec<u8>>,
    pub rate: Option<Rate>,
    pub method: Vec<u8>,
    pub path: Vec<u8>,
    pub tenant: Vec<u8>,
    pub audience: Option<Vec<u8>>,
}

impl Request {
    pub fn fields(&self) -> request::Fields<'_> {
        request::Fields {
            now: self.now,
            body_size: self.body_size,
            skew: self.skew,
            amnesia: self.amnesia,
            peer: self.peer,
            digest: self.digest.as_deref(),
            rate: self.rate,
            method: &self.method,
            path: &self.path,
            tenant: &self.tenant,
            audience: self.audience.as_deref(),
        }
    }

    pub fn laid(&self) -> Vec<u8> {
        request::write(&self.fields())
    }

    pub fn pieces(&self) -> Vec<Vec<u8>> {
        request::pieces(&self.fields())
    }
}

/// A request whose flags are these, of which the low five bits count.
pub fn flagged(flags: u8, seeded: &mut Seeded) -> Request {
    let small = |seeded: &mut Seeded| inputs::number(seeded) as u32;
    let is = |bit: u32| flags >> bit & 1 == 1;
    Request {
        now: inputs::number(seeded),
        body_size: inputs::number(seeded),
        skew: [0, 1, 255, 256, 299, 300, seeded.below(301) as u16][seeded.below(7)],
        amnesia: is(0),
        peer: is(1).then(|| (seeded.next() as u32).to_be_bytes()),
        digest: is(3).then(|| strings::digest(seeded)),
        rate: is(4).then(|| Rate { per_s: small(seeded), burst: small(seeded) }),
        method: strings::method(seeded),
        path: strings::path(1024, seeded),
        tenant: strings::name(seeded),
        audience: is(2).then(|| strings::printable(128, seeded)),
    }
}

pub fn any(seeded: &mut Seeded) -> Request {
    let flags = seeded.below(32) as u8;
    flagged(flags, seeded)
}

/// Shows `check` the request with each edit of each piece, and with each two pieces changed over.
pub fn each(request: &Request, mut check: impl FnMut(&[u8])) {
    let mut pieces = request.pieces();
    for at in 0..pieces.len() {
        let good = pieces[at].clone();
        for edited in edits(&good) {
            pieces[at] = edited;
            check(&pieces.concat());
        }
        pieces[at] = good;
        for other in at + 1..pieces.len() {
            pieces.swap(at, other);
            check(&pieces.concat());
            pieces.swap(at, other);
        }
    }
}

/// A piece left out, twice, the wrong way round, a byte shorter or longer at either end, and of other
/// bytes all through; one that is a length tells others.
fn edits(piece: &[u8]) -> Vec<Vec<u8>> {
    let reversed = piece.iter().rev().copied().collect();
    let shorter = [&piece[1..], &piece[..piece.len() - 1]].map(Vec::from);
    let mut edits = vec![vec![], piece.repeat(2), reversed];
    edits.extend(shorter);
    for byte in *b"\0\x01A/af0 \x7f\xff" {
        edits.push([&[byte], piece].concat());
        edits.push([piece, &[byte]].concat());
        edits.push(vec![byte; piece.len()]);
    }
    if let Ok(number) = piece.try_into().map(u16::from_le_bytes) {
        let near = [-256, -2, -1, 1, 2, 256].map(|step| number.wrapping_add_signed(step));
        let told = near.into_iter().chain(LENGTHS.map(|length| length as u16));
        edits.extend(told.map(|number| number.to_le_bytes().to_vec()));
    }
    edits
}

/// A good request near this one, which says something else in one thing or a few.
pub fn near(request: &Request, seeded: &mut Seeded) -> Request {
    let mut near = request.clone();
    for _ in 0..=seeded.below(3) {
        let step = [1, 1, 2, 299, 300, 301, 1 << 16][seeded.below(7)];
        match seeded.below(9) {
            0 => near.now = near.now.saturating_add(step),
            1 => near.now = near.now.saturating_sub(step),
            2 => near.body_size = near.body_size.saturating_add(step),
            3 => near.body_size = near.body_size.saturating_sub(step),
            4 => near.skew = seeded.below(301) as u16,
            5 => near.amnesia = !near.amnesia,
            6 | 7 => change_part(&mut near, seeded),
            _ => change_text(&mut near, seeded),
        }
    }
    near
}

/// One of the parts that may be absent comes, goes or says something else.
fn change_part(request: &mut Request, seeded: &mut Seeded) {
    let other = flagged(31, seeded);
    let gone = seeded.below(3) == 0;
    match seeded.below(4) {
        0 => {
            let bit = 1 << seeded.below(32);
            let changed = |peer| u32::to_be_bytes(u32::from_be_bytes(peer) ^ bit);
            request.peer = request.peer.map_or(other.peer, |peer| (!gone).then(|| changed(peer)));
        }
        1 => request.digest = if gone { None } else { other.digest },
        2 => {
            let more = |number: u32| number.saturating_add(1);
            let changed = |rate: Rate| Rate { per_s: more(rate.per_s), burst: more(rate.burst) };
            request.rate = request.rate.map_or(other.rate, |rate| (!gone).then(|| changed(rate)));
        }
        _ => request.audience = if gone { None } else { other.audience },
    }
}

/// The method, the path or the tenant is another one.
fn change_text(request: &mut Request, seeded: &mut Seeded) {
    match seeded.below(4) {
        0 => request.method = strings::other(&request.method, *b"XY", 16, seeded),
        1 => request.tenant = strings::other_name(&request.tenant, seeded),
        2 if request.path.len() > 1 => request.path.truncate(1 + seeded.below(request.path.len())),
        _ => {
            let next = if request.path.ends_with(b"/") { b'x' } else { b'/' };
            request.path.resize((request.path.len() + 1).min(1024), next);
        }
    }
    request.path = strings::cleaned(mem::take(&mut request.path));
}
