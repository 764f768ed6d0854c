//! Whole cases for verify: a key table, a request and a token that fit each other, from a seed, and the
//! same as the bytes that verify is lent.

use second::base64url;
use second::chain::{self, Key, Link};
use second::request::Rate;
use second::token;

use crate::fitting::{self, Broken};
use crate::requests::{self, Request};
use crate::tables::{self, Row};
use crate::tree::Node;
use crate::trees::{caveat_of, KINDS};
use crate::Seeded;

/// How many caveats a token may have.
pub const CAVEATS: usize = 64;

/// How many bytes they may have together here, so that the rest of a token always has its place in 4,096.
const ROOM: usize = 2900;

/// What verify is lent.
#[derive(Clone, Debug)]
pub struct Triple {
    pub table: Vec<u8>,
    pub request: Vec<u8>,
    pub text: Vec<u8>,
}

/// What a triple is made from. The token is under the ids and the key of `row`, in the table or not.
#[derive(Clone, Debug)]
pub struct Case {
    pub rows: Vec<Row>,
    pub row: Row,
    pub request: Request,
    pub scope: Node,
    pub caveats: Vec<Node>,
}

impl Case {
    pub fn key(&self) -> &Key {
        self.row.key[..].try_into().expect("a key of 32 bytes")
    }

    /// The tag that is right for the token as it stands.
    pub fn tag(&self) -> Link {
        self.tag_over(&self.caveats)
    }

    /// The tag of the same token with other caveats.
    pub fn tag_over(&self, caveats: &[Node]) -> Link {
        let laid: Vec<Vec<u8>> = caveats.iter().map(Node::laid).collect();
        let lent: Vec<&[u8]> = laid.iter().map(Vec::as_slice).collect();
        chain::tag(self.key(), &self.row.tid, &self.row.kid, &self.scope.laid(), &lent)
    }

    /// The token under a tag, right or not.
    pub fn tree(&self, tag: &[u8]) -> Node {
        Node::map(vec![
            ("c", Node::array(self.caveats.clone())),
            ("r", self.scope.clone()),
            ("s", Node::bytes(tag)),
            ("v", Node::number(1)),
            ("kid", Node::text(&self.row.kid)),
            ("tid", Node::text(&self.row.tid)),
        ])
    }

    /// How many bytes the decoded token has, whatever its tag is.
    pub fn length(&self) -> usize {
        self.tree(&[0; 32]).laid().len()
    }

    /// The decoded token with its right tag.
    pub fn token(&self) -> Vec<u8> {
        self.tree(&self.tag()).laid()
    }

    /// The same table and request with another token.
    pub fn with_token(&self, token: &[u8]) -> Triple {
        self.with_text(base64url::encode(token))
    }

    pub fn with_text(&self, text: Vec<u8>) -> Triple {
        Triple { table: tables::laid(&self.rows), request: self.request.laid(), text }
    }

    pub fn laid(&self) -> Triple {
        self.with_token(&self.token())
    }
}

/// A table of a few rows, a request, and a token under one of the rows that is allowed, with `count`
/// caveats.
pub fn fitting(count: usize, seeded: &mut Seeded) -> Case {
    let request = requests::any(seeded);
    fitting_for(request, count, seeded)
}

/// The same for a request whose tenant is yet to be that of a row.
pub fn fitting_for(mut request: Request, count: usize, seeded: &mut Seeded) -> Case {
    let rows = tables::few(seeded);
    let row = rows[seeded.below(rows.len())].clone();
    request.tenant = row.tid.clone();
    let scope = fitting::scope(Broken::default(), &request, seeded);
    let mut caveats: Vec<Node> = (0..count).map(|_| fitting::any_holding(&request, seeded)).collect();
    shorten(&mut caveats);
    Case { rows, row, request, scope, caveats }
}

/// Puts a short caveat that always holds in the place of each that leaves too little room to those behind.
pub fn shorten(caveats: &mut [Node]) {
    let short = caveat_of("amnesia", Node::simple(20));
    let each = short.laid().len();
    let mut left = ROOM;
    for (behind, caveat) in caveats.iter_mut().rev().enumerate().rev() {
        if caveat.laid().len() + behind * each > left {
            *caveat = short.clone();
        }
        left -= caveat.laid().len();
    }
}

/// A case with the narrowest scope and the narrowest caveat of each kind that can hold, and more behind
/// them so that the token has exactly this many bytes. The request has every part but amnesia, so that one
/// bit makes a caveat that fails out of the one that asks for none.
pub fn of_length(length: usize, seeded: &mut Seeded) -> Case {
    let request = Request {
        now: 1 << 40,
        body_size: 70_000,
        rate: Some(Rate { per_s: 300, burst: 70_000 }),
        path: b"/7".repeat(448),
        ..requests::flagged(30, seeded)
    };
    let mut case = fitting_for(request, 0, seeded);
    case.scope = fitting::narrowest_scope(&case.request);
    case.caveats = (0..KINDS.len()).filter_map(|kind| fitting::narrowest(kind, &case.request)).collect();
    fill(&mut case, length);
    case
}

/// Adds caveats on the path until the token has exactly this many bytes; the last two make it so. The path's
/// segments are short, so that prefixes of nearly any length fit it.
pub fn fill(case: &mut Case, length: usize) {
    let path = case.request.path.clone();
    let (fit, _) = fitting::lengths(&path);
    let caveat = |at: usize| caveat_of("path_prefix", Node::text(&path[..fit[at]]));
    let long = fit.iter().rposition(|&length| length <= 200).expect("a prefix of one byte");
    while case.length() + 500 < length {
        case.caveats.push(caveat(long));
    }
    let sizes: Vec<usize> = (0..fit.len()).map(|at| caveat(at).laid().len()).collect();
    // What two caveats of the shortest prefix leave, and what they take themselves.
    case.caveats.extend([caveat(0), caveat(0)]);
    let left = length - case.length() + 2 * sizes[0];
    case.caveats.truncate(case.caveats.len() - 2);
    let second = |first: usize| sizes.iter().position(|second| sizes[first] + second == left);
    let (first, second) =
        (0..sizes.len()).find_map(|first| Some((first, second(first)?))).expect("two prefixes of that size");
    case.caveats.extend([caveat(first), caveat(second)]);
    assert_eq!(case.length(), length);
}

/// A decoded token with its tag made right under a key, if it still reads as a token.
pub fn retagged(token: &[u8], key: &Key) -> Option<Vec<u8>> {
    let whole = token::read_whole(token).ok()?;
    let part = |(from, to): (usize, usize)| &token[from..to];
    let starts = [whole.token.caveats.from].into_iter().chain(whole.caveats.iter().map(|caveat| caveat.next));
    let caveats: Vec<&[u8]> =
        starts.zip(&whole.caveats).map(|(from, caveat)| part((from, caveat.next))).collect();
    let read = whole.token;
    let tag = chain::tag(key, part(read.tid), part(read.kid), part(read.scope), &caveats);
    let mut tagged = token.to_vec();
    tagged[read.tag.0..read.tag.1].copy_from_slice(&tag);
    Some(tagged)
}
