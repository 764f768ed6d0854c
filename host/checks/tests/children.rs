//! Children as verify judges them: each allows what its parent allows and its caveat holds for, no more and
//! no less. And whole chains, made by the proved issue and narrow, as they lie and as they are judged.

use archive::Written;
use checks::calls::{Calls, Narrow};
use checks::cases::{fitting, of_length, retagged, Case};
use checks::edits::spoiled;
use checks::fitting::{any_holding, failing, holding};
use checks::narrowing::{self, call, BYTES};
use checks::requests::{self, Request};
use checks::tables::Row;
use checks::tree::Node;
use checks::trees::{self, KINDS};
use checks::verdicts::Verdicts;
use checks::{damage, issuing, Seeded};
use second::rules::{self, Asked};
use second::{base64url, caveat, request, token};

/// The longest text.
const TEXT: usize = 5462;

/// How many children are held against their parents, and by how many requests each.
const CHILDREN: usize = 2400;
const REQUESTS: usize = 20;

/// How many tokens are made a second time from what they hold.
const REBUILT: usize = 5000;

/// A caveat of this kind that holds for the request, or that does not, or of which nothing is said.
fn some_caveat(kind: usize, request: &Request, seeded: &mut Seeded) -> Node {
    let caveat = match seeded.below(3) {
        0 => failing(kind, request, seeded),
        _ => holding(kind, request, seeded),
    };
    caveat.unwrap_or_else(|| trees::caveat(kind, seeded))
}

/// The request itself, one that is no request, and such as are near it.
fn asking(place: usize, request: &Request, seeded: &mut Seeded) -> Vec<u8> {
    match place {
        0 => request.laid(),
        1 => spoiled(&request.laid(), seeded),
        _ => requests::near(request, seeded).laid(),
    }
}

/// The number of the rule that one caveat breaks by itself, or 0 where it holds.
fn rule(asked: &[u8], bytes: &[u8], tid: &[u8]) -> u32 {
    let request = request::read(asked).expect("a request that the parent allows");
    let demand = caveat::read(bytes, 0).expect("a caveat that the child has").demand;
    let asked = Asked { request: &request, request_bytes: asked, token_bytes: bytes, tid };
    rules::caveat(&asked, &demand).err().unwrap_or(0)
}

/// A text that was handed out, without a look at what the second program would hand out.
fn handed(written: Written, mut room: Vec<u8>) -> Option<Vec<u8>> {
    room.truncate(written.length as usize);
    (written.answer == 0).then_some(room)
}

fn issued_by_the_archive(table: &[u8], tid: &[u8], kid: &[u8], scope: &[u8]) -> Option<Vec<u8>> {
    let mut room = vec![0; TEXT];
    handed(archive::issue(table, tid, kid, scope, &mut room), room)
}

fn narrowed_by_the_archive(table: &[u8], text: &[u8], caveat: &[u8]) -> Option<Vec<u8>> {
    let mut room = vec![0; TEXT];
    handed(archive::narrow(table, text, caveat, &mut room), room)
}

#[test]
fn a_child_allows_exactly_what_its_parent_allows_and_its_caveat_holds_for() {
    let mut seeded = Seeded(220);
    let (mut children, mut allowed, mut narrowed, mut refused) = (0, 0, 0, 0);
    for turn in 0..CHILDREN {
        let case = fitting([0, 0, 1, 1, 2, 5, 23, 63][seeded.below(8)], &mut seeded);
        let added = some_caveat(turn % KINDS.len(), &case.request, &mut seeded);
        if narrowing::child(&case, &added).length() > BYTES {
            continue;
        }
        let asked = call(&case, &added);
        let child = narrowed_by_the_archive(&asked.table, &asked.text, &asked.caveat).expect("a child");
        children += 1;
        for place in 0..REQUESTS {
            let request = asking(place, &case.request, &mut seeded);
            let parent = archive::verify(&asked.table, &request, &asked.text);
            let answer = archive::verify(&asked.table, &request, &child);
            let broken = if parent == 0 { rule(&request, &asked.caveat, &case.row.tid) } else { parent };
            assert_eq!(answer == 0, parent == 0 && broken == 0, "{asked:02x?} and request {request:02x?}");
            // The caveat comes behind all that the parent is judged by, so its reasons stay the first.
            assert_eq!(answer, broken, "{asked:02x?} and request {request:02x?}");
            match (parent, broken) {
                (0, 0) => allowed += 1,
                (0, _) => narrowed += 1,
                _ => refused += 1,
            }
        }
    }
    println!("{children} children: {allowed} allowed, {narrowed} by the parent alone, {refused} by neither");
    assert!(children >= 2300 && allowed >= 10_000 && narrowed >= 10_000 && refused >= 10_000);
}

/// Narrows the case's text, which is to be that of the case with the caveat behind its others.
fn grow(calls: &mut Calls, case: &mut Case, text: &mut Vec<u8>, caveat: Node) {
    let asked = Narrow { text: text.clone(), ..call(case, &caveat) };
    case.caveats.push(caveat);
    *text = calls.call(&asked, TEXT).expect("a caveat for which there is room");
    assert_eq!(*text, case.laid().text);
}

#[test]
fn chains_of_every_length_are_issued_narrowed_and_allowed() {
    let mut seeded = Seeded(221);
    let (mut calls, mut verdicts) = (Calls::default(), Verdicts::default());
    for _ in 0..40 {
        let mut case = fitting(64, &mut seeded);
        let caveats = std::mem::take(&mut case.caveats);
        let mut text = calls.call(&issuing::call(&case), TEXT).expect("a good scope and a key");
        verdicts.expect(&case.with_text(text.clone()), 0);
        for caveat in caveats {
            grow(&mut calls, &mut case, &mut text, caveat);
            verdicts.expect(&case.with_text(text.clone()), 0);
        }
        let last = any_holding(&case.request, &mut seeded);
        calls.expect(&Narrow { text, ..call(&case, &last) }, TEXT, 34);
    }
    calls.met(40 * 66, &[0, 34], 40);
    verdicts.met(40 * 65, [0], 40 * 65);
}

#[test]
fn trees_whose_branches_end_where_a_caveat_fails() {
    let mut seeded = Seeded(222);
    let (mut calls, mut verdicts) = (Calls::default(), Verdicts::default());
    for _ in 0..40 {
        let case = fitting(0, &mut seeded);
        let text = calls.call(&issuing::call(&case), TEXT).expect("a good scope and a key");
        let mut nodes = vec![(case, text)];
        for _ in 0..60 {
            // Often the last one, so that some branches are long.
            let at = if seeded.below(2) == 0 { nodes.len() - 1 } else { seeded.below(nodes.len()) };
            let (mut case, mut text) = nodes[at].clone();
            let caveat = match seeded.below(4) {
                0 => some_caveat(seeded.below(KINDS.len()), &case.request, &mut seeded),
                _ => any_holding(&case.request, &mut seeded),
            };
            if case.length() + caveat.laid().len() < BYTES && case.caveats.len() < 64 {
                grow(&mut calls, &mut case, &mut text, caveat);
                verdicts.judge(&case.with_text(text.clone()));
                nodes.push((case, text));
            }
        }
    }
    calls.met(2000, &[0], 2000);
    verdicts.met(2000, [0].into_iter().chain(10..=21), 5);
}

/// A good token made again: its scope issued, then narrowed by its caveats in turn.
fn rebuilt(bytes: &[u8], key: &[u8]) -> Vec<u8> {
    let whole = token::read_whole(bytes).expect("a good token");
    let part = |(from, to): (usize, usize)| &bytes[from..to];
    let (tid, kid) = (part(whole.token.tid), part(whole.token.kid));
    let table = Row { tid: tid.to_vec(), kid: kid.to_vec(), key: key.to_vec() }.record();
    let mut made = issued_by_the_archive(&table, tid, kid, part(whole.token.scope)).expect("a fresh token");
    let mut from = whole.token.caveats.from;
    for caveat in &whole.caveats {
        made = narrowed_by_the_archive(&table, &made, part((from, caveat.next))).expect("a child");
        from = caveat.next;
    }
    made
}

/// Tags a token, if it reads as one and has no more bytes than it may, and makes it again.
fn rebuild(bytes: &[u8], key: &[u8; 32]) -> usize {
    let Some(tagged) = retagged(bytes, key).filter(|tagged| tagged.len() <= BYTES) else { return 0 };
    assert_eq!(rebuilt(&tagged, key), base64url::encode(&tagged), "{bytes:02x?}");
    1
}

#[test]
fn every_good_token_is_what_issue_and_narrow_make_of_its_parts() {
    let mut seeded = Seeded(223);
    let mut made = 0;
    for count in 0..=64 {
        let case = fitting(count, &mut seeded);
        assert_eq!(rebuild(&case.token(), case.key()), 1);
        made += rebuild(&trees::token(count, &mut seeded).laid(), case.key());
        made += rebuild(&of_length(BYTES - count, &mut seeded).token(), case.key());
    }
    let mut turn = 0;
    while made < REBUILT {
        let case = fitting(turn % 4, &mut seeded);
        let token = trees::token(turn % 4, &mut seeded);
        turn += 1;
        damage::each(&token, |edited| made += rebuild(edited, case.key()));
        for _ in 0..200 {
            made += rebuild(&spoiled(&case.token(), &mut seeded), case.key());
        }
    }
    println!("{made} tokens made again");
}
