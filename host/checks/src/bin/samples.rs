//! Writes the files that tools/check-c tries the C side on: `samples FOLDER`. table, request and token are a
//! triple that is allowed, and so are table, request.longest and token.longest. scope and caveat are good, as
//! are the longest of each and those of the most and of the deepest caveats. Each other file is wrong in the
//! way that its name says.

use std::path::Path;
use std::{fs, io};

use checks::samples;
use checks::tree::Node;
use checks::trees::{caveat_of, nested};

fn main() -> io::Result<()> {
    let folder = std::env::args_os().nth(1).expect("usage: samples FOLDER");
    let folder = Path::new(&folder);
    let mut case = samples::of_caveats(1);
    let good = case.laid();
    let longest = samples::longest().laid();
    case.request.now = samples::LAST + 1;
    let mut forged = case.tag();
    forged[31] ^= 1;
    let files = [
        ("table", good.table.clone()),
        ("table.cut", good.table[..good.table.len() - 1].to_vec()),
        ("table.empty", vec![]),
        ("request", good.request.clone()),
        ("request.cut", good.request[..good.request.len() - 1].to_vec()),
        ("request.late", case.request.laid()),
        ("request.longest", longest.request),
        ("token", good.text),
        ("token.empty", vec![]),
        ("token.forged", case.with_token(&case.tree(&forged).laid()).text),
        ("token.long", vec![b'='; 6000]),
        ("token.longest", longest.text),
    ];
    files.into_iter().chain(parts()).try_for_each(|(name, bytes)| fs::write(folder.join(name), bytes))
}

/// Scopes and caveats by themselves, and tokens of caveats that take much to judge.
fn parts() -> [(&'static str, Vec<u8>); 8] {
    let text = |text: &[u8]| Node::text(text);
    let scope = Node::map(vec![
        ("prefix", text(&b"/p".repeat(128))),
        ("methods", Node::array(vec![text(&[b'M'; 16]); 16])),
        ("max_bytes", Node::number(u64::MAX)),
    ]);
    let custom = |value| {
        let entries = vec![("ns", text(&[b'n'; 64])), ("cbor", value), ("name", text(&[b'n'; 64]))];
        caveat_of("custom", Node::map(entries))
    };
    let inner = Node::text("\u{10ffff}".repeat(20).as_bytes());
    let deep = custom(nested(4, inner));
    let longest = custom(Node::bytes(&[7; 3600]));
    let (mut case, mut wide) = (samples::of_caveats(11), samples::of_caveats(1));
    let caveat = case.caveats[0].laid();
    case.caveats.push(deep.clone());
    wide.caveats.push(longest.clone());
    [
        ("scope", case.scope.laid()),
        ("scope.longest", scope.laid()),
        ("caveat", caveat),
        ("caveat.deep", deep.laid()),
        ("caveat.longest", longest.laid()),
        ("token.deep", case.laid().text),
        ("token.many", samples::of_caveats(64).laid().text),
        ("token.wide", wide.laid().text),
    ]
}
