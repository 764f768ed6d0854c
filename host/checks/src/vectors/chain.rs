//! The file chain.json: some tokens link by link, for whoever writes another implementation. The links and
//! texts are the second program's, whose hash is the official crate's.

use second::base64url;
use second::chain::{official, Chain};
use serde_json::Value;

use super::json::{file as file_of, hexed, object, text};
use super::parts::{custom, fresh, idle, methods, row, scope_of, words, DIGEST, NEW_YEAR};
use crate::cases::Case;
use crate::tree::Node;
use crate::trees::{caveat_of, rate};

pub fn file() -> String {
    let about = "Chains: what a token is made of, the link after each step and the text of the token that ends \
                 there. The first link is over the ids and the scope, and each further one over a caveat.";
    let (short, every) = (short(), every());
    let cases = vec![
        laid("no-caveats", "the first link alone, for the least scope", &Case { caveats: vec![], ..short.clone() }),
        laid("three-caveats", "an expiry, a method and a prefix", &short),
        laid("every-kind", "a caveat of each of the twelve kinds", &every),
        laid("ids-joined", "tid a and kid bc: the ids enter the first link bare", &joined("a", "bc")),
        laid("ids-joined-elsewhere", "tid ab and kid c have the same links", &joined("ab", "c")),
    ];
    file_of(about, cases)
}

fn laid(name: &str, comment: &str, case: &Case) -> Value {
    let caveats: Vec<Vec<u8>> = case.caveats.iter().map(Node::laid).collect();
    let mut chain = Chain::new(official, case.key(), &case.row.tid, &case.row.kid, &case.scope.laid());
    let mut links = vec![hexed(chain.link())];
    for caveat in &caveats {
        chain.narrow(caveat);
        links.push(hexed(chain.link()));
    }
    let up_to = |count: usize| Case { caveats: case.caveats[..count].to_vec(), ..case.clone() };
    let texts = (0..=caveats.len()).map(|count| text(&base64url::encode(&up_to(count).token())));
    object(vec![
        ("name", name.into()),
        ("comment", comment.into()),
        ("key", hexed(case.key())),
        ("tid", text(&case.row.tid)),
        ("kid", text(&case.row.kid)),
        ("scope", hexed(&case.scope.laid())),
        ("caveats", caveats.iter().map(|caveat| hexed(caveat)).collect()),
        ("links", links.into()),
        ("texts", texts.collect()),
    ])
}

fn short() -> Case {
    let caveats = [
        ("exp", Node::number(NEW_YEAR)),
        ("method", methods(&["GET"])),
        ("path_prefix", words("/relay/1")),
    ];
    let caveats = caveats.into_iter().map(|(t, v)| caveat_of(t, v)).collect();
    Case { scope: scope_of(None, &["GET"], None), caveats, ..fresh() }
}

fn every() -> Case {
    let others = [
        ("nbf", Node::number(NEW_YEAR)),
        ("aud", words("relay-1")),
        ("ip_cidr", words("10.0.0.0/8")),
        ("bytes_le", Node::number(512)),
        ("rate", rate(10, 5)),
        ("tenant", words("workshop")),
        ("gov_policy_digest", Node::text(DIGEST)),
    ];
    let mut case = Case { caveats: short().caveats, ..fresh() };
    case.caveats.extend(others.into_iter().map(|(t, v)| caveat_of(t, v)));
    case.caveats.extend([idle(), custom(Node::number(0))]);
    case
}

fn joined(tid: &str, kid: &str) -> Case {
    Case { row: row(tid, kid), caveats: vec![idle()], ..fresh() }
}
