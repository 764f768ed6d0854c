//! Samples that are the same in every run: what the benchmark verifies, and what the C example is tried
//! on. All are allowed.

use second::request::Rate;

use crate::cases::{fill, Case};
use crate::fitting::{narrowest, narrowest_scope};
use crate::requests::Request;
use crate::tables::Row;
use crate::trees::KINDS;

/// How many kinds of caveats can hold; they stand before the custom one.
const HOLDING: usize = KINDS.len() - 1;

/// The time up to which, with its skew, the samples with an exp are allowed.
pub const LAST: u64 = 1_767_225_900;

const DIGEST: &[u8; 64] = b"9f86d081884c7d659a2feaa0c55ad015a3bf4f1b2b0b822cd15d6c15b0f00a08";

/// A case with caveats of each kind in turn, exp first.
pub fn of_caveats(count: usize) -> Case {
    let mut case = bare(b"/relay/7/counter");
    case.caveats = (0..count).filter_map(|place| narrowest(place % HOLDING, &case.request)).collect();
    case
}

/// A case whose token has as many bytes as a token may have.
pub fn longest() -> Case {
    let mut case = bare(&[&b"/relay/7/counter"[..], &b"/7".repeat(248)].concat());
    case.caveats = (0..HOLDING).filter_map(|kind| narrowest(kind, &case.request)).collect();
    fill(&mut case, 4096);
    case
}

/// A table of four rows, a request that has every part, and a token without caveats.
fn bare(path: &[u8]) -> Case {
    let rows = rows();
    let request = Request {
        now: LAST,
        body_size: 512,
        skew: 300,
        amnesia: true,
        peer: Some([10, 1, 2, 3]),
        digest: Some(DIGEST.to_vec()),
        rate: Some(Rate { per_s: 5, burst: 10 }),
        method: b"GET".to_vec(),
        path: path.to_vec(),
        tenant: b"tenant-1".to_vec(),
        audience: Some(b"relay-7".to_vec()),
    };
    let scope = narrowest_scope(&request);
    Case { row: rows[1].clone(), rows, request, scope, caveats: vec![] }
}

fn rows() -> Vec<Row> {
    let ids = [
        ("tenant-1", "kid-2025-09"),
        ("tenant-1", "kid-2025-10"),
        ("tenant-2", "kid-2025-10"),
        ("tenant-3", "kid-2025-11"),
    ];
    let row = |(place, (tid, kid)): (usize, (&str, &str))| Row {
        tid: tid.into(),
        kid: kid.into(),
        key: vec![place as u8 + 1; 32],
    };
    ids.into_iter().enumerate().map(row).collect()
}

#[cfg(test)]
mod tests {
    use super::*;

    #[test]
    fn all_are_allowed_and_of_the_size_that_they_are_named_by() {
        for count in [0, 1, 11, 16, 64] {
            let case = of_caveats(count);
            let triple = case.laid();
            assert_eq!(case.caveats.len(), count);
            assert_eq!(second::verify(&triple.table, &triple.request, &triple.text), 0, "{count}");
        }
        let triple = longest().laid();
        assert_eq!(triple.text.len(), 5462);
        assert_eq!(second::verify(&triple.table, &triple.request, &triple.text), 0);
    }

    #[test]
    fn a_second_later_the_first_caveat_has_passed() {
        let mut case = of_caveats(16);
        let text = case.laid().text;
        case.request.now += 1;
        let late = case.with_text(text);
        assert_eq!(second::verify(&late.table, &late.request, &late.text), 13);
    }
}
