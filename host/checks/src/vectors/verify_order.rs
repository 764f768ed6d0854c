//! Calls in which more than one thing is wrong: the first in document 01's order is the answer.

use super::parts::{asked, custom, fresh, idle, row, verify, with, words, Verify};
use crate::cases::{Case, Triple};
use crate::tree::Node;
use crate::trees::caveat_of;

pub fn cases() -> Vec<Verify> {
    [inputs(), reading(), rules(), caveats()].concat()
}

fn inputs() -> Vec<Verify> {
    let good = fresh().laid();
    let long = "=".repeat(6000).into_bytes();
    let bad_request = Triple { request: vec![], ..good.clone() };
    vec![
        verify(1, "order-table-request", "both bad", Triple { table: vec![0], ..bad_request.clone() }),
        verify(1, "order-table-text", "a bad table and a text that is too long", {
            Triple { table: vec![0], text: long.clone(), ..good }
        }),
        verify(2, "order-request-text", "a bad request and a text that is too long", {
            Triple { text: long, ..bad_request.clone() }
        }),
        verify(2, "order-request-key", "a bad request and no key", Triple { table: vec![], ..bad_request }),
    ]
}

fn reading() -> Vec<Verify> {
    let unknown = Case { row: row("workshop", "kid-2024-10"), ..fresh() };
    let left_over = [&unknown.token()[..], b"\0"].concat();
    let untagged = |case: &Case| case.with_token(&case.tree(&[0; 32]).laid());
    let other_tenant = asked(|request| request.tenant = b"contractor".to_vec());
    vec![
        verify(4, "order-left-over-key", "a byte left over and no key", unknown.with_token(&left_over)),
        verify(7, "order-key-tag", "no key and a wrong tag", untagged(&unknown)),
        verify(8, "order-tag-tenant", "a wrong tag and another tenant", untagged(&other_tenant)),
    ]
}

/// A request that breaks the scope's rules from one of them on, under tenants of which the first is another.
fn rules() -> Vec<Verify> {
    let late = || vec![caveat_of("exp", Node::number(0))];
    let breaking = |tenant: &str, method: &str, path: &str| {
        let case = asked(|request| {
            request.tenant = tenant.into();
            request.method = method.into();
            request.path = path.into();
            request.body_size = 513;
        });
        Case { caveats: late(), ..case }.laid()
    };
    vec![
        verify(9, "order-tenant-scope", "another tenant, and nothing of the scope holds", {
            breaking("contractor", "DELETE", "/relay/2")
        }),
        verify(10, "order-method-path", "nothing of the scope holds", breaking("workshop", "DELETE", "/relay/2")),
        verify(11, "order-path-bytes", "neither path nor size hold", breaking("workshop", "GET", "/relay/2")),
        verify(12, "order-bytes-caveat", "neither size nor caveat hold", breaking("workshop", "GET", "/relay/1")),
    ]
}

fn caveats() -> Vec<Verify> {
    let exp = || caveat_of("exp", Node::number(0));
    let nbf = || caveat_of("nbf", Node::number(u64::MAX));
    let aud = || caveat_of("aud", words("relay-2"));
    vec![
        verify(15, "order-aud-exp", "aud and then exp", with(vec![idle(), aud(), exp()])),
        verify(13, "order-exp-aud", "exp and then aud", with(vec![idle(), exp(), aud()])),
        verify(21, "order-custom-nbf", "custom and then nbf", with(vec![custom(Node::number(0)), nbf()])),
        verify(14, "order-nbf-custom", "nbf and then custom", with(vec![nbf(), custom(Node::number(0))])),
    ]
}
