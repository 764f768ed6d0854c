//! What the second program reads, in the numbers that the probes hand out: ten of a scope, a
//! caveat or a token, twenty of a request. Numbers that mean nothing are 0.

use second::caveat::{Caveat, Demand};
use second::cursor::{List, Span};
use second::request::{Rate, Request};
use second::scope::Scope;
use second::token::Token;

pub fn scope_numbers(scope: Scope) -> [u64; 10] {
    let [from, to] = span(scope.prefix.unwrap_or((0, 0)));
    let [count, first, last] = list(scope.methods);
    let stated = u64::from(scope.max_bytes.is_some());
    [from, to, count, first, last, stated, scope.max_bytes.unwrap_or(0), scope.next as u64, 0, 0]
}

pub fn token_numbers(token: Token) -> [u64; 10] {
    let parts = [
        &list(token.caveats)[..],
        &span(token.scope),
        &span(token.tag)[..1],
        &span(token.kid),
        &span(token.tid),
    ];
    filled(&parts.concat())
}

/// The numbers of a caveat that is read at the front of its bytes.
pub fn caveat_numbers(caveat: Caveat) -> [u64; 10] {
    let (kind, said) = demand_numbers(caveat.demand);
    let mut numbers = filled(&[&[kind], &said[..]].concat());
    numbers[9] = caveat.next as u64;
    numbers
}

pub fn request_numbers(request: &Request) -> [u64; 20] {
    let Rate { per_s, burst } = request.rate.unwrap_or(Rate { per_s: 0, burst: 0 });
    let parts = [
        &[request.now, request.body_size, request.skew, u64::from(request.amnesia)],
        &stated(request.peer)[..2],
        &stated(request.digest)[..2],
        &[u64::from(request.rate.is_some()), u64::from(per_s), u64::from(burst)],
        &span(request.method),
        &span(request.path),
        &span(request.tenant),
        &stated(request.audience),
    ];
    let mut numbers = [0; 20];
    numbers.copy_from_slice(&parts.concat());
    numbers
}

/// Whether a part is there, and where it begins and ends.
fn stated(part: Option<Span>) -> [u64; 3] {
    let [from, to] = span(part.unwrap_or((0, 0)));
    [u64::from(part.is_some()), from, to]
}

fn demand_numbers(demand: Demand) -> (u64, Vec<u64>) {
    match demand {
        Demand::Exp(number) => (0, vec![number]),
        Demand::Nbf(number) => (1, vec![number]),
        Demand::Aud(text) => (2, span(text).to_vec()),
        Demand::Method(methods) => (3, list(methods).to_vec()),
        Demand::PathPrefix(text) => (4, span(text).to_vec()),
        Demand::IpCidr(prefix) => (5, vec![u64::from(prefix.address), u64::from(prefix.size)]),
        Demand::BytesLe(number) => (6, vec![number]),
        Demand::Rate { per_s, burst } => (7, vec![per_s, burst]),
        Demand::Tenant(text) => (8, span(text).to_vec()),
        Demand::Amnesia(truth) => (9, vec![u64::from(truth)]),
        Demand::GovPolicyDigest(text) => (10, span(text).to_vec()),
        Demand::Custom { ns, value, name } => (11, [ns, value, name].map(span).concat()),
    }
}

fn span((from, to): Span) -> [u64; 2] {
    [from as u64, to as u64]
}

fn list(list: List) -> [u64; 3] {
    [list.count, list.from as u64, list.to as u64]
}

fn filled(said: &[u64]) -> [u64; 10] {
    let mut numbers = [0; 10];
    numbers[..said.len()].copy_from_slice(said);
    numbers
}
