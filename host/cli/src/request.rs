//! The words of a request, which three verbs share, and the body that they make. What is made may be bad: the
//! library says so.

use std::net::Ipv4Addr;

use clap::Args;

use crate::problem::{wrong, Done};
use crate::times;
use crate::values::{self, Rate};

/// The ids of these words, which --request stands in the place of.
pub const WORDS: [&str; 11] = [
    "method", "path", "tenant", "now", "body_size", "skew", "amnesia", "peer", "digest", "rate", "aud",
];

#[derive(Args, Clone, Debug, Default)]
pub struct RequestWords {
    /// What is asked for (needed)
    #[arg(long, value_name = "METHOD", help_heading = "Request")]
    pub method: Option<String>,

    /// Of what (needed): without %, // and the segments . and .., which proxies rewrite
    #[arg(long, value_name = "PATH", help_heading = "Request")]
    pub path: Option<String>,

    /// Who asks (needed)
    #[arg(long, value_name = "TID", help_heading = "Request")]
    pub tenant: Option<String>,

    /// When; this moment if it is not said
    #[arg(long, value_name = "TIME", value_parser = values::time, help_heading = "Request")]
    pub now: Option<u64>,

    /// How many bytes the body has; 0 if it is not said
    #[arg(long, value_name = "N", value_parser = values::number, help_heading = "Request")]
    pub body_size: Option<u64>,

    /// How far clocks may be off, up to 300; 0 if it is not said
    #[arg(long, value_name = "SECONDS", value_parser = values::skew, help_heading = "Request")]
    pub skew: Option<u16>,

    /// Whether the host is in amnesia mode; false if it is not said
    #[arg(long, value_name = "true|false", value_parser = values::truth, help_heading = "Request")]
    pub amnesia: Option<bool>,

    /// The address that asks
    #[arg(long, value_name = "10.1.2.3", value_parser = values::peer, help_heading = "Request")]
    pub peer: Option<Ipv4Addr>,

    /// The host's policy digest, 64 hex digits
    #[arg(long, value_name = "DIGEST", value_parser = values::digest, help_heading = "Request")]
    pub digest: Option<String>,

    /// The rate that the host keeps to
    #[arg(long, value_name = "PER_S,BURST", help_heading = "Request")]
    pub rate: Option<Rate>,

    /// The audience that the host is
    #[arg(long, value_name = "TEXT", help_heading = "Request")]
    pub aud: Option<String>,
}

impl RequestWords {
    pub fn plain(tenant: &str) -> RequestWords {
        let some = |text: &str| Some(text.to_owned());
        RequestWords { method: some("A"), path: some("/"), tenant: some(tenant), ..RequestWords::default() }
    }
}

/// A request body; without --now it is of this moment.
pub fn made(words: &RequestWords) -> Done<Vec<u8>> {
    let needed = [("method", &words.method), ("path", &words.path), ("tenant", &words.tenant)];
    for (option, value) in needed {
        if value.is_none() {
            return wrong(format!("--{option} is missing: a request has --method, --path and --tenant"));
        }
    }
    for (option, value) in needed.into_iter().chain([("aud", &words.aud)]) {
        let length = value.as_ref().map_or(0, String::len);
        if length > usize::from(u16::MAX) {
            return wrong(format!("--{option}: a request has two bytes for its length, and it has {length}"));
        }
    }
    let now = words.now.map_or_else(|| times::this_moment().or_else(wrong), Ok)?;
    Ok(body(words, now))
}

/// Of words that are there, and whose lengths can be said.
pub fn body(words: &RequestWords, now: u64) -> Vec<u8> {
    let RequestWords { peer, digest, rate, aud, .. } = words;
    let amnesia = words.amnesia.unwrap_or(false);
    let stated = [amnesia, peer.is_some(), aud.is_some(), digest.is_some(), rate.is_some()];
    let flags = (0..).zip(stated).map(|(bit, stated)| u8::from(stated) << bit).sum();
    let (size, skew) = (words.body_size.unwrap_or(0), words.skew.unwrap_or(0));
    let mut body = [&now.to_le_bytes()[..], &size.to_le_bytes(), &skew.to_le_bytes(), &[flags]].concat();
    // Not in the order of their bits.
    body.extend(peer.iter().flat_map(|peer| peer.octets()));
    body.extend(digest.iter().flat_map(|digest| digest.bytes()));
    body.extend(rate.iter().flat_map(|rate| [rate.per_s.to_le_bytes(), rate.burst.to_le_bytes()].concat()));
    for text in [&words.method, &words.path, &words.tenant, aud].into_iter().flatten() {
        body.extend((text.len() as u16).to_le_bytes());
        body.extend(text.bytes());
    }
    body
}

/// The least request of a tenant, to ask the library about tokens with.
pub fn plain(tenant: &str) -> Vec<u8> {
    body(&RequestWords::plain(tenant), 0)
}
