//! The chain of MACs that a token's tag ends: one link over the ids and the scope, then one over each
//! caveat and the link before it, all under one key. The ids stand bare in the first message, as
//! document 01 writes it, with neither lengths nor anything else between them.

const INIT: &[u8; 16] = b"ron-auth/v1\0init";
const CAVEAT: &[u8; 18] = b"ron-auth/v1\0caveat";

pub type Key = [u8; 32];
pub type Link = [u8; 32];

/// What makes a link out of a key and a message.
pub trait Mac: Fn(&Key, &[u8]) -> Link {}
impl<M: Fn(&Key, &[u8]) -> Link> Mac for M {}

/// BLAKE3 in keyed mode, by the official crate.
pub fn official(key: &Key, message: &[u8]) -> Link {
    *blake3::keyed_hash(key, message).as_bytes()
}

/// A chain up to some link. Every message is laid into the same bytes, so that a chain of any length
/// takes one piece of memory.
pub struct Chain<'k, M> {
    mac: M,
    key: &'k Key,
    message: Vec<u8>,
    link: Link,
}

impl<'k, M: Mac> Chain<'k, M> {
    /// The first link.
    pub fn new(mac: M, key: &'k Key, tid: &[u8], kid: &[u8], scope: &[u8]) -> Self {
        let mut chain = Chain { mac, key, message: Vec::with_capacity(512), link: [0; 32] };
        chain.on(&[INIT, tid, kid, scope]);
        chain
    }

    /// One link more.
    pub fn narrow(&mut self, caveat: &[u8]) {
        let last = self.link;
        self.on(&[CAVEAT, &last, caveat]);
    }

    /// The last link, which is the tag of a token that ends here.
    pub fn link(&self) -> &Link {
        &self.link
    }

    fn on(&mut self, parts: &[&[u8]]) {
        self.message.clear();
        for part in parts {
            self.message.extend_from_slice(part);
        }
        self.link = (self.mac)(self.key, &self.message);
    }
}

/// The tag of a token with these caveats, each as it lies in the token.
pub fn tag(key: &Key, tid: &[u8], kid: &[u8], scope: &[u8], caveats: &[&[u8]]) -> Link {
    let mut chain = Chain::new(official, key, tid, kid, scope);
    caveats.iter().for_each(|caveat| chain.narrow(caveat));
    *chain.link()
}

/// Whether two links are the same. All bytes are looked at, so that the time tells nothing of how
/// much of a guessed tag is right.
pub fn same(x: &Link, y: &[u8]) -> bool {
    x.len() == y.len() && x.iter().zip(y).fold(0, |apart, (x, y)| apart | (x ^ y)) == 0
}

#[cfg(test)]
mod tests {
    use super::*;

    const KEY: &Key = b"whats the Elvish word for friend";
    const SCOPE: &[u8] = b"\xa1\x67methods\x81\x63GET";
    const EXP: &[u8] = b"\xa2\x61t\x63exp\x61v\x1a\x69\x55\xb9\0";
    const AMNESIA: &[u8] = b"\xa2\x61t\x67amnesia\x61v\xf4";

    fn hex(link: &Link) -> String {
        link.iter().map(|byte| format!("{byte:02x}")).collect()
    }

    #[test]
    fn the_links_that_b3sum_says() {
        let mut chain = Chain::new(official, KEY, b"tenant-1", b"kid-2025-10", SCOPE);
        assert_eq!(hex(chain.link()), "d4b900bc767e4ce68364521ac574b5310acf3b810b5f150f2230499fea93bd87");
        chain.narrow(EXP);
        assert_eq!(hex(chain.link()), "c5d2b24ae94df8f943c9a040d97c50d389c943181d5e30002ef11aac287f1d78");
        chain.narrow(AMNESIA);
        assert_eq!(hex(chain.link()), "d14dfab7355e292d9fe47ade53178487cd3542f330802e66f9ba05ab8aad33fc");
        assert_eq!(tag(KEY, b"tenant-1", b"kid-2025-10", SCOPE, &[EXP, AMNESIA]), *chain.link());
    }

    #[test]
    fn domain_strings_have_the_lengths_that_document_01_says() {
        let seen = std::cell::RefCell::new(Vec::new());
        let mac = |_: &Key, message: &[u8]| {
            seen.borrow_mut().push(message.to_vec());
            [9; 32]
        };
        Chain::new(mac, KEY, b"t", b"k", b"\xa0").narrow(b"c");
        let wanted = [b"ron-auth/v1\0inittk\xa0".to_vec(), [&b"ron-auth/v1\0caveat"[..], &[9; 32], b"c"].concat()];
        assert_eq!(seen.into_inner(), wanted);
        assert_eq!((INIT.len(), CAVEAT.len()), (16, 18));
    }

    #[test]
    fn order_number_and_key_count_and_the_cut_between_the_ids_does_not() {
        let tag = |key: &Key, caveats: &[&[u8]]| tag(key, b"a", b"bc", SCOPE, caveats);
        let both = tag(KEY, &[EXP, AMNESIA]);
        assert_ne!(both, tag(KEY, &[AMNESIA, EXP]));
        assert_ne!(both, tag(KEY, &[EXP]));
        assert_ne!(both, tag(KEY, &[EXP, AMNESIA, AMNESIA]));
        assert_ne!(both, tag(&[7; 32], &[EXP, AMNESIA]));
        assert_eq!(both, super::tag(KEY, b"ab", b"c", SCOPE, &[EXP, AMNESIA]));
    }

    #[test]
    fn links_are_compared_in_every_byte() {
        let link = official(KEY, b"");
        assert!(same(&link, &link));
        for at in 0..32 {
            let mut other = link;
            other[at] ^= 1;
            assert!(!same(&link, &other), "{at}");
        }
        assert!(!same(&link, &link[..31]) && !same(&link, b""));
    }
}
