//! The answers' names, and what each says in plain words.

/// Number, name and meaning.
pub const ANSWERS: [(u32, &str, &str); 29] = [
    (0, "allow", "the token is good and everything in it holds"),
    (1, "table.bad", "the key table is malformed"),
    (2, "ctx.bad", "the request is malformed"),
    (3, "parse.b64", "the token's text is not Base64URL without padding"),
    (4, "parse.cbor", "the token is malformed"),
    (5, "parse.bounds", "something in the token is too long, too short, too large or too many"),
    (6, "schema.unknown_field", "the token has a key, a kind of caveat or a version that is not known"),
    (7, "kid.unknown", "the table has no key under this tid and kid"),
    (8, "mac.mismatch", "the tag is not that of this token under the table's key"),
    (9, "tenant.mismatch", "the request is another tenant's"),
    (10, "caveat.method", "the method is not among those of scope or caveat"),
    (11, "caveat.path", "the prefix of scope or caveat does not fit the path"),
    (12, "caveat.bytes", "the body is larger than scope or caveat allows"),
    (13, "caveat.exp", "the token has expired"),
    (14, "caveat.nbf", "the token is not valid yet"),
    (15, "caveat.aud", "the request states no audience, or another one"),
    (16, "caveat.ip", "the request states no peer, or one outside the network"),
    (17, "caveat.rate", "the request states no rate, or one above the caveat's"),
    (18, "caveat.tenant", "the caveat names another tenant"),
    (19, "caveat.amnesia", "the host is not in amnesia mode"),
    (20, "caveat.policy_digest", "the request states no policy digest, or another one"),
    (21, "caveat.custom.unknown", "a custom caveat never holds"),
    (31, "cav.cbor", "the caveat is malformed"),
    (32, "cav.bounds", "something in the caveat is too long, too short or too large"),
    (33, "cav.unknown", "the caveat has an unknown key or kind"),
    (34, "cav.full", "the token has 64 caveats already"),
    (35, "size.full", "with the caveat the token would have over 4,096 bytes"),
    (36, "out.short", "the room is shorter than the text"),
    (37, "hash.bad", "the message is over 8,192 bytes, or the key is not 32 bytes"),
];

pub fn name(answer: u32) -> &'static str {
    ANSWERS.iter().find(|(number, ..)| *number == answer).map_or("?", |(_, name, _)| name)
}

pub fn meaning(answer: u32) -> &'static str {
    ANSWERS.iter().find(|(number, ..)| *number == answer).map_or("?", |(.., meaning)| meaning)
}

/// What is printed for a token that was judged so.
pub fn line(answer: u32) -> String {
    let denied = if answer == 0 { "" } else { "deny " };
    format!("{denied}{}", name(answer))
}

#[cfg(test)]
mod tests {
    use super::*;

    #[test]
    fn the_names_are_those_of_the_second_program() {
        for number in 0..1000 {
            assert_eq!(name(number), second::names::name(number).unwrap_or("?"), "{number}");
        }
    }
}
