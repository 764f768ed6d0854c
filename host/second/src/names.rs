//! Document 01's names, one for each number that it gives out.

/// The name of a number; nothing where document 01 has none for it. Of 0, which means that a token allows
/// or that something is done, it is the first.
pub fn name(number: u32) -> Option<&'static str> {
    let name = match number {
        0 => "allow",
        1 => "table.bad",
        2 => "ctx.bad",
        3 => "parse.b64",
        4 => "parse.cbor",
        5 => "parse.bounds",
        6 => "schema.unknown_field",
        7 => "kid.unknown",
        8 => "mac.mismatch",
        9 => "tenant.mismatch",
        10 => "caveat.method",
        11 => "caveat.path",
        12 => "caveat.bytes",
        13 => "caveat.exp",
        14 => "caveat.nbf",
        15 => "caveat.aud",
        16 => "caveat.ip",
        17 => "caveat.rate",
        18 => "caveat.tenant",
        19 => "caveat.amnesia",
        20 => "caveat.policy_digest",
        21 => "caveat.custom.unknown",
        31..=37 => return Some(of_the_writers(number)),
        _ => return None,
    };
    Some(name)
}

/// Those that narrow, issue and the hash alone answer with, 31 to 37.
fn of_the_writers(number: u32) -> &'static str {
    match number {
        31 => "cav.cbor",
        32 => "cav.bounds",
        33 => "cav.unknown",
        34 => "cav.full",
        35 => "size.full",
        36 => "out.short",
        _ => "hash.bad",
    }
}

#[cfg(test)]
mod tests {
    use super::*;

    #[test]
    fn as_many_as_document_01_has_and_no_two_alike() {
        let named: Vec<&str> = (0..1000).filter_map(name).collect();
        let different: std::collections::BTreeSet<_> = named.iter().collect();
        assert_eq!((named.len(), different.len()), (29, 29));
        assert!((22..31).all(|number| name(number).is_none()));
        assert_eq!((name(38), name(u32::MAX)), (None, None));
    }
}
