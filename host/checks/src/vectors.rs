//! The vectors in vectors/: calls of verify, issue, narrow and the keyed hash, each with the answer that
//! document 01 gives to it, and chains link by link. The answers stand in the modules below as a person wrote
//! them; no program is asked for one, so that what both programs have wrong shows too.

mod chain;
mod hash;
mod issue;
mod json;
mod narrow;
mod parts;
mod verify;
mod verify_inputs;
mod verify_maps;
mod verify_order;
mod verify_rules;
mod verify_values;

/// The files of vectors/ by name, with all that they hold.
pub fn files() -> Vec<(&'static str, String)> {
    vec![
        ("verify.json", verify::file()),
        ("issue.json", issue::file()),
        ("narrow.json", narrow::file()),
        ("hash.json", hash::file()),
        ("chain.json", chain::file()),
    ]
}
