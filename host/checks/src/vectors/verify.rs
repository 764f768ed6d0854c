//! The file verify.json.

use serde_json::Value;

use super::json::{answered, file as file_of, hexed, object, text};
use super::parts::Verify;
use super::{verify_inputs, verify_maps, verify_order, verify_rules, verify_values};

pub fn file() -> String {
    let groups = [
        verify_inputs::cases(),
        verify_maps::cases(),
        verify_values::cases(),
        verify_rules::cases(),
        verify_order::cases(),
    ];
    let about = "Calls of verify: a key table's records, a request body and a token's text, and the answer.";
    file_of(about, groups.iter().flatten().map(laid).collect())
}

fn laid(case: &Verify) -> Value {
    let mut fields = vec![
        ("name", case.name.into()),
        ("comment", case.comment.into()),
        ("table", hexed(&case.lent.table)),
        ("request", hexed(&case.lent.request)),
        ("token", text(&case.lent.text)),
    ];
    fields.extend(answered(case.answer, "allow"));
    object(fields)
}
