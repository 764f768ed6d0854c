//! Bundles: what the proved program prints beside what the second program says, byte for byte.

use checks::bundles::{self, Bundle, LONGEST, REQUEST, TABLE, TOKEN};
use checks::cases::fitting;
use checks::judges::{By, Judge, BAD};
use checks::{edits, samples, tables, Seeded};
use second::records;

/// How many tokens each test from a seed judges at least.
const TRIPLES: usize = 9000;
const MIXED: usize = 9000;
const DAMAGED: usize = 6000;

/// All of these together.
const _: () = assert!(TRIPLES + MIXED + DAMAGED >= 24_000);

/// Every answer of verify but allow, by its name.
const DENIALS: [&str; 21] = [
    "table.bad", "ctx.bad", "parse.b64", "parse.cbor", "parse.bounds", "schema.unknown_field", "kid.unknown",
    "mac.mismatch", "tenant.mismatch", "caveat.method", "caveat.path", "caveat.bytes", "caveat.exp",
    "caveat.nbf", "caveat.aud", "caveat.ip", "caveat.rate", "caveat.tenant", "caveat.amnesia",
    "caveat.policy_digest", "caveat.custom.unknown",
];

/// A bundle of one allowed token, whose table and request stay for what comes behind.
fn allowed() -> Bundle {
    let triple = samples::of_caveats(3).laid();
    Bundle { records: vec![(TABLE, triple.table), (REQUEST, triple.request), (TOKEN, triple.text)] }
}

#[test]
fn document_01s_bundle() {
    let mut judge = Judge::new("example");
    judge.expect(b"\x00\x00\x30\x00\x00\x00\x10\x00\x05", "deny ctx.bad\nbundle.bad\n");
    judge.expect(b"", "");
    judge.expect(&allowed().laid(), "allow\n");
}

#[test]
fn triples_one_behind_the_other_get_the_lines_that_they_are_made_for() {
    let mut seeded = Seeded(200);
    let mut judge = Judge::new("triples");
    while judge.tokens() < TRIPLES {
        let count = 1 + seeded.below(60);
        let (bundle, lines) = bundles::triples(count, &mut seeded);
        judge.expect(&bundle.laid(), &lines);
    }
    judge.met(200, TRIPLES);
    assert!(judge.of("allow") >= 800, "{} tokens allowed", judge.of("allow"));
    for name in DENIALS {
        let count = judge.of(&format!("deny {name}"));
        assert!(count >= 20, "{name} is the reason {count} times");
    }
}

#[test]
fn tables_and_requests_in_any_order_count_until_the_next_one() {
    let mut seeded = Seeded(201);
    let mut judge = Judge::new("mixed");
    while judge.tokens() < MIXED {
        let count = 1 + seeded.below(120);
        judge.judge(&bundles::mixed(count, &mut seeded).laid());
    }
    judge.met(150, MIXED);
    for line in ["allow", "deny table.bad", "deny ctx.bad", "deny kid.unknown", "deny mac.mismatch"] {
        assert!(judge.of(line) >= 100, "{line} {} times", judge.of(line));
    }
}

#[test]
fn records_that_are_cut_of_another_kind_or_tell_another_length() {
    let mut seeded = Seeded(202);
    let mut judge = Judge::new("damaged");
    while judge.tokens() < DAMAGED {
        let bundle = bundles::mixed(4 + seeded.below(12), &mut seeded);
        bundles::cut(&bundle, &mut seeded, |bytes| judge.judge(bytes));
        bundles::other_kinds(&bundle, &mut seeded, |bytes| judge.judge(bytes));
        bundles::lengths(&bundle, &mut seeded, |bytes| judge.judge(bytes));
        for _ in 0..20 {
            judge.judge(&edits::spoiled(&bundle.laid(), &mut seeded));
        }
    }
    judge.met(1000, DAMAGED);
    assert!(judge.of(BAD) >= 800, "{} bundles that end too early", judge.of(BAD));
}

#[test]
fn a_bundle_cut_at_every_byte() {
    let mut seeded = Seeded(203);
    let mut judge = Judge::new("cut");
    let laid = allowed().laid();
    let whole = [&laid[..], &records::write(TOKEN, b""), &records::write(TABLE, b"\x05")].concat();
    for cut in edits::cuts(&whole) {
        judge.judge(cut);
    }
    // Behind a whole bundle, one to three bytes are no record, whatever they are.
    for more in 1..=3 {
        let behind = seeded.bytes(more);
        judge.expect(&[&laid[..], &behind].concat(), "allow\nbundle.bad\n");
        judge.expect(&[&laid[..], &vec![0; more]].concat(), "allow\nbundle.bad\n");
    }
    judge.met(whole.len(), 2);
}

#[test]
fn each_other_kind_ends_a_bundle() {
    let mut judge = Judge::new("kinds");
    let laid = allowed().laid();
    for kind in bundles::OTHER_KINDS {
        // With bodies that would be a table, a request and a token.
        for (_, body) in allowed().records.iter().chain([&(0, vec![])]) {
            let other = records::write(kind, body);
            judge.expect(&[&laid[..], &other, &laid].concat(), "allow\nbundle.bad\n");
        }
    }
    judge.met(4 * bundles::OTHER_KINDS.len(), 100);
}

#[test]
fn bundles_about_the_longest() {
    let mut seeded = Seeded(204);
    let mut judge = Judge::new("longest");
    let front = allowed();
    for length in [LONGEST - 5, LONGEST - 4, LONGEST - 1, LONGEST] {
        for _ in 0..6 {
            judge.judge(&bundles::filled(&front, length, &mut seeded));
            let mixed = bundles::mixed(1000, &mut seeded);
            judge.judge(&bundles::filled(&mixed, length, &mut seeded));
        }
    }
    for length in [LONGEST + 1, LONGEST + 2, LONGEST + 4, 70_000, 131_072, 131_073, 200_000, 1 << 20] {
        for _ in 0..3 {
            judge.expect(&bundles::filled(&front, length, &mut seeded), "bundle.bad\n");
        }
        judge.expect(&vec![0; length], "bundle.bad\n");
    }
    // A good bundle, over and over, past the end and up to it.
    let again = front.laid().repeat(LONGEST / front.length() + 1);
    judge.expect(&again, "bundle.bad\n");
    judge.expect(&again[..again.len() - front.length()], &"allow\n".repeat(LONGEST / front.length()));
    judge.met(80, 1000);
}

#[test]
fn as_many_lines_and_as_long_ones_as_a_bundle_gives() {
    let mut judge = Judge::new("lines");
    judge.expect(&b"\0\0\x30\0".repeat(16_384), &"deny ctx.bad\n".repeat(16_384));
    judge.expect(&b"\0\0\x30\0".repeat(16_385), "bundle.bad\n");
    let state = Bundle { records: allowed().records[..2].to_vec() };
    let left = LONGEST - state.length();
    // a7, a map of seven, is the shortest token with the longest name.
    let tokens = [(&b"\0\0\x30\0"[..], "deny parse.cbor\n"), (b"\x02\0\x30\0pw", "deny schema.unknown_field\n")];
    for (record, line) in tokens {
        let count = left / record.len();
        judge.expect(&[state.laid(), record.repeat(count)].concat(), &line.repeat(count));
    }
    judge.met(4, 30_000);
}

#[test]
fn a_bundle_comes_by_a_file_or_in_pieces() {
    let mut seeded = Seeded(205);
    let mut judge = Judge::new("pieces");
    for turn in 0..30 {
        let bundle = bundles::mixed([5, 100][turn % 2], &mut seeded).laid();
        judge.judge_by(By::File, &bundle);
        judge.judge_by(By::Pieces(bundle.len() / 20 + 1), &bundle);
    }
    let front = allowed();
    for length in [LONGEST, LONGEST + 1, 100_000] {
        let bundle = bundles::filled(&front, length, &mut seeded);
        judge.judge_by(By::File, &bundle);
        judge.judge_by(By::Pieces(4095), &bundle);
        judge.judge_by(By::Pieces(LONGEST), &bundle);
    }
    for bundle in [&b"\0\0\x30\0\0\0\x10\0\x05"[..], b"", b"\0"] {
        judge.judge_by(By::File, bundle);
        judge.judge_by(By::Pieces(1), bundle);
    }
    judge.met(60, 500);
}

#[test]
fn the_longest_token_and_a_full_table_have_their_place() {
    let mut seeded = Seeded(206);
    let mut judge = Judge::new("large");
    let triple = samples::longest().laid();
    let state = [records::write(TABLE, &triple.table), records::write(REQUEST, &triple.request)].concat();
    let token = records::write(TOKEN, &triple.text);
    let longer = records::write(TOKEN, &[&triple.text[..], b"A"].concat());
    let bundle = [&state[..], &token, &longer, &token].concat();
    judge.expect(&bundle, "allow\ndeny parse.bounds\nallow\n");
    let mut case = fitting(0, &mut seeded);
    case.rows = tables::rows(64, &mut seeded);
    for row in case.rows.clone() {
        case.request.tenant = row.tid.clone();
        case.row = row;
        let triple = case.laid();
        let records = vec![(TABLE, triple.table), (REQUEST, triple.request), (TOKEN, triple.text)];
        judge.expect(&Bundle { records }.laid(), "allow\n");
    }
    judge.met(65, 67);
}
