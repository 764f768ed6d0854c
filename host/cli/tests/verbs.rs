//! The tool as it is called: each verb, and round trips through files. What it makes is held to the second
//! program byte for byte; what it refuses stands in refusals.rs.

mod common;

use std::fs;
use std::os::unix::fs::PermissionsExt;

use common::{Folder, DIGEST, ONES, TWOS};
use second::request::{Fields, Rate};
use second::table::{self, Row};

fn rows() -> Vec<u8> {
    let row = |tid, kid, key| Row { tid, kid, key };
    table::write(&[row(&b"contractor"[..], &b"k1"[..], &[1; 32]), row(b"workshop", b"k2", &[2; 32])])
}

/// What the second program issues and narrows, with a newline behind it.
fn made(scope: &[u8], caveats: &[&[u8]]) -> Vec<u8> {
    let mut room = vec![0; 5462];
    let written = second::issue(&rows(), b"workshop", b"k2", scope, &mut room);
    assert_eq!(written.answer, 0);
    let mut text = room[..written.length as usize].to_vec();
    for caveat in caveats {
        let written = second::narrow(&rows(), &text, caveat, &mut room);
        assert_eq!(written.answer, 0);
        text = room[..written.length as usize].to_vec();
    }
    text.push(b'\n');
    text
}

fn hex(bytes: &[u8]) -> String {
    bytes.iter().map(|byte| format!("{byte:02x}")).collect()
}

#[test]
fn a_table_is_sorted_and_shown_without_its_keys() {
    let folder = Folder::with_keys("table");
    assert_eq!(folder.read("keys"), rows());
    assert_eq!(folder.good("show --table keys"), "contractor/k1\nworkshop/k2\n");
    let shown = format!("contractor/k1 {ONES}\nworkshop/k2 {TWOS}\n");
    assert_eq!(folder.good("show --table keys --keys"), shown);
    let mode = fs::metadata(folder.0.join("keys")).unwrap().permissions().mode();
    assert_eq!(mode & 0o777, 0o600);
}

#[test]
fn fresh_keys_differ_and_other_rows_stay() {
    let folder = Folder::with_keys("fresh");
    folder.good("table --from keys --new zoo/k --new a/k --out more");
    assert_eq!(folder.good("show --table more"), "a/k\ncontractor/k1\nworkshop/k2\nzoo/k\n");
    let shown = folder.good("show --table more --keys");
    let keys: Vec<&str> = shown.lines().map(|line| line.split_once(' ').unwrap().1).collect();
    assert_eq!((keys[1], keys[2]), (ONES, TWOS));
    assert!(keys[0] != keys[3] && keys.iter().all(|key| key.len() == 64));
}

#[test]
fn a_request_byte_by_byte_and_in_words() {
    let folder = Folder::new("request");
    let line = format!(
        "request --now 2026-01-01T00:00:00Z --body-size 16 --skew 300 --amnesia true --peer 10.1.2.3 --digest {DIGEST} \
         --rate 5,10 --method GET --path /relay/1 --tenant workshop --aud relay-1 --out asked"
    );
    folder.good(&line);
    let fields = Fields {
        now: 1_767_225_600,
        body_size: 16,
        skew: 300,
        amnesia: true,
        peer: Some([10, 1, 2, 3]),
        digest: Some(DIGEST.as_bytes()),
        rate: Some(Rate { per_s: 5, burst: 10 }),
        method: b"GET",
        path: b"/relay/1",
        tenant: b"workshop",
        audience: Some(b"relay-1"),
    };
    assert_eq!(folder.read("asked"), second::request::write(&fields));
    let shown = format!(
        "now 1767225600 (2026-01-01T00:00:00Z)\nbody_size 16\nskew 300\namnesia true\npeer 10.1.2.3\ndigest {DIGEST}\n\
         rate 5,10\nmethod GET\npath /relay/1\ntenant workshop\naud relay-1\n"
    );
    assert_eq!(folder.good("show --request asked"), shown);
}

#[test]
fn a_request_of_nothing_but_what_it_needs() {
    let folder = Folder::new("bare");
    folder.good("request --now 7 --method A --path / --tenant t --out short");
    let bare = Fields {
        now: 7,
        body_size: 0,
        skew: 0,
        amnesia: false,
        peer: None,
        digest: None,
        rate: None,
        method: b"A",
        path: b"/",
        tenant: b"t",
        audience: None,
    };
    assert_eq!(folder.read("short"), second::request::write(&bare));
}

#[test]
fn scopes_and_caveats_in_hex_and_in_words() {
    let folder = Folder::new("scope");
    assert_eq!(folder.good("scope --methods GET"), "a1676d6574686f64738163474554\n");
    let scope = folder.good("scope --max-bytes 512 --methods GET,PUT --prefix /relay/1 --out hex; cat hex");
    let said = "prefix /relay/1\nmethods GET,PUT\nmax_bytes 512\n";
    assert_eq!(folder.good(&format!("show --scope {}", scope.to_uppercase())), said);
    assert_eq!(folder.good("show --scope @hex"), said);
    assert_eq!(folder.fed("bhinorpa show --scope -", scope.as_bytes()).1, said);
    assert_eq!(folder.good("show --scope=a1676d6574686f647380"), "methods (none)\n");
    let exp = b"\xa2\x61t\x63exp\x61v\x1a\x69\x55\xb9\x00";
    assert_eq!(folder.good("caveat --exp 2026-01-01T00:00:00Z"), hex(exp) + "\n");
    let shown = "exp 1767225600 (2026-01-01T00:00:00Z)\n";
    assert_eq!(folder.good(&format!("show --caveat {}", hex(exp))), shown);
    let json = format!("show --json --caveat {} | tr -d ' \\n'", hex(exp));
    assert_eq!(folder.good(&json), r#"{"t":"exp","v":1767225600,"date":"2026-01-01T00:00:00Z"}"#);
}

/// Each kind of caveat, what a request says that it holds for, and what it does not hold for.
const CAVEATS: [(&str, &str, &str, &str); 11] = [
    ("--exp 2026-01-01T00:00:00Z", "--now 1767225600", "--now 1767225601", "caveat.exp"),
    ("--nbf 2026-01-01T00:00:00Z", "--now 1767225600", "--now 1767225599", "caveat.nbf"),
    ("--aud relay-1", "--aud relay-1", "--aud relay-2", "caveat.aud"),
    ("--method PUT,GET", "--now 0", "--now 0 --method DELETE", "caveat.method"),
    ("--path-prefix /relay/1/count", "--now 0", "--now 0 --path /relay/1/counts", "caveat.path"),
    ("--ip-cidr 10.0.0.0/8", "--peer 10.255.255.255", "--peer 11.0.0.0", "caveat.ip"),
    ("--bytes-le 4294967296", "--body-size 4294967296", "--body-size 4294967297", "caveat.bytes"),
    ("--rate 5,10", "--rate 5,10", "--rate 5,11", "caveat.rate"),
    ("--tenant workshop", "--now 0", "", "caveat.tenant"),
    ("--amnesia true", "--amnesia true", "--amnesia false", "caveat.amnesia"),
    ("--gov-policy-digest DIGEST", "--digest DIGEST", "--now 0", "caveat.policy_digest"),
];

/// The words of a request that has these, and a method and a path where they are not among them.
fn asking(words: &str) -> String {
    let mut line = format!("{} --tenant workshop", words.replace("DIGEST", DIGEST));
    for (name, value) in [("--method ", "GET"), ("--path ", "/relay/1/count"), ("--now ", "0")] {
        if !line.contains(name) {
            line += &format!(" {name}{value}");
        }
    }
    line
}

#[test]
fn each_caveat_narrows_and_holds_or_does_not() {
    let folder = Folder::with_keys("caveats");
    folder.good("issue --table keys --tid workshop --kid k2 --methods GET,PUT,DELETE --prefix /relay/1 --out token");
    for (caveat, holds, fails, name) in CAVEATS {
        let caveat = caveat.replace("DIGEST", DIGEST);
        folder.good(&format!("narrow --table keys --token token {caveat} --out child"));
        assert_eq!(folder.good(&format!("verify --table keys --token child {}", asking(holds))), "allow\n", "{caveat}");
        if !fails.is_empty() {
            folder.denied(&format!("verify --table keys --token child {}", asking(fails)), name);
        }
        let (status, ..) = folder.call(&format!("verify --table keys --token token {}", asking(holds)));
        assert_eq!(status, 0, "the parent with {holds}");
    }
    folder.good("narrow --table keys --token token --tenant other --out child");
    folder.denied(&format!("verify --table keys --token child {}", asking("")), "caveat.tenant");
    folder.good("narrow --table keys --token token --custom shop/shift=83010203 --out child");
    folder.denied(&format!("verify --table keys --token child {}", asking("")), "caveat.custom.unknown");
    let shown = folder.good("show --token child");
    assert!(shown.contains("caveat 1 custom shop/shift=[1, 2, 3]\n"), "{shown}");
}

#[test]
fn issue_narrow_and_verify_round() {
    let folder = Folder::with_keys("round");
    let scope = b"\xa2\x66prefix\x68/relay/1\x67methods\x82\x63GET\x63PUT";
    let exp = b"\xa2\x61t\x63exp\x61v\x1a\x69\x55\xb9\x00";
    let get = b"\xa2\x61t\x66method\x61v\x81\x63GET";
    let words = "--table keys --tid workshop --kid k2 --methods GET,PUT --prefix /relay/1";
    folder.good(&format!("issue {words} --out token"));
    assert_eq!(folder.read("token"), made(scope, &[]));
    folder.good("narrow --table keys --token token --exp 2026-01-01T00:00:00Z --method GET --out child");
    assert_eq!(folder.read("child"), made(scope, &[exp, get]));
    // The same at once, from hex, and in the other order.
    assert_eq!(folder.good(&format!("issue {words} --exp 1767225600 --method GET")).into_bytes(), folder.read("child"));
    let from_hex = format!("--table keys --tid workshop --kid k2 --scope {} --caveat {}", hex(scope), hex(exp));
    assert_eq!(folder.good(&format!("issue {from_hex}")).into_bytes(), made(scope, &[exp]));
    let turned = folder.good(&format!("issue {words} --method GET --exp 1767225600")).into_bytes();
    assert_eq!(turned, made(scope, &[get, exp]));
    let asked = "--method GET --path /relay/1/count --tenant workshop --now 2025-12-31T00:00:00Z";
    folder.good(&format!("request {asked} --out asked"));
    assert_eq!(folder.good("verify --table keys --token child --request asked"), "allow\n");
    let verify = format!("verify --table keys --token child {asked}");
    assert_eq!(folder.good(&verify), "allow\n");
    folder.denied(&verify.replace("GET", "PUT"), "caveat.method");
    folder.denied(&verify.replace("2025-12-31", "2026-01-02"), "caveat.exp");
    folder.denied(&verify.replace("--tenant workshop", "--tenant contractor"), "tenant.mismatch");
    folder.denied(&verify.replace("--method GET", "--method get"), "ctx.bad");
}

#[test]
fn sixty_four_caveats_and_not_one_more() {
    let folder = Folder::with_keys("many");
    let words = "issue --table keys --tid workshop --kid k2 --methods GET".to_owned();
    let many = words + &" --amnesia false".repeat(64);
    folder.good(&format!("{many} --out token"));
    let refused = |words: &str, first: &str| {
        let (status, printed, said) = folder.call(words);
        assert_eq!((status, printed.as_str(), said.as_str()), (1, "", first), "{words}");
    };
    let full = "bhinorpa: --exp 0: the token has 64 caveats already (cav.full, 34)\n";
    refused("narrow --table keys --token token --exp 0", full);
    let long = "--path-prefix /".to_owned() + &"a".repeat(255);
    let wide = format!("issue --table keys --tid workshop --kid k2 --methods GET {}", format!("{long} ").repeat(16));
    let over = "with the caveat the token would have over 4,096 bytes (size.full, 35)";
    refused(&wide, &format!("bhinorpa: caveat 15 of 16, {long}: {over}\n"));
}

#[test]
fn a_file_is_hashed_under_a_key() {
    let folder = Folder::new("hash");
    let key = "77686174732074686520456c7669736820776f726420666f7220667269656e64";
    // The official vector of no bytes under this key.
    let wanted = "92b2b75604ed3c761f9d6f62392c8a9227ad0ea3f09573e783f1498a4ed60d26\n";
    folder.write("none", b"");
    assert_eq!(folder.good(&format!("hash --key {key} none")), wanted);
    assert_eq!(folder.fed(&format!("bhinorpa hash --key {key} -"), b"").1, wanted);
    // The key may come in upper case, from a file or from standard input, with a newline behind it.
    assert_eq!(folder.good(&format!("hash --key={} none", key.to_uppercase())), wanted);
    folder.write("key", format!("{key}\n").as_bytes());
    assert_eq!(folder.good("hash --key @key none"), wanted);
    assert_eq!(folder.fed("bhinorpa hash --key - none", key.as_bytes()).1, wanted);
}

#[test]
fn keys_stay_off_the_command_line_and_rows_go() {
    let folder = Folder::with_keys("rows");
    folder.write("key", format!("{ONES}\n").as_bytes());
    folder.good("table --row a/k=@key --from keys --out more");
    assert_eq!(folder.fed("bhinorpa table --row a/k=- --from keys", TWOS.as_bytes()).0, 0);
    let shown = format!("a/k {ONES}\ncontractor/k1 {ONES}\nworkshop/k2 {TWOS}\n");
    assert_eq!(folder.good("show --table more --keys"), shown);
    folder.good("table --from more --drop contractor/k1 --drop a/k --out more");
    assert_eq!(folder.good("show --table more"), "workshop/k2\n");
    // A row that goes may come again with another key.
    folder.good(&format!("table --from more --drop workshop/k2 --row workshop/k2={ONES} --out more"));
    assert_eq!(folder.good("show --table more --keys"), format!("workshop/k2 {ONES}\n"));
    assert_eq!(folder.good("show --table more --json | tr -d ' \\n'"), r#"{"rows":[{"tid":"workshop","kid":"k2"}]}"#);
}

/// A token and a request under the keys.
fn with_token(test: &str) -> Folder {
    let folder = Folder::with_keys(test);
    folder.good("issue --table keys --tid workshop --kid k2 --methods GET --prefix /relay/1 --nbf 5 --out token");
    folder.good("request --now 7 --method GET --path /relay/1 --tenant workshop --out asked");
    folder.good(&format!("table --row workshop/k2={ONES} --out other"));
    folder.good(&format!("table --row contractor/k1={ONES} --out without"));
    folder
}

#[test]
fn a_token_is_shown_with_what_is_known_of_its_tag() {
    let folder = with_token("tags");
    let shown = folder.good("show --token token");
    let fields = "tid workshop\nkid k2\nscope prefix /relay/1\nscope methods GET\n\
                  caveat 1 nbf 5 (1970-01-01T00:00:05Z)\ntag ";
    let tag = shown.strip_prefix(fields).expect(&shown);
    assert_eq!(&tag[64..], " (not judged: --table FILE says whether key and tag are right)\n");
    let judged = |table: &str, status: i32, said: &str| {
        let shown = format!("{fields}{} ({said})\n", &tag[..64]);
        assert_eq!(folder.call(&format!("show --token token --table {table}")), (status, shown, String::new()));
    };
    judged("keys", 0, "right by the key of keys");
    judged("other", 1, "mac.mismatch: not what the key of other gives");
    judged("without", 1, "kid.unknown: without has no such key");
    let tables = [("", 0, "not judged"), ("--table keys", 0, "right"), ("--table other", 1, "mac.mismatch")];
    for (table, status, is) in tables {
        let (code, json, _) = folder.call(&format!("show --json {table} --token-text $(cat token)"));
        let read: serde_json::Value = serde_json::from_str(&json).expect("JSON");
        assert_eq!((code, read["tag_is"].as_str()), (status, Some(is)));
        assert_eq!((read["tid"].as_str(), read["caveats"][0]["v"].as_u64()), (Some("workshop"), Some(5)));
    }
}

#[test]
fn verify_in_json() {
    let folder = with_token("json");
    let words = "verify --table keys --token token --json";
    let allow = r#"{"answer":0,"name":"allow","meaning":"the token is good and everything in it holds"}"#;
    assert_eq!(folder.good(&format!("{words} --request asked")), format!("{allow}\n"));
    let (status, printed, _) = folder.call(&format!("{words} --now 4 --method GET --path /relay/1 --tenant workshop"));
    let deny = r#"{"answer":14,"name":"caveat.nbf","meaning":"the token is not valid yet"}"#;
    assert_eq!((status, printed), (1, format!("{deny}\n")));
}

#[test]
fn a_bundle_is_what_the_second_program_would_judge() {
    let folder = with_token("bundle");
    let ask = |path: &str| format!("--ask '--now 7 --method GET --path {path} --tenant workshop'");
    let parts = format!(
        "--token token --table keys --token token --request asked --token token --token-text $(cat token) {} \
         --token token --table other --token token --table without --token token",
        ask("/relay")
    );
    folder.good(&format!("bundle {parts} --out rack"));
    let lines = "deny ctx.bad\ndeny ctx.bad\nallow\nallow\ndeny caveat.path\ndeny mac.mismatch\ndeny kid.unknown\n";
    assert_eq!(String::from_utf8(second::bundle::lines(&folder.read("rack"))).unwrap(), lines);
    let shown = folder.good("show --bundle rack");
    let judged = shown.lines().filter_map(|line| line.split_once(": token, ")).map(|(_, line)| format!("{line}\n"));
    assert_eq!(judged.collect::<String>(), lines);
    assert!(shown.starts_with("record 1 at byte 0: token, deny ctx.bad\n  tid workshop\n"), "{shown}");
    let json: serde_json::Value = serde_json::from_str(&folder.good("show --bundle rack --json")).expect("JSON");
    assert_eq!(json["records"].as_array().map(Vec::len), Some(12));
    assert_eq!(json["records"][1]["holds"]["rows"][1]["kid"], "k2");
    // What is bad goes in where it is asked for, and the rest of a cut bundle is told.
    folder.write("bad", b"no token\n");
    folder.good("bundle --as-is --table bad --token bad --out odd");
    assert_eq!(folder.read("odd"), b"\x09\0\x10\0no token\n\x08\0\x30\0no token");
    let (status, shown, _) = folder.shell("head -c 20 odd >cut; bhinorpa show --bundle cut");
    let cut = "record 1 at byte 0: table, table.bad\nbundle.bad: at byte 13 a record is cut\n";
    assert_eq!((status, shown.as_str()), (1, cut));
}

#[test]
fn the_sample_bundle_is_shown_with_its_lines() {
    let folder = Folder::new("sample");
    let examples = concat!(env!("CARGO_MANIFEST_DIR"), "/../../examples");
    let shown = folder.good(&format!("show --bundle '{examples}/sample.bundle'"));
    let judged = shown.lines().filter_map(|line| line.split_once(": token, ")).map(|(_, line)| format!("{line}\n"));
    assert_eq!(judged.collect::<String>(), fs::read_to_string(format!("{examples}/sample.txt")).unwrap());
}

#[test]
fn a_token_may_expire_some_time_from_now() {
    let folder = with_token("later");
    folder.good("narrow --table keys --token token --exp +1h --out child");
    let asked = "--method GET --path /relay/1 --tenant workshop";
    assert_eq!(folder.good(&format!("verify --table keys --token child {asked}")), "allow\n");
    assert_eq!(folder.good(&format!("verify --table keys --token child {asked} --now +59m")), "allow\n");
    folder.denied(&format!("verify --table keys --token child {asked} --now +61m"), "caveat.exp");
}
