//! Command lines that are refused: one table of them, with the status, the first line of the message, and what
//! is other among the files afterwards. Nothing is, unless the table says so.

mod common;

use std::collections::BTreeMap;

use common::Folder;

/// Words, status, first line on standard error behind "bhinorpa: " (nothing where it is empty), and the files that
/// are new or other afterwards.
type Case = (&'static str, i32, &'static str, &'static [&'static str]);

const TABLES: &[Case] = &[
    ("table", 2, "--from or --row or --new is missing", &[]),
    ("table --out x", 2, "--from or --row or --new is missing", &[]),
    ("table --drop workshop/k2 --new a/b", 2, "--from is missing", &[]),
    ("table --from keys --drop nobody/k2 --out keys", 2, "--drop nobody/k2: --from has no such row", &[]),
    ("table --new a/b --out keys", 2, "keys is there and is kept; with --replace it is lost", &[]),
    ("table --new a/b --out cut", 2, "cut is there and is kept; with --replace it is lost", &[]),
    ("table --new a/b --out empty", 2, "empty is there and is kept; with --replace it is lost", &[]),
    ("table --new a/b --from other --out keys", 2, "keys is there and is kept; with --replace it is lost", &[]),
    ("table --new a/b --out keys --replace", 0, "", &["keys"]),
    ("table --new a/b --from ./keys --out keys", 0, "", &["keys"]),
    ("table --new a/b --out fresh", 0, "", &["fresh"]),
    ("table --new a/b --new a/b --out x", 1, "--new a/b: a table has each pair of ids once (table.bad, 1)", &[]),
    ("table --from keys --new workshop/k2 --out keys", 1, "--new workshop/k2: a table has each pair of ids once (table.bad, 1)", &[]),
    ("table --row a/b=00", 1, "--row a/b, key: a key has 64 hex digits (table.bad, 1)", &[]),
    ("table --row a/b=zz", 2, "--row a/b: 'z' is no hex digit", &[]),
    ("table --row a/b=000", 2, "--row a/b: an odd number of hex digits, 3, is no row of bytes", &[]),
    ("table --row a/b", 2, "--row a/b: TID/KID=KEY is needed, the key in hex, @FILE or -", &[]),
    ("table --row a=00", 2, "--row a: TID/KID is needed", &[]),
    ("table --row a/b=@", 2, "--row a/b: a file's name is missing behind the @", &[]),
    ("table --row a/b=@none", 2, "none cannot be read: No such file or directory", &[]),
    ("table --row a/b=@token", 2, "--row in token: 'p' is no hex digit", &[]),
    ("table --row a/b=- --row a/c=-", 2, "--row and --row: standard input has one thing in it", &[]),
    ("table --row a/b=@- --from -", 2, "--from and --row: standard input has one thing in it", &[]),
    ("table --from keys --drop workshop/k2 --drop workshop/k2", 2, "--drop workshop/k2 stands twice, and may stand once", &[]),
    ("table --new a", 2, "--new a: TID/KID is needed", &[]),
    ("table --new /b", 1, "--new /b, tid: 1 to 64 letters, digits, -, . and _ are needed (table.bad, 1)", &[]),
    ("table --new 'a/b c'", 1, "--new \"a/b c\", kid: 1 to 64 letters, digits, -, . and _ are needed (table.bad, 1)", &[]),
    ("table --from cut --out cut", 1, "the table in cut: the key table is malformed (table.bad, 1)", &[]),
    ("table --from none", 2, "none cannot be read: No such file or directory", &[]),
    ("table --from /", 2, "/ cannot be read: Is a directory", &[]),
    ("table --from /dev/zero", 1, "the table in /dev/zero: the key table is malformed (table.bad, 1)", &[]),
];

const PARTS: &[Case] = &[
    ("scope", 2, "--methods is missing: a scope lists its methods, '' for none", &[]),
    ("scope --prefix /relay/1", 2, "--methods is missing: a scope lists its methods, '' for none", &[]),
    ("scope --methods get", 1, "--methods get: a method is 1 to 16 letters A to Z (parse.cbor, 4)", &[]),
    ("scope --methods GET,,PUT", 1, "--methods \"\": a method is 1 to 16 letters A to Z (parse.bounds, 5)", &[]),
    ("scope --methods GET --methods PUT", 2, "--methods stands twice, and may stand once", &[]),
    ("scope --methods GET --prefix relay", 1, "--prefix relay: a path prefix is 1 to 256 characters from ! to ~, the first of them / (parse.cbor, 4)", &[]),
    ("scope --methods GET --max-bytes -1", 2, "-1 is no word of this verb; a value that begins with - is written --option=VALUE", &[]),
    ("scope --methods GET --max-bytes=-1", 2, "--max-bytes -1: a number is 0 to 18446744073709551615", &[]),
    ("scope --methods GET --max-bytes +5", 2, "--max-bytes +5: a number is 0 to 18446744073709551615", &[]),
    ("scope --methods GET --max-bytes ''", 2, "--max-bytes \"\": a number is 0 to 18446744073709551615", &[]),
    ("scope --method GET", 2, "--method is no word of this verb; there is --methods", &[]),
    ("scope --methods", 2, "--methods needs a value", &[]),
    ("scope GET", 2, "GET is no word of this verb", &[]),
    ("scope --methods GET --replace", 2, "--out is missing", &[]),
    ("scope --methods GET --out - --replace", 2, "--replace: standard output has nothing to replace", &[]),
    ("scope --methods GET --out keys", 2, "keys is there and is kept; with --replace it is lost", &[]),
    ("scope --methods GET --out asked", 0, "", &["asked"]),
    ("scope --methods GET --out ''", 2, "--out needs a value", &[]),
    ("scope --methods GET --out /", 2, "/ cannot be written: it is a folder", &[]),
    ("scope --methods GET --out no/such", 2, "no/such cannot be written, and nothing was changed: No such file or directory", &[]),
    ("caveat", 2, "there is no caveat: --exp, --method or another is needed", &[]),
    ("caveat --rate 5", 2, "--rate 5: PER_S,BURST is needed, as 5,10", &[]),
    ("caveat --rate 5,4294967296", 2, "--rate 5,4294967296: each of the two numbers is 0 to 4294967295", &[]),
    ("caveat --bytes-le 18446744073709551616", 2, "--bytes-le 18446744073709551616: a number is 0 to 18446744073709551615", &[]),
    ("caveat --amnesia yes", 2, "--amnesia yes: true or false is needed", &[]),
    ("caveat --exp tomorrow", 2, "--exp tomorrow: a time is written 2026-01-01T00:00:00Z, in seconds since 1970, or +30d from now (s, m, h, d, w)", &[]),
    ("caveat --exp 2026-13-01T00:00:00Z", 2, "--exp 2026-13-01T00:00:00Z: there is no such time: month must be in the range 1 to 12", &[]),
    ("caveat --exp 2016-12-31T23:59:60Z", 2, "--exp 2016-12-31T23:59:60Z: there is no such time: second must be in the range 0 to 59", &[]),
    ("caveat --nbf 2026-02-30T00:00:00Z", 2, "--nbf 2026-02-30T00:00:00Z: there is no such time: day must be in the range 1 to 28", &[]),
    ("caveat --custom shop=00", 2, "--custom shop=00: NS/NAME=VALUE is needed, with the value's CBOR in hex", &[]),
    ("caveat --custom 'sh op/shift=00'", 1, "--custom \"sh op/shift=00\", ns: 1 to 64 letters, digits, -, . and _ are needed (cav.cbor, 31)", &[]),
    ("caveat --method get", 1, "--method get: a method is 1 to 16 letters A to Z (cav.cbor, 31)", &[]),
    ("caveat --tenant 'a b'", 1, "--tenant \"a b\": 1 to 64 letters, digits, -, . and _ are needed (cav.cbor, 31)", &[]),
    (
        "caveat --exp 0 --nbf 0 --aud x --bytes-le 0 --tenant t --amnesia true --rate 1,1 --aud y --method A --exp 1 --ip-cidr 10.0.0.0 --nbf 1",
        1,
        "caveat 11 of 12, --ip-cidr 10.0.0.0: a network is written a.b.c.d/n, n from 0 to 32, without leading zeros, and its bits past n are zero (cav.cbor, 31)",
        &[],
    ),
    ("caveat --caveat 'a1\na1'", 2, "--caveat \"a1\\na1\": a line ends behind 2 hex digits, and one item in hex is one line", &[]),
    ("caveat --caveat - <bad.hex", 1, "--caveat -: the caveat has an unknown key or kind (cav.unknown, 33)", &[]),
    ("caveat --custom a/b=- <bad.hex", 1, "--custom a/b=-, value: a value is one integer, byte string, text, true, false or null, or arrays of these up to four deep, in deterministic CBOR (cav.cbor, 31)", &[]),
    ("caveat --custom a/=a0", 1, "--custom a/=a0, value: a value is one integer, byte string, text, true, false or null, or arrays of these up to four deep, in deterministic CBOR (cav.cbor, 31)", &[]),
    ("caveat --method a,A,A,A,A,A,A,A,A,A,A,A,A,A,A,A,A", 1, "--method a,A,A,A,A,A,A,A,A,A,A,A,A,A,A,A,A: a list has at most 16 methods (cav.bounds, 32)", &[]),
    ("caveat --caveat - --custom a/b=@-", 2, "--caveat and --custom: standard input has one thing in it", &[]),
    ("caveat --caveat 'a2 61'", 2, "--caveat \"a2 61\": ' ' is no hex digit", &[]),
    ("caveat --caveat a26174636578716176", 1, "--caveat a26174636578716176: the caveat has an unknown key or kind (cav.unknown, 33)", &[]),
    ("request --path / --tenant t", 2, "--method is missing: a request has --method, --path and --tenant", &[]),
    ("request --method GET --path / --tenant t --peer ::1", 2, "--peer ::1: an address is written 10.1.2.3", &[]),
    ("request --method GET --path / --tenant t --skew 65536", 2, "--skew 65536: a skew is 0 to 300 seconds", &[]),
    ("request --method GET --path / --tenant t --now 2026-02-30T00:00:00Z", 2, "--now 2026-02-30T00:00:00Z: there is no such time: day must be in the range 1 to 28", &[]),
    ("request --method GET --path / --tenant t --aud $(printf %065536d 0)", 2, "--aud: a request has two bytes for its length, and it has 65536", &[]),
    ("request --method GET --path / --tenant t --path /x --out x", 2, "--path stands twice, and may stand once", &[]),
    ("request --method GET --path / --tenant t --out keys", 2, "keys is there and is kept; with --replace it is lost", &[]),
];

const TOKENS: &[Case] = &[
    ("issue --table keys --tid workshop --kid k2 --scope a1676d6574686f64738163474554 --prefix /relay/1 --max-bytes 1 --out x", 2, "--scope and --prefix, --max-bytes cannot stand together", &[]),
    ("issue --table keys --tid workshop --kid k2 --scope a1676d6574686f64738163474554 --methods GET", 2, "--scope and --methods cannot stand together", &[]),
    ("issue --table keys --tid workshop --kid k2 --scope a0", 1, "--scope a0: this is no scope in deterministic CBOR (parse.cbor, 4)", &[]),
    ("issue --table keys --tid workshop --kid k2 --scope a4", 1, "--scope a4: it has a key that no scope has (schema.unknown_field, 6)", &[]),
    ("issue --table keys --tid workshop --kid k2", 2, "--methods is missing: a scope lists its methods, '' for none", &[]),
    ("issue --table keys --tid workshop --kid k2 --methods get", 1, "--methods get: a method is 1 to 16 letters A to Z (parse.cbor, 4)", &[]),
    ("issue --table keys --tid workshop --methods GET", 2, "--kid is missing", &[]),
    ("issue --table keys --tid a --tid b --kid k2 --methods GET", 2, "--tid stands twice, and may stand once", &[]),
    ("issue --table keys --tid workshop --kid k1 --methods GET", 1, "--tid workshop --kid k1: the table in keys has no key under these (kid.unknown, 7)", &[]),
    ("issue --table keys --tid 'w w' --kid k2 --methods GET", 1, "--tid \"w w\": 1 to 64 letters, digits, -, . and _ are needed (kid.unknown, 7)", &[]),
    ("issue --table cut --tid workshop --kid k2 --methods GET", 1, "the table in cut: the key table is malformed (table.bad, 1)", &[]),
    ("issue --table none --tid workshop --kid k2 --methods GET", 2, "none cannot be read: No such file or directory", &[]),
    ("issue --table keys --tid workshop --kid k2 --methods GET --out keys", 2, "keys is there and is kept; with --replace it is lost", &[]),
    ("issue --table keys --tid workshop --kid k2 --methods GET --out token", 0, "", &["token"]),
    ("issue --table keys --tid workshop --kid k2 --methods GET --out a --out b", 2, "--out stands twice, and may stand once", &[]),
    ("issue --table keys --tid workshop --kid k2 --methods GET --exp 0 --ip-cidr 1.2.3.4/8 --out x", 1, "caveat 2 of 2, --ip-cidr 1.2.3.4/8: a network is written a.b.c.d/n, n from 0 to 32, without leading zeros, and its bits past n are zero (cav.cbor, 31)", &[]),
    ("narrow --table keys --token token", 2, "there is no caveat: --exp, --method or another is needed", &[]),
    ("narrow --table keys --method GET", 2, "--token FILE or --token-text TEXT is missing", &[]),
    ("narrow --table other --token token --method GET", 1, "the token in token: its tag is not the one that the key workshop/k2 of the table in other gives (mac.mismatch, 8)", &[]),
    ("narrow --table empty --token token --method GET", 1, "the token in token: the table in empty has no key under its ids, workshop/k2 (kid.unknown, 7)", &[]),
    ("narrow --table cut --token token --method GET", 1, "the table in cut: the key table is malformed (table.bad, 1)", &[]),
    ("narrow --table keys --token crlf --method GET", 1, "the token in crlf: a carriage return stands behind its first 120 characters (parse.b64, 3)", &[]),
    ("narrow --table keys --token keys --method GET --out x", 1, "the token in keys: a character that is no letter of Base64URL stands behind its first 0 characters (parse.b64, 3)", &[]),
    ("verify --table keys --token token --request asked --method DELETE --path /etc", 2, "--request and --method, --path cannot stand together", &[]),
    ("verify --table keys --token token --token-text abc --request asked", 2, "--token and --token-text cannot stand together", &[]),
    ("verify --table keys --request asked", 2, "--token FILE or --token-text TEXT is missing", &[]),
    ("verify --table keys --token token", 2, "--method is missing: a request has --method, --path and --tenant", &[]),
    ("verify --table keys --token token --request asked --json --json", 2, "--json stands twice, and may stand once", &[]),
    ("verify --table keys --token token --request asked --keys", 2, "--keys is no word of this verb", &[]),
    ("verify --table - --token - --request asked", 2, "--table and --token: standard input has one thing in it", &[]),
    ("verify --table keys --token token --method get --path / --tenant t", 1, "--method get: a method is 1 to 16 letters A to Z (ctx.bad, 2)", &[]),
    ("verify --table keys --token token --request token", 1, "the request in token: the request is malformed (ctx.bad, 2)", &[]),
    ("verify --table cut --token token --request asked", 1, "the table in cut: the key table is malformed (table.bad, 1)", &[]),
    ("verify --table other --token token --request asked", 1, "the token in token: its tag is not the one that the key workshop/k2 of the table in other gives (mac.mismatch, 8)", &[]),
    ("verify --table keys --token crlf --request asked", 1, "the token in crlf: a carriage return stands behind its first 120 characters (parse.b64, 3)", &[]),
    ("verify --table keys --token spaced --request asked", 1, "the token in spaced: a space stands behind its first 120 characters (parse.b64, 3)", &[]),
    ("verify --table keys --token lines --request asked", 1, "the token in lines: a second line stands behind its first 120 characters (parse.b64, 3)", &[]),
    ("verify --table keys --token twice --request asked", 1, "the token in twice: a newline too many stands behind its first 120 characters (parse.b64, 3)", &[]),
    ("verify --table keys --token padded --request asked", 1, "the token in padded: padding, which a token has not, stands behind its first 120 characters (parse.b64, 3)", &[]),
    ("verify --table keys --token-text abcde --request asked", 1, "the token of --token-text: a character is missing or too many (parse.b64, 3)", &[]),
    ("verify --table keys --token-text _x --request asked", 1, "the token of --token-text: its last character has bits that mean nothing (parse.b64, 3)", &[]),
    ("verify --table keys --token-text a/b+ --request asked", 1, "the token of --token-text: a letter of plain Base64, where a token has - and _, stands behind its first 1 characters (parse.b64, 3)", &[]),
    ("verify --table keys --token empty --request asked", 1, "the token in empty: the token is malformed (parse.cbor, 4)", &[]),
    ("verify --table keys --token /dev/zero --request asked", 1, "the token in /dev/zero: a token has at most 5,462 characters (parse.bounds, 5)", &[]),
    ("verify --table /dev/zero --token token --request asked", 1, "the table in /dev/zero: the key table is malformed (table.bad, 1)", &[]),
    ("verify --table keys --token token --request /dev/zero", 1, "the request in /dev/zero: the request is malformed (ctx.bad, 2)", &[]),
    // What the line says by itself needs no second one.
    ("verify --table keys --token token --method PUT --path / --tenant workshop", 1, "", &[]),
];

const OTHERS: &[Case] = &[
    ("", 2, "a verb is missing", &[]),
    ("sing", 2, "there is no verb sing", &[]),
    ("show", 2, "show needs --table, --request, --token, --token-text, --scope, --caveat or --bundle", &[]),
    ("show --table keys --keys yes", 2, "yes is no word of this verb", &[]),
    ("show --table keys --keys=yes", 2, "--keys takes no value, and yes stands there", &[]),
    ("show --table keys --request asked", 2, "--table and --request cannot stand together", &[]),
    ("show --table keys --token token --keys", 2, "--token and --keys cannot stand together", &[]),
    ("show --token token --keys", 2, "--token and --keys cannot stand together", &[]),
    ("show --keys", 2, "--table is missing", &[]),
    ("show --keys --bundle keys", 2, "--keys and --bundle cannot stand together", &[]),
    ("show --keys --request asked", 2, "--keys and --request cannot stand together", &[]),
    ("show --keys --scope a0", 2, "--keys and --scope cannot stand together", &[]),
    ("show --keys --caveat a0", 2, "--keys and --caveat cannot stand together", &[]),
    ("show --token token --request asked", 2, "--token and --request cannot stand together", &[]),
    ("show --scope a0 --caveat a0", 2, "--scope and --caveat cannot stand together", &[]),
    ("show --tabel keys", 2, "--tabel is no word of this verb; there is --table", &[]),
    ("show --table cut", 1, "the table in cut: the key table is malformed (table.bad, 1)", &[]),
    ("show --request empty", 1, "the request in empty: the request is malformed (ctx.bad, 2)", &[]),
    ("show --token crlf", 1, "the token in crlf: a carriage return stands behind its first 120 characters (parse.b64, 3)", &[]),
    ("show --token empty", 1, "the token in empty: the token is malformed (parse.cbor, 4)", &[]),
    ("show --token ''", 2, "--token needs a value", &[]),
    ("show --token none", 2, "none cannot be read: No such file or directory", &[]),
    ("show --scope a4", 1, "--scope a4: it has a key that no scope has (schema.unknown_field, 6)", &[]),
    ("show --caveat a26174636578716176", 1, "--caveat a26174636578716176: the caveat has an unknown key or kind (cav.unknown, 33)", &[]),
    ("show --table keys --out keys", 2, "keys is there and is kept; with --replace it is lost", &[]),
    ("show --bundle /dev/zero", 1, "", &[]),
    ("show --bundle keys", 1, "", &[]),
    ("bundle", 2, "there is nothing to lay into the bundle: --table, --request, --ask, --token or --token-text", &[]),
    ("bundle --table cut --out x", 1, "--table cut: the key table is malformed (table.bad, 1)", &[]),
    ("bundle --request token", 1, "--request token: the request is malformed (ctx.bad, 2)", &[]),
    ("bundle --ask '--method get --path / --tenant t'", 1, "--ask \"--method get --path / --tenant t\": --method get: a method is 1 to 16 letters A to Z (ctx.bad, 2)", &[]),
    ("bundle --ask '--methods GET'", 2, "--ask \"--methods GET\": --methods is no word of this verb; there is --method", &[]),
    ("bundle --ask '--method GET --path /'", 2, "--ask \"--method GET --path /\": --tenant is missing: a request has --method, --path and --tenant", &[]),
    ("bundle --token - --table -", 2, "--token and --table: standard input has one thing in it", &[]),
    ("bundle --token crlf", 1, "--token crlf: a carriage return stands behind its first 120 characters (parse.b64, 3)", &[]),
    ("bundle --token /dev/zero --as-is", 2, "--token /dev/zero: a record has at most 65,535 bytes", &[]),
    ("bundle --token long --token long --as-is --out x", 2, "the bundle would have 80008 bytes, and at most 65,536 are judged", &[]),
    ("bundle --table keys --out keys", 2, "keys is there and is kept; with --replace it is lost", &[]),
    ("hash --key 00 token", 1, "--key: a key has 64 hex digits (hash.bad, 37)", &[]),
    ("hash --key KEYz token", 2, "--key: 'z' is no hex digit", &[]),
    ("table --row a/b=KEYz", 2, "--row a/b: 'z' is no hex digit", &[]),
    ("hash --key zz token", 2, "--key: 'z' is no hex digit", &[]),
    ("hash --key @none token", 2, "none cannot be read: No such file or directory", &[]),
    ("hash --key @/dev/zero token", 2, "--key in /dev/zero: over 8192 hex digits", &[]),
    ("hash --key @lines token", 2, "--key in lines: 'p' is no hex digit", &[]),
    ("hash --key - -", 2, "--key and FILE: standard input has one thing in it", &[]),
    ("hash --key @- -", 2, "--key and FILE: standard input has one thing in it", &[]),
    ("hash --key @/dev/stdin -", 2, "--key and FILE: standard input has one thing in it", &[]),
    ("hash --key KEY - --out - --replace", 2, "--replace: standard output has nothing to replace", &[]),
    ("hash", 2, "--key, FILE are missing", &[]),
    ("hash --key 01", 2, "FILE is missing", &[]),
    ("hash --key KEY long", 1, "long: at most 8,192 bytes are hashed (hash.bad, 37)", &[]),
    ("hash --key KEY /dev/zero", 1, "/dev/zero: at most 8,192 bytes are hashed (hash.bad, 37)", &[]),
    ("hash --key KEY token token", 2, "token is no word of this verb", &[]),
    ("hash --key KEY /", 2, "/ cannot be read: Is a directory", &[]),
    ("completions tcsh", 2, "SHELL tcsh: one of these is needed: bash, elvish, fish, powershell, zsh", &[]),
    ("man page", 2, "page is no word of this verb", &[]),
];

/// What each line finds: good and bad ones of each kind.
fn folder(test: &str) -> Folder {
    let folder = Folder::with_keys(test);
    folder.good(&format!("table --row workshop/k2={} --out other", common::ONES));
    folder.good("issue --table keys --tid workshop --kid k2 --methods GET --max-bytes 5 --out token");
    folder.good("request --now 0 --method GET --path / --tenant workshop --out asked");
    let text = folder.good("show --table keys >/dev/null; tr -d '\\n' <token");
    folder.write("cut", &folder.read("keys")[1..]);
    for (name, end) in [("crlf", "\r\n"), ("spaced", " \n"), ("twice", "\n\n"), ("lines", "\nmore\n"), ("padded", "=\n")] {
        folder.write(name, format!("{text}{end}").as_bytes());
    }
    folder.write("empty", b"");
    folder.write("bad.hex", b"a26174636578716176\n");
    folder.write("long", &[b'r'; 40_000]);
    folder
}

/// The names of files that are new, gone or other.
fn other(before: &BTreeMap<String, Vec<u8>>, after: &BTreeMap<String, Vec<u8>>) -> Vec<String> {
    let names = before.keys().chain(after.keys().filter(|name| !before.contains_key(*name)));
    names.filter(|name| before.get(*name) != after.get(*name)).cloned().collect()
}

#[test]
fn every_word_is_used_or_refused() {
    let folder = folder("words");
    let before = folder.files();
    let mut others = Vec::new();
    let cases = [TABLES, PARTS, TOKENS, OTHERS].concat();
    for (words, status, said, changed) in &cases {
        let (code, printed, errors) = folder.call(&words.replace("KEY", common::ONES));
        let first = errors.lines().next().unwrap_or_default();
        let wanted = if said.is_empty() { String::new() } else { format!("bhinorpa: {said}") };
        let judges = words.starts_with("verify") || words.starts_with("show --bundle");
        let silent = printed.is_empty() || *status == 0 || judges && *status == 1;
        let found = other(&before, &folder.files());
        if (code, first) != (*status, &wanted) || found != *changed || !silent || errors.contains("panicked") {
            others.push(format!("{words}\n    {code} {first}, {found:?}, printed {printed:?}\n    not {status} {wanted}, {changed:?}"));
        }
        for name in *changed {
            let _ = std::fs::remove_file(folder.0.join(name));
            before.get(*name).into_iter().for_each(|bytes| folder.write(name, bytes));
        }
    }
    assert!(others.is_empty(), "{} of {}:\n{}", others.len(), cases.len(), others.join("\n"));
    assert!(cases.iter().filter(|(_, status, ..)| *status != 0).count() > 170, "of {} command lines", cases.len());
}

/// A rule that is said, words that keep it at its edges, and words that break it.
type Rule = (&'static str, &'static [&'static str], &'static [&'static str]);

const RULES: &[Rule] = &[
    (
        "a method is 1 to 16 letters A to Z",
        &["scope --methods A,Z,ABCDEFGHIJKLMNOP", "caveat --method A", "request --method ABCDEFGHIJKLMNOP --path / --tenant t"],
        &["scope --methods ABCDEFGHIJKLMNOPQ", "scope --methods A,", "scope --methods A1", "caveat --method a", "request --method '' --path / --tenant t", "request --method @ --path / --tenant t", "request --method ABCDEFGHIJKLMNOPQ --path / --tenant t"],
    ),
    (
        "a list has at most 16 methods",
        &["scope --methods A,B,C,D,E,F,G,H,I,J,K,L,M,N,O,P", "caveat --method A,A,A,A,A,A,A,A,A,A,A,A,A,A,A,A", "scope --methods ''"],
        &["scope --methods A,B,C,D,E,F,G,H,I,J,K,L,M,N,O,P,Q", "caveat --method A,A,A,A,A,A,A,A,A,A,A,A,A,A,A,A,A"],
    ),
    (
        "a path prefix is 1 to 256 characters from ! to ~, the first of them /",
        &["scope --methods A --prefix /", "scope --methods A --prefix /\\!~", "caveat --path-prefix /$(printf %0255d 0)"],
        &["scope --methods A --prefix ''", "scope --methods A --prefix a", "scope --methods A --prefix '/ '", "scope --methods A --prefix /é", "caveat --path-prefix /$(printf %0256d 0)", "caveat --path-prefix ''"],
    ),
    (
        "a path is 1 to 1,024 characters from ! to ~, the first of them /",
        &["request --method A --tenant t --path /$(printf %01023d 0)", "request --method A --tenant t --path /"],
        &["request --method A --tenant t --path /$(printf %01024d 0)", "request --method A --tenant t --path ''", "request --method A --tenant t --path x", "request --method A --tenant t --path '/ '"],
    ),
    (
        "a path has no %, since proxies rewrite what stands behind it",
        &["request --method A --tenant t --path /\\$2f"],
        &["request --method A --tenant t --path /%2f", "scope --methods A --prefix /a%", "caveat --path-prefix /%//.."],
    ),
    (
        "a path has no //, since proxies make one / of it",
        &["request --method A --tenant t --path /a/b/", "scope --methods A --prefix /a/", "caveat --path-prefix /a/-/b"],
        &["request --method A --tenant t --path /a//b", "scope --methods A --prefix //", "caveat --path-prefix /a//"],
    ),
    (
        "no segment of a path is . or .., since proxies resolve these",
        &["request --method A --tenant t --path /.a/a./...", "scope --methods A --prefix /..a", "caveat --path-prefix /a../"],
        &["request --method A --tenant t --path /a/../b", "request --method A --tenant t --path /.", "scope --methods A --prefix /a/..", "caveat --path-prefix /./a"],
    ),
    (
        "1 to 64 letters, digits, -, . and _ are needed",
        &["request --method A --path / --tenant aZ09-._", "caveat --tenant $(printf %064d 0)", "caveat --custom a/b=00", "table --new $(printf %064d 0)/$(printf %064d 0)"],
        &["request --method A --path / --tenant ''", "request --method A --path / --tenant a/b", "caveat --tenant $(printf %065d 0)", "caveat --tenant é", "caveat --custom /b=00", "caveat --custom a/$(printf %065d 0)=00", "table --new $(printf %065d 0)/k", "table --new t/$(printf %0256d 0)", "table --new t/", "issue --table keys --methods A --kid k2 --tid ''"],
    ),
    (
        "an audience is 1 to 128 characters from ! to ~",
        &["caveat --aud $(printf %0128d 0)", "caveat --aud \\!~", "request --method A --path / --tenant t --aud=-"],
        &["caveat --aud $(printf %0129d 0)", "caveat --aud ''", "caveat --aud 'a b'", "request --method A --path / --tenant t --aud ''", "request --method A --path / --tenant t --aud é"],
    ),
    (
        "a digest has 64 hex digits",
        &["caveat --gov-policy-digest KEY", "request --method A --path / --tenant t --digest $(printf %064d 0)", "caveat --gov-policy-digest $(printf %062d 0)AF"],
        &["caveat --gov-policy-digest ''", "caveat --gov-policy-digest KEY0", "caveat --gov-policy-digest $(printf %063d 0)g", "request --method A --path / --tenant t --digest 00"],
    ),
    (
        "a skew is at most 300 seconds",
        &["request --method A --path / --tenant t --skew 300"],
        &["request --method A --path / --tenant t --skew 301", "request --method A --path / --tenant t --skew 65535"],
    ),
    (
        "a network is written a.b.c.d/n, n from 0 to 32, without leading zeros, and its bits past n are zero",
        &["caveat --ip-cidr 10.0.0.0/8", "caveat --ip-cidr 255.255.255.255/32", "caveat --ip-cidr 0.0.0.0/0"],
        &["caveat --ip-cidr 10.0.0.1/8", "caveat --ip-cidr 10.0.0.0", "caveat --ip-cidr 10.0.0.0/08", "caveat --ip-cidr 010.0.0.0/8", "caveat --ip-cidr 0.0.0.0/33", "caveat --ip-cidr ''", "caveat --ip-cidr ::/0"],
    ),
    (
        "a value is one integer, byte string, text, true, false or null, or arrays of these up to four deep, in deterministic CBOR",
        &["caveat --custom a/b=8181818100", "caveat --custom a/b=3bffffffffffffffff", "caveat --custom a/b=41ff", "caveat --custom a/b=f6"],
        &["caveat --custom a/b=818181818100", "caveat --custom a/b=a0", "caveat --custom a/b=61ff", "caveat --custom a/b=", "caveat --custom a/b=0000", "caveat --custom a/b=1800", "caveat --custom a/b=f7"],
    ),
    (
        "a key has 64 hex digits",
        &["table --row a/b=KEY", "hash --key KEY token"],
        &["table --row a/b=", "table --row a/b=KEY00", "hash --key '' token", "hash --key KEY00 token"],
    ),
    (
        "a table has at most 64 rows",
        &["table $(seq -f '--new a/k%g' 64)"],
        &["table $(seq -f '--new a/k%g' 65)"],
    ),
    ("a table has each pair of ids once", &["table --new a/b --new b/a"], &["table --new a/b --new b/a --new a/b"]),
    (
        "a token has at most 5,462 characters",
        // As many as are read, though they are no token.
        &[],
        &["show --token-text $(printf %05463d 0)"],
    ),
    ("at most 8,192 bytes are hashed", &["hash --key KEY most"], &["hash --key KEY over"]),
];

#[test]
fn what_is_said_is_what_the_library_refuses() {
    let folder = folder("rules");
    folder.write("most", &[0; 8192]);
    folder.write("over", &[0; 8193]);
    for (rule, kept, broken) in RULES {
        for words in *kept {
            let (status, _, said) = folder.call(&words.replace("KEY", common::ONES));
            assert_eq!((status, said.as_str()), (0, ""), "{words}");
        }
        for words in *broken {
            let (status, printed, said) = folder.call(&words.replace("KEY", common::ONES));
            assert_eq!((status, printed.as_str()), (1, ""), "{words}: {said}");
            assert!(said.contains(&format!(": {rule} (")), "{words}: {said}");
            let key = words.contains("--key") || words.contains("--row");
            assert!(!key || !said.contains(common::ONES), "a key in {said}");
        }
    }
    let (status, _, said) = folder.call("show --token-text $(printf %05462d 0)");
    assert_eq!((status, said.contains("5,462")), (1, false), "{said}");
}
