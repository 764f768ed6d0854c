//! Output that cannot be written, input that does not end, and files that stay whole whatever happens. What the
//! machine does not allow, as a small file system, is told and passed over.

mod common;

use std::fs;
use std::os::unix::fs::{symlink, PermissionsExt};
use std::time::Instant;

use common::{Folder, ONES, TWOS};

fn with_token(test: &str) -> Folder {
    let folder = Folder::with_keys(test);
    folder.good("issue --table keys --tid workshop --kid k2 --methods GET --out token");
    folder.good("request --now 0 --method GET --path / --tenant workshop --out asked");
    folder
}

/// Each verb with words that make it write.
const WRITERS: [&str; 13] = [
    "--help",
    "--version",
    "table -h",
    "table --new a/b",
    "scope --methods GET",
    "caveat --exp 0",
    "issue --table keys --tid workshop --kid k2 --methods GET",
    "narrow --table keys --token token --exp 0",
    "request --method GET --path / --tenant t",
    "verify --table keys --token token --request asked",
    "bundle --table keys --token token",
    "show --token token",
    "man",
];

#[test]
fn what_cannot_be_written_is_said() {
    let folder = with_token("unwritten");
    let words = WRITERS.into_iter().chain(["completions bash", "hash --key KEY token", "show --bundle rack --json"]);
    folder.good("bundle --table keys --token token --out rack");
    for words in words.map(|words| words.replace("KEY", ONES)) {
        let full = folder.shell(&format!("bhinorpa {words} >/dev/full"));
        let said = "bhinorpa: standard output cannot be written: No space left on device\n";
        assert_eq!(full, (2, String::new(), said.to_owned()), "{words}");
        let closed = folder.shell(&format!("bhinorpa {words} >&-"));
        let said = "bhinorpa: standard output cannot be written: Bad file descriptor\n";
        assert_eq!(closed, (2, String::new(), said.to_owned()), "{words}");
        // Whoever closes a pipe has had enough of it.
        let (_, printed, said) =
            folder.shell(&format!("{{ sleep 0.2; bhinorpa {words}; echo $? >status; }} | true; cat status"));
        assert_eq!((printed.as_str(), said.as_str()), ("2\n", ""), "{words}");
        let errors = folder.shell(&format!("bhinorpa {words} >/dev/full 2>/dev/full"));
        assert_eq!(errors, (2, String::new(), String::new()), "{words}");
    }
}

#[test]
fn a_device_is_written_as_it_is() {
    let folder = with_token("devices");
    let (status, _, said) = folder.call("scope --methods GET --out /dev/full");
    let full = "bhinorpa: /dev/full cannot be written: No space left on device\n";
    assert_eq!((status, said.as_str()), (2, full));
    assert_eq!(folder.call("scope --methods GET --out /dev/null"), (0, String::new(), String::new()));
    assert_eq!(folder.call("scope --methods GET --out /dev/stdout | cat").1, "a1676d6574686f64738163474554\n");
    // A file that is open already is written to where it stands, or not at all.
    folder.shell("{ echo first; bhinorpa scope --methods GET --out /dev/stdout; echo last; } >log");
    assert_eq!(folder.read("log"), b"first\na1676d6574686f64738163474554\nlast\n");
    let line = "echo old >errs; bhinorpa scope --methods GET --out /dev/stderr 2>>errs; echo $? >&2";
    let (status, _, said) = folder.shell(line);
    assert_eq!((status, said.as_str()), (0, "2\n"));
    assert_eq!(folder.read("errs"), b"old\nbhinorpa: /dev/stderr cannot be written: it leads to an open file\n");
    assert_eq!(folder.good("scope --methods GET --out /dev/fd/3 3>&1 | cat"), "a1676d6574686f64738163474554\n");
    let is_device = |name: &str| !fs::metadata(name).unwrap().is_file();
    assert!(is_device("/dev/full") && is_device("/dev/null"));
}

#[test]
fn a_file_that_may_not_grow_leaves_the_old_one() {
    let folder = with_token("limit");
    folder.write("long", &[b'r'; 40_000]);
    folder.good("bundle --table keys --token token --out rack");
    let before = folder.files();
    // 32 blocks of half a kilobyte: an emulator writes a short file of its own before the tool begins.
    for words in ["--out rack", "--out fresh", ">page"] {
        let (status, _, said) = folder.shell(&format!("(ulimit -f 32; bhinorpa bundle --as-is --token long {words})"));
        assert_eq!(status, 2, "{words}: {said}");
        assert!(said.contains(" cannot be written") && said.ends_with("File too large\n"), "{words}: {said}");
    }
    fs::remove_file(folder.0.join("page")).unwrap();
    assert_eq!(folder.files(), before);
}

#[test]
fn a_full_file_system_leaves_the_old_file() {
    let folder = with_token("small");
    let setup = "mkdir small && mount -t tmpfs -o size=8k tmpfs small && cp keys small && cp keys before";
    let fill = "head -c 100000 /dev/zero >small/filler 2>/dev/null";
    let line = "bhinorpa table --from small/keys --new a/b --out small/keys; echo $?; \
                cmp small/keys before && ls -A small";
    let script = format!("{setup} || exit 77; {fill}; {line}");
    let runner = std::env::var("CARGO_TARGET_X86_64_UNKNOWN_LINUX_GNU_RUNNER").unwrap_or_default();
    let tool = env!("CARGO_BIN_EXE_bhinorpa");
    let script = format!("bhinorpa() {{ {runner} \"{tool}\" \"$@\"; }}; {script}");
    let (status, printed, said) = folder.shell(&format!("unshare -m sh -c '{script}'"));
    if status != 0 && printed.is_empty() {
        println!("no file system of one's own on this machine: {said}");
        return;
    }
    assert_eq!(printed, "2\nfiller\nkeys\n", "{said}");
    assert!(said.contains("small/keys cannot be written, and nothing was changed: No space left on device"), "{said}");
}

#[test]
fn files_are_for_their_owner_whatever_stood_there() {
    let folder = with_token("modes");
    let path = |name: &str| folder.0.join(name);
    let mode = |name: &str| fs::metadata(path(name)).unwrap().permissions().mode() & 0o777;
    fs::set_permissions(path("keys"), fs::Permissions::from_mode(0o644)).unwrap();
    folder.write("open", b"something else");
    fs::set_permissions(path("open"), fs::Permissions::from_mode(0o666)).unwrap();
    folder.good("table --from keys --new a/b --out keys");
    folder.good("issue --table keys --tid workshop --kid k2 --methods GET --out open");
    folder.shell("umask 0; bhinorpa table --new a/b --out fresh");
    assert_eq!([mode("keys"), mode("open"), mode("fresh")], [0o600; 3]);
}

#[test]
fn a_link_stays_and_what_it_leads_to_is_replaced() {
    let folder = with_token("links");
    fs::create_dir(folder.0.join("safe")).unwrap();
    folder.good("table --new a/b --out safe/keys");
    symlink("safe/keys", folder.0.join("link")).unwrap();
    symlink("safe/nothing", folder.0.join("dangling")).unwrap();
    folder.good("table --from link --new c/d --out link");
    assert_eq!(folder.good("show --table safe/keys"), "a/b\nc/d\n");
    assert!(fs::symlink_metadata(folder.0.join("link")).unwrap().is_symlink());
    // By another name it is the same file, and through a link it is a table all the same.
    folder.good("table --from safe/keys --new e/f --out link");
    let (status, _, said) = folder.call("issue --table link --tid a --kid b --methods GET --out link");
    assert_eq!((status, said.as_str()), (2, "bhinorpa: link is there and is kept; with --replace it is lost\n"));
    let (status, _, said) = folder.call("table --new a/b --out dangling");
    assert_eq!((status, said.as_str()), (2, "bhinorpa: dangling cannot be written: it is a link to nothing\n"));
}

#[test]
fn input_is_read_no_further_than_it_may_go() {
    let folder = with_token("endless");
    let began = Instant::now();
    let cases = [
        (format!("hash --key {ONES} -"), "hash.bad"),
        ("verify --table - --token token --request asked".to_owned(), "table.bad"),
        ("verify --table keys --token - --request asked".to_owned(), "parse.bounds"),
        ("verify --table keys --token token --request -".to_owned(), "ctx.bad"),
        ("narrow --table keys --token - --exp 0".to_owned(), "parse.bounds"),
        ("issue --table - --tid workshop --kid k2 --methods GET".to_owned(), "table.bad"),
        ("table --from -".to_owned(), "table.bad"),
        ("table --row a/b=-".to_owned(), "over 8192 hex digits"),
        ("caveat --caveat -".to_owned(), "over 8192 hex digits"),
        ("show --request -".to_owned(), "ctx.bad"),
        ("bundle --token -".to_owned(), "parse.bounds"),
        ("bundle --as-is --token -".to_owned(), "65,535"),
    ];
    for (words, said) in cases {
        // Without an end, and a byte that every one of them would take for its own.
        let (_, _, errors) = folder.shell(&format!("yes 0 | tr -d '\\n' | bhinorpa {words}"));
        assert!(errors.contains(said), "{words}: {errors}");
    }
    // What is left is for whoever reads next.
    for (words, most) in [("show --request -", 1335), ("show --table -", 10_624), ("show --bundle -", 65_536)] {
        let line = format!("head -c 100000 /dev/zero | {{ bhinorpa {words} >/dev/null 2>&1; wc -c; }}");
        let (_, left, _) = folder.shell(&line);
        assert_eq!(left.trim(), (100_000 - most - 1).to_string(), "{words}");
    }
    let (_, left, _) = folder.shell("echo kept | { bhinorpa verify --table keys --token - 2>/dev/null; cat; }");
    assert_eq!(left, "kept\n");
    let (_, shown, _) = folder.shell("yes 0 | bhinorpa show --bundle -");
    assert_eq!(shown, "bundle.bad: over 65,536 bytes\n");
    assert!(began.elapsed().as_secs() < 120, "{} s", began.elapsed().as_secs());
}

#[test]
fn closed_input_is_no_empty_input() {
    let folder = with_token("closed");
    for words in [format!("hash --key {TWOS} -"), "show --table -".to_owned(), "show --bundle -".to_owned()] {
        let (status, printed, said) = folder.shell(&format!("bhinorpa {words} <&-"));
        let wanted = "bhinorpa: standard input cannot be read: Bad file descriptor\n";
        assert_eq!((status, printed.as_str(), said.as_str()), (2, "", wanted), "{words}");
    }
}
