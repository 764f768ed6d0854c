//! tools/judge from outside: the lines that it prints, what it says on standard error, and the exit status
//! that it makes of them. Each case is a line of shell, as a person would type it.

use std::fs;
use std::path::Path;
use std::process::{Command, Output, Stdio};

use checks::bundles::{Bundle, REQUEST, TABLE, TOKEN};
use checks::samples;
use tempfile::TempDir;

const UNREAD: &str = "judge: standard input could not be read";
const UNWRITTEN: &str = "judge: standard output could not be written";
const UNKNOWN: &str = "; tools/judge --help lists them";

/// How a line of shell ends; `$J` in it stands for the tool. Of standard error the first line counts.
struct Case {
    shell: &'static str,
    status: i32,
    printed: &'static str,
    said: String,
}

fn case(shell: &'static str, status: i32, printed: &'static str, said: &str) -> Case {
    Case { shell, status, printed, said: said.to_owned() }
}

fn root() -> &'static Path {
    Path::new(env!("CARGO_MANIFEST_DIR")).ancestors().nth(2).expect("the repository's root")
}

/// A folder with bundles by name, in which the lines are run: all allowed, one denied, none, and bad ones. It stands
/// outside the repository, in which rt ci takes no links.
fn folder() -> TempDir {
    let folder = tempfile::tempdir().expect("a folder");
    fs::create_dir(folder.path().join("folder")).expect("a folder of the folder");
    let good = samples::of_caveats(3).laid();
    let front = vec![(TABLE, good.table), (REQUEST, good.request)];
    let with = |texts: &[&[u8]]| {
        let tokens = texts.iter().map(|text| (TOKEN, text.to_vec()));
        Bundle { records: front.iter().cloned().chain(tokens).collect() }.laid()
    };
    let allowed = with(&[&good.text, &good.text]);
    let files = [
        ("denied", with(&[&good.text, b"_x", &good.text])),
        ("cut", allowed[..allowed.len() - 1].to_vec()),
        ("long", vec![0; 65_537]),
        ("empty", vec![]),
        ("-n", allowed.clone()),
        ("two words", allowed.clone()),
        ("allowed", allowed),
    ];
    for (name, bytes) in files {
        fs::write(folder.path().join(name), bytes).expect("a file of the folder");
    }
    folder
}

/// Where the program is missing this says so, instead of proving it all first.
fn run(shell: &str, folder: &Path) -> Output {
    let program = root().join("target/bin/judge");
    assert!(program.is_file(), "there is no program {}: tools/judge makes it", program.display());
    let mut command = Command::new("bash");
    command.args(["-c", shell]).env("J", root().join("tools/judge")).current_dir(folder);
    command.stdin(Stdio::null()).output().expect("bash starts")
}

fn held(cases: impl IntoIterator<Item = Case>, folder: &Path) {
    for Case { shell, status, printed, said } in cases {
        let output = run(shell, folder);
        let error = String::from_utf8_lossy(&output.stderr);
        assert_eq!(String::from_utf8_lossy(&output.stdout), printed, "printed by {shell}; it said {error}");
        assert_eq!(error.lines().next().unwrap_or_default(), said, "said by {shell}");
        assert_eq!(output.status.code(), Some(status), "the status of {shell}");
    }
}

/// Bundles that are judged, and how their lines are numbered.
fn judged() -> Vec<Case> {
    vec![
        case("$J allowed", 0, "allow\nallow\n", ""),
        case("$J 'two words'", 0, "allow\nallow\n", ""),
        case("$J -- -n", 0, "allow\nallow\n", ""),
        case("$J - <allowed", 0, "allow\nallow\n", ""),
        case("cat allowed | $J -- -", 0, "allow\nallow\n", ""),
        case("$J <(cat allowed)", 0, "allow\nallow\n", ""),
        case("$J -n allowed", 0, "1 allow\n2 allow\n", ""),
        case("$J denied", 1, "allow\ndeny parse.b64\nallow\n", ""),
        case("$J denied -n", 1, "1 allow\n2 deny parse.b64\n3 allow\n", ""),
        case("$J cut", 1, "allow\nbundle.bad\n", ""),
        case("$J -n - <cut", 1, "1 allow\n2 bundle.bad\n", ""),
        case("$J long", 1, "bundle.bad\n", ""),
        case("$J empty", 0, "", ""),
        case("$J -n -", 0, "", ""),
    ]
}

/// Names and options that are refused before anything is read.
fn refused() -> Vec<Case> {
    let option = |shell, name| case(shell, 2, "", &format!("judge: there is no option '{name}'{UNKNOWN}"));
    let many = "judge: one bundle at a time, and here are 2; tools/judge --help says more";
    vec![
        case("$J ''", 2, "", "judge: the name of the bundle is empty"),
        case("$J -n -- ''", 2, "", "judge: the name of the bundle is empty"),
        case("$J missing", 2, "", "judge: there is no file missing"),
        case("$J folder", 2, "", "judge: folder is a folder"),
        case("$J allowed denied", 2, "", many),
        case("$J - - <allowed", 2, "", many),
        case("$J -- allowed -n", 2, "", many),
        option("$J -x allowed", "-x"),
        option("$J -nh", "-nh"),
        option("$J --numbers allowed", "--numbers"),
    ]
}

/// Standard input and output that fail. A pipe that nobody reads is one whose only reader has closed it
/// before anything is written.
fn failing() -> Vec<Case> {
    vec![
        case("$J - <&-", 2, "bundle.bad\n", UNREAD),
        case("$J - </", 2, "bundle.bad\n", UNREAD),
        case("$J -n - 0>/dev/null", 2, "1 bundle.bad\n", UNREAD),
        case("$J allowed <&-", 0, "allow\nallow\n", ""),
        case("$J allowed >/dev/full", 2, "", UNWRITTEN),
        case("$J denied -n >/dev/full", 2, "", UNWRITTEN),
        case("$J allowed >&-", 2, "", UNWRITTEN),
        case("$J --help >/dev/full", 2, "", UNWRITTEN),
        // Where nothing can be said either, the status says it.
        case("$J missing 2>&-", 2, "", ""),
        case("$J -x 2>/dev/full", 2, "", ""),
        case("$J - <&- 2>/dev/full", 2, "bundle.bad\n", ""),
        case("$J allowed >&- 2>&-", 2, "", ""),
        case("TMPDIR=/missing $J allowed 2>/dev/null", 2, "", ""),
        // A folder that the shell would look for is not taken for the repository's; a link is followed.
        case("cd \"$(dirname \"$J\")/..\" && CDPATH=. tools/judge \"$OLDPWD/allowed\"", 0, "allow\nallow\n", ""),
        case("ln -sf \"$J\" link && ./link allowed", 0, "allow\nallow\n", ""),
        case("mkfifo p1 && exec 4<>p1 3>p1 4<&- && $J denied >&3", 2, "", ""),
        case("mkfifo p2 && exec 4<>p2 3>p2 4<&- && trap '' PIPE && $J denied >&3", 2, "", ""),
    ]
}

#[test]
fn lines_messages_and_statuses() {
    let folder = folder();
    held(judged().into_iter().chain(refused()).chain(failing()), folder.path());
}

#[test]
fn without_a_name_it_judges_the_sample() {
    let lines = fs::read_to_string(root().join("examples/sample.txt")).expect("examples/sample.txt");
    let output = run("$J", root());
    assert_eq!((String::from_utf8_lossy(&output.stdout), output.status.code()), (lines.into(), Some(1)));
}

#[test]
fn help_says_the_statuses() {
    for shell in ["$J -h", "$J --help", "$J -n allowed --help"] {
        let output = run(shell, root());
        let printed = String::from_utf8_lossy(&output.stdout);
        assert!(printed.starts_with("usage: tools/judge [-n] [--] [FILE]\n"), "{shell}: {printed}");
        for status in ["\n  0  every line", "\n  1  a line is not", "\n  2  the bundle could not be read"] {
            assert!(printed.contains(status), "{shell}: {printed}");
        }
        assert_eq!((output.status.code(), output.stderr.len()), (Some(0), 0), "{shell}");
    }
}
