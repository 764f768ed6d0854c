//! When tools/judge builds its program. It runs in a small repository of its own, whose `rt` proves nothing: it
//! puts the proved program where rt links it, and takes all of standard input. It stands outside the repository, in
//! which rt ci takes none of its files.

use std::fs;
use std::os::unix::fs::PermissionsExt;
use std::path::{Path, PathBuf};
use std::process::{Command, Stdio};

use tempfile::TempDir;

const RT: &str = "#!/bin/sh
cat >/dev/null
echo \"rt $* in ${PWD##*/}\"
[ ! -e ../../refuse ] || exit 1
mkdir -p out
cp \"$PROVED\" out/judge
";

const CRATES: &str = "# NAME: the libraries that it stands on\nbottom:\nbelow: bottom bytes\nbeside staticlib: bottom\n\n\
                      judge: below io\n";

const BUILT: &str = "judge: proving and building the program, which takes some minutes the first time\n\
                     rt run in judge\n";
const NO_TABLE: &[u8] = b"\x01\0\x10\0\0";
const TOKEN: &[u8] = b"\0\0\x30\0";

fn root() -> &'static Path {
    Path::new(env!("CARGO_MANIFEST_DIR")).ancestors().nth(2).expect("the repository's root")
}

fn write(path: PathBuf, bytes: &[u8]) {
    fs::create_dir_all(path.parent().expect("a folder")).expect("a folder in it");
    fs::write(path, bytes).expect("a file of the folder");
}

/// The small repository: four crates, the tools that are tried, and a bundle of a bad table and a token.
fn repository() -> TempDir {
    let made = tempfile::tempdir().expect("a folder");
    let folder = made.path();
    for name in ["judge", "freshness", "host-env"] {
        let tool = folder.join("tools").join(name);
        write(tool.clone(), b"");
        fs::copy(root().join("tools").join(name), tool).expect("a tool");
    }
    for name in ["bottom", "below", "beside", "judge"] {
        for part in ["src/lib.rt", "proofs/Laws.antt", "must-fail/one.edit"] {
            write(folder.join("crates").join(name).join(part), b"");
        }
    }
    write(folder.join("crates.txt"), CRATES.as_bytes());
    write(folder.join("bundle"), &[NO_TABLE, TOKEN].concat());
    let rt = folder.join("bin/rt");
    write(rt.clone(), RT.as_bytes());
    fs::set_permissions(rt, fs::Permissions::from_mode(0o755)).expect("a program");
    made
}

/// What a line of shell prints, says and ends with, in the small repository.
fn run(shell: &str, folder: &Path) -> (String, String, Option<i32>) {
    let proved = root().join("target/bin/judge");
    assert!(proved.is_file(), "there is no program {}: tools/judge makes it", proved.display());
    let path = std::env::var("PATH").expect("a path");
    let mut command = Command::new("bash");
    command.args(["-c", shell]).current_dir(folder).stdin(Stdio::null());
    command.env("PROVED", proved).env("PATH", format!("{}:{path}", folder.join("bin").display()));
    let output = command.output().expect("bash starts");
    let text = |bytes| String::from_utf8(bytes).expect("lines of text");
    (text(output.stdout), text(output.stderr), output.status.code())
}

#[test]
fn where_it_is_missing_or_a_source_that_it_stands_on_is_newer() {
    let folder = repository();
    let steps = [
        ("", BUILT),
        ("", ""),
        ("touch crates/judge/src/lib.rt", BUILT),
        ("touch crates/bottom/src/lib.rt", BUILT),
        ("touch crates/below/proofs/Laws.antt", BUILT),
        ("rm crates/below/proofs/Laws.antt", BUILT),
        ("mkdir crates/bottom/specs && touch crates/bottom/specs/New.antt", BUILT),
        ("touch crates.txt", BUILT),
        ("rm target/bin/judge", BUILT),
        ("touch crates/beside/src/lib.rt", ""),
        ("touch crates/judge/must-fail/one.edit", ""),
    ];
    for (change, said) in steps {
        let judged = run(&format!("{change}\ncat bundle | tools/judge -"), folder.path());
        let wanted = ("deny table.bad\n".to_owned(), said.to_owned(), Some(1));
        assert_eq!(judged, wanted, "after: {change}");
        let again = run("tools/judge bundle", folder.path());
        assert_eq!(again, (wanted.0, String::new(), Some(1)), "a second time after: {change}");
    }
}

#[test]
fn what_is_newer_while_it_is_built_counts_the_next_time() {
    let folder = repository();
    // Longer than the clock of any file system takes to go on.
    let saved = [RT, "sleep 0.1\ntouch ../below/src/lib.rt\n"].concat();
    fs::write(folder.path().join("bin/rt"), saved).expect("a program");
    for _ in 0..2 {
        assert_eq!(run("tools/judge bundle", folder.path()).1, BUILT);
    }
}

#[test]
fn a_build_that_fails() {
    let folder = repository();
    let refused = format!("{BUILT}judge: the program could not be proved and built\n");
    assert_eq!(run("touch refuse && tools/judge bundle", folder.path()), (String::new(), refused, Some(2)));
}

#[test]
fn without_the_kit_it_says_so() {
    let folder = repository();
    let said = "judge: the Rattle kit is needed to build this: rt is not on the path (README, 'The kit')\n";
    // A path of its own: wherever a machine has rt, it is not there.
    let needed = "bash dirname basename readlink awk find uname mktemp rm cat touch grep";
    let only = format!("rm bin/rt; for name in {needed}; do ln -s $(command -v $name) bin/; done");
    let shell = format!("{only}; PATH=$PWD/bin tools/judge bundle");
    assert_eq!(run(&shell, folder.path()), (String::new(), said.to_owned(), Some(2)));
}
