//! A folder of a test's own, in which the tool is called as a shell calls it. It stands outside the repository, in
//! which rt ci takes no links.

#![allow(dead_code)] // each test file uses a part of it

use std::collections::BTreeMap;
use std::io::Write;
use std::path::PathBuf;
use std::process::{Command, Stdio};
use std::{env, fs};

use tempfile::TempDir;

/// What tools/host-env sets where x86-64 programs are run through an emulator.
const RUNNER: &str = "CARGO_TARGET_X86_64_UNKNOWN_LINUX_GNU_RUNNER";

pub const ONES: &str = "0101010101010101010101010101010101010101010101010101010101010101";
pub const TWOS: &str = "0202020202020202020202020202020202020202020202020202020202020202";
pub const DIGEST: &str = "9f86d081884c7d659a2feaa0c55ad015a3bf4f1b2b0b822cd15d6c15b0f00a08";

/// Status, standard output and standard error.
pub type Said = (i32, String, String);

pub struct Folder(pub PathBuf, TempDir);

impl Folder {
    pub fn new(test: &str) -> Folder {
        let folder = tempfile::Builder::new().prefix(&format!("bhinorpa-{test}-")).tempdir().unwrap();
        Folder(folder.path().to_owned(), folder)
    }

    /// With a table of two tenants in `keys`.
    pub fn with_keys(test: &str) -> Folder {
        let folder = Folder::new(test);
        folder.good(&format!("table --row workshop/k2={TWOS} --row contractor/k1={ONES} --out keys"));
        folder
    }

    /// Runs a line of shell in which `bhinorpa` is the tool.
    pub fn fed(&self, line: &str, input: &[u8]) -> Said {
        let runner = env::var(RUNNER).unwrap_or_default();
        let tool = env!("CARGO_BIN_EXE_bhinorpa");
        let script = format!("bhinorpa() {{ {runner} '{tool}' \"$@\"; }}\n{line}");
        let mut command = Command::new("sh");
        command.args(["-c", &script]).current_dir(&self.0);
        command.stdin(Stdio::piped()).stdout(Stdio::piped()).stderr(Stdio::piped());
        let mut child = command.spawn().unwrap();
        // A tool that reads no more than it needs may be gone before all is written.
        let _ = child.stdin.take().unwrap().write_all(input);
        let output = child.wait_with_output().unwrap();
        let text = |bytes: Vec<u8>| String::from_utf8_lossy(&bytes).into_owned();
        (output.status.code().unwrap_or(-1), text(output.stdout), text(output.stderr))
    }

    pub fn shell(&self, line: &str) -> Said {
        self.fed(line, b"")
    }

    /// One call of the tool, with its words as a shell reads them.
    pub fn call(&self, words: &str) -> Said {
        self.shell(&format!("bhinorpa {words}"))
    }

    /// What a call prints that does what it should.
    pub fn good(&self, line: &str) -> String {
        let (status, printed, said) = self.call(line);
        assert_eq!((status, said.as_str()), (0, ""), "{line}");
        printed
    }

    /// A call whose token the library denies, by this name.
    pub fn denied(&self, line: &str, name: &str) {
        let (status, printed, _) = self.call(line);
        assert_eq!((status, printed), (1, format!("deny {name}\n")), "{line}");
    }

    pub fn read(&self, name: &str) -> Vec<u8> {
        fs::read(self.0.join(name)).unwrap()
    }

    pub fn write(&self, name: &str, bytes: &[u8]) {
        fs::write(self.0.join(name), bytes).unwrap();
    }

    /// Every file with its bytes.
    pub fn files(&self) -> BTreeMap<String, Vec<u8>> {
        let entries = fs::read_dir(&self.0).unwrap().map(|entry| entry.unwrap());
        let files = entries.filter(|entry| entry.path().is_file());
        files.map(|entry| (entry.file_name().into_string().unwrap(), fs::read(entry.path()).unwrap())).collect()
    }
}
