//! The proved program that judges bundles beside the second program: what it prints on each bundle is
//! compared byte for byte, and each line is counted.

use std::collections::BTreeMap;
use std::ffi::OsString;
use std::fs::File;
use std::io::Write;
use std::path::{Path, PathBuf};
use std::process::{ChildStdin, Command, Output, Stdio};
use std::thread;
use std::time::Duration;

/// Names another program to be judged by.
const OTHER: &str = "BHINORPA_JUDGE";

/// What tools/host-env sets where x86-64 programs are run through an emulator. There the tests are too, and
/// what they start is not.
const RUNNER: &str = "CARGO_TARGET_X86_64_UNKNOWN_LINUX_GNU_RUNNER";

/// Where the proved program stands, from the repository's root on.
const PROVED: &str = "target/bin/judge";

pub const BAD: &str = "bundle.bad";

/// How a bundle comes to the program's standard input.
#[derive(Clone, Copy)]
pub enum By {
    Pipe,
    /// In pieces of so many bytes with a pause behind each, so that one reading does not get all.
    Pieces(usize),
    File,
}

/// How many bundles were compared, and how often each line was printed for them.
pub struct Judge {
    program: PathBuf,
    room: PathBuf,
    bundles: usize,
    lines: BTreeMap<String, usize>,
}

impl Judge {
    /// `test` is a name that no other test has, for the files that are kept.
    pub fn new(test: &str) -> Judge {
        let root = Path::new(env!("CARGO_MANIFEST_DIR")).ancestors().nth(2).expect("the repository's root");
        let program = std::env::var_os(OTHER).map_or(root.join(PROVED), PathBuf::from);
        if !program.is_file() {
            panic!("there is no program {}: tools/judge makes it, or {OTHER} names another", program.display());
        }
        let kept = root.join("host/target/bundles");
        std::fs::create_dir_all(&kept).expect("host/target can be written");
        let room = kept.join(format!("{test}.bundle"));
        Judge { program, room, bundles: 0, lines: BTreeMap::new() }
    }

    pub fn judge(&mut self, bundle: &[u8]) {
        self.judge_by(By::Pipe, bundle);
    }

    /// The same of a bundle that was made for these lines; what both sides have wrong shows here.
    pub fn expect(&mut self, bundle: &[u8], lines: &str) {
        let second = second::bundle::lines(bundle);
        assert_eq!(String::from_utf8_lossy(&second), lines, "the second program on {}", self.kept(bundle));
        self.judge(bundle);
    }

    pub fn judge_by(&mut self, by: By, bundle: &[u8]) {
        let wanted = second::bundle::lines(bundle);
        let printed = self.run(by, bundle);
        if printed.stdout != wanted {
            let place = differ(&printed.stdout, &wanted);
            panic!("{} {place}, on {}", self.program.display(), self.kept(bundle));
        }
        assert!(printed.status.success(), "the program ended with {}, on {}", printed.status, self.kept(bundle));
        self.bundles += 1;
        for line in String::from_utf8_lossy(&wanted).lines() {
            *self.lines.entry(line.to_owned()).or_default() += 1;
        }
    }

    /// The words that start the program.
    pub fn words(&self) -> Vec<OsString> {
        std::env::var_os(RUNNER).into_iter().chain([self.program.clone().into()]).collect()
    }

    fn run(&self, by: By, bundle: &[u8]) -> Output {
        let words = self.words();
        let mut command = Command::new(&words[0]);
        command.args(&words[1..]).stdout(Stdio::piped()).stderr(Stdio::piped());
        if let By::File = by {
            self.kept(bundle);
            command.stdin(File::open(&self.room).expect("a file that was written"));
        } else {
            command.stdin(Stdio::piped());
        }
        let mut child = command.spawn().expect("the program starts");
        let stdin = child.stdin.take();
        // Lines are read while the bundle is written: neither need wait for a full pipe.
        thread::scope(|scope| {
            scope.spawn(|| stdin.map(|stdin| feed(by, stdin, bundle)));
            child.wait_with_output().expect("the program's output")
        })
    }

    /// Keeps a bundle for whoever looks into a failure, and says where.
    fn kept(&self, bundle: &[u8]) -> String {
        std::fs::write(&self.room, bundle).expect("host/target/bundles can be written");
        format!("{} bytes, kept in {}", bundle.len(), self.room.display())
    }

    /// How many tokens were judged.
    pub fn tokens(&self) -> usize {
        self.lines.iter().filter(|(line, _)| *line != BAD).map(|(_, count)| count).sum()
    }

    /// How often a line was printed.
    pub fn of(&self, line: &str) -> usize {
        self.lines.get(line).copied().unwrap_or(0)
    }

    /// As many bundles were compared and as many tokens judged; else the inputs are not what they were.
    pub fn met(&self, bundles: usize, tokens: usize) {
        println!("{} bundles, {} tokens, by line {:?}", self.bundles, self.tokens(), self.lines);
        assert!(self.bundles >= bundles, "{} bundles compared of {bundles}", self.bundles);
        assert!(self.tokens() >= tokens, "{} tokens judged of {tokens}", self.tokens());
    }
}

/// A program may stop reading where it knows its answer, so a pipe that it has closed is no failure.
fn feed(by: By, mut stdin: ChildStdin, bundle: &[u8]) {
    let By::Pieces(length) = by else {
        let _ = stdin.write_all(bundle);
        return;
    };
    for piece in bundle.chunks(length) {
        let _ = stdin.write_all(piece);
        thread::sleep(Duration::from_millis(1));
    }
}

/// The first line that differs, on both sides.
fn differ(printed: &[u8], wanted: &[u8]) -> String {
    let lines = |bytes: &[u8]| -> Vec<String> {
        let ended = bytes.split_inclusive(|&byte| byte == b'\n');
        ended.map(|line| format!("{:?}", String::from_utf8_lossy(line))).collect()
    };
    let (printed, wanted) = (lines(printed), lines(wanted));
    let at = printed.iter().zip(&wanted).take_while(|(x, y)| x == y).count();
    let said = |lines: &[String]| lines.get(at).map_or("nothing".to_owned(), String::clone);
    format!("printed as line {} {}, not {}", at + 1, said(&printed), said(&wanted))
}
