//! Standard input that cannot be read, or not to its end, and standard output that cannot be written. Where a
//! read fails the program prints "bundle.bad" and nothing else, whatever came before; each failure is told on
//! standard error.

use std::fs::{File, OpenOptions};
use std::io::Write;
use std::os::fd::OwnedFd;
use std::os::unix::net::UnixStream;
use std::process::{Command, Output, Stdio};

use checks::bundles::{self, Bundle, LONGEST, REQUEST, TABLE, TOKEN};
use checks::judges::Judge;
use checks::{samples, Seeded};

const UNREAD: &str = "judge: standard input could not be read\n";
const UNWRITTEN: &str = "judge: standard output could not be written\n";

/// A bundle of one allowed token, and where each of its records ends.
fn allowed() -> (Bundle, Vec<usize>) {
    let triple = samples::of_caveats(3).laid();
    let records = vec![(TABLE, triple.table), (REQUEST, triple.request), (TOKEN, triple.text)];
    let end = |n| Bundle { records: records[..n].to_vec() }.length();
    let ends = (1..=records.len()).map(end).collect();
    (Bundle { records }, ends)
}

/// The program, with what the shell is told of it: `"$@"` stands for it.
fn judge(shell: &str) -> Command {
    let mut command = Command::new("sh");
    command.args(["-c", shell, "sh"]).args(Judge::new("failures").words());
    command
}

fn run(mut command: Command) -> Output {
    let output = command.stderr(Stdio::piped()).spawn().and_then(|child| child.wait_with_output());
    output.expect("the program starts")
}

/// What the program was given could not be read.
fn unread(stdin: impl Into<Stdio>, given: &str) {
    let mut command = judge("exec \"$@\"");
    command.stdin(stdin).stdout(Stdio::piped());
    told(&run(command), "bundle.bad\n", UNREAD, given);
}

fn told(output: &Output, printed: &str, said: &str, given: &str) {
    assert_eq!(String::from_utf8_lossy(&output.stdout), printed, "on standard output, for {given}");
    assert_eq!(String::from_utf8_lossy(&output.stderr), said, "on standard error, for {given}");
    assert!(output.status.success(), "it ended with {}, for {given}", output.status);
}

/// A stream that brings these bytes and then fails: its other end is gone with a byte that it never read.
fn broken(bytes: &[u8]) -> OwnedFd {
    let (mut near, mut far) = UnixStream::pair().expect("two ends");
    near.write_all(b"?").expect("a byte fits");
    far.write_all(bytes).expect("a bundle fits");
    near.into()
}

#[test]
fn standard_input_that_is_closed() {
    let mut command = judge("exec \"$@\" <&-");
    command.stdout(Stdio::piped());
    told(&run(command), "bundle.bad\n", UNREAD, "none");
}

#[test]
fn what_is_no_file_to_read() {
    unread(File::open("/").expect("a folder"), "a folder");
    unread(File::open("/proc/self/mem").expect("memory"), "memory, where nothing is at its front");
    let written = OpenOptions::new().write(true).open("/dev/null");
    unread(written.expect("a device"), "a descriptor that is for writing");
}

#[test]
fn a_stream_that_breaks_off() {
    let (bundle, ends) = allowed();
    let laid = bundle.laid();
    let inside = ends.iter().flat_map(|end| [end - 1, *end, end + 1]).filter(|end| *end <= laid.len());
    for end in [0, 1, 3, 4, 5].into_iter().chain(inside) {
        unread(broken(&laid[..end]), &format!("{end} bytes of {}", laid.len()));
    }
    let most = bundles::filled(&bundle, LONGEST, &mut Seeded(210));
    unread(broken(&most), "as many bytes as a bundle may have");
}

#[test]
fn a_stream_that_does_not_wait() {
    let (bundle, ends) = allowed();
    for end in [0, ends[1], ends[2]] {
        let (near, mut far) = UnixStream::pair().expect("two ends");
        near.set_nonblocking(true).expect("a flag");
        far.write_all(&bundle.laid()[..end]).expect("a bundle fits");
        unread(OwnedFd::from(near), &format!("{end} bytes, and no more yet"));
    }
}

/// The program with a good bundle, and its standard output.
fn unwritten(shell: &str, stdout: Stdio, given: &str) {
    let (near, mut far) = UnixStream::pair().expect("two ends");
    far.write_all(&allowed().0.laid()).expect("a bundle fits");
    drop(far);
    let mut command = judge(shell);
    command.stdin(OwnedFd::from(near)).stdout(stdout);
    told(&run(command), "", UNWRITTEN, given);
}

fn full() -> Stdio {
    OpenOptions::new().write(true).open("/dev/full").expect("a device that is always full").into()
}

#[test]
fn standard_output_that_takes_nothing() {
    unwritten("exec \"$@\" >&-", Stdio::null(), "none");
    unwritten("exec \"$@\"", full(), "a full device");
    let read = File::open("/dev/null").expect("a device");
    unwritten("exec \"$@\"", read.into(), "a descriptor that is for reading");
    // The program's start ignores the signal for it, as whoever starts the program may.
    for shell in ["exec \"$@\"", "trap '' PIPE; exec \"$@\""] {
        let (near, _) = UnixStream::pair().expect("two ends");
        unwritten(shell, OwnedFd::from(near).into(), "a stream that nobody reads");
    }
}

#[test]
fn neither_read_nor_written() {
    let mut command = judge("exec \"$@\"");
    command.stdin(File::open("/").expect("a folder")).stdout(full());
    told(&run(command), "", &format!("{UNREAD}{UNWRITTEN}"), "a folder and a full device");
}
