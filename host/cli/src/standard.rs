//! Standard input and output as the process was given them. Rust opens /dev/null in the place of a closed one
//! before `main`, so that what is written there would be lost without a word; hence the look before that.

use std::fs::File;
use std::io;
use std::os::fd::AsFd;
use std::sync::atomic::{AtomicBool, Ordering};

static INPUT_CLOSED: AtomicBool = AtomicBool::new(false);
static OUTPUT_CLOSED: AtomicBool = AtomicBool::new(false);

/// The loader calls what stands in this section before Rust's own start.
#[used]
#[link_section = ".init_array"]
static LOOK: extern "C" fn() = look;

extern "C" fn look() {
    for (descriptor, closed) in [(0, &INPUT_CLOSED), (1, &OUTPUT_CLOSED)] {
        // SAFETY: the call asks for a descriptor's flags and changes nothing.
        let flags = unsafe { libc::fcntl(descriptor, libc::F_GETFD) };
        closed.store(flags == -1, Ordering::Relaxed);
    }
}

/// Without a buffer, which would take more than is asked for.
pub fn input() -> io::Result<File> {
    open(&INPUT_CLOSED)?;
    Ok(File::from(io::stdin().as_fd().try_clone_to_owned()?))
}

pub fn output() -> io::Result<io::Stdout> {
    open(&OUTPUT_CLOSED).map(|()| io::stdout())
}

fn open(closed: &AtomicBool) -> io::Result<()> {
    if closed.load(Ordering::Relaxed) {
        return Err(io::Error::from_raw_os_error(libc::EBADF));
    }
    Ok(())
}

/// A file that may not grow is then an error of the write that meets its limit, and no signal that ends the
/// process with its half-written file left behind.
pub fn limits_are_errors() {
    // SAFETY: ignoring a signal installs no handler.
    unsafe { libc::signal(libc::SIGXFSZ, libc::SIG_IGN) };
}
