//! What the standard library has no words for: signals that are waited for, and a
//! pseudo-terminal's name. The only unsafe code of the command. Each call is lent
//! values of our own that outlive it, and its answer is looked at.

use std::ffi::{CStr, c_char};
use std::fs::File;
use std::io::{Error, Result};
use std::os::fd::{AsRawFd, FromRawFd};
use std::path::PathBuf;

/// What is readable once SIGINT or SIGTERM has come. They are held back from this
/// thread, so that they end nothing in between.
///
/// # Errors
///
/// Where the system has none to give.
pub fn signals() -> Result<File> {
    // SAFETY: a set of zeros is a set, and is emptied first; what signalfd hands
    // out is new, and nobody else's to close.
    unsafe {
        let mut set: libc::sigset_t = std::mem::zeroed();
        libc::sigemptyset(&mut set);
        libc::sigaddset(&mut set, libc::SIGINT);
        libc::sigaddset(&mut set, libc::SIGTERM);
        worked(libc::pthread_sigmask(
            libc::SIG_BLOCK,
            &set,
            std::ptr::null_mut(),
        ))?;
        match libc::signalfd(-1, &set, libc::SFD_CLOEXEC | libc::SFD_NONBLOCK) {
            ..0 => Err(Error::last_os_error()),
            signals => Ok(File::from_raw_fd(signals)),
        }
    }
}

/// Opens the other side of a pseudo-terminal for clients; its name.
///
/// # Errors
///
/// Where this is none.
pub fn opened(master: &File) -> Result<PathBuf> {
    let (master, mut name) = (master.as_raw_fd(), [0 as c_char; 64]);
    // SAFETY: the descriptor is open as long as its file is lent; of the name only
    // as many bytes are written as it has, and a zero ends them.
    let name = unsafe {
        if libc::grantpt(master) != 0 || libc::unlockpt(master) != 0 {
            return Err(Error::last_os_error());
        }
        worked(libc::ptsname_r(master, name.as_mut_ptr(), name.len()))?;
        CStr::from_ptr(name.as_ptr())
    };
    Ok(PathBuf::from(name.to_string_lossy().into_owned()))
}

/// An answer that is 0, or the error's number.
fn worked(answer: i32) -> Result<()> {
    match answer {
        0 => Ok(()),
        error => Err(Error::from_raw_os_error(error)),
    }
}
