//! What is read: whole, in part, or from standard input for `-`.
//!
//! Each file that a call reads is noted, so that none becomes its output.

use crate::error::Error;
use crate::numbers::grouped;
use std::collections::BTreeSet;
use std::fs::{File, Metadata};
use std::io::{ErrorKind, Read, Seek, SeekFrom};
use std::os::unix::fs::MetadataExt;
use std::path::Path;
use std::sync::Mutex;

/// One name for a file, however it is called: its device and its number there.
pub type Identity = (u64, u64);

/// The most bytes that a text has.
const LONGEST_TEXT: usize = 64 << 20;

/// What this call has read so far; the flag is for standard input.
static READ: Mutex<(BTreeSet<Identity>, bool)> = Mutex::new((BTreeSet::new(), false));

/// A new call has read nothing yet.
pub fn forget() {
    if let Ok(mut read) = READ.lock() {
        *read = (BTreeSet::new(), false);
    }
}

/// A file's identity.
#[must_use]
pub fn identity(metadata: &Metadata) -> Identity {
    (metadata.dev(), metadata.ino())
}

/// Whether this call has read the file.
#[must_use]
pub fn was_read(identity: Identity) -> bool {
    READ.lock().is_ok_and(|read| read.0.contains(&identity))
}

/// Notes a file that is read by other means.
pub fn note(metadata: &Metadata) {
    if let (true, Ok(mut read)) = (metadata.is_file(), READ.lock()) {
        read.0.insert(identity(metadata));
    }
}

/// A file's bytes, `most` of them at the most.
///
/// # Errors
///
/// Where it cannot be read, or has more.
pub fn read(path: &Path, most: usize) -> Result<Vec<u8>, Error> {
    if there(path)?.is_some_and(|there| there.is_file()) {
        measured(path, most)?;
    }
    let bytes = read_up_to(path, most)?;
    match bytes.len() > most {
        true => Err(too_long(path, most)),
        false => Ok(bytes),
    }
}

/// That a regular file can be read and has at most so many bytes; none of them
/// is read for that.
///
/// # Errors
///
/// Where it cannot, or has more.
pub fn measured(path: &Path, most: usize) -> Result<(), Error> {
    match readable(path)?.len() > most as u64 {
        true => Err(too_long(path, most)),
        false => Ok(()),
    }
}

fn too_long(path: &Path, most: usize) -> Error {
    Error::file(path, format_args!("has over {} bytes", grouped(most)))
}

/// What is under a name, without opening it: a pipe would lose what was written
/// to it. `-` is no name.
///
/// # Errors
///
/// Where there is nothing.
pub fn there(path: &Path) -> Result<Option<Metadata>, Error> {
    match path == Path::new("-") {
        true => Ok(None),
        false => match std::fs::metadata(path) {
            Ok(there) => Ok(Some(there)),
            Err(error) => Err(unreadable(path, &error)),
        },
    }
}

/// A file's bytes, but one more than `most` at the most: a file of the wrong
/// size needs no more of it to be found out.
///
/// # Errors
///
/// Where it cannot be read.
pub fn read_up_to(path: &Path, most: usize) -> Result<Vec<u8>, Error> {
    let mut bytes = Vec::new();
    let most = most as u64 + 1;
    let taken = match path == Path::new("-") {
        true => standard_input(path)?.take(most).read_to_end(&mut bytes),
        false => open(path)?.take(most).read_to_end(&mut bytes),
    };
    taken.map_err(|error| unreadable(path, &error))?;
    Ok(bytes)
}

/// A file's `length` bytes from a place on; nothing else of it is read.
///
/// # Errors
///
/// Where it cannot be read, or has fewer.
pub fn part(path: &Path, at: u64, length: usize) -> Result<Vec<u8>, Error> {
    let mut bytes = Vec::new();
    let mut file = open(path)?;
    file.seek(SeekFrom::Start(at))
        .and_then(|_| file.take(length as u64).read_to_end(&mut bytes))
        .map_err(|error| unreadable(path, &error))?;
    match bytes.len() < length {
        true => Err(Error::file(
            path,
            format_args!("ends before place {}", at + length as u64),
        )),
        false => Ok(bytes),
    }
}

/// A file's text, without a byte order mark.
///
/// # Errors
///
/// Where it cannot be read, or is not UTF-8.
pub fn text(path: &Path) -> Result<String, Error> {
    let text = String::from_utf8(read(path, LONGEST_TEXT)?);
    let text = text.map_err(|error| {
        let good = &error.as_bytes()[..error.utf8_error().valid_up_to()];
        let line = 1 + good.iter().filter(|byte| **byte == b'\n').count();
        Error::line(path, line, "this is not text in UTF-8")
    })?;
    Ok(text.trim_start_matches('\u{FEFF}').to_string())
}

/// That a regular file can be read, before any work is done.
///
/// # Errors
///
/// Where it cannot.
pub fn readable(path: &Path) -> Result<Metadata, Error> {
    let file = open(path)?;
    file.metadata().map_err(|error| unreadable(path, &error))
}

fn open(path: &Path) -> Result<File, Error> {
    let opened = File::open(path).and_then(|file| Ok((file.metadata()?, file)));
    let (metadata, file) = opened.map_err(|error| unreadable(path, &error))?;
    if metadata.is_dir() {
        return Err(Error::file(path, "cannot be read: it is a folder"));
    }
    note(&metadata);
    Ok(file)
}

fn standard_input(path: &Path) -> Result<std::io::Stdin, Error> {
    let before = READ
        .lock()
        .map(|mut read| std::mem::replace(&mut read.1, true));
    match before {
        Ok(false) => Ok(std::io::stdin()),
        _ => Err(Error::file(path, "standard input is read once only")),
    }
}

fn unreadable(path: &Path, error: &std::io::Error) -> Error {
    Error::file(path, format_args!("cannot be read: {}", plain(error)))
}

/// The system's words without its number, where we have better ones.
#[must_use]
pub fn plain(error: &std::io::Error) -> String {
    match error.kind() {
        ErrorKind::NotFound => "no such file or folder".to_string(),
        ErrorKind::PermissionDenied => "not allowed".to_string(),
        ErrorKind::IsADirectory => "it is a folder".to_string(),
        ErrorKind::StorageFull => "no room is left".to_string(),
        _ => error.to_string(),
    }
}
