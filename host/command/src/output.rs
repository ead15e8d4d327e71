//! What is written: whole or not at all, and over nothing that was not meant.
//!
//! A new file has no name until it is whole, where the file system can do that.
//! What is there is replaced only if asked, and keeps its mode, owner and
//! links. A pipe or device is written to. `-` is standard output, and so is a
//! name of the file that standard output goes to.

use crate::books;
use crate::error::Error;
use crate::files::{self, identity, plain};
use rustix::fs::{AtFlags, OFlags, cwd, linkat};
use std::fs::{self, File, Metadata, OpenOptions};
use std::hash::{BuildHasher, RandomState};
use std::io::{ErrorKind, Write, stderr, stdout};
use std::os::fd::{AsFd, AsRawFd};
use std::os::unix::fs::{FileTypeExt, MetadataExt, OpenOptionsExt, fchown};
use std::path::{Path, PathBuf};

/// The outputs of a call, none of which is written before `commit`.
#[derive(Debug)]
pub struct Outputs {
    force: bool,
    files: Vec<Output>,
    data: Option<Vec<u8>>,
}

#[derive(Debug)]
struct Output {
    called: PathBuf,
    path: PathBuf,
    bytes: Vec<u8>,
    there: There,
}

/// What is in an output's place.
#[derive(Debug)]
enum There {
    Nothing,
    File(Metadata),
    Pipe,
    StandardError,
}

impl Outputs {
    /// With `force`, files that are there are replaced.
    #[must_use]
    pub fn new(force: bool) -> Outputs {
        Outputs {
            force,
            files: Vec::new(),
            data: None,
        }
    }

    /// Whether a file may be written; asked before any work is done.
    ///
    /// # Errors
    ///
    /// Where it may not.
    pub fn check(&self, called: &Path) -> Result<(), Error> {
        match is_standard_output(called) {
            true => Ok(()),
            false => self.place(called).map(|_| ()),
        }
    }

    /// These bytes are to be written there.
    ///
    /// # Errors
    ///
    /// Where they may not.
    pub fn lay(&mut self, called: &Path, bytes: impl Into<Vec<u8>>) -> Result<(), Error> {
        if is_standard_output(called) {
            return match self.data.replace(bytes.into()) {
                None => Ok(()),
                Some(_) => Err(Error::wrong("two outputs cannot both be standard output")),
            };
        }
        let (path, there) = self.place(called)?;
        if self.files.iter().any(|other| other.path == path) {
            return Err(Error::file(called, "would be written twice by this call"));
        }
        self.files.push(Output {
            called: called.to_path_buf(),
            path,
            bytes: bytes.into(),
            there,
        });
        Ok(())
    }

    fn place(&self, called: &Path) -> Result<(PathBuf, There), Error> {
        let deny = |words: &str| Err(Error::file(called, words));
        if let Some(words) = books::denied(called) {
            return deny(words);
        }
        let Ok(metadata) = fs::metadata(called) else {
            return match called.is_symlink() {
                true => deny("cannot be written: it is a link to nothing"),
                false => Ok((beside(called)?, There::Nothing)),
            };
        };
        let kind = metadata.file_type();
        if kind.is_fifo() || kind.is_char_device() {
            return Ok((called.to_path_buf(), There::Pipe));
        }
        if !kind.is_file() {
            return deny("cannot be written: it is no file");
        }
        if is_open_as(&metadata, stderr()) {
            return Ok((called.to_path_buf(), There::StandardError));
        }
        if files::was_read(identity(&metadata)) {
            return deny("is read by this call, and cannot be its output");
        }
        if !self.force {
            return deny("is there already; --force replaces it");
        }
        let path = fs::canonicalize(called).map_err(|error| unwritable(called, &error))?;
        Ok((path, There::File(metadata)))
    }

    /// Writes all of it; what was meant for standard output is handed back.
    ///
    /// # Errors
    ///
    /// Where some file cannot be written; then no new file has appeared.
    pub fn commit(self) -> Result<Option<Vec<u8>>, Error> {
        let fresh: Result<Vec<Fresh>, Error> = self.files.iter().map(Fresh::of).collect();
        let mut appeared: Vec<&Path> = Vec::new();
        for (output, fresh) in self.files.iter().zip(fresh?) {
            if let Err(error) = fresh.settle(output) {
                appeared.iter().for_each(|path| drop(fs::remove_file(path)));
                return Err(unwritable(&output.called, &error));
            }
            if matches!(output.there, There::Nothing) {
                appeared.push(&output.path);
            }
        }
        Ok(self.data)
    }
}

/// Writes to standard output. What cannot be written is lost, and that is told; a
/// reader that has seen enough, as `head`, is no failure of ours.
///
/// # Errors
///
/// Where it cannot be written.
pub fn print(bytes: &[u8]) -> Result<(), Error> {
    let mut out = stdout().lock();
    match out.write_all(bytes).and_then(|()| out.flush()) {
        Err(error) if error.kind() != ErrorKind::BrokenPipe => {
            Err(unwritable(Path::new("standard output"), &error))
        }
        _ => Ok(()),
    }
}

/// Whether this is standard output, or a name of the file that it goes to: that
/// one is written on, and not replaced.
fn is_standard_output(called: &Path) -> bool {
    let there = || fs::metadata(called).is_ok_and(|there| is_open_as(&there, stdout()));
    called == Path::new("-") || there()
}

/// Whether a regular file is the one that a stream of ours goes to.
fn is_open_as(file: &Metadata, stream: impl AsFd) -> bool {
    let open = stream.as_fd().try_clone_to_owned().map(File::from);
    let open = open.and_then(|open| open.metadata());
    file.is_file() && open.is_ok_and(|open| identity(&open) == identity(file))
}

/// A new file by its folder's one name and its own.
fn beside(called: &Path) -> Result<PathBuf, Error> {
    let Some(name) = called.file_name() else {
        return Err(Error::file(
            called,
            "cannot be written: this is no file name",
        ));
    };
    let folder = fs::canonicalize(folder(called));
    let folder = folder.map_err(|error| unwritable(called, &error))?;
    Ok(folder.join(name))
}

fn folder(path: &Path) -> &Path {
    match path.parent() {
        Some(folder) if !folder.as_os_str().is_empty() => folder,
        _ => Path::new("."),
    }
}

fn unwritable(path: &Path, error: &std::io::Error) -> Error {
    Error::file(path, format_args!("cannot be written: {}", plain(error)))
}

/// New contents that are whole and have no place yet.
enum Fresh {
    /// A file without a name.
    Unnamed(File),
    /// A file under a hidden name, where there are none without.
    Hidden(Hidden),
    /// What is there is written over: a pipe, or a file with links to keep.
    Over,
}

impl Fresh {
    fn of(output: &Output) -> Result<Fresh, Error> {
        let made = match &output.there {
            There::Pipe | There::StandardError => Ok(Fresh::Over),
            There::File(old) if old.nlink() > 1 => Ok(Fresh::Over),
            _ => Fresh::written(output),
        };
        made.map_err(|error| unwritable(&output.called, &error))
    }

    fn written(output: &Output) -> std::io::Result<Fresh> {
        let mut options = OpenOptions::new();
        options
            .write(true)
            .custom_flags(OFlags::TMPFILE.bits() as i32);
        let fresh = match options.open(folder(&output.path)) {
            Ok(unnamed) => Fresh::Unnamed(unnamed),
            Err(_) => Fresh::Hidden(Hidden::new(&output.path)?),
        };
        let mut file = fresh.file();
        file.write_all(&output.bytes)?;
        if let There::File(old) = &output.there {
            file.set_permissions(old.permissions())?;
            let ours = file.metadata()?;
            let same = (ours.uid(), ours.gid()) == (old.uid(), old.gid());
            // Another's file that is not ours to give away stays its owner's.
            if !same && fchown(file, Some(old.uid()), Some(old.gid())).is_err() {
                return Ok(Fresh::Over);
            }
        }
        file.sync_all()?;
        Ok(fresh)
    }

    fn file(&self) -> &File {
        match self {
            Fresh::Unnamed(file) | Fresh::Hidden(Hidden { file, .. }) => file,
            Fresh::Over => unreachable!("it has no file of its own"),
        }
    }

    /// Puts the contents where they belong.
    fn settle(self, output: &Output) -> std::io::Result<()> {
        let fresh = match (self, &output.there) {
            (Fresh::Over, _) => return over(output),
            (Fresh::Unnamed(file), There::Nothing) => return name(&file, &output.path),
            (Fresh::Unnamed(file), _) => Hidden::named(file, &output.path)?,
            (Fresh::Hidden(hidden), _) => hidden,
        };
        match output.there {
            There::Nothing => fs::hard_link(&fresh.path, &output.path),
            _ => fs::rename(&fresh.path, &output.path),
        }
    }
}

/// Gives a file without a name this one, which nothing has.
fn name(file: &File, path: &Path) -> std::io::Result<()> {
    let unnamed = format!("/proc/self/fd/{}", file.as_raw_fd());
    Ok(linkat(
        cwd(),
        unnamed,
        cwd(),
        path,
        AtFlags::SYMLINK_FOLLOW,
    )?)
}

/// Writes over what is there, in its place.
fn over(output: &Output) -> std::io::Result<()> {
    if let There::StandardError = output.there {
        return stderr().write_all(&output.bytes);
    }
    let mut file = OpenOptions::new().write(true).open(&output.path)?;
    file.write_all(&output.bytes)?;
    if let There::File(_) = output.there {
        file.set_len(output.bytes.len() as u64)?;
        file.sync_all()?;
    }
    Ok(())
}

/// A file under a hidden name beside an output. The name is one that nobody can
/// foresee and nothing has: what lies there is neither followed nor emptied.
struct Hidden {
    path: PathBuf,
    file: File,
}

fn hidden(path: &Path) -> PathBuf {
    let name = path.file_name().unwrap_or_default().to_string_lossy();
    let random = RandomState::new().hash_one(path);
    path.with_file_name(format!(".{name:.50}.{random:016x}.tunebriar"))
}

impl Hidden {
    fn new(beside: &Path) -> std::io::Result<Hidden> {
        let path = hidden(beside);
        let mut options = OpenOptions::new();
        let file = options
            .write(true)
            .create_new(true)
            .custom_flags(OFlags::NOFOLLOW.bits() as i32)
            .open(&path)?;
        Ok(Hidden { path, file })
    }

    /// A whole file without a name becomes one with a hidden name.
    fn named(file: File, beside: &Path) -> std::io::Result<Hidden> {
        let path = hidden(beside);
        name(&file, &path)?;
        Ok(Hidden { path, file })
    }
}

impl Drop for Hidden {
    fn drop(&mut self) {
        let there = fs::symlink_metadata(&self.path);
        let ours = there.and_then(|there| Ok((there, self.file.metadata()?)));
        if ours.is_ok_and(|(there, ours)| identity(&there) == identity(&ours)) {
            let _ = fs::remove_file(&self.path);
        }
    }
}
