//! Files that are never an output: the pool, what SQLite keeps beside it, and
//! any other book.

use crate::files::identity;
use std::fs::{self, File};
use std::io::Read;
use std::path::{Path, PathBuf};
use std::sync::Mutex;

/// The pool that this call names, whether it opens it or not.
static POOL: Mutex<Option<PathBuf>> = Mutex::new(None);

/// How each SQLite file begins.
const BEGINS: &[u8; 16] = b"SQLite format 3\0";
/// The pool itself, and what SQLite calls the files beside it.
const ENDINGS: [&str; 4] = ["", "-journal", "-wal", "-shm"];

/// A call names its pool.
pub fn name(pool: &Path) {
    if let Ok(mut named) = POOL.lock() {
        *named = Some(pool.to_path_buf());
    }
}

/// Why a file cannot be an output, if it is one of these.
#[must_use]
pub fn denied(path: &Path) -> Option<&'static str> {
    if beside_pool().iter().any(|other| same(path, other)) {
        return Some("is the pool or belongs to it, and cannot be an output");
    }
    is_book(path).then_some("is a SQLite book, and cannot be an output")
}

/// The pool and its companions, by the name of the call and by the pool's own.
fn beside_pool() -> Vec<PathBuf> {
    let Some(pool) = POOL.lock().ok().and_then(|pool| pool.clone()) else {
        return Vec::new();
    };
    let names = [
        fs::canonicalize(&pool).unwrap_or_else(|_| pool.clone()),
        pool,
    ];
    let with = |name: &PathBuf, ending: &str| {
        let mut name = name.clone().into_os_string();
        name.push(ending);
        PathBuf::from(name)
    };
    let all = names.iter();
    all.flat_map(|name| ENDINGS.map(|ending| with(name, ending)))
        .collect()
}

/// Whether two names are one file, or would be.
fn same(one: &Path, other: &Path) -> bool {
    match (fs::metadata(one), fs::metadata(other)) {
        (Ok(one), Ok(other)) => identity(&one) == identity(&other),
        (Err(_), Err(_)) => place(one).is_some_and(|place_of| Some(place_of) == place(other)),
        _ => false,
    }
}

/// A file's folder by its one name, and the file's name in it.
fn place(path: &Path) -> Option<PathBuf> {
    let folder = match path.parent() {
        Some(folder) if !folder.as_os_str().is_empty() => folder,
        _ => Path::new("."),
    };
    Some(fs::canonicalize(folder).ok()?.join(path.file_name()?))
}

/// Whether a regular file begins as a book does.
fn is_book(path: &Path) -> bool {
    let mut first = [0; BEGINS.len()];
    fs::metadata(path).is_ok_and(|there| there.is_file())
        && File::open(path).is_ok_and(|mut file| file.read_exact(&mut first).is_ok())
        && first == *BEGINS
}
