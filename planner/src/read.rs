//! Deliveries read from a directory.

use std::error::Error;
use std::fmt;
use std::fs;
use std::io::{self, Read};
use std::path::{Path, PathBuf};

use crate::by_number::load::Files;
use crate::layout::MOST_FILE_BYTES;
use crate::memory::{room_for_bytes, NoMemory};
use crate::refusal::{File, LoadRefusal};
use crate::timetable::{LoadError, Timetable};

/// Why there is no timetable of a directory.
#[derive(Debug)]
#[non_exhaustive]
pub enum ReadError {
    /// A file could not be read, or is none.
    Unread {
        /// Which.
        file: File,
        /// Where it was looked for.
        path: PathBuf,
        /// Why.
        error: io::Error,
    },
    /// The delivery is refused.
    Refused(LoadRefusal),
    /// There is no memory for it.
    NoMemory(NoMemory),
}

impl fmt::Display for ReadError {
    fn fmt(&self, f: &mut fmt::Formatter<'_>) -> fmt::Result {
        match self {
            ReadError::Unread { file, path, error } => {
                write!(f, "unread file {}: {}: {}", file.number(), path.display(), error)
            }
            ReadError::Refused(refusal) => refusal.fmt(f),
            ReadError::NoMemory(none) => none.fmt(f),
        }
    }
}

impl Error for ReadError {
    fn source(&self) -> Option<&(dyn Error + 'static)> {
        match self {
            ReadError::Unread { error, .. } => Some(error),
            _ => None,
        }
    }
}

impl From<LoadError> for ReadError {
    fn from(error: LoadError) -> ReadError {
        match error {
            LoadError::Refused(refusal) => ReadError::Refused(refusal),
            LoadError::NoMemory(none) => ReadError::NoMemory(none),
        }
    }
}

impl Timetable {
    /// Reads the six files of a delivery in a directory, each under its name in capitals, and loads them.
    ///
    /// What is no file (a directory, a pipe, a device) is not opened, and of a file that is too long no more is read than shows it: it is refused with
    /// [`Offence::FileTooLong`](crate::Offence::FileTooLong).
    ///
    /// # Errors
    ///
    /// The first file that cannot be read, or as of [`Timetable::load`].
    pub fn read(directory: impl AsRef<Path>) -> Result<Timetable, ReadError> {
        let read = |file: File| bytes_of(file, directory.as_ref().join(file.name()));
        let files = Files {
            eckdaten: &read(File::Eckdaten)?,
            bitfeld: &read(File::Bitfeld)?,
            bahnhof: &read(File::Bahnhof)?,
            umsteigb: &read(File::Umsteigb)?,
            fplan: &read(File::Fplan)?,
            zugart: &read(File::Zugart)?,
        };
        Ok(Timetable::load(&files)?)
    }
}

/// The bytes of a file; of a longer one than a delivery may have, one too many.
fn bytes_of(file: File, path: PathBuf) -> Result<Vec<u8>, ReadError> {
    match stated_length(&path) {
        Ok(length) => {
            let mut bytes = room_for_bytes(length).map_err(ReadError::NoMemory)?;
            match fs::File::open(&path).and_then(|open| open.take(MOST_READ).read_to_end(&mut bytes)) {
                Ok(_) => Ok(bytes),
                Err(error) => Err(ReadError::Unread { file, path, error }),
            }
        }
        Err(error) => Err(ReadError::Unread { file, path, error }),
    }
}

const MOST_READ: u64 = MOST_FILE_BYTES as u64 + 1;

/// How many bytes a file says that it has, and one: then its end is seen without more room. Asked before it is opened, since to open a pipe waits for its writer.
fn stated_length(path: &Path) -> io::Result<usize> {
    let stated = fs::metadata(path)?;
    if !stated.is_file() {
        return Err(io::Error::new(io::ErrorKind::InvalidInput, "it is no file, but a directory, a pipe or a device"));
    }
    Ok(stated.len().min(MOST_READ) as usize + 1)
}
