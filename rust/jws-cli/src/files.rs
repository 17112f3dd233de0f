//! Reading and writing files.

use std::ffi::OsStr;
use std::fs::{self, File, OpenOptions};
use std::io::{self, Read, Write};
use std::path::{Path, PathBuf};

use crate::answer::Failure;

/// More bytes than this aren't read from any file.
const READ_MAX: u64 = 1 << 24;

/// Who may read a file that is made.
#[derive(Clone, Copy, Debug, PartialEq, Eq)]
pub enum Readers {
    /// Only its owner: it holds secrets.
    Owner,
    /// Whoever may read a new file here.
    Usual,
}

/// The whole of a file, or of standard input for `-`.
pub fn read(path: &OsStr) -> Result<Vec<u8>, Failure> {
    let mut bytes = Vec::new();
    let mut take = |source: &mut dyn Read| source.take(READ_MAX + 1).read_to_end(&mut bytes);
    let result = if path == "-" {
        take(&mut io::stdin().lock())
    } else {
        File::open(path).and_then(|mut file| take(&mut file))
    };
    match result {
        Err(error) => Err(Failure::Other(format!("{} can't be read: {error}", name(path)))),
        Ok(_) if bytes.len() as u64 > READ_MAX => Err(Failure::Other(format!(
            "{} is longer than {READ_MAX} bytes",
            name(path)
        ))),
        Ok(_) => Ok(bytes),
    }
}

/// A path for a message.
pub fn name(path: &OsStr) -> String {
    if path == "-" {
        "standard input".into()
    } else {
        Path::new(path).display().to_string()
    }
}

/// Writes a file as a whole: a reader finds what was there before or all of the new bytes, and never a part of them. An existing
/// file keeps its permissions.
pub fn write(path: &OsStr, bytes: &[u8], readers: Readers) -> Result<(), Failure> {
    let target = fs::canonicalize(path).unwrap_or_else(|_| PathBuf::from(path));
    replace(&target, bytes, readers)
        .map_err(|error| Failure::Other(format!("{} can't be written: {error}", name(path))))
}

fn replace(target: &Path, bytes: &[u8], readers: Readers) -> io::Result<()> {
    let there = fs::metadata(target).ok();
    if there.as_ref().is_some_and(|there| !there.is_file()) {
        // A pipe or a device is written to; it isn't replaced. A folder is an error.
        return OpenOptions::new().write(true).open(target)?.write_all(bytes);
    }
    let beside = beside(target)?;
    let made = make(&beside, bytes, readers)
        .and_then(|()| there.map_or(Ok(()), |there| fs::set_permissions(&beside, there.permissions())))
        .and_then(|()| fs::rename(&beside, target));
    if made
        .as_ref()
        .is_err_and(|error| error.kind() != io::ErrorKind::AlreadyExists)
    {
        // What stopped the writing is told, and not whether this could be tidied up.
        let _ = fs::remove_file(&beside);
    }
    made
}

/// A name for a temporary file in the same folder.
fn beside(target: &Path) -> io::Result<PathBuf> {
    let name = target.file_name().ok_or(io::ErrorKind::InvalidInput)?;
    let mut temporary = std::ffi::OsString::from(".");
    temporary.push(name);
    temporary.push(format!(".{}.tmp", std::process::id()));
    Ok(target.with_file_name(temporary))
}

/// Makes a file that isn't there yet and sees it to the disk.
fn make(path: &Path, bytes: &[u8], readers: Readers) -> io::Result<()> {
    let mut options = OpenOptions::new();
    options.write(true).create_new(true);
    restrict(&mut options, readers);
    let mut file = options.open(path)?;
    file.write_all(bytes)?;
    file.sync_all()
}

#[cfg(unix)]
fn restrict(options: &mut OpenOptions, readers: Readers) {
    use std::os::unix::fs::OpenOptionsExt;
    if readers == Readers::Owner {
        options.mode(0o600);
    }
}

#[cfg(not(unix))]
fn restrict(_: &mut OpenOptions, _: Readers) {}

/// Refuses to write over one of the files that are read.
pub fn apart(written: &OsStr, read: &[&OsStr]) -> Result<(), Failure> {
    let Ok(written_to) = fs::canonicalize(written) else {
        return Ok(());
    };
    for other in read {
        let regular = fs::metadata(other).is_ok_and(|there| there.is_file());
        if regular && fs::canonicalize(other).is_ok_and(|other| other == written_to) {
            return Err(Failure::Other(format!(
                "{} would be written over, and it is read too",
                name(written)
            )));
        }
    }
    Ok(())
}
