//! Files that are written: beside, and renamed when they are whole, so that what stood there before is never half gone.

use std::fs::{self, File};
use std::io::{self, BufWriter, Write};
use std::os::unix::fs::MetadataExt;
use std::path::{Path, PathBuf};

/// A file that is being written.
pub struct Beside {
    place: PathBuf,
    beside: PathBuf,
    file: BufWriter<File>,
}

impl Beside {
    /// It may be none of the other files.
    pub fn new(place: &Path, others: &[&Path]) -> Result<Beside, String> {
        if others.iter().any(|other| same(other, place)) {
            return Err(format!(
                "{}: it is used too, and would be written over",
                place.display()
            ));
        }
        // What is there may be a link; a device or a pipe is written as it is.
        let place = fs::canonicalize(place).unwrap_or_else(|_| place.to_path_buf());
        let is_other = fs::metadata(&place).is_ok_and(|data| !data.is_file());
        let beside = match is_other {
            true => place.clone(),
            false => beside(&place),
        };
        match File::options().write(true).create_new(!is_other).open(&beside) {
            Ok(file) => Ok(Beside {
                file: BufWriter::new(file),
                place,
                beside,
            }),
            Err(error) => Err(format!("{}: {error}", place.display())),
        }
    }

    pub fn write(&mut self, bytes: &[u8]) -> Result<(), String> {
        self.file.write_all(bytes).map_err(|error| self.failed(&error))
    }

    /// All is written: it takes its place.
    pub fn finish(mut self) -> Result<(), String> {
        let flushed = self.file.flush();
        let renamed = match self.beside == self.place {
            true => flushed,
            false => flushed.and_then(|()| keep_rights(&self.place, &self.beside)),
        };
        renamed.map_err(|error| self.failed(&error))
    }

    fn failed(&self, error: &io::Error) -> String {
        format!("{}: {error}", self.place.display())
    }
}

impl Drop for Beside {
    /// What did not take its place is gone.
    fn drop(&mut self) {
        if self.beside != self.place {
            let _ = fs::remove_file(&self.beside);
        }
    }
}

/// A name in the same folder that no other run of the command takes.
fn beside(place: &Path) -> PathBuf {
    let mut name = place.as_os_str().to_os_string();
    name.push(format!(".{}.part", std::process::id()));
    PathBuf::from(name)
}

fn keep_rights(place: &Path, beside: &Path) -> io::Result<()> {
    if let Ok(data) = fs::metadata(place) {
        fs::set_permissions(beside, data.permissions())?;
    }
    fs::rename(beside, place)
}

/// Whether two paths lead to one file.
fn same(one: &Path, other: &Path) -> bool {
    let identity = |path: &Path| fs::metadata(path).ok().map(|data| (data.dev(), data.ino()));
    one == other || identity(one).is_some_and(|known| identity(other) == Some(known))
}
