//! A file that is written beside its place and then renamed: at every moment the old file is there or the whole new one.
use std::{
    ffi::{OsStr, OsString},
    fs::{self, File},
    io::{self, ErrorKind, Write},
    path::{Path, PathBuf},
    process,
    sync::atomic::{AtomicUsize, Ordering},
};

/// A number for each file of this program.
static NEXT: AtomicUsize = AtomicUsize::new(0);

pub struct Beside {
    file: File,
    /// As it was named.
    path: OsString,
    /// Where it is written, and its place; none for what cannot be renamed: a terminal, a pipe, a device.
    rename: Option<(PathBuf, PathBuf)>,
}

impl Beside {
    pub fn of(path: &OsStr) -> io::Result<Self> {
        let old = fs::metadata(path);
        let (file, rename) = match &old {
            Ok(old) if old.is_dir() => return Err(ErrorKind::IsADirectory.into()),
            Ok(old) if !old.is_file() => (opened(path)?, None),
            Ok(_) => {
                // One that may not be written is not replaced.
                opened(path)?;
                created(fs::canonicalize(path)?)?
            }
            Err(_) => created(path.into())?,
        };
        if let (Ok(old), Some((temporary, _))) = (&old, &rename) {
            fs::set_permissions(temporary, old.permissions())?;
        }
        Ok(Beside {
            file,
            path: path.into(),
            rename,
        })
    }

    pub fn path(&self) -> &OsStr {
        &self.path
    }

    pub fn write(&mut self, bytes: &[u8]) -> io::Result<()> {
        self.file.write_all(bytes)
    }

    /// Puts the file into its place.
    pub fn finish(mut self) -> io::Result<()> {
        match self.rename.take() {
            None => Ok(()),
            Some((temporary, place)) => fs::rename(&temporary, place).inspect_err(|_| {
                let _ = fs::remove_file(&temporary);
            }),
        }
    }
}

impl Drop for Beside {
    /// Removes what was not finished.
    fn drop(&mut self) {
        if let Some((temporary, _)) = &self.rename {
            let _ = fs::remove_file(temporary);
        }
    }
}

/// What is there already, opened for writing and otherwise as it was.
fn opened(path: &OsStr) -> io::Result<File> {
    File::options().write(true).open(path)
}

/// A new file beside a place, with a name that begins with a dot and is nobody else's.
fn created(place: PathBuf) -> io::Result<(File, Option<(PathBuf, PathBuf)>)> {
    place.file_name().ok_or(ErrorKind::IsADirectory)?;
    let number = NEXT.fetch_add(1, Ordering::Relaxed);
    let hidden = format!(".bullseye-{}-{number}", process::id());
    let temporary = place.parent().unwrap_or(Path::new("")).join(hidden);
    let file = File::create_new(&temporary)?;
    Ok((file, Some((temporary, place))))
}
