//! A list in a file: stored after its search, and read again.
use crate::standard;
use crate::status::{fault, Stop};
use remburai::LIST_LIMIT;
use std::ffi::OsStr;
use std::fs::{self, File, FileType};
use std::io::{self, ErrorKind, Read, Write};
use std::os::unix::fs::FileTypeExt;
use std::path::{Path, PathBuf};
use std::process;

/// Sees, before a search, that its list can be stored in a file. What is made for that is gone again at once: so nothing is left beside the
/// file however the search ends, also by a signal, and the file is as before. A pipe is not opened: its reader would take that for an empty
/// list where the search gives none.
pub fn see_place(name: &OsStr) -> Result<(), Stop> {
    let path = Path::new(name);
    match no_file(path) {
        Some(kind) if kind.is_fifo() => Ok(()),
        Some(_) => opened(path).map(drop).map_err(|why| unstored(path, why)),
        None => Part::beside(&followed(path)).map(drop),
    }
}

/// Stores a list in a file, all of it or nothing: where the front of a list is whole entries it would pass for the list of another search.
/// So it is written to a new file beside it that takes its name at last. What is no file, as a pipe, is written to as it is.
pub fn save(name: &OsStr, list: &[u8]) -> Result<(), Stop> {
    let path = Path::new(name);
    let written = match no_file(path) {
        Some(_) => opened(path).and_then(|mut stream| stream.write_all(list)),
        None => {
            let path = followed(path);
            Part::beside(&path)?.put(list, &path)
        }
    };
    written.map_err(|why| unstored(path, why))
}

fn unstored(path: &Path, why: io::Error) -> Stop {
    fault(format_args!("{}: not stored", path.display()), why)
}

/// What stands at a path, where it is something else than a file.
fn no_file(path: &Path) -> Option<FileType> {
    let about = fs::metadata(path).ok()?;
    (!about.is_file()).then(|| about.file_type())
}

fn opened(path: &Path) -> io::Result<File> {
    File::options().write(true).open(path)
}

/// The path with its links followed, where a file stands there.
fn followed(path: &Path) -> PathBuf {
    fs::canonicalize(path).unwrap_or_else(|_| path.to_path_buf())
}

/// A new file beside another. At last it is gone, unless it has taken the other's name.
struct Part {
    file: File,
    path: PathBuf,
}

impl Part {
    /// A new file of a name that nothing has.
    fn beside(path: &Path) -> Result<Part, Stop> {
        let mut number = 0;
        loop {
            let mut name = path.as_os_str().to_owned();
            name.push(format!(".{}-{number}.part", process::id()));
            match File::create_new(&name) {
                Ok(file) => {
                    return Ok(Part {
                        file,
                        path: name.into(),
                    })
                }
                Err(why) if why.kind() == ErrorKind::AlreadyExists => number += 1,
                Err(why) => {
                    let unmade = format_args!("{}: no file can be made beside it", path.display());
                    return Err(fault(unmade, why));
                }
            }
        }
    }

    /// Writes the bytes, and takes a name.
    fn put(mut self, bytes: &[u8], name: &Path) -> io::Result<()> {
        self.file.write_all(bytes)?;
        fs::rename(&self.path, name)
    }
}

impl Drop for Part {
    fn drop(&mut self) {
        let _ = fs::remove_file(&self.path);
    }
}

/// The list in a file, or on standard input where the name is `-`. Of a longer one than there may be, the first byte too many is the last.
pub fn read(name: &OsStr) -> Result<Vec<u8>, Stop> {
    let path = Path::new(name);
    let unread = |why| fault(path.display(), why);
    let file = match name == "-" {
        true => standard::input()?,
        false => File::open(path).map_err(unread)?,
    };
    let mut list = vec![];
    let most = LIST_LIMIT as u64 + 1;
    file.take(most).read_to_end(&mut list).map_err(unread)?;
    Ok(list)
}
