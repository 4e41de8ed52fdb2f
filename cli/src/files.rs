//! Files in and out.

use std::collections::{HashMap, HashSet};
use std::ffi::OsString;
use std::fs::{self, File, OpenOptions};
use std::io::{self, ErrorKind, Read, Write};
use std::os::unix::fs::MetadataExt;
use std::path::{Path, PathBuf};
use std::sync::atomic::{AtomicBool, Ordering};

/// More than any recording or table of a bench has.
const MOST_BYTES: u64 = 16 << 20;

/// Standard input, or standard output where a file is written.
pub fn is_standard(path: &Path) -> bool {
    path == Path::new("-")
}

/// A file's name as it is shown: no byte that a terminal would act on.
pub fn shown(path: &Path) -> String {
    if is_standard(path) {
        return "standard input".to_string();
    }
    harmless(&path.to_string_lossy())
}

/// Without a character that a terminal would act on.
pub fn harmless(text: &str) -> String {
    if text.bytes().all(|byte| (b' '..=b'~').contains(&byte)) {
        return text.to_string();
    }
    text.chars().map(|c| if c.is_control() { '\u{fffd}' } else { c }).collect()
}

/// What went wrong, without the system's number for it.
pub fn reason(error: &io::Error) -> String {
    let reason = error.to_string();
    reason.split(" (os error ").next().unwrap_or_default().to_string()
}

/// A text, or as much of it as shows that it is too long.
pub fn read_text(path: &Path) -> Result<Vec<u8>, String> {
    read_at_most(path, tlsf::MOST_TEXT_BYTES as u64 + 1)
}

pub fn read_all(path: &Path) -> Result<Vec<u8>, String> {
    let bytes = read_at_most(path, MOST_BYTES + 1)?;
    if bytes.len() as u64 > MOST_BYTES {
        return Err(format!("{}: more than {} MiB", shown(path), MOST_BYTES >> 20));
    }
    Ok(bytes)
}

fn read_at_most(path: &Path, most: u64) -> Result<Vec<u8>, String> {
    static STANDARD_INPUT_IS_READ: AtomicBool = AtomicBool::new(false);
    // Room for a text, so that it is read in one piece.
    let mut bytes = Vec::with_capacity(tlsf::MOST_TEXT_BYTES + 1);
    let read = if !is_standard(path) {
        File::open(path).and_then(|file| file.take(most).read_to_end(&mut bytes))
    } else if STANDARD_INPUT_IS_READ.swap(true, Ordering::Relaxed) {
        return Err("standard input: can stand for one file only".to_string());
    } else {
        io::stdin().lock().take(most).read_to_end(&mut bytes)
    };
    match read {
        Ok(_) => Ok(bytes),
        Err(error) => Err(format!("{}: cannot be read: {}", shown(path), reason(&error))),
    }
}

/// The files that a command reads, by whatever name.
pub struct Inputs(HashSet<(u64, u64)>);

impl Inputs {
    pub fn of<'a>(paths: impl IntoIterator<Item = &'a PathBuf>) -> Inputs {
        Inputs(paths.into_iter().filter_map(|path| place_of(path)).collect())
    }

    /// Refuses to write where the same command reads: a table, a recording or a text would be lost.
    pub fn check_apart(&self, output: &Path) -> Result<(), String> {
        match place_of(output) {
            Some(place) if self.0.contains(&place) => Err(format!("{}: cannot be written: the same command reads it", shown(output))),
            _ => Ok(()),
        }
    }
}

/// What stood in some folders when a command began: of what did not, nothing has to be asked when it is written.
#[derive(Default)]
pub struct There(HashMap<PathBuf, Option<HashSet<OsString>>>);

impl There {
    /// The names in the folder that a file is to be written to.
    pub fn look(&mut self, path: &Path) {
        let Some(folder) = path.parent() else {
            return;
        };
        if !self.0.contains_key(folder) {
            let names = match fs::read_dir(folder) {
                Ok(entries) => entries
                    .map(|entry| entry.map(|entry| entry.file_name()))
                    .collect::<io::Result<_>>()
                    .ok(),
                Err(error) => (error.kind() == ErrorKind::NotFound).then(HashSet::new),
            };
            self.0.insert(folder.to_path_buf(), names);
        }
    }

    /// Whether it stood there, or may have.
    pub fn has(&self, path: &Path) -> bool {
        let names = path.parent().and_then(|folder| self.0.get(folder));
        match (names, path.file_name()) {
            (Some(Some(names)), Some(name)) => names.contains(name),
            _ => true,
        }
    }
}

/// Nothing for what is no file.
fn place_of(path: &Path) -> Option<(u64, u64)> {
    let data = fs::metadata(path).ok().filter(|data| data.is_file() && !is_standard(path))?;
    Some((data.dev(), data.ino()))
}

/// Writes a file whole or not at all; `-` is standard output.
pub fn write_whole(path: &Path, bytes: &[u8]) -> Result<(), String> {
    if is_standard(path) {
        return print(bytes);
    }
    write_all_whole(&[(path.to_path_buf(), bytes)], &There::default())
}

/// Takes away what an earlier run has written, if it is there.
pub fn remove(path: &Path) -> Result<(), String> {
    match fs::remove_file(path) {
        Err(error) if error.kind() != ErrorKind::NotFound => Err(format!("{}: cannot be removed: {}", shown(path), reason(&error))),
        _ => Ok(()),
    }
}

/// Writes files that belong together: beside their places first, and only if all are whole they are moved there.
pub fn write_all_whole(files: &[(PathBuf, &[u8])], there: &There) -> Result<(), String> {
    let mut parts = Vec::new();
    let moved = files.iter().try_for_each(|(path, bytes)| {
        let written = write_beside(path, bytes, there, &mut parts);
        written.map_err(|error| format!("{}: cannot be written: {}", shown(path), reason(&error)))
    });
    let moved = moved.and_then(|()| {
        parts.iter().try_for_each(|(part, path)| {
            let moved = fs::rename(part, path);
            moved.map_err(|error| format!("{}: cannot be written: {}", shown(path), reason(&error)))
        })
    });
    if moved.is_err() {
        for (part, _) in parts {
            let _ = fs::remove_file(part);
        }
    }
    moved
}

/// Writes a part that is to be moved to the path, unless a file with the same bytes stands there: its time stays, and some disks make files slowly where
/// others were just deleted. A device or a pipe is written to itself.
fn write_beside(path: &Path, bytes: &[u8], there: &There, parts: &mut Vec<(PathBuf, PathBuf)>) -> io::Result<()> {
    if path.extension().is_some_and(|ending| ending.eq_ignore_ascii_case("tlsf")) {
        return Err(io::Error::new(ErrorKind::InvalidInput, "results are never written to a .tlsf file"));
    }
    let mut path = path.to_path_buf();
    if there.has(&path) {
        if path.is_symlink() {
            // What a link leads to is replaced, not the link.
            path = fs::canonicalize(&path)?;
        }
        match fs::metadata(&path) {
            Ok(data) if data.is_dir() => return Err(io::Error::new(ErrorKind::InvalidInput, "it is a folder")),
            Ok(data) if !data.is_file() => return OpenOptions::new().write(true).open(&path)?.write_all(bytes),
            Ok(data) if data.len() == bytes.len() as u64 && fs::read(&path).is_ok_and(|there| there == bytes) => return Ok(()),
            _ => {}
        }
    }
    let part = beside(&path)?;
    let mut file = created(&part)?;
    parts.push((part, path));
    file.write_all(bytes)
}

/// A new file, also where an ended process of the same number left one.
fn created(part: &Path) -> io::Result<File> {
    let create = || OpenOptions::new().write(true).create_new(true).open(part);
    match create() {
        Err(error) if error.kind() == ErrorKind::AlreadyExists => fs::remove_file(part).and_then(|()| create()),
        created => created,
    }
}

fn beside(path: &Path) -> io::Result<PathBuf> {
    let Some(name) = path.file_name() else {
        return Err(io::Error::new(ErrorKind::InvalidInput, "no file name"));
    };
    let mut part = OsString::from(".");
    part.push(name);
    part.push(format!(".{}.part", std::process::id()));
    Ok(path.with_file_name(part))
}

/// Writes to standard output. Whoever closed it early wants no more: that is no fault.
pub fn print(bytes: &[u8]) -> Result<(), String> {
    let mut output = io::stdout().lock();
    match output.write_all(bytes).and_then(|()| output.flush()) {
        Err(error) if error.kind() != ErrorKind::BrokenPipe => Err(format!("standard output: cannot be written: {}", reason(&error))),
        _ => Ok(()),
    }
}

/// Writes to standard error; if that is closed nobody is there to be told.
pub fn tell(text: &str) {
    let _ = io::stderr().lock().write_all(text.as_bytes());
}
