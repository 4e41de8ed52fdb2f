//! The texts that a command reads: files, and all TLSF files below a folder.

use crate::files;
use std::path::{Path, PathBuf};
use walkdir::WalkDir;

/// A text to read.
#[derive(Clone, Debug)]
pub struct Text {
    pub path: PathBuf,
    /// Where it stands below the folder that was named, or its own name: results keep the folders.
    pub below: PathBuf,
    /// Why it cannot be read, where that is known already.
    pub unreadable: Option<String>,
}

impl Text {
    fn file(path: &Path) -> Text {
        let name = if files::is_standard(path) {
            "standard-input".into()
        } else {
            path.file_name().unwrap_or_default().to_os_string()
        };
        Text {
            path: path.to_path_buf(),
            below: PathBuf::from(name),
            unreadable: None,
        }
    }

    fn unreadable(path: &Path, reason: String) -> Text {
        Text {
            unreadable: Some(format!("{}: {reason}", files::shown(path))),
            ..Text::file(path)
        }
    }
}

/// As makers of all systems name their texts.
pub fn is_text(path: &Path) -> bool {
    path.extension().is_some_and(|ending| ending.eq_ignore_ascii_case("tlsf"))
}

/// The texts in the order of the arguments, those of a folder in the order of their names.
pub fn texts(paths: &[PathBuf]) -> Vec<Text> {
    let mut texts = Vec::new();
    for path in paths {
        if files::is_standard(path) || !path.is_dir() {
            texts.push(Text::file(path));
            continue;
        }
        let found = below(path);
        if found.is_empty() {
            texts.push(Text::unreadable(path, "no .tlsf file in this folder".to_string()));
        }
        texts.extend(found);
    }
    texts
}

fn below(folder: &Path) -> Vec<Text> {
    let mut texts = Vec::new();
    for entry in WalkDir::new(folder).follow_links(true).sort_by_file_name() {
        match entry {
            Ok(entry) if is_text(entry.path()) && !entry.file_type().is_dir() => {
                let below = entry.path().strip_prefix(folder).unwrap_or(entry.path());
                texts.push(Text {
                    below: below.to_path_buf(),
                    ..Text::file(entry.path())
                });
            }
            Ok(_) => {}
            Err(error) => {
                let path = error.path().unwrap_or(folder);
                let reason = error.io_error().map_or("the folder leads to itself".to_string(), files::reason);
                texts.push(Text::unreadable(path, format!("cannot be read: {reason}")));
            }
        }
    }
    texts
}
