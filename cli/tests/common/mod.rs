//! Running the program in a folder of its own.
#![allow(dead_code)]

pub mod drawing;
pub mod texts;

use std::fs;
use std::io::{self, Write};
use std::path::{Path, PathBuf};
use std::process::{Command, Output, Stdio};
use std::sync::atomic::{AtomicUsize, Ordering};

pub const STARRED: &str = "INFO { TITLE: \"t\" DESCRIPTION: \"d\" SEMANTICS: Mealy TARGET: Mealy } MAIN { INPUTS { r; } OUTPUTS { g; } GUARANTEE { G (r -> F g); } }";
pub const STARRED_LISTING: &str = "accepted 17 2\n0 0 0 0\n1 0 0 0\n2 0 0 0\n3 9 2 0\n4 0 0 0\n5 4 3 4\n6 0 0 0\n7 9 6 0\n8 2 0 0\n9 2 1 0\n10 10 9 0\n11 6 8 10\n12 9 11 0\n13 4 7 12\n14 6 5 13\n15 4 1 14\n16 6 0 15\n";
pub const HOLDS: [u8; 5] = [0x00, 0x30, 0x01, 0x02, 0x90];
pub const FAILS: [u8; 5] = [0x00, 0x30, 0x01, 0x02, 0x80];

/// With a bus, one of whose bits has another signal's name in a line of LTL.
pub fn with_bus() -> String {
    STARRED.replace("r;", "b[4]; b_3;").replace("G (r -> F g)", "G (b[3] -> (b_3 W g))")
}

/// 256 to the 5 sums of nothing.
pub fn endless() -> String {
    let sums = "+[i IN {0,1..255}] ".to_string() + &["j", "k", "l", "m"].map(|name| format!("+[{name} IN {{0,1..255}}] ")).concat();
    STARRED.replace("G (r -> F g)", &format!("({sums} 0) == 0"))
}

/// A folder that is gone when it is dropped.
pub struct Folder {
    pub path: PathBuf,
}

impl Folder {
    pub fn new() -> Folder {
        Folder::below(&std::env::temp_dir()).expect("a folder for the test")
    }

    /// Beside what is built.
    pub fn on_disk() -> Folder {
        Folder::below(Path::new(env!("CARGO_TARGET_TMPDIR"))).expect("a folder for the test")
    }

    /// In memory where the system has a folder there, so that no disk is measured.
    pub fn in_memory() -> Folder {
        Folder::below(Path::new("/dev/shm")).unwrap_or_else(|_| Folder::new())
    }

    fn below(place: &Path) -> io::Result<Folder> {
        static COUNT: AtomicUsize = AtomicUsize::new(0);
        let number = COUNT.fetch_add(1, Ordering::Relaxed);
        let path = place.join(format!("vasculpi-test-{}-{number}", std::process::id()));
        fs::create_dir(&path)?;
        Ok(Folder { path })
    }

    pub fn file(&self, name: &str, bytes: impl AsRef<[u8]>) -> PathBuf {
        let path = self.path.join(name);
        fs::write(&path, bytes).expect("a file for the test");
        path
    }

    pub fn command(&self) -> Command {
        let mut command = Command::new(env!("CARGO_BIN_EXE_vasculpi"));
        command.current_dir(&self.path);
        command
    }

    pub fn run(&self, arguments: &[&str]) -> Ran {
        Ran::of(
            self.command()
                .args(arguments)
                .stdin(Stdio::null())
                .output()
                .expect("the program starts"),
        )
    }

    pub fn run_with_input(&self, arguments: &[&str], input: &[u8]) -> Ran {
        let mut child = self
            .command()
            .args(arguments)
            .stdin(Stdio::piped())
            .stdout(Stdio::piped())
            .stderr(Stdio::piped())
            .spawn()
            .expect("the program starts");
        // The program may have read enough before the end.
        let _ = child.stdin.take().expect("its input").write_all(input);
        Ran::of(child.wait_with_output().expect("the program ends"))
    }

    pub fn read(&self, name: &str) -> Vec<u8> {
        fs::read(self.path.join(name)).unwrap_or_else(|error| panic!("{name}: {error}"))
    }

    /// The names of what stands in the folder.
    pub fn names(&self, below: &str) -> Vec<String> {
        let entries = fs::read_dir(self.path.join(below)).expect("a folder");
        let mut names: Vec<String> = entries
            .map(|entry| entry.expect("an entry").file_name().to_string_lossy().into_owned())
            .collect();
        names.sort();
        names
    }
}

impl Drop for Folder {
    fn drop(&mut self) {
        let _ = fs::remove_dir_all(&self.path);
    }
}

pub struct Ran {
    pub status: i32,
    pub out: Vec<u8>,
    pub told: String,
}

impl Ran {
    pub fn of(output: Output) -> Ran {
        let told = String::from_utf8_lossy(&output.stderr).into_owned();
        assert!(!told.contains("panicked"), "{told}");
        Ran {
            status: output.status.code().unwrap_or(-1),
            out: output.stdout,
            told,
        }
    }

    pub fn text(&self) -> String {
        String::from_utf8_lossy(&self.out).into_owned()
    }
}

pub fn name(path: &Path) -> &str {
    path.to_str().expect("a plain name")
}

/// What the text calls each signal of its list, bits of buses as `b[3]`.
pub fn labels(text: &[u8], signals: &[u32]) -> Vec<String> {
    let of_name = |byte: &&u8| byte.is_ascii_alphanumeric() || b"_'@".contains(byte);
    let label = |&entry: &u32| {
        let rest = &text[(entry >> 16 & 0x7fff) as usize..];
        let name: String = rest.iter().take_while(of_name).map(|&byte| char::from(byte)).collect();
        match entry & 0xff {
            0 => name,
            _ => format!("{name}[{}]", entry >> 8 & 0xff),
        }
    };
    signals.iter().map(label).collect()
}
