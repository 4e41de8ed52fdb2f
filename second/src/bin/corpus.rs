//! Writes what the programs `reader_run` and `corpus_run` read, and what they must write.
//!
//! `corpus write CRATES` writes data, args and stdout of both below the folder CRATES; `corpus
//! deep DIR` writes every deepest text into a file of its own, and `corpus answers FILE..` prints
//! what `reader_run` must write of such files.

use second::corpus::{deep, joined, Program, PROGRAMS};
use std::fs;
use std::path::Path;

fn write_program(crates: &Path, program: &Program) {
    let folder = crates.join(program.name);
    let data = (program.data)();
    // A file that is made no more goes.
    if folder.join("data").exists() {
        fs::remove_dir_all(folder.join("data")).expect("the data can be removed");
    }
    fs::create_dir_all(folder.join("data")).expect("a folder can be made");
    for (name, file) in &data {
        fs::write(folder.join("data").join(name), file).expect("a file can be written");
    }
    let write = |name: &str, text: String| {
        fs::write(folder.join(name), text).expect("a file can be written");
    };
    write("args", Program::arguments(&data));
    write("stdout", program.output(&data));
}

fn write_deep(folder: &Path) {
    for (number, stored) in deep::texts().iter().enumerate() {
        let path = folder.join(format!("{number:02}"));
        fs::write(path, joined(std::slice::from_ref(stored))).expect("a file can be written");
    }
}

fn answers(paths: &[&str]) {
    for path in paths {
        let file = fs::read(path).expect("the file can be read");
        print!("{}", PROGRAMS[0].output(&[(path.to_string(), file)]));
    }
}

fn main() {
    let words: Vec<String> = std::env::args().skip(1).collect();
    let words: Vec<&str> = words.iter().map(String::as_str).collect();
    match words[..] {
        ["write", crates] => PROGRAMS
            .iter()
            .for_each(|program| write_program(Path::new(crates), program)),
        ["deep", folder] => write_deep(Path::new(folder)),
        ["answers", ref paths @ ..] => answers(paths),
        _ => {
            eprintln!("usage: corpus write CRATES | corpus deep DIR | corpus answers FILE..");
            std::process::exit(2);
        }
    }
}
