//! Stored texts: what the programs `reader_run` and `corpus_run` read, and what they must write.

pub mod cases;
pub mod components;
pub mod deep;
pub mod drawn;
pub mod report;
pub mod shapes;

/// A text with the name under which its answers are printed.
#[derive(Clone, Debug, PartialEq, Eq)]
pub struct Stored {
    pub name: String,
    pub text: Vec<u8>,
}

impl Stored {
    pub fn new(name: impl Into<String>, text: impl Into<Vec<u8>>) -> Stored {
        Stored {
            name: name.into(),
            text: text.into(),
        }
    }
}

/// A file of a program's data.
pub type File = (String, Vec<u8>);

/// ASCII's record separator: it ends a text, and no stored text has it.
pub const SEPARATOR: u8 = 30;

/// The programs read a file into 65,536 bytes, and must not fill them.
const LONGEST_FILE: usize = 65_535;

/// The texts of one file: for each a line with its name, the text, a record separator and a line
/// feed.
pub fn joined(texts: &[Stored]) -> Vec<u8> {
    let mut file = Vec::new();
    for stored in texts {
        assert!(!stored.name.contains('\n'), "{}", stored.name);
        assert!(!stored.text.contains(&SEPARATOR), "{}", stored.name);
        file.extend_from_slice(stored.name.as_bytes());
        file.push(b'\n');
        file.extend_from_slice(&stored.text);
        file.extend_from_slice(&[SEPARATOR, b'\n']);
    }
    assert!(file.len() <= LONGEST_FILE);
    file
}

/// The texts that stand in a file.
pub fn split(file: &[u8]) -> Vec<Stored> {
    let place = |from: usize, byte: u8| {
        let found = file[from..].iter().position(|&other| other == byte);
        found.map_or(file.len(), |size| from + size)
    };
    let mut texts = Vec::new();
    let mut at = 0;
    while at < file.len() {
        let name = place(at, b'\n');
        let start = (name + 1).min(file.len());
        let end = place(start, SEPARATOR);
        texts.push(Stored {
            name: String::from_utf8_lossy(&file[at..name]).into_owned(),
            text: file[start..end].to_vec(),
        });
        at = (end + 2).min(file.len());
    }
    texts
}

/// The texts in as few files as their order allows, numbered where they are several.
pub fn files(stem: &str, texts: &[Stored]) -> Vec<File> {
    let mut groups: Vec<Vec<Stored>> = vec![Vec::new()];
    let mut size = 0;
    for stored in texts {
        let more = stored.name.len() + stored.text.len() + 3;
        if size + more > LONGEST_FILE {
            groups.push(Vec::new());
            size = 0;
        }
        size += more;
        let last = groups.last_mut().expect("there is a group");
        last.push(stored.clone());
    }
    let many = groups.len() > 1;
    let name = |number: usize| match many {
        true => format!("{stem}_{:02}", number + 1),
        false => stem.to_string(),
    };
    let numbered = groups.iter().enumerate();
    numbered
        .map(|(number, texts)| (name(number), joined(texts)))
        .collect()
}

/// A program over stored texts.
pub struct Program {
    pub name: &'static str,
    /// Its files, as they are made anew.
    pub data: fn() -> Vec<File>,
    /// What it prints of a text.
    pub report: fn(&Stored) -> String,
}

pub const PROGRAMS: [Program; 2] = [
    Program {
        name: "reader_run",
        data: reader_data,
        report: report::whole,
    },
    Program {
        name: "corpus_run",
        data: drawn::data,
        report: report::line,
    },
];

fn reader_data() -> Vec<File> {
    let mut data = files("refusals", &cases::refusals());
    data.extend(files("limits", &cases::limits()));
    data.extend(files("components", &components::components()));
    data.extend(files("starred", &cases::starred()));
    data.extend(files("converted", &cases::converted()));
    data.extend(files("doubling", &cases::doubling()));
    data.extend(files("deep", &deep::texts()));
    data
}

impl Program {
    /// Its arguments: the files' names, one to a line.
    pub fn arguments(data: &[File]) -> String {
        data.iter().map(|(name, _)| format!("{name}\n")).collect()
    }

    /// What it must write of its files.
    pub fn output(&self, data: &[File]) -> String {
        let texts = data.iter().flat_map(|(_, file)| split(file));
        texts.map(|stored| (self.report)(&stored)).collect()
    }
}
