//! The programs `play` and `page` on files, held to the reference's texts.

use std::ffi::OsStr;
use std::path::{Path, PathBuf};
use std::process::Command;
use std::{env, fs, io};

use lsq_ref::gen;
use lsq_ref::play::{page, play, MAX_FILE};
use lsq_ref::rng::Rng;

use crate::cases::Case;
use crate::compare::Difference;

/// What stands where the program looks for a file.
#[derive(Clone)]
enum Found {
    /// Nothing.
    Missing,
    /// A folder, which opens and can't be read.
    Folder,
    /// A link to nothing.
    DeadLink,
    /// A file.
    Bytes(Vec<u8>),
}

impl Found {
    /// "A file that can't be opened counts as empty."
    fn bytes(&self) -> Option<&[u8]> {
        match self {
            Self::Bytes(bytes) => Some(bytes),
            Self::Missing | Self::Folder | Self::DeadLink => None,
        }
    }

    fn put(&self, place: &Path) -> io::Result<()> {
        match self {
            Self::Missing => Ok(()),
            Self::Folder => fs::create_dir(place),
            Self::DeadLink => std::os::unix::fs::symlink("nowhere", place),
            Self::Bytes(bytes) => fs::write(place, bytes),
        }
    }

    fn named(&self) -> String {
        match self {
            Self::Missing => "none".into(),
            Self::Folder => "a folder".into(),
            Self::DeadLink => "a dead link".into(),
            Self::Bytes(bytes) => format!("{} bytes", bytes.len()),
        }
    }
}

struct Files {
    table: Found,
    trace: Found,
}

/// What a program prints for the bytes of two files, of which each may be none.
type Text = fn(Option<&[u8]>, Option<&[u8]>) -> Vec<u8>;

/// A program that reads `table.bin` and `trace.bin` of the current folder.
pub struct Program {
    /// The crate's name, and its own.
    pub name: &'static str,
    /// What names another one.
    variable: &'static str,
    /// What the reference prints for two files.
    text: Text,
}

/// Prints a run.
pub const PLAY: Program = Program {
    name: "play",
    variable: "LSQ_PLAY",
    text: |table, trace| play(table, trace).into_bytes(),
};

/// Prints the shift page after a run.
pub const PAGE: Program = Program {
    name: "page",
    variable: "LSQ_PAGE",
    text: page,
};

impl Program {
    /// The program of the repository's `crates/NAME/out`, or the one that LSQ_PLAY
    /// or LSQ_PAGE names.
    ///
    /// # Errors
    /// Where it is missing, so that no run passes over it.
    pub fn built(&self) -> Result<PathBuf, String> {
        let Self { name, variable, .. } = self;
        let crates = Path::new(env!("CARGO_MANIFEST_DIR")).join("../crates");
        let of_crate = || crates.join(name).join("out").join(name);
        let named = env::var_os(variable).map_or_else(of_crate, PathBuf::from);
        let built = named.canonicalize().ok().filter(|path| path.is_file());
        let shown = named.display();
        let words = || format!("{shown} is missing: `rt run` in crates/{name} builds it");
        built.ok_or_else(words)
    }
}

/// Runs the program at this path on files of special lengths, and on the files
/// of some cases as they are and damaged; gives the number of runs.
///
/// # Errors
/// The first difference, or what kept the program from running.
pub fn compare(program: &Program, path: &Path, seed: u64, cases: u64) -> Result<usize, Difference> {
    let named = format!("lsq-{}-{}", program.name, std::process::id());
    let runner = Runner {
        program,
        path,
        folder: env::temp_dir().join(named),
    };
    let special = special(seed);
    let mut runs = special.len();
    special
        .iter()
        .try_for_each(|files| runner.compare(files))
        .map_err(|difference| in_files(seed, "special lengths", &difference))?;
    for case in (seed..seed + cases).map(Case::new) {
        for (state, files) in [("as it is", whole(&case)), ("damaged", damaged(&case))] {
            let compared = runner.compare(&files);
            compared.map_err(|difference| in_files(case.seed, state, &difference))?;
            runs += 1;
        }
    }
    // The last pair stays where there is a difference.
    let removed = fs::remove_dir_all(&runner.folder);
    removed.map_err(|error| Difference(format!("{}: {error}", runner.folder.display())))?;
    Ok(runs)
}

fn in_files(seed: u64, state: &str, Difference(words): &Difference) -> Difference {
    Difference(format!("files of case {seed}, {state}: {words}"))
}

fn whole(case: &Case) -> Files {
    Files {
        table: Found::Bytes(case.table.clone()),
        trace: Found::Bytes(case.trace.clone()),
    }
}

/// The case with its table damaged, or its trace, or both.
fn damaged(case: &Case) -> Files {
    let mut rng = Rng::new(!case.seed);
    let (mut table, mut trace) = (case.table.clone(), case.trace.clone());
    let which = rng.below(4);
    if which != 1 {
        gen::damage(&mut rng, &mut trace);
    }
    if which < 2 {
        gen::damage(&mut rng, &mut table);
    }
    Files {
        table: Found::Bytes(table),
        trace: Found::Bytes(trace),
    }
}

/// Every pair of a table and a trace that are missing, a folder, a dead link,
/// empty, right, padded, as long as a file may be, one byte longer, and far
/// longer.
fn special(seed: u64) -> Vec<Files> {
    let (table, trace) = gen::Scenario::of_length(&mut Rng::new(seed), 40).bytes();
    let none = [Found::Missing, Found::Folder, Found::DeadLink];
    let lengths = [MAX_FILE - 1, MAX_FILE, MAX_FILE + 1, 100 * MAX_FILE];
    let bytes = |file: &[u8], lengthened: &dyn Fn(usize) -> Vec<u8>| {
        let mut found = none.to_vec();
        found.extend([Found::Bytes(Vec::new()), Found::Bytes(file.to_vec())]);
        found.extend(lengths.map(|length| Found::Bytes(lengthened(length))));
        found
    };
    let mut tables = bytes(&table, &|length| with_zeros(&table, length));
    tables.push(Found::Bytes(padded(&table)));
    let mut traces = bytes(&trace, &|length| with_takes(&trace, length));
    traces.push(Found::Bytes(padded(&trace)));
    let with_each_trace = |table: &Found| {
        let files = |trace: &Found| Files {
            table: table.clone(),
            trace: trace.clone(),
        };
        traces.iter().map(files).collect::<Vec<_>>()
    };
    tables.iter().flat_map(with_each_trace).collect()
}

fn with_zeros(bytes: &[u8], length: usize) -> Vec<u8> {
    let mut bytes = bytes.to_vec();
    bytes.resize(length, 0);
    bytes
}

/// The file with its first number, of one byte, in five: 42.
fn padded(file: &[u8]) -> Vec<u8> {
    [&[file[0] | 0x80, 0x80, 0x80, 0x80, 0x00], &file[1..]].concat()
}

/// 06 00 and 06 80 01 are takes, so a right trace stays one.
fn with_takes(trace: &[u8], length: usize) -> Vec<u8> {
    let mut bytes = trace.to_vec();
    if (length - bytes.len()) % 2 == 1 {
        bytes.extend([0x06, 0x80, 0x01]);
    }
    while bytes.len() < length {
        bytes.extend([0x06, 0x00]);
    }
    bytes
}

/// A program, where it is, and the folder in which it is run.
struct Runner<'a> {
    program: &'a Program,
    path: &'a Path,
    folder: PathBuf,
}

impl Runner<'_> {
    fn compare(&self, files: &Files) -> Result<(), Difference> {
        let Files { table, trace } = files;
        let name = self.program.name;
        let printed = self.run(files);
        let printed = printed.map_err(|error| Difference(format!("running {name}: {error}")))?;
        let expected = (self.program.text)(table.bytes(), trace.bytes());
        if printed == expected {
            return Ok(());
        }
        Err(Difference(format!(
            "{name} on a table ({}) and a trace ({}), kept in {}: {}",
            table.named(),
            trace.named(),
            self.folder.display(),
            first_difference(&expected, &printed),
        )))
    }

    /// What the program prints in a fresh folder with these files.
    fn run(&self, files: &Files) -> io::Result<Vec<u8>> {
        let folder = &self.folder;
        let _ = fs::remove_dir_all(folder);
        fs::create_dir_all(folder)?;
        let named = [("table.bin", &files.table), ("trace.bin", &files.trace)];
        for (name, found) in named {
            found.put(&folder.join(OsStr::new(name)))?;
        }
        let output = Command::new(self.path).current_dir(folder).output()?;
        if !output.status.success() {
            return Err(io::Error::other(format!("exit status {}", output.status)));
        }
        Ok(output.stdout)
    }
}

/// Where two texts part, and what they have from there on.
fn first_difference(expected: &[u8], printed: &[u8]) -> String {
    let mut pairs = expected.iter().zip(printed);
    let shorter = expected.len().min(printed.len());
    let at = pairs.position(|(mine, others)| mine != others);
    let at = at.unwrap_or(shorter);
    let shown = |text: &[u8]| {
        let part = &text[at..text.len().min(at + 60)];
        String::from_utf8_lossy(part).into_owned()
    };
    let (mine, others) = (shown(expected), shown(printed));
    format!("from byte {at} on, reference {mine:?}.., program {others:?}..")
}
