//! Sources of the repository as text, and the numbers in them.

use std::collections::BTreeMap;
use std::fs::{self, DirEntry};
use std::io;
use std::ops::Range;
use std::path::{Path, PathBuf};
use std::rc::Rc;

/// A number in a source.
#[derive(Clone, Debug)]
pub struct Numeral {
    /// Where it stands in the flat text.
    pub flat: Range<usize>,
    /// What it says.
    pub value: u64,
}

/// A file, and the same flat: each run of blanks is one space, and so is a line
/// break with the mark of a comment behind it.
pub struct Source {
    pub path: String,
    pub text: String,
    pub flat: String,
    pub numerals: Vec<Numeral>,
    /// The place in the text of each byte of the flat one.
    origin: Vec<usize>,
}

const MARKS: [&str; 5] = ["/// ", "//! ", "// ", "-- ", "* "];

/// How the crates' code may write 4294967295.
const GREATEST: &str = "u32::MAX";

impl Source {
    pub fn new(path: &str, text: String) -> Self {
        let (flat, origin) = flattened(&text);
        let mut numerals = numerals(&flat);
        if path.ends_with(".rt") {
            numerals.extend(flat.match_indices(GREATEST).map(greatest));
            numerals.sort_by_key(|numeral| numeral.flat.start);
        }
        let path = path.into();
        Self {
            path,
            text,
            flat,
            numerals,
            origin,
        }
    }

    /// The file and the line of a place in its text.
    pub fn place(&self, at: usize) -> String {
        let line = self.text[..at].matches('\n').count() + 1;
        format!("{}:{line}", self.path)
    }

    pub fn place_of(&self, numeral: usize) -> String {
        self.place(self.range(numeral).start)
    }

    fn range(&self, numeral: usize) -> Range<usize> {
        let Range { start, end } = self.numerals[numeral].flat;
        self.origin[start]..self.origin[end - 1] + 1
    }

    /// The numbers within a part of the text, by their places in `numerals`.
    pub fn numerals_in(&self, part: &Range<usize>) -> Vec<usize> {
        let inside = |&n: &usize| {
            let Range { start, end } = self.range(n);
            part.start <= start && end <= part.end
        };
        (0..self.numerals.len()).filter(inside).collect()
    }

    /// The text with one more in a number's place.
    pub fn with_one_more(&self, numeral: usize) -> Self {
        let mut text = self.text.clone();
        let more = self.numerals[numeral].value + 1;
        text.replace_range(self.range(numeral), &more.to_string());
        Self::new(&self.path, text)
    }

    /// Its lines, with their places in the text.
    pub fn lines(&self) -> impl Iterator<Item = (Range<usize>, &str)> {
        let mut end = 0;
        self.text.split_inclusive('\n').map(move |line| {
            let start = end;
            end += line.len();
            (start..end, line)
        })
    }
}

fn flattened(text: &str) -> (String, Vec<usize>) {
    let (mut flat, mut origin) = (String::new(), Vec::new());
    let mut start = 0;
    for line in text.split_inclusive('\n') {
        let mut rest = line.trim_start();
        let mark = MARKS.iter().find(|mark| rest.starts_with(**mark));
        rest = mark.map_or(rest, |mark| &rest[mark.len()..]);
        let skipped = line.len() - rest.len();
        for (i, c) in rest.char_indices() {
            let c = if c.is_whitespace() { ' ' } else { c };
            if c == ' ' && flat.ends_with(' ') {
                continue;
            }
            flat.push(c);
            origin.resize(flat.len(), start + skipped + i);
        }
        start += line.len();
    }
    (flat, origin)
}

fn numerals(flat: &str) -> Vec<Numeral> {
    let bytes = flat.as_bytes();
    let is_word = |at: usize| {
        bytes
            .get(at)
            .is_some_and(|b| b.is_ascii_alphanumeric() || *b == b'_')
    };
    let mut found = Vec::new();
    let mut at = 0;
    while at < bytes.len() {
        let mut end = at;
        while is_word(end) {
            end += 1;
        }
        if !bytes[at].is_ascii_digit() {
            at = end.max(at + 1);
            continue;
        }
        while thousands(&bytes[end..]) {
            end += 4;
        }
        let value = value_of(&flat[at..end]);
        found.extend(value.map(|value| Numeral {
            flat: at..end,
            value,
        }));
        at = end;
    }
    found
}

fn greatest((start, name): (usize, &str)) -> Numeral {
    Numeral {
        flat: start..start + name.len(),
        value: u32::MAX.into(),
    }
}

/// Whether a comma and three digits come next, as in 16,384.
fn thousands(bytes: &[u8]) -> bool {
    let digit = |at: usize| bytes.get(at).is_some_and(u8::is_ascii_digit);
    bytes.first() == Some(&b',') && digit(1) && digit(2) && digit(3) && !digit(4)
}

fn value_of(word: &str) -> Option<u64> {
    let digits = word.replace(['_', ','], "");
    let hexadecimal = || u64::from_str_radix(digits.trim_start_matches("0x"), 16).ok();
    digits.parse().ok().or_else(hexadecimal)
}

fn root() -> PathBuf {
    Path::new(env!("CARGO_MANIFEST_DIR")).join("..")
}

/// The paths of a folder's files, of which there must be some.
pub fn listed(folder: &str) -> Vec<String> {
    let files = fs::read_dir(root().join(folder));
    let files = files.unwrap_or_else(|error| panic!("{folder}: {error}"));
    let path = |file: io::Result<DirEntry>| {
        let name = file.expect("a file of the folder").file_name();
        format!("{folder}/{}", name.to_str().expect("a plain name"))
    };
    let paths: Vec<String> = files.map(path).collect();
    assert!(!paths.is_empty(), "{folder} is empty");
    paths
}

/// The sources that hold numbers, by their paths.
#[derive(Clone)]
pub struct Sources(BTreeMap<String, Rc<Source>>);

impl Sources {
    /// Reads files of the repository; one that is missing ends the test.
    pub fn read(paths: impl Iterator<Item = String>) -> Self {
        let source = |path: String| {
            let text = fs::read_to_string(root().join(&path));
            let text = text.unwrap_or_else(|error| panic!("{path}: {error}"));
            let source = Source::new(&path, text);
            (path, Rc::new(source))
        };
        Self(paths.map(source).collect())
    }

    pub fn get(&self, path: &str) -> &Source {
        let source = self.0.get(path);
        source.unwrap_or_else(|| panic!("{path} is not among the sources"))
    }

    pub fn all(&self) -> impl Iterator<Item = &Source> {
        self.0.values().map(Rc::as_ref)
    }

    /// The same but for one of them.
    pub fn with(&self, source: Source) -> Self {
        let mut changed = self.clone();
        changed.0.insert(source.path.clone(), Rc::new(source));
        changed
    }
}
