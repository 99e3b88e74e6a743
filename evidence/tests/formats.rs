//! The runs of `docs/FORMATS.md`: the shell lines there make the files of the
//! examples, and the reference prints what stands there.

use std::fs;
use std::path::{Path, PathBuf};

fn root() -> PathBuf {
    Path::new(env!("CARGO_MANIFEST_DIR")).join("..")
}

fn formats() -> String {
    fs::read_to_string(root().join("docs/FORMATS.md")).expect("the page")
}

/// The bytes that each line `printf '\x02..' >FILE` puts into this file.
fn made(page: &str, file: &str) -> Vec<Vec<u8>> {
    let bytes = |line: &str| {
        let line = line.strip_prefix("    printf '\\x")?;
        let (bytes, to) = line.split_once("' >")?;
        let byte = |byte: &str| u8::from_str_radix(byte, 16).expect("two digits");
        (to == file).then(|| bytes.split("\\x").map(byte).collect())
    };
    page.lines().filter_map(bytes).collect()
}

/// The line in the last cell of each row of an event.
fn printed(page: &str) -> Vec<String> {
    let cell = |line: &str| {
        let cell = line.strip_suffix("` |")?.rsplit_once("| `")?.1;
        let is_event = cell.starts_with(|c: char| c.is_ascii_digit());
        is_event.then(|| format!("{cell}\n"))
    };
    page.lines().filter_map(cell).collect()
}

#[test]
fn the_lines_of_the_page_make_the_examples() {
    let page = formats();
    let (tables, traces) = (made(&page, "table.bin"), made(&page, "trace.bin"));
    assert_eq!((tables.len(), traces.len()), (2, 2));
    for (i, example) in ["k1", "two-groups"].into_iter().enumerate() {
        let file = |name: &str| {
            let path = root().join("examples").join(example).join(name);
            fs::read(path).expect("a file of the example")
        };
        assert_eq!(tables[i], file("table.bin"), "{example}");
        assert_eq!(traces[i], file("trace.bin"), "{example}");
    }
}

#[test]
fn the_page_says_what_is_printed() {
    let page = formats();
    let (tables, traces) = (made(&page, "table.bin"), made(&page, "trace.bin"));
    let parts = page
        .split("\n## ")
        .filter(|part| part.contains("    printf '"));
    let parts: Vec<&str> = parts.collect();
    assert_eq!(parts.len(), 2);
    for (i, part) in parts.into_iter().enumerate() {
        let text = lsq_ref::play::play(Some(&tables[i]), Some(&traces[i]));
        let (events, rest) = text.split_at(text.find("word ").expect("a word"));
        assert_eq!(printed(part).concat(), events);
        let rest: String = rest.lines().map(|line| format!("    {line}\n")).collect();
        assert!(part.contains(&rest), "{rest}");
    }
}

/// The lines that stand there of K1's page are its first ones.
#[test]
fn the_page_shows_the_page_of_k1() {
    let page = formats();
    let (tables, traces) = (made(&page, "table.bin"), made(&page, "trace.bin"));
    let mut parts = page.split("\n## ");
    let part = parts.find(|part| part.starts_with("The shift page\n"));
    let lines = part.expect("a part of the shift page").lines();
    let shown: Vec<&str> = lines.filter_map(|line| line.strip_prefix("    ")).collect();
    let printed = lsq_ref::play::page(Some(&tables[0]), Some(&traces[0]));
    let printed = String::from_utf8(printed).expect("a page is text");
    let first: Vec<&str> = printed.lines().take(shown.len()).collect();
    assert!(shown.len() > 1, "{shown:?}");
    assert_eq!(shown, first);
}
