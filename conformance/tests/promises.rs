//! Every file that docs/PROMISES.md cites exists, and every name that it cites stands in the file that is cited with it.

use std::collections::HashSet;
use std::fs;
use std::path::{Path, PathBuf};

fn sources(folder: &Path, found: &mut Vec<PathBuf>) {
    for entry in fs::read_dir(folder).expect("a folder of sources") {
        let path = entry.expect("an entry").path();
        if path.is_dir() {
            sources(&path, found);
        } else if path.extension().is_some_and(|e| e == "antt" || e == "rt") {
            found.push(path);
        }
    }
}

/// The words of the sources: what stands between blanks and brackets.
fn words(text: &str) -> impl Iterator<Item = &str> {
    text.split(|c: char| c.is_whitespace() || "(){}[],;:.!|&<>=".contains(c)).filter(|w| !w.is_empty())
}

#[test]
fn cited_names_stand_in_the_cited_files() {
    let root = Path::new(env!("CARGO_MANIFEST_DIR")).parent().expect("the repository");
    let promises = fs::read_to_string(root.join("docs/PROMISES.md")).expect("docs/PROMISES.md");
    let mut files = Vec::new();
    sources(&root.join("crates"), &mut files);
    let text: String = files.iter().map(|f| fs::read_to_string(f).expect("a source")).collect();
    let known: HashSet<&str> = words(&text).collect();
    let (mut placed, mut unplaced) = (0, 0);
    for line in promises.lines().filter(|l| l.starts_with('|')) {
        // a part of a row, up to a semicolon or the next column: names, and behind them the file where they stand
        for part in line.split([';', '|']) {
            let mut names: Vec<&str> = Vec::new();
            for cited in part.split('`').skip(1).step_by(2) {
                if !cited.contains('/') {
                    names.extend(cited.split([' ', ':']).filter(|n| !n.is_empty()));
                    continue;
                }
                let file = root.join("crates").join(cited);
                let file = if file.exists() { file } else { root.join(cited) };
                let text = fs::read_to_string(&file).unwrap_or_else(|_| panic!("{cited} is cited, but is not there: {line}"));
                let here: HashSet<&str> = words(&text).collect();
                for name in names.drain(..) {
                    assert!(here.contains(name), "{name} is cited with {cited}, but does not stand there: {line}");
                    placed += 1;
                }
            }
            // names without a file of their own: a crate, or a name of some source
            for name in names {
                let is_crate = root.join("crates").join(name).is_dir();
                assert!(is_crate || known.contains(name), "{name} is cited, but no source has it: {line}");
                unplaced += 1;
            }
        }
    }
    assert!(placed > 50 && unplaced > 20, "only {placed} names with a file and {unplaced} without were found in docs/PROMISES.md");
}
