//! Each exception and each difference from the paper that docs/DIFFERENCES.md names has its calls: the titles and the names in the
//! last column of its tables are those of examples. Each patch of the amended Rust is named as an exception, and only these are.

use std::fs;
use std::path::{Path, PathBuf};

fn root() -> PathBuf {
    Path::new(env!("CARGO_MANIFEST_DIR")).join("../..")
}

fn content(path: &str) -> String {
    fs::read_to_string(root().join(path)).unwrap_or_else(|fault| panic!("{path}: {fault}"))
}

/// The titles of the examples' runs.
fn titles() -> Vec<String> {
    let traces = ["host/examples.trace", "host/client.trace"].map(content);
    let lines = traces.iter().flat_map(|trace| trace.lines());
    let titles = lines.filter_map(|line| line.strip_prefix("# "));
    titles.map(String::from).collect()
}

/// Whether a definition of this name stands among the model's examples.
fn is_defined(name: &str) -> bool {
    let files = ["Marked", "Misread", "Surprises"];
    let files = files.map(|file| content(&format!("crates/model/specs/{file}.antt")));
    let heads = ["Directed", "Example"].map(|kind| format!("unfoldable pub {name} : {kind}\n"));
    files
        .iter()
        .any(|text| heads.iter().any(|head| text.contains(head)))
}

/// The rows of the table in a section, each with so many cells, without its head.
fn rows(title: &str, cells: usize) -> Vec<Vec<String>> {
    let text = content("docs/DIFFERENCES.md");
    let section = text
        .split("\n## ")
        .find(|section| section.starts_with(title))
        .expect("the section");
    let lines = section.lines().filter(|line| line.starts_with('|'));
    let rows = lines.skip(2).map(|row| {
        let words = row.trim_matches('|').split(" | ");
        let row: Vec<String> = words.map(String::from).collect();
        assert_eq!(row.len(), cells, "{row:?}");
        row
    });
    rows.collect()
}

/// Each call in the last cell of a row is one example's.
fn has_calls(row: &[String], titles: &[String]) {
    let calls = row.last().expect("a last cell");
    for call in calls.trim().split("; ") {
        let found = match (call.strip_prefix('"'), call.strip_prefix('`')) {
            (Some(title), _) => {
                let title = title.trim_end_matches('"');
                titles.iter().filter(|t| t.starts_with(title)).count() == 1
            }
            (_, Some(name)) => is_defined(name.trim_end_matches('`')),
            _ => false,
        };
        assert!(found, "no example, or more than one: {call}, of {row:?}");
    }
}

#[test]
fn every_difference_has_its_calls() {
    let titles = titles();
    let rows = rows("Between the Rust and the paper", 4);
    assert!(rows.len() > 20, "{} rows", rows.len());
    for row in rows {
        has_calls(&row, &titles);
    }
}

#[test]
fn every_exception_has_its_patch_and_its_calls() {
    let titles = titles();
    let rows = rows("Exceptions", 6);
    for row in &rows {
        has_calls(row, &titles);
    }
    let mut named: Vec<String> = rows.iter().map(|row| row[4].replace('`', "")).collect();
    let folder = fs::read_dir(root().join("host/vsr-rs-amended/patches")).expect("the patches");
    let files = folder.map(|file| file.expect("a patch").file_name());
    let files = files.filter_map(|name| name.to_str()?.strip_suffix(".patch").map(String::from));
    let mut patches: Vec<String> = files.collect();
    named.sort();
    patches.sort();
    assert_eq!(named, patches);
}
