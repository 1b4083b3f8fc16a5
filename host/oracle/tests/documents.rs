//! The documents name what is there: paths, the crates of the house, the files to be believed.

#[path = "helpers/files.rs"]
mod files;

use files::files_under;
use std::{
    fs,
    path::{Path, PathBuf},
};

/// The crates whose every definition has to be believed.
const BELIEVED: [&str; 17] = [
    "folds",
    "ot_layouts",
    "store_rules",
    "cut_rules",
    "glyph_rules",
    "call_rules",
    "pair_rules",
    "mark_rules",
    "lookup_rules",
    "compact_rules",
    "promise_pairs",
    "promise_marks",
    "promise_lookups",
    "promise_compaction",
    "pair_fits",
    "mark_fits",
    "promise_editions",
];

fn root() -> PathBuf {
    Path::new(env!("CARGO_MANIFEST_DIR")).join("../..")
}

fn text(path: &str) -> String {
    fs::read_to_string(root().join(path)).unwrap()
}

/// What stands between backticks in a page and starts with a directory of the repository.
fn paths_in(page: &str) -> impl Iterator<Item = &str> {
    let quoted = page.split('`').skip(1).step_by(2);
    quoted.filter(|path| {
        let starts = ["crates/", "docs/", "host/", ".ci/"];
        starts.iter().any(|start| path.starts_with(start))
    })
}

#[test]
fn each_path_that_a_document_names_is_there() {
    let mut pages = files_under(&root().join("docs")).unwrap();
    pages.retain(|page| page.extension() == Some("md".as_ref()));
    pages.push(root().join("README.md"));
    let mut missing = Vec::new();
    for page in pages {
        let text = fs::read_to_string(&page).unwrap();
        let gone = paths_in(&text).filter(|path| !root().join(path).exists());
        missing.extend(gone.map(|path| format!("{}: {path}", page.display())));
    }
    assert!(missing.is_empty(), "\n{}\n", missing.join("\n"));
}

#[test]
fn the_readme_shows_each_crate() {
    let crates = text("crates.txt");
    let readme = text("README.md");
    let house = readme.split("## The house").nth(1).unwrap();
    let shown: Vec<_> = house.split_whitespace().collect();
    let rows = crates.lines().filter(|line| !line.starts_with('#'));
    let names = rows.filter_map(|row| row.split_once(':')?.0.split(' ').next());
    for name in names {
        assert!(shown.contains(&name), "{name} is not shown");
    }
}

#[test]
fn the_readme_names_the_pinned_kit() {
    let kit = text("kit.txt");
    assert_eq!(kit.lines().count(), 1);
    assert!(text("README.md").contains(&format!("`{}`", kit.trim())));
}

/// The figures of what is left to the host are those of a test, and stand wherever it is told.
#[test]
fn what_is_left_to_the_host_has_its_figures() {
    let figures = text("host/splitter/tests/packing.rs");
    for number in ["67_732", "65_482"] {
        assert!(figures.contains(number));
        let number = number.replace('_', ",");
        for page in [
            "README.md",
            "host/include/splitter.h",
            "host/splitter/src/lib.rs",
        ] {
            assert!(text(page).contains(&number), "{page}: {number}");
        }
    }
}

#[test]
fn the_reading_list_names_each_file_that_has_to_be_believed() {
    let promises = text("docs/PROMISES.md");
    let named: Vec<_> = paths_in(&promises).collect();
    for believed in BELIEVED {
        let specs = format!("crates/{believed}/specs");
        for file in files_under(&root().join(specs)).unwrap() {
            let path = file.strip_prefix(root()).unwrap().to_str().unwrap();
            let only_lists_modules = path.ends_with("/Lib.antt");
            assert!(only_lists_modules || named.contains(&path), "{path}");
        }
    }
}
