//! The stored texts of the crates `report`, `reports` and `chart` are those of a second reading of the papers.

use paper_reference::{chart_text, report};
use std::fs;
use std::path::{Path, PathBuf};

const PAPER: &str = "\
order b0 b1
rounds 2
b0 in - out v1
b1 in v2 out -
v0 b0 0..2
v1 b0 1..end
v2 b1 start..3
a0 b0 op1 v1 kept b0 1..end b1 start..3
";

fn crates() -> PathBuf {
    Path::new(env!("CARGO_MANIFEST_DIR")).join("../../crates")
}

#[test]
fn the_papers_text() {
    let folder = crates().join("report");
    assert_eq!(report(&sir_image::samples::report().pages()), PAPER);
    assert_eq!(fs::read(folder.join("stdin")).unwrap(), sir_image::samples::report().pages());
    assert_eq!(fs::read_to_string(folder.join("stdout")).unwrap(), PAPER);
}

/// What a crate has stored is the name of each of its images and then this text of it.
fn assert_stored(name: &str, text: impl Fn(&[u8]) -> String) {
    let folder = crates().join(name);
    let args = fs::read_to_string(folder.join("args")).unwrap();
    let mut expected = String::new();
    for name in args.lines() {
        expected += &format!("{name}\n{}", text(&fs::read(folder.join("data").join(name)).unwrap()));
    }
    assert_eq!(fs::read_dir(folder.join("data")).unwrap().count(), args.lines().count());
    assert!(fs::read_to_string(folder.join("stdout")).unwrap() == expected, "{name}");
}

#[test]
fn every_stored_report() {
    assert_stored("reports", report);
}

#[test]
fn every_stored_chart() {
    assert_stored("chart", chart_text);
}
