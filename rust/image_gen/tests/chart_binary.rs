//! The program `chart`, once it is built, prints for generated images what the reference does.

use image_gen::{Kind, Size, extremes, generate, worst};
use paper_reference::chart_text;
use std::fs;
use std::io::Write;
use std::path::{Path, PathBuf};
use std::process::{Command, Stdio};

fn binary() -> Option<PathBuf> {
    let path = Path::new(env!("CARGO_MANIFEST_DIR")).join("../../crates/chart/out/chart");
    if !path.exists() {
        println!("crates/chart/out/chart is not built: nothing was compared");
    }
    path.exists().then_some(path)
}

/// What the program prints for the image on its standard input.
fn run(binary: &Path, image: &[u8]) -> Vec<u8> {
    let mut child = Command::new(binary).stdin(Stdio::piped()).stdout(Stdio::piped()).spawn().unwrap();
    // What is longer than any image is not read to its end.
    let _ = child.stdin.take().unwrap().write_all(image);
    let output = child.wait_with_output().unwrap();
    assert!(output.status.success());
    output.stdout
}

/// Compares, and counts the images of which a chart was printed and those that were refused.
fn compare(images: impl Iterator<Item = (String, Vec<u8>)>) {
    let Some(binary) = binary() else { return };
    let (mut printed, mut refused) = (0, 0);
    for (name, image) in images {
        let expected = chart_text(&image);
        assert!(run(&binary, &image) == expected.as_bytes(), "{name}");
        if expected.starts_with("refused") { refused += 1 } else { printed += 1 }
    }
    println!("{printed} charts and {refused} refusals agree");
}

/// Images of these kinds, so many of each.
fn of_kinds(kinds: &[Kind], count: u64) -> impl Iterator<Item = (String, Vec<u8>)> {
    let image = |kind: Kind, seed| (format!("{kind:?} {seed}"), generate(kind, seed).pages());
    kinds.iter().flat_map(move |&kind| (0..count).map(move |seed| image(kind, seed)))
}

#[test]
fn small_images() {
    compare(of_kinds(Kind::SMALL, 40));
}

#[test]
fn large_images() {
    compare(of_kinds(Kind::LARGE, 4).chain(of_kinds(&[Kind::FullCharts], 20)));
}

#[test]
fn the_worst_images() {
    let images = [Size::SMALL, Size::MEDIUM].into_iter().flat_map(worst);
    compare(images.map(|(name, image)| (name.into(), image.pages())));
}

/// However long it is, the program prints it.
#[test]
fn the_longest_chart() {
    compare([("the longest chart".to_string(), extremes::charted(Size::FULL).pages())].into_iter());
}

#[test]
fn refused_images() {
    let folder = Path::new(env!("CARGO_MANIFEST_DIR")).join("../../crates/refusals/data");
    let files = fs::read_dir(folder).unwrap().map(|file| file.unwrap().path());
    compare(files.map(|path| (path.display().to_string(), fs::read(&path).unwrap())));
}

/// For each file that is named: its name, and its chart or why there is none.
#[test]
fn named_files() {
    let Some(binary) = binary() else { return };
    let folder = Path::new(env!("CARGO_TARGET_TMPDIR")).join("named_charts");
    fs::create_dir_all(&folder).unwrap();
    let images =
        of_kinds(&[Kind::Charts], 3).chain([("refused".to_string(), vec![0; 512]), ("none".to_string(), vec![])]);
    let (mut names, mut expected) = (Vec::new(), String::new());
    for (name, image) in images {
        fs::write(folder.join(&name), &image).unwrap();
        expected += &format!("{name}\n{}", chart_text(&image));
        names.push(name);
    }
    let output = Command::new(binary).current_dir(&folder).args(&names).output().unwrap();
    assert!(output.stdout == expected.as_bytes());
}
