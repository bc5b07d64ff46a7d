//! The program `report`, once it is built, prints for generated images what the reference does.

use image_gen::{Kind, Size, generate, worst};
use std::io::Write;
use std::path::{Path, PathBuf};
use std::process::{Command, Stdio};

fn binary() -> Option<PathBuf> {
    let path = Path::new(env!("CARGO_MANIFEST_DIR")).join("../../crates/report/out/report");
    path.exists().then_some(path)
}

fn run(binary: &Path, image: &[u8]) -> String {
    let mut child = Command::new(binary).stdin(Stdio::piped()).stdout(Stdio::piped()).spawn().unwrap();
    // What is longer than any image is not read to its end.
    let _ = child.stdin.take().unwrap().write_all(image);
    let output = child.wait_with_output().unwrap();
    assert!(output.status.success());
    String::from_utf8(output.stdout).unwrap()
}

/// Compares, and counts the images of which a report was printed and those that were refused.
fn compare(images: impl Iterator<Item = (String, Vec<u8>)>) {
    let Some(binary) = binary() else {
        println!("crates/report/out/report is not built: nothing was compared");
        return;
    };
    let (mut printed, mut refused) = (0, 0);
    for (name, image) in images {
        let expected = paper_reference::report(&image);
        assert!(run(&binary, &image) == expected, "{name}");
        if expected.starts_with("refused") { refused += 1 } else { printed += 1 }
    }
    println!("{printed} reports and {refused} refusals agree");
}

#[test]
fn small_images() {
    let image = |kind: Kind, seed| (format!("{kind:?} {seed}"), generate(kind, seed).pages());
    compare(Kind::SMALL.iter().flat_map(|&kind| (0..50).map(move |seed| image(kind, seed))));
}

#[test]
fn large_images() {
    let image = |kind: Kind, seed| (format!("{kind:?} {seed}"), generate(kind, seed).pages());
    compare(Kind::LARGE.iter().flat_map(|&kind| (0..4).map(move |seed| image(kind, seed))));
}

#[test]
fn the_worst_images() {
    let images = [Size::SMALL, Size::MEDIUM].into_iter().flat_map(worst);
    compare(images.map(|(name, image)| (name.into(), image.pages())));
}

#[test]
fn refused_images() {
    let folder = Path::new(env!("CARGO_MANIFEST_DIR")).join("../../crates/refusals/data");
    let files = std::fs::read_dir(folder).unwrap().map(|file| file.unwrap().path());
    compare(files.map(|path| (path.display().to_string(), std::fs::read(&path).unwrap())));
}
