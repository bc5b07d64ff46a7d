//! The stored images that try every clause of the refusals of an image, with the numbers that were read off the paper.

use std::{fs, path::Path};

#[test]
fn every_listed_image() {
    let folder = Path::new(env!("CARGO_MANIFEST_DIR")).join("../../crates/refusals/data");
    let index = fs::read_to_string(folder.join("index")).unwrap();
    let mut tried = 0;
    for line in index.lines() {
        let (name, number) = line.split_once(' ').unwrap();
        let image = fs::read(folder.join(name)).unwrap();
        assert_eq!(paper_reference::refusal(&image), number.parse().unwrap(), "{name}");
        tried += 1;
    }
    println!("{tried} images");
    assert!(tried > 0);
}
