//! The linked library writes images back and writes lent records as the paper does, on some images of each kind.

use compare::tally::Tally;
use compare::writing;
use image_gen::{Kind, Size, generate, worst};
use sir_analyses::LINKED;
use sir_image::Image;

/// Whether there is a library; where there is none, nothing is compared.
fn is_linked() -> bool {
    if !LINKED {
        println!("no library: nothing is compared");
    }
    LINKED
}

/// Compares what is written of these images and of records made from them.
fn compared(images: impl Iterator<Item = Image>) -> Tally {
    let mut tally = Tally::default();
    for image in images {
        if let Err(found) = writing::with_library(&image, &mut tally) {
            panic!("{found}");
        }
    }
    tally
}

#[test]
fn small_images() {
    if !is_linked() {
        return;
    }
    let images = Kind::SMALL.iter().flat_map(|&kind| (0..300).map(move |seed| generate(kind, seed)));
    let writing = compared(images).writing;
    assert!(writing.images > 4000 && writing.outright > 100 && writing.nine > 100, "{writing}");
    assert!(writing.full > 100 && writing.one_more > 100, "{writing}");
}

#[test]
fn large_images() {
    if !is_linked() {
        return;
    }
    let large = Kind::LARGE.iter().flat_map(|&kind| (0..3).map(move |seed| generate(kind, seed)));
    let writing = compared(large.chain(worst(Size::MEDIUM).into_iter().map(|(_, image)| image))).writing;
    assert!(writing.images == 37 && writing.most > 3, "{writing}");
}

#[test]
fn known_records() {
    if !is_linked() {
        return;
    }
    if let Err(found) = writing::known_with_library(&mut Tally::default()) {
        panic!("{found}");
    }
}
