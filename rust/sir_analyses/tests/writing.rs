//! Images taken apart and put together by the linked library.
#![cfg(sir_linked)]

use paper_reference::call_write;
use sir_analyses::{Answer, Refusal, calls};
use sir_image::pages::to_bytes;
use sir_image::{Image, samples};
use std::{fs, path::Path};

/// Number, length and every byte of the result slice are the paper's.
fn assert_as_the_paper(records: &[u8], room: usize) -> Answer {
    let mut result: Vec<u8> = (0..room).map(|at| at as u8 ^ 0x5a).collect();
    let mut expected = result.clone();
    let answer = calls::write(records, &mut result);
    let (number, length) = call_write(records, &mut expected);
    assert_eq!((answer, &result), (Answer { number, length }, &expected));
    answer
}

/// What is known by name.
fn images() -> Vec<Image> {
    vec![
        samples::report(),
        samples::largest(),
        samples::deepest(),
        samples::mutual_calls(),
        samples::exchanged_bases(),
        samples::logs(),
        samples::bare_ends(),
    ]
}

/// The builder's words are the records of its pages, and are written as these.
#[test]
fn the_builders_pages() {
    for image in images() {
        let (words, pages) = (image.words(), image.pages());
        assert_eq!(sir_analyses::records(&pages).as_ref(), Ok(&words));
        assert_eq!(sir_analyses::write(&words), Ok(pages));
    }
}

#[test]
fn the_examples() {
    let folder = Path::new(env!("CARGO_MANIFEST_DIR")).join("../../examples");
    for name in ["functions.img", "large.img", "paper.img", "typical.img"] {
        let image = fs::read(folder.join(name)).unwrap();
        assert_eq!(sir_analyses::write(&sir_analyses::records(&image).unwrap()), Ok(image), "{name}");
    }
}

/// Some lengths of the result slice, those around a page among them.
#[test]
fn slices() {
    let records = to_bytes(&samples::report().words());
    for room in [0, 1, 3, 4, 255, 508, 511, 512, 513, 600, 1024] {
        assert_eq!(assert_as_the_paper(&records, room).number, if room < 512 { 14 } else { 0 });
    }
}

/// Every length of lent records, in words and in bytes, and a head that breaks 4 or 5 as well.
#[test]
fn lengths() {
    let mut words = samples::report().words();
    words.extend([0; 60]);
    for (edition, functions) in [(1, 1), (2, 1), (1, 0), (1, 65)] {
        words[..2].copy_from_slice(&[edition, functions]);
        let records = to_bytes(&words);
        for length in 0..records.len() {
            for room in [0, 600] {
                assert_as_the_paper(&records[..length], room);
            }
        }
    }
    let more = to_bytes(&[samples::largest().words(), vec![0; 100]].concat());
    assert_eq!(
        [0, 4, 308, 312, 400].map(|bytes| assert_as_the_paper(&more[..58_660 + bytes], 60_000).number),
        [0, 6, 6, 6, 6]
    );
}

/// A word of the records, each in turn, as other numbers.
#[test]
fn altered_words() {
    let words = samples::bare_ends().words();
    for at in 0..words.len() {
        for word in [0, 1, 2, 3, 7, 93, 513, u32::MAX] {
            let mut altered = words.clone();
            altered[at] = word;
            assert_as_the_paper(&to_bytes(&altered), 1024);
        }
    }
}

#[test]
fn refusals_decoded() {
    let mut words = samples::report().words();
    assert_eq!(sir_analyses::write(&words[..8]), Err(Refusal::PAGE_COUNT));
    assert_eq!(sir_analyses::write(&words[..9]), Err(Refusal::PAGE_COUNT));
    words[2] = 257;
    assert_eq!(sir_analyses::write(&words[..9]), Err(Refusal::COUNT));
    words[0] = 2;
    assert_eq!(sir_analyses::write(&words), Err(Refusal::EDITION));
    assert_eq!(sir_analyses::write(&[]), Err(Refusal::PAGE_COUNT));
    assert_eq!(sir_analyses::records(&samples::report().pages()[..511]), Err(Refusal::LENGTH));
}
