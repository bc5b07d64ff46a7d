//! The program `replay`, once it is built, tells what agrees with a file from what does not.

use compare::recording::{Called, Recorded, Recording};
use sir_image::pages::to_bytes;
use sir_image::samples;
use sir_questions::Question;
use std::path::{Path, PathBuf};
use std::process::Command;
use std::{env, fs};

fn binary() -> Option<PathBuf> {
    let path = Path::new(env!("CARGO_MANIFEST_DIR")).join("../../crates/replay/out/replay");
    path.exists().then_some(path)
}

/// What the program prints for a file of these bytes; nothing where it is not built.
fn replayed(name: &str, bytes: &[u8]) -> Option<String> {
    let Some(binary) = binary() else {
        println!("crates/replay/out/replay is not built: nothing was replayed");
        return None;
    };
    let folder = Path::new(env!("CARGO_TARGET_TMPDIR"));
    fs::write(folder.join(name), bytes).unwrap();
    let output = Command::new(binary).current_dir(folder).arg(name).output().unwrap();
    Some(String::from_utf8(output.stdout).unwrap())
}

fn calls(image: &[u8]) -> Vec<Recorded> {
    let questions = Question::KINDS.iter().map(|kind| kind.about_zeros());
    questions.map(|question| Recorded::by_reference(question, image, 400)).collect()
}

/// Every question is known to the program, by its number and its ids.
#[test]
fn every_question() {
    let image = samples::report().pages();
    let calls = calls(&image);
    let count = calls.len();
    let recording = Recording { name: "every_question".to_string(), lent: image, calls };
    if let Some(line) = replayed("every_question", &recording.bytes()) {
        assert_eq!(line, format!("every_question agree {count} differ 0\n"));
    }
}

/// The writer is known too, and is lent what the file has in the place of an image.
#[test]
fn writer() {
    let lent = to_bytes(&samples::report().words());
    let calls = [512, 520, 511, 0].map(|room| Recorded::by_reference(Called::Write, &lent, room)).to_vec();
    let recording = Recording { name: "writer".to_string(), lent, calls };
    if let Some(line) = replayed("writer", &recording.bytes()) {
        assert_eq!(line, "writer agree 4 differ 0\n");
    }
}

/// An answer that is recorded wrongly differs: its number, its length, a byte of it, a byte past it.
#[test]
fn wrong_answers() {
    let image = samples::report().pages();
    let right = Recorded::by_reference(Question::Order, &image, 20);
    let mut calls = vec![right.clone(); 5];
    calls[0].number = 1;
    calls[1].length = 12;
    calls[2].result[8] ^= 1;
    calls[3].result[19] ^= 1;
    let recording = Recording { name: "wrong_answers".to_string(), lent: image, calls };
    if let Some(line) = replayed("wrong_answers", &recording.bytes()) {
        assert_eq!(line, "wrong_answers agree 1 differ 4\n");
    }
}

/// A question that there is not, or that has another number of ids, differs whatever it is to give.
#[test]
fn unknown_questions() {
    let image = samples::report().pages();
    let mut bytes = to_bytes(&[image.len() as u32, 8]);
    bytes.extend(&image);
    // Number and ids, then the length of the slice, number and length; the slices are empty.
    for question in [&[1000, 0][..], &[0, 1, 0], &[1, 0], &[1, 3, 0, 0, 0], &[16, 1, 0], &[17, 3, 0, 0, 0]] {
        bytes.extend(to_bytes(&[question, &[0, 0, 0]].concat()));
    }
    bytes.extend(to_bytes(&[0, 0, 0, 14, 0]));
    bytes.extend(to_bytes(&[1, 1, 7, 0, 13, 0]));
    if let Some(line) = replayed("unknown_questions", &bytes) {
        assert_eq!(line, "unknown_questions agree 2 differ 6\n");
    }
}
