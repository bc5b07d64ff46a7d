//! The stack that a call takes: the pages of a new thread's stack that have been touched when the call is done.

use crate::timing::Timed;
use image_gen::{Size, worst};
use sir_analyses::calls;
use sir_image::{Image, samples};
use sir_questions::{Question, QuestionKind, WRITE};
use std::hint::black_box;
use std::thread;

/// The stack of the thread. Below the size of a huge page, so that each small page is touched by itself.
const STACK_BYTES: usize = 3 << 19;

/// Prints the most that each question and the writer takes, over the images that nest deepest or take longest.
pub fn table() {
    let worst = worst(Size::FULL).into_iter().map(|(_, image)| image);
    let images: Vec<Image> = [samples::deepest(), samples::largest()].into_iter().chain(worst).collect();
    let images: Vec<Timed> = images.iter().map(Timed::new).collect();
    println!("\nstack of a call, the most of {} images; what a thread without a call takes is included", images.len());
    println!("{:16} {:>10}", "no call", shown(touched(|| ())));
    for kind in Question::KINDS {
        let most = images.iter().map(|image| stack_of(kind, image)).max().flatten();
        println!("{:16} {:>10}", kind.name, shown(most));
    }
    let most = images.iter().map(stack_of_writing).max().flatten();
    println!("{:16} {:>10}", WRITE.name, shown(most));
}

/// The stack of the first question of a sample, or of one that is refused where there are no ids.
fn stack_of(kind: &QuestionKind, image: &Timed) -> Option<u64> {
    let question = image.sample(kind).first().copied().unwrap_or(kind.about_zeros());
    let bytes = &image.bytes;
    touched(|| call(bytes, question))
}

/// The stack of writing an image from its records.
fn stack_of_writing(image: &Timed) -> Option<u64> {
    let records = &image.records;
    touched(|| _ = black_box(calls::write(records, &mut vec![0; MOST])))
}

/// The result slice of a call, in bytes.
const MOST: usize = 1 << 21;

fn call(image: &[u8], question: Question) {
    let mut result = vec![0; MOST];
    black_box(calls::ask(question, image, &mut result));
}

fn shown(kibibytes: Option<u64>) -> String {
    kibibytes.map_or("unknown".to_string(), |size| format!("{size} KiB"))
}

/// The touched part of a new thread's stack once this has run in it, in KiB.
fn touched(run: impl FnOnce() + Send) -> Option<u64> {
    let measured = || {
        run();
        let here = 0u8;
        resident(black_box(&raw const here) as u64)
    };
    thread::scope(|scope| {
        let thread = thread::Builder::new().stack_size(STACK_BYTES).spawn_scoped(scope, measured);
        thread.expect("a thread can be started").join().expect("the thread ends")
    })
}

/// The size of the resident part of the mapping that holds an address, in KiB, as Linux tells it.
fn resident(address: u64) -> Option<u64> {
    let maps = std::fs::read_to_string("/proc/self/smaps").ok()?;
    let holds = |line: &str| {
        let (start, rest) = line.split_once('-')?;
        let end = rest.split_once(' ')?.0;
        Some((u64::from_str_radix(start, 16).ok()?..u64::from_str_radix(end, 16).ok()?).contains(&address))
    };
    let mut lines = maps.lines().skip_while(|line| holds(line) != Some(true));
    let size = lines.find_map(|line| line.strip_prefix("Rss:"))?;
    size.trim().strip_suffix(" kB")?.parse().ok()
}
