//! Times the linked library against Plank's own analyses, or against an older library, in one run. From the folder `rust`:
//!
//! ```text
//! cargo run --release -p bench -- [typical] [full] [medium] [worst] [stack] [growth] [charts] [slowest]
//! cargo run --release -p bench -- --old ARCHIVE [typical] [full] [medium] [worst]
//! ```
//!
//! Without words all groups but `slowest` are taken: typical images of 20 to 60 blocks, full-size images, the worst images
//! of a medium size that Plank can take too, and the worst legal images; then the stack that a call takes, how some questions
//! grow with the image, and charts beside a plain fill of as many bytes. `slowest` are legal images on which one run of Plank
//! takes from seconds to a minute.
//!
//! The library reads and checks the image anew for every question; Plank begins with a program that is in memory. A
//! question is timed by itself, as the mean over some ids of each image, or some pairs of them; for Plank this is the time of
//! the analyses that it needs and of its answer. Two lines are about all answers, for Plank both one run of all analyses and
//! all answers from it: "every question about every id" is for the library the sum of the single times, "order, rounds and
//! the seven together" the time of the order, the rounds and the seven for all ids, one call each; questions about two
//! ids, the records and the chart are in neither. The writer is timed with the records of each image. Plank reports no rounds,
//! no open allocations, no crossings and no records, draws no chart and writes no image, so these have no ratio; its arms for
//! `Log1` to `Log4` are altered so that topics escape, and both give the same answers, Plank without the flags of allocations.
//! Result slices are lent once, of 64 MiB, and not cleared between calls: where the answer is longer, the time is that of the
//! refusal; `charts` alone lends as much as the longest chart takes. A side that was missing when this was built is left out,
//! with a message.
//!
//! With `--old` the other side is the library of an archive, such as a `libsir_capi.a` of an earlier state of the
//! repository; without further words typical images are taken. The C compiler makes a shared object of each of the two
//! archives, which are loaded alike at run time, so that nothing needs to be built anew; their calls take turns. Functions
//! that one of them does not have are named and left out. A question that takes other ids than in the old library must not
//! be compared so.

mod charts;
mod old;
mod stack;
mod timing;

use image_gen::lifetimes::{self, Lifetimes};
use image_gen::rings::{self, Rings};
use image_gen::{Kind, Rng, Size, extremes, generate, worst};
use sir_analyses::calls;
use sir_image::{Code, Image, MAX_LOCALS};
use sir_questions::{AllocId, Question, QuestionKind, WRITE};
use std::hint::black_box;
use std::process::ExitCode;
use std::time::Duration;
use timing::{EVERY, Group, RESULT_BYTES, TOGETHER, Timed, best, head, is_in_every, mean, once, row, together};

const GROUPS: [&str; 8] = ["typical", "full", "medium", "worst", "stack", "growth", "charts", "slowest"];

fn main() -> ExitCode {
    let words: Vec<String> = std::env::args().skip(1).collect();
    let done = match words.as_slice() {
        [option, archive, words @ ..] if option == "--old" => against_old(archive, words),
        words => against_plank(words),
    };
    match done {
        Ok(()) => ExitCode::SUCCESS,
        Err(message) => {
            eprintln!("bench: {message}");
            ExitCode::from(2)
        }
    }
}

/// The words, where each names one of these groups.
fn asked<'a>(words: &'a [String], groups: &[&str]) -> Result<Vec<&'a str>, String> {
    match words.iter().find(|word| !groups.contains(&word.as_str())) {
        Some(unknown) => Err(format!("no group {unknown}; there are {}", groups.join(", "))),
        None => Ok(words.iter().map(String::as_str).collect()),
    }
}

fn against_old(archive: &str, words: &[String]) -> Result<(), String> {
    let asked = asked(words, &GROUPS[..4])?;
    let Some(new) = sir_analyses::LIBRARY else {
        return Err("the library was missing when this was built (run tools/staticlib)".to_string());
    };
    let libraries = old::Libraries::load(new, archive)?;
    let names = if asked.is_empty() { vec!["typical"] } else { asked };
    names.into_iter().flat_map(groups).for_each(|group| libraries.table(&group));
    Ok(())
}

fn against_plank(words: &[String]) -> Result<(), String> {
    let asked = asked(words, &GROUPS)?;
    if !sir_analyses::LINKED {
        println!("the library was missing when this was built (run tools/staticlib): it is left out");
    }
    if !plank_oracle::PRESENT {
        println!("Plank's files were missing when this was built (set PLANK_SRC): it is left out");
    }
    let names = if asked.is_empty() { GROUPS[..7].to_vec() } else { asked };
    for name in names {
        match name {
            "stack" if sir_analyses::LINKED => stack::table(),
            "growth" if sir_analyses::LINKED => growth(),
            "charts" if sir_analyses::LINKED => charts::table(),
            "slowest" => slowest(),
            _ => groups(name).iter().for_each(table),
        }
    }
    Ok(())
}

/// The images of a name.
fn groups(name: &str) -> Vec<Group> {
    let of = |kinds: [Kind; 2], count: u64| -> Vec<Image> {
        (0..count).flat_map(|seed| kinds.map(|kind| generate(kind, seed))).collect()
    };
    let group = |name: &str, images| Group { name: name.to_string(), images, plank: true };
    match name {
        "typical" => vec![group("typical, 20 to 60 blocks", of([Kind::Typical, Kind::TypicalLives], 10))],
        "full" => vec![group("full-size", of([Kind::FullSize, Kind::FullLives], 3))],
        "medium" => worst(Size::MEDIUM)
            .into_iter()
            .map(|(name, image)| group(&format!("worst of medium size: {name}"), vec![image]))
            .collect(),
        "worst" => worst(Size::FULL)
            .into_iter()
            .chain(long_answers())
            .map(|(name, image)| {
                // Plank takes each operand place of each block, and each local over each edge, in every pass.
                let plank = name.starts_with("allocations") || name == "a ring";
                Group { name: format!("worst legal: {name}"), images: vec![image], plank }
            })
            .collect(),
        _ => Vec::new(),
    }
}

/// Images of which one answer for all ids nearly fills the result slice: all operations in every block, and so many operands
/// in every call that 64 MiB just hold the uses, or the intervals where the calls also define what they take.
fn long_answers() -> [(&'static str, Image); 2] {
    let of = |operands, locals, outputs| {
        extremes::spanning(Size { operands, locals, ..Size::FULL }, outputs, &mut Rng::new(0))
    };
    [("all uses in 63 MiB", of(21, 21, false)), ("all intervals in 60 MiB", of(128, 20, true))]
}

/// Times questions on images of one kind that grow: blocks, locals and allocations together, three or four operations a block.
fn growth() {
    let names = ["order", "owner", "rounds", "allocation", "open", "crossing", "all_intervals", "all_allocations"];
    println!("\ngrowth, one image a row, microseconds of the library");
    println!("{:>6} {:>6} {}", "blocks", "pages", names.map(|name| format!("{name:>16}")).concat());
    let mut result = vec![0; RESULT_BYTES];
    for blocks in [4, 8, 16, 32, 64, 128, 256] {
        let groups = (blocks / 3, blocks / 3);
        let (members, values) = ((3, 3), (blocks / 3, blocks / 3));
        let shape = Lifetimes {
            groups,
            members,
            values,
            blocks: (blocks, blocks),
            operations: (3, 4),
            arity: 4,
            ends: 1,
            leaks: 0,
            logs: 0,
        };
        let image = Timed::new(&lifetimes::image(&shape, &mut Rng::new(0)));
        let times = names.map(|name| {
            let kind = Question::KINDS.iter().find(|kind| kind.name == name).expect("a question");
            let [library, _] = mean_times(&image, kind, false, &mut result);
            format!("{:>16.1}", library.unwrap_or_default().as_secs_f64() * 1e6)
        });
        println!("{blocks:>6} {:>6} {}", image.bytes.len() / 512, times.concat());
    }
}

/// Times one allocation of legal images that are slow for Plank.
fn slowest() {
    if !plank_oracle::PRESENT || !sir_analyses::LINKED {
        return;
    }
    let renaming = worst(Size::FULL).into_iter().filter(|(name, _)| name.contains("all locals in and out"));
    let images = renaming.chain([
        ("32 rings, and an allocation beside them", rings_with_an_allocation()),
        (
            "medium size: every block all operations, every call all operands, one allocation",
            calls_with_an_allocation(),
        ),
    ]);
    let mut result = vec![0; RESULT_BYTES];
    for (name, image) in images {
        let image = Timed::new(&image);
        println!("\n{name}: allocation 0, Plank once");
        head("library", "Plank");
        let question = Question::Allocation(AllocId(0));
        let library = best(|| _ = black_box(calls::ask(question, &image.bytes, &mut result)));
        let plank = once(&mut || image.fresh(|plank| _ = black_box(plank.answer(question))));
        row("allocation", 1, Some(library), Some(plank));
    }
}

/// All operations in every block and all operands in every call, and after them an allocation that the first block alone holds.
fn calls_with_an_allocation() -> Image {
    let (_, mut image) = worst(Size::MEDIUM).swap_remove(0);
    let base = image.locals;
    image.locals += 1;
    image.operation_with(Code::StaticAllocZeroed, &[], &[base], [32, 0]);
    image.operation(Code::SelfDestruct, &[base], &[]);
    image.blocks[0].operations = image.operations_from(0);
    image
}

/// Rings with an allocation in the first block, so that its answer waits for all passes.
fn rings_with_an_allocation() -> Image {
    let mut image = rings::image(Rings { rings: 32, inputs: MAX_LOCALS - 2, ..Rings::most(Size::FULL) });
    let base = image.locals;
    image.locals += 1;
    let first = image.operation_with(Code::StaticAllocZeroed, &[], &[base], [32, 0]);
    image.operation(Code::SelfDestruct, &[base], &[]);
    image.blocks[0].operations = image.operations_from(first);
    image
}

/// Times a group and prints a row for each question.
fn table(group: &Group) {
    let plank = group.plank && plank_oracle::PRESENT;
    if !plank && !sir_analyses::LINKED {
        println!("\n{}\nleft out: Plank is missing or it is too much for Plank, and there is no library", group.name);
        return;
    }
    group.print_head("library", "Plank");
    let mut result = vec![0; if sir_analyses::LINKED { RESULT_BYTES } else { 0 }];
    let images: Vec<Timed> = group.images.iter().map(Timed::new).collect();
    let mut every = Duration::ZERO;
    for kind in Question::KINDS {
        let mut sums = [Some(Duration::ZERO); 2];
        let asked: Vec<&Timed> = images.iter().filter(|image| !image.sample(kind).is_empty()).collect();
        for image in &asked {
            let times = mean_times(image, kind, plank, &mut result);
            if is_in_every(kind) {
                every += times[0].unwrap_or_default() * image.count(kind);
            }
            sums = [0, 1].map(|side| Some(sums[side]? + times[side]?));
        }
        row(kind.name, asked.len() as u32, sums[0], sums[1]);
    }
    let count = images.len() as u32;
    row(WRITE.name, count, time_writing(&images, &mut result), None);
    let whole = plank.then(|| images.iter().map(Timed::plank_whole).sum());
    row(EVERY, count, sir_analyses::LINKED.then_some(every), whole);
    let library = sir_analyses::LINKED.then(|| images.iter().map(|image| time_together(image, &mut result)).sum());
    row(TOGETHER, count, library, whole);
}

/// The time of writing every image from its records, where there is a library.
fn time_writing(images: &[Timed], result: &mut [u8]) -> Option<Duration> {
    let mut write = |image: &Timed| best(|| _ = black_box(calls::write(&image.records, result)));
    sir_analyses::LINKED.then(|| images.iter().map(&mut write).sum())
}

/// The time of all answers about an image, one call for each question.
fn time_together(image: &Timed, result: &mut [u8]) -> Duration {
    let questions: Vec<Question> = together().map(QuestionKind::about_zeros).collect();
    best(|| questions.iter().for_each(|&question| _ = black_box(calls::ask(question, &image.bytes, result))))
}

/// The mean times of the library and of Plank over some questions of a kind, where the side is there and has an answer.
fn mean_times(image: &Timed, kind: &QuestionKind, plank: bool, result: &mut [u8]) -> [Option<Duration>; 2] {
    let questions = image.sample(kind);
    let library = questions.iter().map(|&question| {
        sir_analyses::LINKED.then(|| best(|| _ = black_box(calls::ask(question, &image.bytes, result))))
    });
    let library: Vec<_> = library.collect();
    let plank: Vec<_> = questions.iter().map(|&question| plank.then(|| image.plank(question)).flatten()).collect();
    [mean(&library), mean(&plank)]
}

#[cfg(test)]
mod tests {
    use super::*;
    use paper_reference::Reference;

    /// What is timed is answered: ids exist, and an operation is one of its block. Where there are ids, some are taken.
    #[test]
    fn samples_are_answered() {
        for group in groups("typical").iter().chain(&groups("full")) {
            for image in &group.images {
                let reference = Reference::new(&image.pages()).unwrap();
                let timed = Timed::new(image);
                for kind in Question::KINDS.iter().filter(|kind| kind.single().is_none()) {
                    let sample = timed.sample(kind);
                    assert_eq!(sample.is_empty(), timed.count(kind) == 0, "{}", kind.name);
                    assert!(sample.iter().all(|&question| reference.bytes(question).is_ok()), "{}", kind.name);
                }
            }
        }
    }

    /// The long answers have room in the result slice, and not much more.
    #[test]
    fn long_answers_fit() {
        for ((name, image), question) in long_answers().iter().zip([Question::AllUses, Question::AllIntervals]) {
            let reference = Reference::new(&image.pages()).unwrap();
            let length = reference.bytes_within(question, RESULT_BYTES).unwrap().len();
            assert!(name.ends_with(&format!("in {} MiB", length >> 20)), "{name}: {length} bytes");
            assert!(length > RESULT_BYTES / 10 * 9);
        }
    }
}
