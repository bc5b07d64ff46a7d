//! The files that are stored: the altered Plank's answers; those that Plank does not have, the flags of allocations, charts, what
//! is written of lent records, and the refusals are the reference's.

use compare::recording::{Called, Recorded, Recording};
use compare::sides::{questions, unknown, words_of};
use image_gen::{Kind, Rng, Size, damaged, generate, known, lent, worst};
use paper_reference::Reference;
use plank_oracle::{Analyses, Program, Source, without_flags};
use sir_image::pages::PAGE_BYTES;
use sir_image::{Code, Image, samples};
use sir_questions::{IdKind, Question, QuestionKind, Refusal};
use std::collections::BTreeMap;
use std::path::{Path, PathBuf};
use std::{fs, io};

/// Where the seeds begin.
const SEED: u64 = 20_000;
/// Small images of each kind.
const SMALL: u64 = 8;
/// Large images of each kind.
const LARGE: u64 = 2;
/// Damaged images of each refusal.
const DAMAGED: usize = 6;
/// The first so many small kinds are damaged: a kind that is added leaves the damaged images as they are.
const DAMAGED_KINDS: usize = 13;
/// Ids of each question about an image that is not small.
const SOME_IDS: u32 = 6;
/// Pairs of ids of each question about two, at the most.
const PAIRS: u32 = 48;
/// Answers that are longer are left out.
const LONGEST: usize = 12_000;
/// The same for records, which would double the size of every image's file.
const LONGEST_RECORDS: usize = 4_000;
/// The same for charts.
const LONGEST_CHART: usize = 30_000;
/// Of how many small images of each kind the questions for all ids are recorded; of large ones the first of each kind.
const SMALL_FOR_ALL: u64 = 4;
/// Of how many small images of each kind the chart is recorded; of all that are made for charts, and of large ones the first.
const SMALL_CHARTS: u64 = 1;
/// The result slice for an answer for all ids, or a chart, that is longer.
const TOO_SHORT: usize = 16;
/// Lent records that are longer than [`LONGEST`] and are recorded: the most that are accepted, and more than any pages hold.
const LONG_RECORDS: [&str; 3] = ["most_words", "118_pages", "118_pages_edition_2"];

/// Which questions a file has.
#[derive(Clone, Copy, PartialEq)]
enum Asked {
    /// About all ids, or some of them, about pairs of ids, and about none.
    Ids,
    /// For all ids in one answer.
    All,
    /// For the chart.
    Chart,
}

impl Asked {
    /// Whether files of this sort have a question.
    fn has(self, kind: &QuestionKind) -> bool {
        self == match kind.single() {
            Some(_) => Asked::All,
            None if kind.is_text() => Asked::Chart,
            None => Asked::Ids,
        }
    }

    fn kinds(self) -> impl Iterator<Item = &'static QuestionKind> {
        Question::KINDS.iter().filter(move |kind| self.has(kind))
    }

    /// The name of the file about an image.
    fn file(self, image: &str) -> String {
        match self {
            Asked::Ids => image.to_string(),
            Asked::All => format!("all_{image}"),
            Asked::Chart => format!("chart_{image}"),
        }
    }
}

/// The most bytes of an answer that is recorded.
fn most_bytes(question: Question) -> usize {
    match question {
        Question::Records => LONGEST_RECORDS,
        Question::Chart => LONGEST_CHART,
        _ => LONGEST,
    }
}

/// An image that Plank takes.
struct Sample {
    name: String,
    image: Image,
    /// Whether it is asked about all ids, or about some.
    small: bool,
    /// What is recorded.
    asked: Vec<Asked>,
}

/// A damaged image, and the number that refuses it.
struct Damaged {
    name: String,
    image: Vec<u8>,
    number: u32,
    /// What is recorded.
    asked: Vec<Asked>,
}

/// What is recorded: some sorts of files, where it is so.
fn asked(sorts: [(Asked, bool); 3]) -> Vec<Asked> {
    sorts.into_iter().filter(|&(_, is_recorded)| is_recorded).map(|(asked, _)| asked).collect()
}

/// Every question about an image that Plank takes: all ids or some, one id too many, and one slice that is one byte too
/// short. What a question refuses by a rule of its own, of ids that exist (15), has a slice too short for any word.
fn of_image(sample: &Sample, asked: Asked) -> Recording {
    let Sample { name, image, .. } = sample;
    let bytes = image.pages();
    let paper = match Reference::new(&bytes) {
        Ok(paper) => paper,
        Err(number) => return refused(name, &bytes, number, asked),
    };
    let program = Program::new(image).expect("Plank's files are there");
    let plank = program.analyses(Source::Altered);
    assert!(!plank.shares_a_base() && plank.count(IdKind::Allocation) == paper.count(IdKind::Allocation), "{name}");
    let mut calls: Vec<Recorded> = Vec::new();
    for kind in asked.kinds() {
        let step = |count: u32| if sample.small { 1 } else { count / SOME_IDS };
        let mut longest: Option<(usize, Question)> = None;
        for question in questions(&paper, kind, step, PAIRS) {
            let answer = match agreed(&paper, &plank, question) {
                Ok(answer) => answer,
                Err(number) => {
                    calls.push(Recorded::refusal(question, number, calls.len() % 4));
                    continue;
                }
            };
            let length = answer.len();
            if length > most_bytes(question) {
                let short = Recorded::refusal(question, Refusal::SHORT_RESULT.number(), TOO_SHORT);
                calls.extend((asked != Asked::Ids).then_some(short));
                continue;
            }
            calls.push(Recorded::answer(question, answer, [0, 1, 7][calls.len() % 3]));
            if length >= longest.map_or(1, |(most, _)| most) {
                longest = Some((length, question));
            }
        }
        let short = longest.map(|(length, question)| (question, Refusal::SHORT_RESULT, length - 1));
        let unknown = unknown(&paper, kind, calls.len() + usize::from(short.is_some())).into_iter();
        let refused = short.into_iter().chain(unknown.map(|question| (question, Refusal::UNKNOWN_ID, 5)));
        calls.extend(refused.map(|(question, refusal, room)| Recorded::refusal(question, refusal.number(), room)));
    }
    Recording { name: asked.file(name), lent: bytes, calls }
}

/// Plank's answer, with the reference's flags in records of allocations, or what the reference gives where Plank has none: an
/// answer, or the number of a refusal.
fn agreed(paper: &Reference, plank: &Analyses, question: Question) -> Result<Vec<u8>, u32> {
    let stated = paper.bytes(question)?;
    if let Some(words) = plank.answer(question) {
        assert_eq!(words, without_flags(question, words_of(&stated)), "{question}");
    }
    Ok(stated)
}

/// Every question about an image that some rule refuses.
fn refused(name: &str, image: &[u8], number: u32, asked: Asked) -> Recording {
    let questions = asked.kinds().map(QuestionKind::about_zeros);
    let calls = questions.map(|question| Recorded::refusal(question, number, 9)).collect();
    Recording { name: asked.file(name), lent: image.to_vec(), calls }
}

/// Images that Plank takes: by kinds, the worst, two that have a case each of crossings, two that tell what marks, two with a
/// pointer at every input position of some codes or of all, and two for the chart alone.
fn taken() -> Vec<Sample> {
    let mut all = Vec::new();
    for (group, count, for_all, charts) in
        [(Kind::SMALL, SMALL, SMALL_FOR_ALL, SMALL_CHARTS), (Kind::LARGE, LARGE, 1, 1)]
    {
        for &kind in group {
            let chart = |index| index < charts || kind == Kind::Charts;
            all.extend((0..count).map(|index| Sample {
                name: format!("{kind:?}_{index}").to_lowercase(),
                image: generate(kind, SEED + index),
                small: group == Kind::SMALL,
                asked: asked([(Asked::Ids, true), (Asked::All, index < for_all), (Asked::Chart, chart(index))]),
            }));
        }
    }
    let worst = worst(Size::MEDIUM).into_iter().enumerate();
    all.extend(worst.map(|(index, (_, image))| Sample {
        name: format!("worst_{index}"),
        image,
        small: false,
        asked: vec![Asked::Ids, Asked::All, Asked::Chart],
    }));
    let named = [
        ("touching", samples::touching()),
        ("bare_ends", samples::bare_ends()),
        ("logs", samples::logs()),
        ("through_a_base", samples::through_a_base()),
        ("every_flag", samples::every_flag()),
    ];
    all.extend(named.map(|(name, image)| Sample {
        name: name.to_string(),
        image,
        small: true,
        asked: vec![Asked::Ids, Asked::Chart],
    }));
    let every_code = samples::input_positions(&Code::ALL);
    let asked = vec![Asked::Ids, Asked::All];
    all.push(Sample { name: "input_positions".to_string(), image: every_code, small: false, asked });
    let charted = [("several_functions", samples::several_functions()), ("two_series", samples::two_series())];
    all.extend(charted.map(|(name, image)| Sample {
        name: name.to_string(),
        image,
        small: false,
        asked: vec![Asked::Chart],
    }));
    all
}

/// Damaged images, so many of each refusal.
fn damaged_images() -> Vec<Damaged> {
    let rng = &mut Rng::new(SEED);
    let mut found: BTreeMap<u32, Vec<Damaged>> = BTreeMap::new();
    let numbers: Vec<u32> = Refusal::of_images().map(Refusal::number).collect();
    while numbers.iter().any(|number| found.get(number).is_none_or(|all| all.len() < DAMAGED)) {
        let kind = rng.pick(&Kind::SMALL[..DAMAGED_KINDS]);
        let image = damaged(&generate(kind, rng.next_u64()), rng);
        let number = paper_reference::refusal(&image);
        let all = found.entry(number).or_default();
        let index = all.len();
        if number > 0 && index < DAMAGED {
            let first = index == 0;
            let asked = asked([(Asked::Ids, true), (Asked::All, first), (Asked::Chart, first)]);
            all.push(Damaged { name: format!("damaged_{number:02}_{index}"), image, number, asked });
        }
    }
    found.into_values().flatten().collect()
}

/// Lent records: those that are known by name, but for some of the longest, and for each refusal that goes by words the first
/// that come up among records made from generated images.
fn lent_records() -> Vec<Recording> {
    let long = |name: &str| LONG_RECORDS.contains(&name);
    let known = known().into_iter().filter(|known| known.records.len() <= LONGEST || long(known.name));
    let named = known.map(|known| writing(known.name.to_string(), known.records));
    let rng = &mut Rng::new(SEED);
    let refused = Refusal::of_words().map(|refusal| {
        let number = refusal.number();
        let mut made = || lent(&generate(rng.pick(&Kind::SMALL[..DAMAGED_KINDS]), rng.next_u64()), rng);
        let records = std::iter::repeat_with(&mut made).find(|records| paper_reference::write(records) == Err(number));
        writing(format!("refused_{number:02}"), records.expect("they do not end"))
    });
    named.chain(refused).collect()
}

/// What is written of records, in slices just long enough, longer, one byte too short and empty; of those that are refused, in
/// slices with room for a page, for no word and for nothing. The longest pages have no slice that is longer.
fn writing(name: String, lent: Vec<u8>) -> Recording {
    let rooms = match paper_reference::write(&lent).map(|pages| pages.len()) {
        Ok(length) if length > LONGEST => vec![length, length - 1, 0],
        Ok(length) => vec![length, length + 7, length - 1, 0],
        Err(_) => vec![PAGE_BYTES, 3, 0],
    };
    let calls = rooms.into_iter().map(|room| Recorded::by_reference(Called::Write, &lent, room)).collect();
    Recording { name: format!("write_{name}"), lent, calls }
}

/// The questions about ids of all images, then those for all ids, then lent records.
fn recordings() -> Vec<Recording> {
    let (samples, damaged) = (taken(), damaged_images());
    let of = |asked: Asked| {
        let samples = samples.iter().filter(move |sample| sample.asked.contains(&asked));
        let damaged = damaged.iter().filter(move |image| image.asked.contains(&asked));
        let samples = samples.map(move |sample| of_image(sample, asked));
        samples.chain(damaged.map(move |image| refused(&image.name, &image.image, image.number, asked)))
    };
    of(Asked::Ids).chain(of(Asked::All)).chain(of(Asked::Chart)).chain(lent_records()).collect()
}

/// The files of `crates/replay` that are written, by their names there.
fn files() -> BTreeMap<String, Vec<u8>> {
    let all = recordings();
    let (mut args, mut stdout, mut size) = (String::new(), String::new(), 0);
    let mut by_number: BTreeMap<u32, usize> = BTreeMap::new();
    let mut files = BTreeMap::new();
    for recording in &all {
        let bytes = recording.bytes();
        size += bytes.len();
        files.insert(format!("data/{}", recording.name), bytes);
        args += &format!("{}\n", recording.name);
        stdout += &format!("{} agree {} differ 0\n", recording.name, recording.calls.len());
        recording.calls.iter().for_each(|call| *by_number.entry(call.number).or_default() += 1);
    }
    files.insert("args".to_string(), args.into_bytes());
    files.insert("stdout".to_string(), stdout.into_bytes());
    files.insert("data/README".to_string(), readme(all.len(), size, &by_number).into_bytes());
    files
}

/// The folder of the program.
pub fn folder() -> PathBuf {
    Path::new(env!("CARGO_MANIFEST_DIR")).join("../../crates/replay")
}

/// Writes all files anew, and prints how they were made.
pub fn write() -> io::Result<()> {
    let files = files();
    if folder().join("data").is_dir() {
        fs::remove_dir_all(folder().join("data"))?;
    }
    fs::create_dir_all(folder().join("data"))?;
    for (name, bytes) in &files {
        fs::write(folder().join(name), bytes)?;
    }
    print!("{}", String::from_utf8_lossy(&files["data/README"]));
    Ok(())
}

fn readme(files: usize, size: usize, by_number: &BTreeMap<u32, usize>) -> String {
    let numbers: Vec<String> = by_number.iter().map(|(number, count)| format!("{number}: {count}")).collect();
    format!(
        "Recorded answers, written by `cargo run --release -p compare --bin record` in the folder rust.\n\
         \n\
         Answers are those of Plank's own analyses, its arms for Log1 to Log4 altered so that topics escape (request R-2);\n\
         the rounds, the flags of allocations, the open ones, the crossings, the records and the charts, which Plank does not\n\
         report, what is written of lent records, and the refusals are those of rust/paper_reference. The proved library had\n\
         no part in writing them.\n\
         src/main.rt states the form of a file.\n\
         \n\
         {files} files, {size} bytes. Seeds from {SEED} on: {SMALL} small images of each of {} kinds, all ids; {LARGE} large\n\
         ones of each of {} kinds and the worst of medium size, about {SOME_IDS} ids of each question, no answer above {LONGEST}\n\
         bytes and no records above {LONGEST_RECORDS}; the images touching, bare_ends, logs, through_a_base, every_flag and\n\
         input_positions of rust/sir_image/src/samples.rs; {DAMAGED} damaged images of each number that refuses an image. Of\n\
         questions about two ids all pairs, or some where these are more than {PAIRS}. Each accepted image also has an unknown\n\
         id (13) and a slice one byte too short (14) for each question that can be so refused. Where an operation is not of\n\
         its block (15) the slice is too short for any answer but an empty one.\n\
         \n\
         Files all_* have the questions for all ids: of {SMALL_FOR_ALL} small images of each kind, of one large one, of the worst, of\n\
         input_positions, and of one damaged image of each number; where an answer is longer, with a slice of {TOO_SHORT} bytes (14).\n\
         \n\
         Files chart_* have the chart: of {SMALL_CHARTS} small image of each kind, of all that are made for charts, of one\n\
         large one, of the worst, of touching, bare_ends, logs, through_a_base, every_flag, several_functions and\n\
         two_series, and of one damaged image of each number; a chart above {LONGEST_CHART} bytes with a slice of\n\
         {TOO_SHORT} bytes (14).\n\
         \n\
         Files write_* hold lent records in the place of an image, and calls of the writer: records that are known by name in\n\
         rust/image_gen/src/lent.rs, and write_refused_* some that were made from generated images, one of each number.\n\
         \n\
         How often each number is to be given: {}.\n",
        Kind::SMALL.len(),
        Kind::LARGE.len(),
        numbers.join(", "),
    )
}

#[cfg(test)]
mod tests {
    use super::*;

    /// What is stored is what would be written now, and nothing else.
    #[test]
    fn files_are_current() {
        if !plank_oracle::PRESENT {
            println!("no Plank files: the recorded answers are not made anew");
            return;
        }
        let files = files();
        for (name, bytes) in &files {
            assert!(fs::read(folder().join(name)).unwrap() == *bytes, "{name}");
        }
        let stored = fs::read_dir(folder().join("data")).unwrap().count();
        assert_eq!(stored + 2, files.len());
    }
}
