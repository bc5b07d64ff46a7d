//! Compares the answers of the paper's reference with those of Plank's own analyses, and with those of the linked
//! library, on generated images. From the folder `rust`:
//!
//! ```text
//! cargo run --release -p compare -- [WORDS] [FILE...]
//!
//!   --small N     so many small images (100000)
//!   --large N     so many large images (350)
//!   --kind KIND   images of this kind only
//!   --seed S      the first seed (1)
//!   --library     put them to the linked library too
//!   --damaged N   with --library: so many damaged images, of which the refusals are compared (100000)
//!   --worst       the slowest images of a medium size too; with --library also those of full size, some ids of each
//! ```
//!
//! Images of every kind are taken in turn, each with a seed of its own. Where files are named, these images are taken and
//! none are generated. With Plank every answer is compared that it has, without the flags of allocations: on all images with
//! its arms for `Log1` to `Log4` altered so that topics escape, and then with Plank unaltered on those in which no topic is
//! a pointer. With the library every answer is compared, the chart too: its number, its length, each byte of the result slice,
//! unknown ids and slices that are too short. Each question about one id is put for every id, and then once for all ids; one
//! about two ids for every pair of them, or for a choice where these are many. The library also writes every image back from its
//! records, and is lent records that are made from them and ones that are known by name. Where two sides disagree, the image
//! is made as small as it goes and shown, with the records that were lent if it is about these, and the program stops with
//! status 1. A side that was missing when this was built is left out, with a message.

use compare::sides::Disagreement;
use compare::tally::Tally;
use compare::{shrink, sides, text, writing};
use image_gen::{Kind, Rng, Size, damaged, generate, worst};
use sir_image::Image;
use sir_questions::Refusal;
use std::collections::HashMap;
use std::process::ExitCode;
use std::time::Instant;

struct Options {
    small: u64,
    large: u64,
    damaged: u64,
    seed: u64,
    kind: Option<Kind>,
    library: bool,
    worst: bool,
    files: Vec<String>,
}

impl Options {
    fn read() -> Result<Options, String> {
        let mut options = Options {
            small: 100_000,
            large: 350,
            damaged: 100_000,
            seed: 1,
            kind: None,
            library: false,
            worst: false,
            files: Vec::new(),
        };
        let mut words = std::env::args().skip(1);
        while let Some(word) = words.next() {
            let mut value = || words.next().ok_or(format!("{word} wants a value"));
            let number = |text: String| text.parse().map_err(|_| format!("{text} is no number"));
            match word.as_str() {
                "--small" => options.small = number(value()?)?,
                "--large" => options.large = number(value()?)?,
                "--damaged" => options.damaged = number(value()?)?,
                "--seed" => options.seed = number(value()?)?,
                "--kind" => options.kind = Some(kind(&value()?)?),
                "--library" => options.library = true,
                "--worst" => options.worst = true,
                _ if word.starts_with("--") => return Err(format!("unknown word {word}")),
                _ => options.files.push(word),
            }
        }
        Ok(options)
    }

    /// The kinds of a group that are asked for.
    fn kinds(&self, group: &[Kind]) -> Vec<Kind> {
        group.iter().copied().filter(|&kind| self.kind.is_none_or(|only| only == kind)).collect()
    }

    /// The groups of generated images: the name of each, and the kind and seed of its images.
    fn generated(&self) -> [(&'static str, Vec<(Kind, u64)>); 2] {
        [("small", Kind::SMALL, self.small), ("large", Kind::LARGE, self.large)].map(|(name, group, count)| {
            let kinds = self.kinds(group);
            let seed = self.seed.wrapping_mul(1 << 32);
            let count = if kinds.is_empty() { 0 } else { count };
            let of = |index: u64| (kinds[(index % kinds.len() as u64) as usize], seed.wrapping_add(index));
            (name, (0..count).map(of).collect())
        })
    }
}

fn kind(name: &str) -> Result<Kind, String> {
    let found = Kind::ALL.iter().find(|kind| format!("{kind:?}").eq_ignore_ascii_case(name));
    found.copied().ok_or_else(|| format!("no kind {name}; there are {:?}", Kind::ALL))
}

fn main() -> ExitCode {
    let done = Options::read().map_err(|message| (2, message)).and_then(|options| run(&options));
    match done {
        Ok(()) => ExitCode::SUCCESS,
        Err((status, message)) => {
            eprintln!("compare: {message}");
            ExitCode::from(status)
        }
    }
}

type Compare = fn(&Image, &mut Tally) -> Result<(), Disagreement>;
/// Exit status and message.
type Failure = (u8, String);

fn run(options: &Options) -> Result<(), Failure> {
    let mut sides: Vec<(&str, Compare)> = Vec::new();
    if plank_oracle::PRESENT {
        sides.push((sides::PLANK, sides::with_plank));
        sides.push((sides::UNALTERED, sides::with_plank_unaltered));
    } else {
        println!("Plank's files were missing when this was built (set PLANK_SRC): nothing is compared with them");
    }
    if options.library && sir_analyses::LINKED {
        sides.push(("the library", sides::with_library));
    } else if options.library {
        println!("the library was missing when this was built (run tools/staticlib): it is left out");
    }
    for &(side, compare) in &sides {
        if !options.files.is_empty() {
            files(side, &options.files, compare)?;
            continue;
        }
        for (name, seeds) in options.generated() {
            let name = format!("{side}, {name} images, seed {}", options.seed);
            let images = seeds.iter().map(|&(kind, seed)| (format!("{kind:?} {seed}"), generate(kind, seed)));
            compare_all(&name, images, compare)?;
        }
        if options.worst {
            let images = worst(Size::MEDIUM).into_iter().map(|(name, image)| (name.to_string(), image));
            compare_all(&format!("{side}, worst images of medium size"), images, compare)?;
        }
    }
    if options.library && sir_analyses::LINKED && options.files.is_empty() {
        refusals(options)?;
        known_records()?;
        if options.worst {
            for (name, image) in worst(Size::FULL) {
                let name = format!("the library, {name}");
                compare_all(&name, [(name.clone(), image)].into_iter(), sides::with_library_sparsely)?;
            }
        }
    }
    Ok(())
}

/// Compares these images and prints what was compared.
fn compare_all(name: &str, images: impl Iterator<Item = (String, Image)>, compare: Compare) -> Result<(), Failure> {
    let started = Instant::now();
    let mut tally = Tally::default();
    for (name, image) in images {
        compare(&image, &mut tally).map_err(|_| (1, explain(&name, &image, compare)))?;
    }
    let Tally {
        images,
        refused,
        left_out,
        answers,
        words,
        merged,
        most_rounds,
        logs,
        open,
        crossings,
        charts,
        writing,
        ..
    } = tally;
    let [all, marked] = tally.allocations;
    if images + left_out > 0 {
        println!("{name}: {images} compared, {refused} of them refused by both sides");
        if left_out > 0 {
            println!("  {left_out} left out: a topic is a pointer");
        }
        println!("  {answers} answers of {words} words are equal");
        println!("  {all} allocations, {marked} marked, {merged} merged intervals; at most {most_rounds} rounds");
        println!("  {}\n  {logs}\n  {open}\n  {crossings}", tally.flags);
        if charts.charts > 0 {
            println!("  {charts}");
        }
        if writing.accepted > 0 {
            println!("  {writing}");
        }
        println!("  {:.1} s", started.elapsed().as_secs_f64());
    }
    Ok(())
}

/// The disagreement on the smallest image that still shows one.
fn explain(name: &str, image: &Image, compare: Compare) -> String {
    let differs = |image: &Image| {
        let taken = plank_oracle::takes(paper_reference::refusal(&image.pages()));
        taken && compare(image, &mut Tally::default()).is_err()
    };
    let small = shrink::shrink(image, differs);
    match compare(&small, &mut Tally::default()) {
        Err(found) => format!("disagreement on {name}, made small:\n{}\n{found}", text::Shown(&small)),
        Ok(()) => format!("disagreement on {name}, not seen a second time"),
    }
}

/// Compares images from files, of which those are left out that Plank does not take.
fn files(side: &str, names: &[String], compare: Compare) -> Result<(), Failure> {
    let mut images = Vec::new();
    for name in names {
        let bytes = std::fs::read(name).map_err(|error| (2, format!("{name}: {error}")))?;
        match Image::from_pages(&bytes) {
            Some(image) if plank_oracle::takes(paper_reference::refusal(&bytes)) => images.push((name.clone(), image)),
            _ => println!("{name}: refused with {}", paper_reference::refusal(&bytes)),
        }
    }
    compare_all(&format!("{side}, files"), images.into_iter(), compare)
}

/// Compares what the library writes of records that are known by name.
fn known_records() -> Result<(), Failure> {
    let mut tally = Tally::default();
    writing::known_with_library(&mut tally)
        .map_err(|found| (1, format!("disagreement on records known by name:\n{found}")))?;
    println!("the library, records known by name\n  {}", tally.writing);
    Ok(())
}

/// Compares the library's refusals of damaged images with the paper's.
fn refusals(options: &Options) -> Result<(), Failure> {
    let started = Instant::now();
    let mut tally = Tally::default();
    let mut by_number: HashMap<u32, u64> = HashMap::new();
    let kinds = options.kinds(Kind::SMALL);
    let rng = &mut Rng::new(options.seed);
    for index in (0..options.damaged).filter(|_| !kinds.is_empty()) {
        let kind = kinds[(index % kinds.len() as u64) as usize];
        let image = damaged(&generate(kind, rng.next_u64()), rng);
        *by_number.entry(paper_reference::refusal(&image)).or_default() += 1;
        if let Err(found) = sides::refused_alike(&image, &mut tally) {
            return Err((1, format!("disagreement on a damaged {kind:?}:\n{image:?}\n{found}")));
        }
    }
    let numbers = [0].into_iter().chain(Refusal::of_images().map(Refusal::number));
    let counts = numbers.map(|number| format!("{number}: {}", by_number.get(&number).unwrap_or(&0)));
    println!("the library, damaged images, seed {}: how often each number came up", options.seed);
    println!("  {}", counts.collect::<Vec<_>>().join(", "));
    println!("  {:.1} s", started.elapsed().as_secs_f64());
    Ok(())
}
