//! Times of single calls, and the rows that show them.

use paper_reference::Reference;
use plank_oracle::{Analyses, Program, Source};
use sir_image::Image;
use sir_questions::{Question, QuestionKind, spread};
use std::hint::black_box;
use std::time::{Duration, Instant};

/// Room for the longest answer that is asked for.
pub const RESULT_BYTES: usize = 1 << 26;

/// The most ids of a sort that are asked about.
const SAMPLE: u32 = 4;

/// Images that are timed together.
pub struct Group {
    /// What they are.
    pub name: String,
    /// The images.
    pub images: Vec<Image>,
    /// Whether Plank can take them in reasonable time and memory.
    pub plank: bool,
}

impl Group {
    /// Prints the group's name, and the head of a table about two sides.
    pub fn print_head(&self, one: &str, other: &str) {
        let count = self.images.len();
        println!("\n{}, {count} {}", self.name, if count == 1 { "image" } else { "images" });
        head(one, other);
    }
}

/// An image in each side's form.
pub struct Timed {
    /// The image.
    pub bytes: Vec<u8>,
    /// Its records, as they are lent to the writer.
    pub records: Vec<u8>,
    program: Option<Program>,
    reference: Reference,
}

impl Timed {
    /// An accepted image.
    pub fn new(image: &Image) -> Timed {
        let bytes = image.pages();
        let reference = Reference::new(&bytes).expect("an accepted image");
        let records = reference.bytes(Question::Records).expect("records of an accepted image");
        Timed { bytes, records, program: Program::new(image), reference }
    }

    /// How many questions of a kind there are.
    pub fn count(&self, kind: &QuestionKind) -> u32 {
        kind.ids.iter().map(|&id| self.reference.count(id)).product()
    }

    /// Questions of a kind: up to four of each sort of id, spread over all; of two ids the second goes with the first, as an
    /// operation of its block.
    pub fn sample(&self, kind: &QuestionKind) -> Vec<Question> {
        let paper = &self.reference;
        kind.about_each(|id, before| match (kind.ids, before) {
            (&[of, _], &[first]) => spread(&paper.partners((of, first), id), SAMPLE, 0),
            (&[of, second], []) => {
                let has_partners = |&first: &u32| !paper.partners((of, first), second).is_empty();
                spread(&(0..paper.count(id)).filter(has_partners).collect::<Vec<_>>(), SAMPLE, 0)
            }
            _ => spread(&(0..paper.count(id)).collect::<Vec<_>>(), SAMPLE, 0),
        })
    }

    /// The time of Plank's answer and of the analyses that it needs, where Plank has one.
    pub fn plank(&self, question: Question) -> Option<Duration> {
        let mut answered = false;
        let time = best(|| self.fresh(|plank| answered = black_box(plank.answer(question)).is_some()));
        answered.then_some(time)
    }

    /// The time of all of Plank's answers from one run of its analyses.
    pub fn plank_whole(&self) -> Duration {
        let kinds = Question::KINDS.iter().filter(|kind| is_in_every(kind));
        let every = kinds.flat_map(|kind| kind.about_all(|id| self.reference.count(id), |_| 1));
        let every: Vec<Question> = every.collect();
        best(|| self.fresh(|plank| every.iter().for_each(|&question| _ = black_box(plank.answer(question)))))
    }

    /// Something with analyses that have not run yet.
    pub fn fresh(&self, run: impl FnOnce(&Analyses)) {
        run(&self.program.as_ref().expect("Plank's files are there").analyses(Source::Altered));
    }
}

/// Whether a question is about one id or none: what the line [`EVERY`] sums up. Those about two ids are put for some pairs of
/// an image and not for all, and Plank has none of them.
pub fn is_in_every(kind: &QuestionKind) -> bool {
    kind.single().is_none() && kind.ids.len() < 2 && is_of_analyses(kind)
}

/// The questions that together give all answers of the analyses of an image: those without ids.
pub fn together() -> impl Iterator<Item = &'static QuestionKind> {
    Question::KINDS.iter().filter(|kind| kind.ids.is_empty() && is_of_analyses(kind))
}

/// Whether some analysis answers: not so the records, which are the image itself; and the chart shows what other answers say.
fn is_of_analyses(kind: &QuestionKind) -> bool {
    kind.number != Question::Records.number() && !kind.is_text()
}

/// The line of every question about every id, each by a call of its own.
pub const EVERY: &str = "every question about every id";

/// The line of the same answers by one call for each question.
pub const TOGETHER: &str = "order, rounds and the seven together";

/// The head of a table about two sides.
pub fn head(one: &str, other: &str) {
    println!("{:36} {one:>14} {other:>14} {:>16}", "", format!("{one} / {other}"));
}

/// A row of a table: the mean time of each side over some images, where it was taken, and the ratio.
pub fn row(name: &str, images: u32, one: Option<Duration>, other: Option<Duration>) {
    if images == 0 {
        return;
    }
    let show = |time: Option<Duration>| time.map_or("-".to_string(), |time| shown(time / images));
    let ratio = match (one, other) {
        (Some(one), Some(other)) => match one.as_secs_f64() / other.as_secs_f64() {
            ratio if ratio < 0.1 => format!("{ratio:.4}"),
            ratio => format!("{ratio:.2}"),
        },
        _ => "-".to_string(),
    };
    println!("{name:36} {:>14} {:>14} {ratio:>16}", show(one), show(other));
}

/// A time as a row shows it.
pub fn shown(time: Duration) -> String {
    match time.as_secs_f64() * 1e6 {
        micros if micros < 10_000.0 => format!("{micros:.1} µs"),
        micros => format!("{:.1} ms", micros / 1e3),
    }
}

/// The mean of some times, where all were taken.
pub fn mean(times: &[Option<Duration>]) -> Option<Duration> {
    let sum: Option<Duration> = times.iter().copied().sum();
    sum.filter(|_| !times.is_empty()).map(|sum| sum / times.len() as u32)
}

/// The time of one run.
pub fn once(run: &mut impl FnMut()) -> Duration {
    let started = Instant::now();
    run();
    started.elapsed()
}

/// The shortest of several times; of fewer, the longer one takes.
pub fn best(run: impl FnMut()) -> Duration {
    best_of_each(run, || ()).0
}

/// The same for two sides whose runs take turns, now the one first and now the other.
pub fn best_of_each(mut one: impl FnMut(), mut other: impl FnMut()) -> (Duration, Duration) {
    let mut best = (once(&mut one), once(&mut other));
    let mut spent = best.0 + best.1;
    for _ in 0..10 {
        if spent > Duration::from_millis(20) {
            break;
        }
        let times = [once(&mut other), once(&mut one), once(&mut one), once(&mut other)];
        spent += times.iter().sum::<Duration>();
        best = (best.0.min(times[1].min(times[2])), best.1.min(times[0].min(times[3])));
    }
    best
}
