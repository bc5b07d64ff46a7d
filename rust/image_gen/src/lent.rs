//! Records to be lent to the writer: those of an image, or made from them so that some rule refuses most of them.

use crate::Rng;
use sir_image::pages::{MAX_PAGES, PAYLOAD_WORDS, to_bytes};
use sir_image::{Code, Control, HEADER_WORDS, Image, samples};

/// Records made from those of an image: some words altered, then some gone or more, then some bytes gone or more; each of these
/// in some of them only.
pub fn lent(image: &Image, rng: &mut Rng) -> Vec<u8> {
    let mut words = image.words();
    for _ in 0..rng.weighted(&[3, 4, 2]) {
        alter(&mut words, rng);
    }
    if rng.percent(35) {
        resize(&mut words, rng);
    }
    let mut bytes = to_bytes(&words);
    match rng.below(24) {
        0 => bytes.extend(vec![0; rng.between((1, 3)) as usize]),
        1 => bytes.truncate(bytes.len().saturating_sub(rng.between((1, 3)) as usize)),
        _ => {}
    }
    bytes
}

/// Alters a word: the edition, a count, one of the words after the head, or any.
fn alter(words: &mut [u32], rng: &mut Rng) {
    let all = words.len() as u32;
    let at = match rng.below(16) {
        0 => 0,
        1 | 2 => rng.between((1, 6)),
        3 => rng.below(all),
        _ => rng.between((HEADER_WORDS as u32, all - 1)),
    };
    let was = words[at as usize];
    let small = [rng.below(4), rng.below(100), rng.below(600)];
    let near = [was.wrapping_add(1), was.wrapping_sub(1)];
    let value = rng.pick(&[small[0], small[0], small[1], small[2], near[0], near[1], u32::MAX, 1 << 16]);
    words[at as usize] = value;
}

/// Takes words away or adds some: one, with the counts left alone or one of them told; all past the head; part of the head; any
/// number; zeros up to whole pages; or up to more than any image has.
fn resize(words: &mut Vec<u32>, rng: &mut Rng) {
    let length = match rng.below(40) {
        0..8 => words.len() - 1,
        8..16 => words.len() + 1,
        16..24 => {
            let count = &mut words[rng.pick(&[1, 4, 5])];
            *count = count.wrapping_add(1);
            words.len() + 1
        }
        24..30 => HEADER_WORDS,
        30..33 => rng.below(HEADER_WORDS as u32) as usize,
        33..36 => rng.below(words.len() as u32) as usize,
        36..39 => words.len().next_multiple_of(PAYLOAD_WORDS),
        _ => MAX_PAGES * PAYLOAD_WORDS + rng.between((0, 2)) as usize,
    };
    words.resize(length, 0);
}

/// Records that are known by name.
pub struct Lent {
    /// The name.
    pub name: &'static str,
    /// The records.
    pub records: Vec<u8>,
    /// The number that refuses them, or 0.
    pub number: u32,
}

/// Records that tell the places of the rules apart, and records at the ends of pages.
pub fn known() -> Vec<Lent> {
    [few_words(), near_the_report(), at_page_ends(), most_words()].into_iter().flatten().collect()
}

fn of(name: &'static str, number: u32, words: &[u32]) -> Lent {
    Lent { name, records: to_bytes(words), number }
}

/// A head and no more, or not even that, and the fewest records that are accepted.
fn few_words() -> Vec<Lent> {
    let nine = |edition, count| [edition, count, count, 0, 0, 0, 0, 0, 0];
    let bytes = [to_bytes(&nine(2, 1)), vec![0]].concat();
    vec![
        of("no_words", 6, &[]),
        of("eight_words", 6, &nine(1, 1)[..8]),
        of("eight_words_edition_2", 6, &nine(2, 1)[..8]),
        of("nine_words", 6, &nine(1, 1)),
        of("nine_words_edition_2", 4, &nine(2, 0)),
        of("nine_words_no_function", 5, &nine(1, 0)),
        Lent { name: "37_bytes_edition_2", records: bytes, number: 6 },
        of("least_words", 0, &[nine(1, 1).as_slice(), &[0; 12]].concat()),
    ]
}

/// The records of [`samples::report`], and ones that break one rule or two.
fn near_the_report() -> Vec<Lent> {
    let report = samples::report();
    let (words, code) = (report.words(), report.operation_at(0));
    let altered = |at: usize, word, more: &[u32]| {
        let mut altered = [&words, more].concat();
        altered[at] = word;
        altered
    };
    let padding = vec![0; PAYLOAD_WORDS - words.len()];
    vec![
        of("report", 0, &words),
        of("one_word_more", 6, &[words.as_slice(), &[0]].concat()),
        of("one_word_less", 6, &words[..words.len() - 1]),
        Lent { name: "one_byte_more", records: [to_bytes(&words), vec![0]].concat(), number: 6 },
        of("padding", 6, &[words.as_slice(), &padding].concat()),
        of("edition_2_one_word_more", 4, &altered(0, 2, &[0])),
        of("no_block_one_word_more", 5, &altered(2, 0, &[0])),
        of("unknown_code_one_word_more", 6, &altered(code, 93, &[0])),
        of("unknown_code", 7, &altered(code, 93, &[])),
        of("one_operand_more", 0, &altered(4, words[4] + 1, &[0])),
    ]
}

fn at_page_ends() -> Vec<Lent> {
    let counts = [("125_words", 125), ("126_words", 126), ("127_words", 127), ("252_words", 252), ("253_words", 253)];
    counts.map(|(name, count)| of(name, 0, &of_length(count).words())).into()
}

/// As many words as an image can have, as many as 117 pages hold, one more, and far more. No counts call for these; their head is
/// still looked at first.
fn most_words() -> Vec<Lent> {
    let most = samples::largest().words();
    let all_pages = MAX_PAGES * PAYLOAD_WORDS;
    let longer = |edition: u32, length: usize| [&[edition], &most[1..], &vec![0; length - most.len()]].concat();
    vec![
        of("most_words", 0, &most),
        of("most_words_edition_2", 4, &longer(2, most.len())),
        of("117_full_pages", 6, &longer(1, all_pages)),
        of("118_pages", 6, &longer(1, all_pages + 1)),
        of("118_pages_edition_2", 4, &longer(2, all_pages + 1)),
        of("1000_pages", 6, &longer(1, 126_000)),
        of("1000_pages_edition_2", 4, &longer(2, 126_000)),
    ]
}

/// An image of so many words, of which the last are operand words in no range.
fn of_length(words: usize) -> Image {
    let mut image = Image::new(9);
    image.operation(Code::Noop, &[], &[]);
    image.block(&[], &[], image.operations_from(0), Control::LastOpTerminates);
    image.function(0);
    let operands = words - image.word_count();
    image.operands.extend((0..operands as u32).map(|at| at % 9));
    image
}
