//! Every generated image is accepted, but for shared bases.

use image_gen::{Kind, Rng, Size, extremes, generate, known, lent, worst};
use paper_reference::{Interval, Reference};
use sir_questions::{AllocId, BlockId, IdKind, Question, Refusal};

#[test]
fn small_images_are_accepted() {
    for &kind in Kind::SMALL {
        let refusals: Vec<u32> = (0..500).map(|seed| refusal(kind, seed)).collect();
        let shared_base = Refusal::SHARED_BASE.number();
        assert!(refusals.iter().all(|number| [0, shared_base].contains(number)), "{kind:?}: {refusals:?}");
        let shared = refusals.iter().filter(|&&number| number == shared_base).count();
        assert!(shared < 100, "{kind:?}: {shared} of 500 share a base");
    }
}

#[test]
fn large_images_are_accepted() {
    for &kind in Kind::LARGE {
        assert!((0..5).all(|seed| refusal(kind, seed) == 0), "{kind:?}");
    }
}

#[test]
fn the_worst_images_are_accepted() {
    for size in [Size::FULL, Size::MEDIUM, Size::SMALL] {
        for (name, image) in worst(size) {
            assert_eq!(paper_reference::refusal(&image.pages()), 0, "{name}");
        }
    }
}

/// Each kind has what it is for.
#[test]
fn kinds_have_what_they_are_for() {
    let marks = |kind, mark| -> usize {
        let images = (0..200).filter_map(|seed| Reference::new(&generate(kind, seed).pages()).ok());
        images
            .map(|reference| allocations(&reference).filter(|words| words[6] == mark && words[8] > mark).count())
            .sum()
    };
    assert!(marks(Kind::Lives, 0) > 100, "unmarked allocations with intervals");
    let rounds = |kind, seed| {
        let image = generate(kind, seed).pages();
        Reference::new(&image).expect("an accepted image").answer(Question::Rounds).unwrap()[0]
    };
    assert!((0..20).any(|seed| rounds(Kind::SmallRings, seed) > 100), "many rounds");
}

/// Unmarked allocations cross where an interval ends and one starts, and meet without crossing in blocks without operations.
#[test]
fn crossings_touch_and_meet() {
    let (mut touching, mut meeting) = (0, 0);
    for seed in 0..500 {
        let reference = Reference::new(&generate(Kind::Crossings, seed).pages()).expect("an accepted image");
        let all: Vec<u32> = (0..reference.count(IdKind::Allocation)).collect();
        for (&one, &other) in all.iter().flat_map(|one| all.iter().map(move |other| (one, other))) {
            let [Some(a), Some(b)] = [one, other].map(|number| reference.lifetime(AllocId(number))) else { continue };
            let words = reference.answer(Question::Crossing(AllocId(one), AllocId(other))).unwrap();
            let has = |life: &[Interval], end: fn(&Interval) -> (u32, u32)| {
                life.iter().any(|interval| words[0] == 1 && end(interval) == (words[1] - 1, words[2]))
            };
            touching +=
                u32::from(has(a, |&(block, _, end)| (block, end)) && has(b, |&(block, start, _)| (block, start)));
            let met = a.iter().any(|x| b.iter().any(|y| (x.0, x.1, x.2) == (y.0, 0, paper_reference::BLOCK_END)));
            meeting += u32::from(words[0] == 0 && met);
        }
    }
    assert!(touching > 100 && meeting > 20, "{touching} touch, {meeting} meet in blocks that both live through");
}

/// Pointers stand in every position of logs; allocations whose pointers are offsets or sizes only stay unmarked.
#[test]
fn topics_have_pointers_in_logs() {
    let (mut positions, mut unmarked) = ([0; 6], [0; 2]);
    for seed in 0..500 {
        let reference = Reference::new(&generate(Kind::Topics, seed).pages()).expect("an accepted image");
        let found = reference.pointers_in_logs();
        found.iter().for_each(|&position| positions[position] += 1);
        let kept = allocations(&reference).all(|words| words[6] == 0);
        (0..2).for_each(|position| unmarked[position] += u32::from(kept && found.contains(&position)));
    }
    assert!(positions.iter().all(|&count| count > 20), "pointers by position: {positions:?}");
    assert!(unmarked.iter().all(|&count| count > 20), "images with no mark, by a pointer's position: {unmarked:?}");
}

/// Every sum of flags comes up, and flags that go by turns.
#[test]
fn causes_are_of_all_sorts() {
    let (mut found, mut by_turns) = ([0; 8], [0; 2]);
    for seed in 0..500 {
        let reference = Reference::new(&generate(Kind::Causes, seed).pages()).expect("an accepted image");
        let flags = reference.flags();
        flags.iter().for_each(|&flags| found[flags as usize] += 1);
        let lowest = reference.flags_by_lowest_number();
        let differ = |flag| flags.iter().zip(&lowest).any(|(one, other)| (one ^ other) & flag != 0);
        [1, 2].into_iter().zip(&mut by_turns).for_each(|(flag, count)| *count += u32::from(differ(flag)));
    }
    assert!(found.iter().all(|&count| count > 20), "by flags: {found:?}");
    assert!(
        by_turns.iter().all(|&count| count > 20),
        "other flags by lowest numbers, operands and returns: {by_turns:?}"
    );
}

/// An allocation is marked just where a flag is set, and would be if the lowest number were first; a meeting goes by reaches alone.
#[test]
fn marks_and_flags_agree() {
    for &kind in Kind::SMALL {
        for seed in 0..200 {
            let Ok(reference) = Reference::new(&generate(kind, seed).pages()) else { continue };
            for (words, other) in allocations(&reference).zip(reference.flags_by_lowest_number()) {
                assert_eq!((words[6], words[7] & 4), (u32::from(words[7] != 0), other & 4), "{kind:?} {seed}");
                assert_eq!(words[6], u32::from(other != 0), "{kind:?} {seed}");
            }
        }
    }
}

/// Which of these numbers came up, and how often.
fn counts(found: &[usize], wanted: &[usize]) -> Vec<(usize, usize)> {
    wanted.iter().map(|&number| (number, found.iter().filter(|&&other| other == number).count())).collect()
}

/// Sheets are just full, or have one line too many or too few; allocations are none, and on both sides of a series.
#[test]
fn charts_on_both_sides_of_sheets_and_series() {
    for (kind, seeds, least, numbers) in [
        (Kind::Charts, 2000, 10, [0, 1, 63, 64, 65].as_slice()),
        (Kind::FullCharts, 150, 3, &[64, 65, 128, 129, 448, 449, 511, 512]),
    ] {
        let (mut lines, mut allocations) = (Vec::new(), Vec::new());
        let mut marks = [0; 4];
        let (mut shared, mut digits, mut functions) = (0, [0; 5], 0);
        for seed in 0..seeds {
            let image = generate(kind, seed);
            let reference = Reference::new(&image.pages()).expect("an accepted image");
            let chart = reference.chart(usize::MAX).unwrap();
            lines.push(reference.chart_lines() % 60);
            allocations.push(reference.count(IdKind::Allocation) as usize);
            let mut indices = Vec::new();
            for line in chart[..73 * reference.chart_lines()].lines().filter(|line| &line[5..6] == "|") {
                indices.push(line[..5].trim().to_string());
                let has = |mark: char| usize::from(line[6..].contains(mark));
                [has('*'), has('#'), has('.'), has('c')].iter().zip(&mut marks).for_each(|(&has, count)| *count += has);
            }
            indices.iter().for_each(|index| digits[index.len()] += 1);
            indices.sort_unstable();
            shared += usize::from(indices.windows(2).any(|pair| pair[0] == pair[1]));
            functions += usize::from(reference.count(IdKind::Function) > 1);
        }
        let lines = counts(&lines, &[59, 0, 1]);
        let allocations = counts(&allocations, numbers);
        assert!(lines.iter().chain(&allocations).all(|&(_, count)| count > least), "{lines:?} {allocations:?}");
        assert!(marks.iter().all(|&count| count > 1000), "*, #, . and c: {marks:?}");
        assert!(
            shared > seeds as usize / 10 && functions > seeds as usize / 4,
            "{shared} share, {functions} of several"
        );
        let most = if kind == Kind::Charts { 3 } else { 4 };
        assert!(digits[1..=most].iter().all(|&count| count > 50), "{kind:?}: {digits:?}");
    }
}

/// What is made for charts gives every local once: one operation output, or one block input.
#[test]
fn charts_give_each_local_once() {
    let generated =
        [Kind::Charts, Kind::FullCharts].into_iter().flat_map(|kind| (0..100).map(move |seed| generate(kind, seed)));
    for image in generated.chain([extremes::charted(Size::FULL), extremes::charted(Size::MEDIUM)]) {
        let outputs = image.operations.iter().map(|operation| operation.outputs);
        let runs = outputs.chain(image.blocks.iter().map(|block| block.inputs));
        let mut given: Vec<u32> =
            runs.flat_map(|run| image.operands[run.start as usize..run.end as usize].to_vec()).collect();
        let count = given.len();
        given.sort_unstable();
        given.dedup();
        assert_eq!(given.len(), count);
    }
}

/// The longest chart of a legal image: eight series of 2,466 sheets.
#[test]
fn the_longest_chart() {
    let reference = Reference::new(&extremes::charted(Size::FULL).pages()).unwrap();
    assert_eq!(reference.chart(usize::MAX).map(|chart| chart.len()), Ok(86_408_640));
    assert_eq!(reference.chart(86_408_639), Err(Refusal::SHORT_RESULT.number()));
    // Allocations are in one range each, so all other operations are at most in every block.
    let length = |series: usize| {
        let allocations = if series == 1 { 0 } else { 64 * (series - 1) + 1 };
        let lines: usize = 256 + allocations + 256 * (1024 - allocations);
        73 * series * lines.next_multiple_of(60)
    };
    assert_eq!((1..=8).map(length).max(), Some(86_408_640));
}

/// Words fill their pages, or are one more than that, on one page and on several.
#[test]
fn full_pages_are_full() {
    let counts: Vec<usize> = (0..500).map(|seed| generate(Kind::FullPages, seed).word_count()).collect();
    assert!(counts.iter().all(|count| count % 126 < 2), "{counts:?}");
    for wanted in [126, 127, 252, 253, 378, 379] {
        let found = counts.iter().filter(|&&count| count == wanted).count();
        assert!(found > 10, "{found} of {wanted} words");
    }
}

/// Records that are known by name get the numbers that stand beside them.
#[test]
fn known_records() {
    for lent in known() {
        assert_eq!(paper_reference::write(&lent.records).err().unwrap_or(0), lent.number, "{}", lent.name);
    }
}

/// Lent records are refused by each rule that goes by words, and accepted as they are and altered; an image that is written has
/// the records that were lent.
#[test]
fn lent_records_break_each_rule() {
    let rng = &mut Rng::new(0);
    let mut found = [0; 16];
    let (mut outright, mut altered) = (0, 0);
    for seed in 0..20_000 {
        let image = generate(Kind::SMALL[seed as usize % Kind::SMALL.len()], seed);
        let records = lent(&image, rng);
        match paper_reference::write(&records) {
            Ok(pages) => {
                altered += u32::from(pages != image.pages());
                let written = Reference::new(&pages).expect("an accepted image");
                assert_eq!(written.bytes(Question::Records), Ok(records.clone()));
            }
            Err(number) => found[number as usize] += 1,
        }
        outright += u32::from(records.len() < 36 || !records.len().is_multiple_of(4));
    }
    let numbers: Vec<u32> = Refusal::of_words().map(Refusal::number).collect();
    assert!(numbers.iter().all(|&number| found[number as usize] > 20), "by number: {found:?}");
    assert!(outright > 100 && found[6] > 2 * outright, "{outright} refused outright, {} with 6", found[6]);
    assert!(altered > 1000, "{altered} accepted that are not those of the image");
}

/// "The number is at most the final number of exit members plus 1", and at least 1.
#[test]
fn rounds_are_bounded() {
    for &kind in Kind::SMALL.iter().chain(&[Kind::SmallRings, Kind::SmallRenaming]) {
        for seed in 0..100 {
            let Ok(reference) = Reference::new(&generate(kind, seed).pages()) else { continue };
            let exit_set = |block| reference.answer(Question::ExitSet(BlockId(block))).unwrap().len();
            let members: usize = (0..reference.count(IdKind::Block)).map(exit_set).sum();
            let rounds = reference.answer(Question::Rounds).unwrap()[0] as usize;
            assert!((1..=members + 1).contains(&rounds), "{kind:?} {seed}: {rounds} rounds, {members} members");
        }
    }
}

fn allocations(reference: &Reference) -> impl Iterator<Item = Vec<u32>> {
    let answer = |number| reference.answer(Question::Allocation(AllocId(number))).unwrap();
    (0..reference.count(IdKind::Allocation)).map(answer)
}

fn refusal(kind: Kind, seed: u64) -> u32 {
    paper_reference::refusal(&generate(kind, seed).pages())
}
