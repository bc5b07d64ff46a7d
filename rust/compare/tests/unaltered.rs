//! What the source as it is answers otherwise than the altered one: records of allocations that topics mark.

use image_gen::{Kind, generate};
use plank_oracle::{PRESENT, Program, Source};
use sir_questions::Question;

/// Where a topic is a pointer the two differ in the mark of allocations, and then in their intervals, and in nothing else.
#[test]
fn only_marks_differ() {
    if !PRESENT {
        println!("no Plank files: nothing is compared");
        return;
    }
    let mut differ = 0;
    for seed in 0..300 {
        let program = Program::new(&generate(Kind::Topics, seed)).expect("the sources are present");
        let [altered, unaltered] = [Source::Altered, Source::Unaltered].map(|source| program.analyses(source));
        for question in Question::KINDS.iter().flat_map(|kind| kind.about_all(|id| altered.count(id), |_| 1)) {
            let (Some(answer), Some(other)) = (altered.answer(question), unaltered.answer(question)) else { continue };
            match question {
                Question::Allocation(_) if answer != other => {
                    assert_eq!((&answer[..6], &answer[6..], other[6]), (&other[..6], [1, 0].as_slice(), 0), "{seed}");
                    differ += 1;
                }
                Question::AllAllocations => {}
                _ => assert_eq!(answer, other, "{seed}, {question}"),
            }
        }
    }
    assert!(differ > 50, "{differ} allocations are marked by topics alone");
}
