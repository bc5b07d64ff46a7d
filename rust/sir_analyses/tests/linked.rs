//! The linked library: accepted and refused images, unknown ids, short slices, and the bytes that are left alone.
#![cfg(sir_linked)]

use sir_analyses::{AllocId, BlockId, Cause, FunctionId, LocalId, OpIdx, Question, Refusal};
use sir_analyses::{Answer, End, FunctionBlocks, Interval, Place, Size, Start, Use, calls};
use sir_image::{Block, Control, Image, MAX_BLOCKS, MAX_OPERANDS, MAX_OPERATIONS, Operation, Span, samples};
use sir_questions::Id;
use std::{fs, path::Path};

/// Number, length and every byte of the result slice are the paper's.
fn assert_as_the_paper(question: Question, image: &[u8], length: usize) -> Answer {
    let mut result: Vec<u8> = (0..length).map(|at| at as u8 ^ 0x5a).collect();
    let mut expected = result.clone();
    let answer = calls::ask(question, image, &mut result);
    let (number, length) = paper_reference::call(image, question, &mut expected);
    assert_eq!((answer, &result), (Answer { number, length }, &expected), "{question}");
    answer
}

#[test]
fn report_decoded() {
    let image = samples::report().pages();
    let function = FunctionBlocks { function: FunctionId(0), blocks: vec![BlockId(0), BlockId(1)] };
    assert_eq!(sir_analyses::order(&image), Ok(vec![function]));
    assert_eq!(sir_analyses::predecessors(&image, BlockId(1)), Ok(vec![BlockId(0)]));
    let uses = [Place::Operation(OpIdx(2)), Place::BlockOutput(0)].map(|place| Use { block: BlockId(0), place });
    assert_eq!(sir_analyses::uses(&image, LocalId(1)), Ok(uses.to_vec()));
}

#[test]
fn report_liveness_decoded() {
    let image = samples::report().pages();
    assert_eq!(sir_analyses::rounds(&image), Ok(2));
    assert_eq!(sir_analyses::entry_set(&image, BlockId(1)), Ok(vec![LocalId(2)]));
    assert_eq!(sir_analyses::exit_set(&image, BlockId(0)), Ok(vec![LocalId(1)]));
    let first = Interval { block: BlockId(0), start: Start::Operation(OpIdx(1)), end: End::Block };
    assert_eq!(sir_analyses::intervals(&image, LocalId(1)), Ok(vec![first]));
}

#[test]
fn report_allocations_decoded() {
    let image = samples::report().pages();
    let first = Interval { block: BlockId(0), start: Start::Operation(OpIdx(1)), end: End::Block };
    let second = Interval { block: BlockId(1), start: Start::Block, end: End::Operation(OpIdx(3)) };
    let owners = [2, 0].map(|local| sir_analyses::owner(&image, LocalId(local)));
    assert_eq!(owners, [Ok(Some(AllocId(0))), Ok(None)]);
    let all = sir_analyses::all_allocations(&image).unwrap();
    assert_eq!(all.len(), 1);
    assert_eq!((all[0].block, all[0].operation, all[0].base), (BlockId(0), OpIdx(1), LocalId(1)));
    assert!(!all[0].marked);
    assert_eq!((all[0].size, &all[0].intervals), (Size::Static { size: 32, id: 0 }, &vec![first, second]));
}

/// The answers for all ids are those for each id, in turn.
#[test]
fn all_ids_decoded() {
    fn each<I: Id, T>(ask: impl Fn(I) -> Result<T, Refusal>) -> Result<Vec<T>, Refusal> {
        let answers = (0..).map(|id| ask(I::new(id)));
        answers.take_while(|answer| answer.as_ref().err() != Some(&Refusal::UNKNOWN_ID)).collect()
    }
    let path = Path::new(env!("CARGO_MANIFEST_DIR")).join("../../examples/functions.img");
    let image = &fs::read(path).unwrap();
    assert_eq!(sir_analyses::all_predecessors(image), each(|block| sir_analyses::predecessors(image, block)));
    assert_eq!(sir_analyses::all_entry_sets(image), each(|block| sir_analyses::entry_set(image, block)));
    assert_eq!(sir_analyses::all_exit_sets(image), each(|block| sir_analyses::exit_set(image, block)));
    assert_eq!(sir_analyses::all_uses(image), each(|local| sir_analyses::uses(image, local)));
    assert_eq!(sir_analyses::all_intervals(image), each(|local| sir_analyses::intervals(image, local)));
    assert_eq!(sir_analyses::all_owners(image), each(|local| sir_analyses::owner(image, local)));
    assert_eq!(sir_analyses::all_allocations(image), each(|allocation| sir_analyses::allocation(image, allocation)));
    let lengths = [sir_analyses::all_uses(image).unwrap().len(), sir_analyses::all_allocations(image).unwrap().len()];
    assert_eq!(lengths, [16, 3]);
}

/// A pointer escapes as a topic of a log, and not as its offset or size.
#[test]
fn pointers_in_logs() {
    let all = sir_analyses::all_allocations(&samples::logs().pages()).unwrap();
    assert_eq!(all.iter().map(|allocation| u32::from(allocation.marked)).collect::<Vec<_>>(), samples::LOG_MARKS);
    assert!(all.iter().all(|allocation| allocation.intervals.is_empty() == allocation.marked));
}

#[test]
fn refusals_decoded() {
    let image = samples::report().pages();
    assert_eq!(sir_analyses::order(&image[..511]), Err(Refusal::LENGTH));
    assert_eq!(sir_analyses::all_uses(&image[..511]), Err(Refusal::LENGTH));
    assert_eq!(sir_analyses::uses(&image, LocalId(4)), Err(Refusal::UNKNOWN_ID));
    assert_eq!(Refusal::UNKNOWN_ID.number(), 13);
}

/// Every length of the result slice around the answer's, and ids up to and above their count.
#[test]
fn slices_and_ids() {
    let image = samples::report().pages();
    for kind in Question::KINDS {
        for id in [0, 1, 2, 3, 4, 5, u32::MAX - 1] {
            let question = kind.about(&vec![id; kind.ids.len()]);
            let enough = assert_as_the_paper(question, &image, 400);
            for length in 0..enough.length as usize + 6 {
                assert_as_the_paper(question, &image, length);
            }
        }
    }
}

/// The images that try every clause of the refusals.
#[test]
fn listed_images() {
    let folder = Path::new(env!("CARGO_MANIFEST_DIR")).join("../../crates/refusals/data");
    let index = fs::read_to_string(folder.join("index")).unwrap();
    for line in index.lines() {
        let (name, number) = line.split_once(' ').unwrap();
        let image = fs::read(folder.join(name)).unwrap();
        let number: u32 = number.parse().unwrap();
        for kind in Question::KINDS {
            let answer = assert_as_the_paper(kind.about_zeros(), &image, 8);
            let by_the_caller = Refusal::new(answer.number).cause() == Some(Cause::Caller);
            assert!(answer.number == number || (number == 0 && by_the_caller), "{name}");
        }
    }
}

/// Answers that are longer than the slice that is lent first.
#[test]
fn long_answers() {
    let image = samples::largest().pages();
    let order = sir_analyses::order(&image).unwrap();
    let blocks: usize = order.iter().map(|function| function.blocks.len()).sum();
    assert_eq!(blocks, sir_image::MAX_BLOCKS);
    assert_as_the_paper(Question::Uses(LocalId(511)), &image, 1 << 20);
    assert_as_the_paper(Question::EntrySet(BlockId(0)), &image, 4096);
    assert_as_the_paper(Question::AllEntrySets, &image, 1 << 20);
}

/// Every question, and the writer, keeps within the stack that the header states.
#[test]
fn stack() {
    let images = [samples::deepest().pages(), samples::largest().pages()];
    // Of each image one that the block holds.
    let open = [(3, 0), (0, 0)].map(|(block, operation)| Question::Open(BlockId(block), OpIdx(operation)));
    let calls = move || {
        let mut result = [0; 2048];
        for (image, open) in images.iter().zip(open) {
            for kind in Question::KINDS {
                calls::ask(kind.about(&vec![1; kind.ids.len()]), image, &mut result);
            }
            assert_eq!(calls::ask(open, image, &mut result).number, 0);
            assert!(sir_analyses::chart(image).is_ok());
            let records = sir_analyses::records(image).unwrap();
            assert_eq!(sir_analyses::write(&records).as_ref(), Ok(image));
        }
    };
    std::thread::Builder::new().stack_size(1 << 20).spawn(calls).unwrap().join().unwrap();
}

/// 256 blocks that each span 1,024 calls, each with all 4,096 operands: one local with 2^30 uses. The answer takes 3 * 2^32
/// bytes; a slice that is too short is refused by counting, and not by stepping through the uses.
#[test]
fn longest_uses() {
    let mut image = Image::new(1);
    image.operands = vec![0; MAX_OPERANDS];
    let all = Span { start: 0, end: MAX_OPERANDS as u32 };
    let call = Operation { code: 25, inputs: all, outputs: Span::default(), extras: [0, 0] };
    image.operations = vec![call; MAX_OPERATIONS];
    image.function(0);
    for next in 1..=MAX_BLOCKS as u32 {
        let control = if next < MAX_BLOCKS as u32 { Control::ContinuesTo(next) } else { Control::LastOpTerminates };
        let operations = Span { start: 0, end: MAX_OPERATIONS as u32 };
        image.blocks.push(Block { inputs: Span::default(), outputs: Span::default(), operations, control });
    }
    for question in [Question::Uses(LocalId(0)), Question::AllUses] {
        let mut result = [7u8; 64];
        let answer = calls::ask(question, &image.pages(), &mut result);
        assert_eq!((answer, result), (Answer { number: 14, length: 0 }, [7u8; 64]), "{question}");
    }
}
