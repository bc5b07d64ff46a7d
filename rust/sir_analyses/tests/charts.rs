//! Charts of the linked library: those that are stored for the program `chart`, and calls with slices of many lengths.
#![cfg(sir_linked)]

use sir_analyses::{Answer, BlockId, OpIdx, Refusal, calls};
use sir_image::{Code, Control, Image, samples};
use std::fs;
use std::path::Path;

/// The bytes of a sheet: 60 lines of 72 characters and a line feed.
const SHEET: usize = 60 * 73;

/// For each image that is stored its name, then its chart, or `refused` and the number.
#[test]
fn every_stored_chart() {
    let folder = Path::new(env!("CARGO_MANIFEST_DIR")).join("../../crates/chart");
    let mut printed = String::new();
    let (mut drawn, mut refused) = (0, 0);
    for name in fs::read_to_string(folder.join("args")).unwrap().lines() {
        let image = fs::read(folder.join("data").join(name)).unwrap();
        printed += &format!("{name}\n");
        match sir_analyses::chart(&image) {
            Ok(chart) => {
                printed += &chart;
                drawn += 1;
            }
            Err(refusal) => {
                printed += &format!("refused {}\n", refusal.number());
                refused += 1;
            }
        }
    }
    assert!(printed == fs::read_to_string(folder.join("stdout")).unwrap());
    assert_eq!((drawn, refused), (4, 2));
}

/// Every mark is what the other answers say: a star for a marked allocation, `#` where an allocation is open.
#[test]
fn marks_agree_with_other_answers() {
    for image in [samples::several_functions(), samples::two_series(), samples::touching(), samples::logs()] {
        let image = image.pages();
        let allocations = sir_analyses::all_allocations(&image).unwrap();
        let (mut block, mut series) = (BlockId(0), 0);
        let first = sir_analyses::order(&image).unwrap()[0].blocks[0];
        for line in sir_analyses::chart(&image).unwrap().lines() {
            if let Some(id) = line.strip_prefix("block ") {
                block = BlockId(id.trim_end().parse().unwrap());
                series += usize::from(block == first);
            } else if let Some((operation, marks)) = line.split_once('|') {
                let operation = OpIdx(operation.trim_start().parse().unwrap());
                let open = sir_analyses::open(&image, block, operation).unwrap();
                for (number, mark) in (64 * (series - 1)..).zip(marks[..64].chars()) {
                    let is_open = open.iter().any(|allocation| allocation.0 as usize == number);
                    let expected = match allocations.get(number) {
                        Some(allocation) if allocation.marked => '*',
                        _ if is_open => '#',
                        _ => '.',
                    };
                    assert_eq!(mark, expected, "allocation {number} at operation {} of block {}", operation.0, block.0);
                }
            }
        }
        assert_eq!(series, allocations.len().div_ceil(64).max(1));
    }
}

/// The answer, and the slice after the call.
fn called(image: &[u8], room: usize) -> (Answer, Vec<u8>) {
    let mut result = vec![7; room];
    (calls::chart(image, &mut result), result)
}

/// A slice that is just long enough, longer, and too short; 14 comes after the refusals of the image.
#[test]
fn slices() {
    let image = samples::report().pages();
    let chart = paper_reference::chart(&image).unwrap().into_bytes();
    for spare in [0, 1, 73, 5000] {
        let (answer, result) = called(&image, SHEET + spare);
        assert_eq!(answer, Answer { number: 0, length: SHEET as u64 });
        assert!(result == [chart.as_slice(), &vec![7; spare]].concat());
    }
    for room in [0, 1, 4, 72, 73, SHEET / 2, SHEET - 1] {
        let refused = |number| (Answer { number, length: 0 }, vec![7; room]);
        assert_eq!(called(&image, room), refused(14));
        assert_eq!(called(&image[..511], room), refused(1));
    }
    assert_eq!(sir_analyses::chart(&[]), Err(Refusal::LENGTH));
}

/// One block of so many operations.
fn block_of(operations: u32) -> Vec<u8> {
    let mut image = Image::new(0);
    (0..operations).for_each(|_| _ = image.operation(Code::Noop, &[], &[]));
    image.block(&[], &[], image.operations_from(0), Control::LastOpTerminates);
    image.function(0);
    image.pages()
}

/// A sheet that is just full is not filled.
#[test]
fn sheets() {
    for (operations, sheets) in [(0, 1), (58, 1), (59, 1), (60, 2), (119, 2), (120, 3), (1024, 18)] {
        let image = block_of(operations);
        let chart = sir_analyses::chart(&image).unwrap();
        assert_eq!(chart.len(), sheets * SHEET, "{operations} operations");
        assert!(Ok(chart) == paper_reference::chart(&image), "{operations} operations");
    }
}
