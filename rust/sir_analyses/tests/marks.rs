//! What marked the allocations of the linked library, on small programs whose flags are stated by hand.
#![cfg(sir_linked)]

use sir_analyses::{AllocId, Allocation, Answer, Flags, MarkCause, Question, calls};
use sir_image::{Image, samples};

/// The allocations of an image, asked for one by one and all in one call.
fn allocations(image: &Image) -> Vec<Allocation> {
    let image = image.pages();
    let all = sir_analyses::all_allocations(&image).unwrap();
    for (number, allocation) in all.iter().enumerate() {
        assert_eq!(sir_analyses::allocation(&image, AllocId(number as u32)).as_ref(), Ok(allocation));
        assert_eq!([allocation.flags.0 != 0, allocation.causes().count() > 0], [allocation.marked; 2]);
    }
    all
}

fn flags(image: &Image) -> Vec<u32> {
    allocations(image).iter().map(|allocation| allocation.flags.0).collect()
}

#[test]
fn every_sum() {
    assert_eq!(flags(&samples::every_flag()), [0, 1, 2, 3, 4, 5, 6, 7]);
}

/// Allocation 1 is first at what is stored, though allocation 0 comes there too.
#[test]
fn through_a_later_base() {
    let [first, second] = allocations(&samples::through_a_base()).try_into().unwrap();
    assert_eq!((first.flags, second.flags), (Flags(4), Flags(5)));
    assert!(first.causes().eq([MarkCause::Meeting]));
    assert!(second.causes().eq([MarkCause::EscapingOperand, MarkCause::Meeting]));
}

#[test]
fn meetings() {
    assert_eq!(flags(&samples::sum_of_pointers()), [4, 4]);
    assert_eq!(flags(&samples::exchanged_bases()), [4, 4]);
}

#[test]
fn topics() {
    assert_eq!(flags(&samples::logs()), samples::LOG_MARKS);
}

#[test]
fn unmarked() {
    let [allocation] = allocations(&samples::report()).try_into().unwrap();
    assert_eq!((allocation.flags, allocation.marked, allocation.intervals.len()), (Flags(0), false, 2));
}

/// A marked allocation takes nine words.
#[test]
fn room_for_a_record() {
    let image = samples::through_a_base().pages();
    let asked = |room| calls::ask(Question::Allocation(AllocId(0)), &image, &mut vec![0; room]);
    assert_eq!((asked(36), asked(35)), (Answer { number: 0, length: 36 }, Answer { number: 14, length: 0 }));
}
