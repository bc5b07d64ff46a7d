//! The linked library gives what is stored for the program `replay`.

use compare::recording::BEFORE;
use sir_analyses::{Answer, LINKED, calls};
use sir_questions::{Question, WRITE};
use std::fs;
use std::path::Path;

/// Takes so many bytes from the front of a file.
fn take<'a>(rest: &mut &'a [u8], count: usize) -> &'a [u8] {
    rest.split_off(..count).expect("the file goes on")
}

fn word(rest: &mut &[u8]) -> u32 {
    u32::from_le_bytes(take(rest, 4).try_into().expect("four bytes"))
}

/// Puts the next question of a file, or calls the writer: true where number, length and slice are as stored.
fn agrees(lent: &[u8], rest: &mut &[u8]) -> bool {
    let (number, count) = (word(rest), word(rest));
    let ids: Vec<u32> = (0..count).map(|_| word(rest)).collect();
    let room = word(rest) as usize;
    let expected = Answer { number: word(rest), length: u64::from(word(rest)) };
    let mut result = vec![BEFORE; room];
    let given = match Question::new(number, &ids) {
        Some(question) => calls::ask(question, lent, &mut result),
        None => {
            assert_eq!((number, count), (WRITE.number, 0));
            calls::write(lent, &mut result)
        }
    };
    let stored = take(rest, room);
    given == expected && result == stored
}

#[test]
fn every_file() {
    if !LINKED {
        println!("no library: nothing is compared");
        return;
    }
    let folder = Path::new(env!("CARGO_MANIFEST_DIR")).join("../../crates/replay");
    let mut stdout = String::new();
    for name in fs::read_to_string(folder.join("args")).unwrap().lines() {
        let bytes = fs::read(folder.join("data").join(name)).unwrap();
        let rest = &mut bytes.as_slice();
        let (length, count) = (word(rest) as usize, word(rest));
        let lent = take(rest, length);
        let agree = (0..count).filter(|_| agrees(lent, rest)).count() as u32;
        assert!(rest.is_empty(), "{name}");
        stdout += &format!("{name} agree {agree} differ {}\n", count - agree);
    }
    assert_eq!(stdout, fs::read_to_string(folder.join("stdout")).unwrap());
}
