//! The text of `report`, as the paper shows it.

use crate::Reference;
use sir_questions::{AllocId, BlockId, IdKind, LocalId, Question};
use std::fmt::Write;

/// The result slice of `report`, in bytes.
const SLICE: usize = 65_536;

/// What `report` prints for an image.
pub fn report(image: &[u8]) -> String {
    match Reference::new(image).and_then(|reference| lines(&reference)) {
        Ok(text) => text,
        Err(number) => format!("refused {number}\n"),
    }
}

/// All lines, or 14 where one answer needs more than the slice has.
fn lines(reference: &Reference) -> Result<String, u32> {
    let ask = |question| -> Result<Vec<u32>, u32> {
        let answer = reference.answer(question)?;
        if 4 * answer.len() > SLICE { Err(14) } else { Ok(answer) }
    };
    let blocks = order_blocks(&ask(Question::Order)?);
    let mut text = format!("order{}\nrounds {}\n", items('b', &blocks), ask(Question::Rounds)?[0]);
    let mut visited = blocks;
    visited.sort_unstable();
    for block in visited {
        let sets = [Question::EntrySet(BlockId(block)), Question::ExitSet(BlockId(block))];
        let [entry, exit] = [ask(sets[0])?, ask(sets[1])?].map(|set| members(&set));
        writeln!(text, "b{block} in{entry} out{exit}").unwrap();
    }
    for local in 0..reference.count(IdKind::Local) {
        let answer = ask(Question::Intervals(LocalId(local)))?;
        if !answer.is_empty() {
            writeln!(text, "v{local}{}", intervals(&answer)).unwrap();
        }
    }
    for number in 0..reference.count(IdKind::Allocation) {
        let answer = ask(Question::Allocation(AllocId(number)))?;
        let mark = ["kept", "escaped"][answer[6] as usize];
        let [block, operation, base] = [answer[0], answer[1], answer[2]];
        writeln!(text, "a{number} b{block} op{operation} v{base} {mark}{}", intervals(&answer[9..])).unwrap();
    }
    Ok(text)
}

/// The blocks of an Order answer, functions left out.
fn order_blocks(answer: &[u32]) -> Vec<u32> {
    let mut blocks = Vec::new();
    let mut rest = answer;
    while let [_, count, after @ ..] = rest {
        let (own, others) = after.split_at(*count as usize);
        blocks.extend(own);
        rest = others;
    }
    blocks
}

/// Ids, each after a space and a letter.
fn items(letter: char, ids: &[u32]) -> String {
    ids.iter().map(|id| format!(" {letter}{id}")).collect()
}

/// The members of a set; a hyphen if it is empty.
fn members(ids: &[u32]) -> String {
    if ids.is_empty() { " -".into() } else { items('v', ids) }
}

/// Intervals, three words each, every one after its block.
fn intervals(words: &[u32]) -> String {
    let text = |triple: &[u32]| {
        let start = if triple[1] == 0 { "start".into() } else { (triple[1] - 1).to_string() };
        let end = if triple[2] == u32::MAX { "end".into() } else { (triple[2] - 1).to_string() };
        format!(" b{} {start}..{end}", triple[0])
    };
    words.chunks_exact(3).map(text).collect()
}
