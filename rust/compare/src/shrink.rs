//! Makes an image smaller while something stays true of it.

use sir_image::{Code, Control, Image, LocalId, Operation, Span};

/// A change that may make an image smaller, and may break a rule.
type Edit = Box<dyn Fn(&mut Image)>;

/// The smallest image that `keeps` holds of and that single edits lead to.
pub fn shrink(image: &Image, keeps: impl Fn(&Image) -> bool) -> Image {
    let mut best = image.clone();
    // Ranges of its own for every record leave more edits open, where it stays true of that.
    let parted = parted(&best);
    if keeps(&parted) {
        best = parted;
    }
    let mut edits = edits(&best);
    let (mut at, mut failed) = (0, 0);
    while failed < edits.len() {
        let mut smaller = best.clone();
        edits[at % edits.len()](&mut smaller);
        if size(&smaller) < size(&best) && keeps(&smaller) {
            best = smaller;
            edits = self::edits(&best);
            failed = 0;
        } else {
            at += 1;
            failed += 1;
        }
    }
    best
}

/// What a step must bring down.
fn size(image: &Image) -> usize {
    let edges = |control: Control| match control {
        Control::LastOpTerminates => 0,
        Control::InternalReturn => 1,
        Control::ContinuesTo(_) => 2,
        Control::Branches { .. } => 3,
        Control::Switch { count, fallback, .. } => 4 + count as usize + usize::from(fallback.is_some()),
    };
    let ranges = |span: Span| (span.end - span.start) as usize;
    let blocks = image
        .blocks
        .iter()
        .map(|block| edges(block.control) + ranges(block.inputs) + ranges(block.outputs) + ranges(block.operations));
    let operations = image.operations.iter().map(|operation| {
        usize::from(operation.code != Code::Noop as u32) + ranges(operation.inputs) + ranges(operation.outputs)
    });
    blocks.sum::<usize>()
        + operations.sum::<usize>()
        + 4 * (image.blocks.len() + image.operations.len() + image.entries.len())
        + image.operands.len()
        + image.targets.len()
        + image.locals as usize
        + image.operands.iter().map(|&local| local as usize).sum::<usize>()
        + usize::from(image.main.is_some())
}

/// The image with runs of operand words that no two records share.
fn parted(image: &Image) -> Image {
    let mut parted = Image { operands: Vec::new(), ..image.clone() };
    let locals = |run: Span| image.operands[run.start as usize..run.end as usize].to_vec();
    for index in 0..image.blocks.len() {
        parted.blocks[index].inputs = parted.run(&locals(image.blocks[index].inputs));
        parted.blocks[index].outputs = parted.run(&locals(image.blocks[index].outputs));
    }
    for index in 0..image.operations.len() {
        parted.operations[index].inputs = parted.run(&locals(image.operations[index].inputs));
        parted.operations[index].outputs = parted.run(&locals(image.operations[index].outputs));
    }
    parted
}

/// What can be tried on an image, the larger cuts first.
fn edits(image: &Image) -> Vec<Edit> {
    let parts: [fn(&Image) -> Vec<Edit>; 5] = [removals, block_edits, operation_edits, operand_edits, local_edits];
    parts.into_iter().flat_map(|part| part(image)).collect()
}

/// Takes out operations, first many and then one, or a block, or a function.
fn removals(image: &Image) -> Vec<Edit> {
    let mut edits: Vec<Edit> = Vec::new();
    let (blocks, operations, functions) = (image.blocks.len(), image.operations.len(), image.entries.len());
    for part in [2, 4, 8, 16] {
        let chunk = operations / part;
        for start in (0..operations).step_by(chunk.max(1)).filter(|_| chunk > 1) {
            let end = operations.min(start + chunk);
            edits.push(Box::new(move |image| (start..end).rev().for_each(|index| remove_operation(image, index))));
        }
    }
    for block in (0..blocks).rev().filter(|_| blocks > 1) {
        edits.push(Box::new(move |image| remove_block(image, block)));
    }
    for index in (0..operations).rev() {
        edits.push(Box::new(move |image| remove_operation(image, index)));
    }
    for function in (0..functions).rev().filter(|_| functions > 1) {
        edits.push(Box::new(move |image| remove_function(image, function)));
    }
    edits.push(Box::new(|image| image.main = None));
    edits
}

/// Gives a block a simpler end, fewer operations, or no outputs.
fn block_edits(image: &Image) -> Vec<Edit> {
    let mut edits: Vec<Edit> = Vec::new();
    for (block, record) in image.blocks.iter().enumerate() {
        for end in endings(image, record.control) {
            edits.push(Box::new(move |image| image.blocks[block].control = end));
        }
        if record.operations.start < record.operations.end {
            edits.push(Box::new(move |image| image.blocks[block].operations.start += 1));
            edits.push(Box::new(move |image| image.blocks[block].operations.end -= 1));
        }
        edits.push(Box::new(move |image| image.blocks[block].outputs = Span::EMPTY));
    }
    edits
}

/// Makes an operation do nothing, or takes an operand of a call.
fn operation_edits(image: &Image) -> Vec<Edit> {
    let mut edits: Vec<Edit> = Vec::new();
    for (index, &Operation { code, inputs, outputs, .. }) in image.operations.iter().enumerate() {
        edits.push(Box::new(move |image| image.operations[index] = NOOP));
        if is_call(code) && inputs.start < inputs.end {
            edits.push(Box::new(move |image| image.operations[index].inputs.end -= 1));
        }
        if is_call(code) && outputs.start < outputs.end {
            edits.push(Box::new(move |image| image.operations[index].outputs.end -= 1));
        }
    }
    edits
}

/// Takes out a position of the blocks' inputs, and the operand words and targets that nothing names.
fn operand_edits(image: &Image) -> Vec<Edit> {
    let mut edits: Vec<Edit> = Vec::new();
    let arity = image.blocks.iter().map(|block| block.inputs.end - block.inputs.start).max().unwrap_or(0);
    for position in 0..arity {
        edits.push(Box::new(move |image| remove_position(image, position)));
    }
    edits.push(Box::new(|image| {
        let used = used_operands(image);
        (0..used.len()).rev().filter(|&at| !used[at]).for_each(|at| remove_operand(image, at));
    }));
    edits.push(Box::new(|image| image.targets.truncate(used_targets(image))));
    edits
}

/// Gives a local a lower id, and drops the ids that nothing names.
fn local_edits(image: &Image) -> Vec<Edit> {
    let mut edits: Vec<Edit> = Vec::new();
    for from in 1..image.locals {
        for to in [0, from / 2, from - 1] {
            edits.push(Box::new(move |image| rename(image, from, to)));
        }
    }
    edits.push(Box::new(|image| image.locals = used_locals(image)));
    edits
}

const NOOP: Operation =
    Operation { code: Code::Noop as u32, inputs: Span::EMPTY, outputs: Span::EMPTY, extras: [0, 0] };

fn is_call(code: u32) -> bool {
    code == Code::InternalCall as u32 || code == Code::InternalCallNever as u32
}

/// Simpler ends of a block.
fn endings(image: &Image, control: Control) -> Vec<Control> {
    let mut ends = vec![Control::LastOpTerminates, Control::InternalReturn];
    match control {
        Control::Branches { non_zero, zero, .. } => {
            ends.extend([Control::ContinuesTo(non_zero), Control::ContinuesTo(zero)]);
        }
        Control::Switch { condition, first, count, fallback } => {
            ends.push(Control::Switch { condition, first, count, fallback: None });
            ends.extend(fallback.map(Control::ContinuesTo));
            if count > 0 {
                ends.push(Control::ContinuesTo(image.targets[first as usize]));
                ends.push(Control::Switch { condition, first, count: count - 1, fallback });
                ends.push(Control::Switch { condition, first: first + 1, count: count - 1, fallback });
            }
        }
        _ => {}
    }
    ends
}

fn each_block_id(image: &mut Image, mut change: impl FnMut(&mut u32)) {
    image.entries.iter_mut().for_each(&mut change);
    image.targets.iter_mut().for_each(&mut change);
    for block in &mut image.blocks {
        match &mut block.control {
            Control::ContinuesTo(target) => change(target),
            Control::Branches { non_zero, zero, .. } => {
                change(non_zero);
                change(zero);
            }
            Control::Switch { fallback: Some(fallback), .. } => change(fallback),
            _ => {}
        }
    }
}

fn remove_block(image: &mut Image, block: usize) {
    image.blocks.remove(block);
    each_block_id(image, |id| fall(id, block as u32));
}

/// The id after one of its kind is gone; what named that one names the one before.
fn fall(id: &mut u32, gone: u32) {
    if *id >= gone {
        *id = id.saturating_sub(1);
    }
}

fn remove_function(image: &mut Image, function: usize) {
    let gone = function as u32;
    image.entries.remove(function);
    fall(&mut image.init, gone);
    image.main.iter_mut().for_each(|main| fall(main, gone));
    for operation in &mut image.operations {
        if is_call(operation.code) {
            fall(&mut operation.extras[0], gone);
        }
    }
}

fn remove_operation(image: &mut Image, index: usize) {
    image.operations.remove(index);
    image.blocks.iter_mut().for_each(|block| close(&mut block.operations, index as u32));
}

/// The range after an item is gone from its list.
fn close(span: &mut Span, gone: u32) {
    span.start -= u32::from(span.start > gone);
    span.end -= u32::from(span.end > gone);
}

fn runs(image: &mut Image) -> impl Iterator<Item = &mut Span> {
    let blocks = image.blocks.iter_mut().flat_map(|block| [&mut block.inputs, &mut block.outputs]);
    blocks.chain(image.operations.iter_mut().flat_map(|operation| [&mut operation.inputs, &mut operation.outputs]))
}

fn used_operands(image: &mut Image) -> Vec<bool> {
    let mut used = vec![false; image.operands.len()];
    runs(image).for_each(|run| used[run.start as usize..run.end as usize].fill(true));
    used
}

fn remove_operand(image: &mut Image, at: usize) {
    image.operands.remove(at);
    runs(image).for_each(|run| close(run, at as u32));
}

/// Takes a position out of the inputs and outputs of all blocks that have it, where runs are parted.
fn remove_position(image: &mut Image, position: u32) {
    for index in 0..image.blocks.len() {
        for outputs in [true, false] {
            let block = image.blocks[index];
            let run = if outputs { block.outputs } else { block.inputs };
            if run.start + position < run.end {
                remove_operand(image, (run.start + position) as usize);
            }
        }
    }
}

fn used_targets(image: &Image) -> usize {
    let ends = image.blocks.iter().map(|block| match block.control {
        Control::Switch { first, count, .. } => (first + count) as usize,
        _ => 0,
    });
    ends.max().unwrap_or(0)
}

fn each_local(image: &mut Image, mut change: impl FnMut(&mut LocalId)) {
    image.operands.iter_mut().for_each(&mut change);
    for block in &mut image.blocks {
        if let Control::Branches { condition, .. } | Control::Switch { condition, .. } = &mut block.control {
            change(condition);
        }
    }
}

fn rename(image: &mut Image, from: LocalId, to: LocalId) {
    each_local(image, |local| {
        if *local == from {
            *local = to;
        }
    });
}

fn used_locals(image: &Image) -> u32 {
    let mut used = 0;
    each_local(&mut image.clone(), |local| used = used.max(*local + 1));
    used
}

#[cfg(test)]
mod tests {
    use super::*;
    use image_gen::{Kind, generate};

    /// What is asked of an image is all that is left of it.
    #[test]
    fn only_the_cause_is_left() {
        let accepted = |image: &Image| [0, 12].contains(&paper_reference::refusal(&image.pages()));
        let adds = |image: &Image| {
            let all = |span: Span| span.start as usize..span.end as usize;
            let add = |op: &Operation| op.code == Code::Add as u32;
            image.blocks.iter().any(|block| image.operations[all(block.operations)].iter().any(add))
        };
        let keeps = |image: &Image| accepted(image) && adds(image);
        let image = (0..).map(|seed| generate(Kind::Mixed, seed)).find(keeps).unwrap();
        let small = shrink(&image, keeps);
        assert_eq!((small.blocks.len(), small.operations.len(), small.entries.len()), (1, 1, 1));
        assert_eq!((small.operands, small.locals), (vec![0, 0, 0], 1));
        assert_eq!(small.blocks[0].control, Control::LastOpTerminates);
    }
}
