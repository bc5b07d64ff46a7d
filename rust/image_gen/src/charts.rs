//! Images for charts: numbers of allocations and of lines on both sides of a series and of a sheet, calls, several functions,
//! operations that blocks share. Each local is given once.

use crate::Rng;
use sir_image::{BlockId, Code, Control, FunctionId, Image, LocalId, MAX_LOCALS, MAX_OPERATIONS, Span};

/// What images are to look like.
#[derive(Clone, Copy, Debug)]
pub struct Charts {
    /// Numbers of allocations.
    pub allocations: &'static [u32],
    /// Chance in a hundred that there are as many as one of these says, and not just a few.
    pub many: u32,
    /// Number of functions.
    pub functions: (u32, u32),
    /// Number of blocks of a function.
    pub blocks: (u32, u32),
    /// Number of operations of a block that make no allocation.
    pub operations: (u32, u32),
    /// The most sheets of a series that hold nothing but operations of the last block that do nothing.
    pub sheets: u32,
}

/// Small ones: one series mostly, and few sheets.
pub const SMALL: Charts = Charts {
    allocations: &[63, 64, 65, 66],
    many: 5,
    functions: (1, 3),
    blocks: (1, 4),
    operations: (0, 5),
    sheets: 2,
};

/// Large ones: up to eight series.
pub const LARGE: Charts = Charts {
    allocations: &[63, 64, 65, 128, 129, 200, 448, 449, 511, 512],
    many: 90,
    functions: (2, 4),
    blocks: (2, 10),
    operations: (2, 10),
    sheets: 16,
};

/// Chances in a hundred.
mod chance {
    /// That an operation lets a pointer escape.
    pub const ESCAPES: u32 = 12;
    /// That a block has the operations of another one, but for its allocations.
    pub const SHARES: u32 = 25;
    /// That a block branches, and may go back.
    pub const BRANCHES: u32 = 40;
}

/// Lines of a sheet.
const SHEET: u32 = 60;

/// A random image of that kind.
pub fn image(shape: &Charts, rng: &mut Rng) -> Image {
    let allocations = if rng.percent(shape.many) { rng.pick(shape.allocations) } else { rng.below(9) };
    let functions = rng.between(shape.functions);
    let sizes: Vec<u32> = (0..functions).map(|_| rng.between(shape.blocks)).collect();
    let mut builder = Builder {
        shape,
        image: Image::new(allocations),
        rng,
        allocations,
        made: 0,
        functions,
        blocks: sizes.iter().sum(),
        pointers: Vec::new(),
        lines: 0,
        runs: Vec::new(),
    };
    sizes.into_iter().for_each(|blocks| builder.function(blocks));
    builder.image
}

struct Builder<'a> {
    shape: &'a Charts,
    image: Image,
    rng: &'a mut Rng,
    /// Number of allocations, with the bases 0, 1, ..
    allocations: u32,
    /// How many of them are made.
    made: u32,
    /// Number of functions, each of which calls the next.
    functions: u32,
    /// Number of blocks, all of them visited.
    blocks: u32,
    /// Locals that hold pointers.
    pointers: Vec<LocalId>,
    /// Lines of a series so far.
    lines: u32,
    /// Operations of a block that other blocks may have too.
    runs: Vec<Span>,
}

impl Builder<'_> {
    /// A local that nothing gives yet, where there is room for one.
    fn fresh(&mut self) -> Option<LocalId> {
        let local = self.image.locals;
        (local < MAX_LOCALS).then(|| {
            self.image.locals += 1;
            local
        })
    }

    fn pointer(&mut self) -> Option<LocalId> {
        let last = self.pointers.len().checked_sub(1)?;
        // One that is new, or any.
        let low = if self.rng.percent(50) { last.saturating_sub(8) } else { 0 };
        Some(self.pointers[self.rng.between((low as u32, last as u32)) as usize])
    }

    /// Adds a function of so many blocks, one after the other; each may hand a pointer on to the next.
    fn function(&mut self, blocks: u32) {
        let entry = self.image.blocks.len() as BlockId;
        let function = self.image.function(entry);
        let hands_on = blocks > 1 && self.pointer().is_some() && self.rng.percent(50);
        let hands_on = hands_on && self.image.locals + blocks <= MAX_LOCALS;
        let last = entry + blocks - 1;
        // Before operations take what locals are left.
        let inputs: Vec<LocalId> = (entry..last).filter(|_| hands_on).filter_map(|_| self.fresh()).collect();
        for id in entry..=last {
            let input = (id - entry).checked_sub(1).and_then(|place| inputs.get(place as usize).copied());
            self.pointers.extend(input);
            self.block(function, id, last, input, hands_on);
        }
    }

    fn block(&mut self, function: FunctionId, id: BlockId, last: BlockId, input: Option<LocalId>, hands_on: bool) {
        let operations = match self.shared(id) {
            Some(run) => run,
            None => self.operations(function, id),
        };
        self.lines += 1 + operations.end - operations.start;
        let output = if hands_on && id < last { self.pointer() } else { None };
        let control = self.control(function, id, last);
        self.image.block(input.as_slice(), output.as_slice(), operations, control);
    }

    /// The operations of another block, by chance; never for the last block, which makes what is left to make, and never for an
    /// entry, which calls the next function.
    fn shared(&mut self, id: BlockId) -> Option<Span> {
        let free = !self.runs.is_empty() && id + 1 < self.blocks && !self.is_entry(id);
        (free && self.rng.percent(chance::SHARES)).then(|| self.rng.pick(&self.runs))
    }

    fn is_entry(&self, id: BlockId) -> bool {
        self.image.entries.contains(&id)
    }

    /// Adds the operations of a block: its share of the allocations, then others; in the last block, as many as make a sheet
    /// full, or one more, or one fewer.
    fn operations(&mut self, function: FunctionId, id: BlockId) -> Span {
        let first = self.image.operations.len() as u32;
        let left = self.allocations - self.made;
        let blocks = self.blocks - id;
        let share = if blocks == 1 { left } else { self.rng.below(2 * left / blocks + 2).min(left) };
        (0..share).for_each(|_| self.make());
        let others = self.image.operations.len() as u32;
        if self.is_entry(id) && function + 1 < self.functions {
            self.call(function + 1);
        }
        for _ in 0..self.rng.between(self.shape.operations) {
            self.operation(function);
        }
        if blocks == 1 {
            self.fill(1 + self.image.operations.len() as u32 - first);
        }
        self.runs.push(self.image.operations_from(others));
        self.image.operations_from(first)
    }

    fn make(&mut self) {
        let base = self.made;
        self.made += 1;
        let code = self.rng.pick(&[Code::StaticAllocZeroed, Code::StaticAllocAnyBytes]);
        self.image.operation_with(code, &[], &[base], [32, base]);
        self.pointers.push(base);
    }

    /// A call of a function, by either code.
    fn call(&mut self, function: FunctionId) {
        let code = self.rng.pick(&[Code::InternalCall, Code::InternalCallNever]);
        self.image.operation_with(code, &[], &[], [function, 0]);
    }

    fn operation(&mut self, function: FunctionId) {
        let Some(from) = self.pointer() else {
            return if self.rng.percent(20) { self.call(function) } else { self.idle() };
        };
        if self.rng.percent(chance::ESCAPES) {
            self.image.operation(Code::MemoryStore, &[from, from], &[]);
            return;
        }
        let other = self.pointer().unwrap_or(from);
        match self.rng.below(8) {
            0 => self.idle(),
            1 => self.call(function),
            2 | 3 => match self.fresh() {
                Some(copy) => {
                    self.image.operation(Code::SetCopy, &[from], &[copy]);
                    self.pointers.push(copy);
                }
                None => self.idle(),
            },
            4 => _ = self.image.operation(Code::SelfDestruct, &[from], &[]),
            _ => _ = self.image.operation(Code::Log0, &[from, other], &[]),
        }
    }

    fn idle(&mut self) {
        self.image.operation(Code::Noop, &[], &[]);
    }

    /// Adds operations that do nothing to the last block, which has so many lines: up to a full sheet, give or take one line, or
    /// some sheets more where there is room.
    fn fill(&mut self, lines: u32) {
        let lines = self.lines + lines;
        let room = MAX_OPERATIONS as u32 - self.image.operations.len() as u32;
        let least = (lines + 1).next_multiple_of(SHEET);
        let sheets = self.shape.sheets.min((lines + room).saturating_sub(least) / SHEET);
        let more = match self.rng.below(8) {
            0 => self.rng.below(sheets + 1),
            1 => sheets,
            _ => 0,
        };
        let wanted = least + SHEET * more + self.rng.below(3) - 1;
        (lines..wanted.min(lines + room)).for_each(|_| self.idle());
    }

    /// On to the next block, or to some other one of the function but its entry; the last one ends or returns.
    fn control(&mut self, function: FunctionId, id: BlockId, last: BlockId) -> Control {
        let entry = self.image.entries[function as usize];
        if id == last {
            return self.rng.pick(&[Control::LastOpTerminates, Control::InternalReturn]);
        }
        let (zero, to) = (id + 1, self.rng.between((entry + 1, last)));
        match self.pointer() {
            Some(condition) if self.rng.percent(chance::BRANCHES) => {
                Control::Branches { condition, non_zero: to, zero }
            }
            _ => Control::ContinuesTo(zero),
        }
    }
}
