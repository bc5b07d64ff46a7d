//! Small images with several unmarked allocations whose intervals touch, overlap, or meet only where there is no operation.

use crate::Rng;
use sir_image::{BlockId, Code, Control, Image, LocalId, Span};

/// Chances in a hundred.
mod chance {
    /// That a visited block in which nothing is made has no operations.
    pub const BARE: u32 = 60;
    /// That a pointer that is read is one that the block has defined before.
    pub const NEAR: u32 = 85;
    /// That a condition is a pointer.
    pub const CONDITION: u32 = 70;
    /// That a pointer is stored, which marks its allocation.
    pub const STORED: u32 = 4;
    /// That a block that is not visited shares its operations with others.
    pub const SHARED: u32 = 40;
}

/// A random image of that kind.
///
/// Allocation g has two locals: its base, 2 g, and 2 g + 1, to which the base is copied. All locals of allocations are also
/// defined without a pointer, by loads through other ones too: there an interval of one ends and one of the other starts.
pub fn image(rng: &mut Rng) -> Image {
    let groups = rng.between((2, 4));
    let places = rng.between((2, 6));
    let unvisited = rng.below(3);
    let mut ids: Vec<BlockId> = (0..places + unvisited).collect();
    rng.shuffle(&mut ids);
    // Blocks without operations come first more often than last.
    let makers = (0..groups).map(|_| rng.between((places / 2, places - 1))).collect();
    let mut builder = Builder { image: Image::new(2 * groups + 1), rng, groups, ids, places, makers, near: Vec::new() };
    for id in 0..places + unvisited {
        builder.block(id);
    }
    builder.image.function(builder.ids[0]);
    builder.image
}

struct Builder<'a> {
    image: Image,
    rng: &'a mut Rng,
    groups: u32,
    /// The block at each place: first those that are visited, one after the other, then the others.
    ids: Vec<BlockId>,
    /// Number of visited blocks.
    places: u32,
    /// The place at which each allocation is made.
    makers: Vec<u32>,
    /// Pointers that the current block has defined.
    near: Vec<LocalId>,
}

impl Builder<'_> {
    /// The local that holds no pointer.
    fn value(&self) -> LocalId {
        2 * self.groups
    }

    fn any(&mut self) -> LocalId {
        self.rng.below(2 * self.groups)
    }

    /// A pointer to be read.
    fn pointer(&mut self) -> LocalId {
        if !self.near.is_empty() && self.rng.percent(chance::NEAR) { self.rng.pick(&self.near) } else { self.any() }
    }

    fn block(&mut self, id: BlockId) {
        let place = self.ids.iter().position(|&other| other == id).expect("every block has a place") as u32;
        let first = self.image.operations.len() as u32;
        self.near.clear();
        if place >= self.places {
            return self.unvisited(first);
        }
        let makes: Vec<u32> = (0..self.groups).filter(|&group| self.makers[group as usize] == place).collect();
        if !makes.is_empty() || !self.rng.percent(chance::BARE) {
            self.phrases();
        }
        for group in makes {
            self.make(group);
            self.phrases();
        }
        let control = self.control(place);
        self.image.block(&[], &[], self.image.operations_from(first), control);
    }

    /// A block that nothing leads to, over operations of its own or also over those before it.
    fn unvisited(&mut self, first: u32) {
        self.phrases();
        let all = self.image.operations_from(0);
        let start = if self.rng.percent(chance::SHARED) { self.rng.between((0, all.end)) } else { first };
        self.image.block(&[], &[], Span::new(start, all.end), Control::LastOpTerminates);
    }

    /// On to the next place, or to some other one.
    fn control(&mut self, place: u32) -> Control {
        let next = place + 1;
        let condition = if self.rng.percent(chance::CONDITION) { self.any() } else { self.value() };
        let to =
            if self.rng.percent(80) { self.rng.between((place, self.places - 1)) } else { self.rng.below(self.places) };
        let non_zero = self.ids[to as usize];
        if next == self.places {
            let again = Control::Branches { condition, non_zero, zero: non_zero };
            return self.rng.pick(&[Control::LastOpTerminates, Control::InternalReturn, again]);
        }
        let zero = self.ids[next as usize];
        self.rng.pick(&[Control::ContinuesTo(zero), Control::Branches { condition, non_zero, zero }])
    }

    /// Makes an allocation and copies its pointer.
    fn make(&mut self, group: u32) {
        let base = 2 * group;
        self.image.operation_with(Code::StaticAllocZeroed, &[], &[base], [32, group]);
        if self.rng.percent(20) {
            self.image.operation(Code::Noop, &[], &[]);
        }
        self.image.operation(Code::SetCopy, &[base], &[base + 1]);
        self.near.extend([base, base + 1]);
    }

    fn phrases(&mut self) {
        for _ in 0..self.rng.between((0, 2)) {
            self.phrase();
        }
    }

    /// Some operations that read and define locals of allocations.
    fn phrase(&mut self) {
        let (from, to, value) = (self.pointer(), self.any(), self.value());
        let image = &mut self.image;
        match self.rng.below(8) {
            0 => _ = image.operation(Code::Noop, &[], &[]),
            1 | 2 => _ = image.operation(Code::MemoryLoad, &[from], &[value]),
            3 if self.rng.percent(chance::STORED) => _ = image.operation(Code::MemoryStore, &[value, from], &[]),
            3 => _ = image.operation(Code::MemoryStore, &[from, value], &[]),
            4 => {
                image.operation(Code::SetSmallConst, &[], &[to]);
                self.near.push(to);
            }
            _ => {
                image.operation(Code::MemoryLoad, &[from], &[to]);
                if self.rng.percent(20) {
                    image.operation(Code::Noop, &[], &[]);
                }
                image.operation(Code::MemoryLoad, &[to], &[value]);
            }
        }
    }
}
