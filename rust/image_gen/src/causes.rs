//! Small images whose allocations are marked for one cause or for several: pointers that come to each other's bases, and few uses
//! by which they escape or are returned.

use crate::Rng;
use sir_image::{BlockId, Code, Control, Image, LocalId};

/// Chances in a hundred.
mod chance {
    /// That a pointer is handed on to a base.
    pub const TO_A_BASE: u32 = 35;
    /// That a block returns and the next one belongs to another function.
    pub const RETURNS: u32 = 25;
    /// That an operand is a local that nobody gives a pointer to.
    pub const NO_POINTER: u32 = 12;
}

/// A random image of that kind.
///
/// The first locals are bases, and allocations are made in another sequence; the last local is no pointer. Visited blocks stand
/// one after the other, of one function or of two, and after them a block that is not visited.
pub fn image(rng: &mut Rng) -> Image {
    let bases = rng.between((2, 6));
    let mut left: Vec<LocalId> = (0..bases).collect();
    rng.shuffle(&mut left);
    let places = rng.between((1, 3));
    let image = Image::new(bases + rng.between((2, 6)));
    let mut builder = Builder { image, rng, bases, left, places, arity: 0 };
    builder.image.function(0);
    (0..=places).for_each(|place| builder.block(place));
    builder.image
}

struct Builder<'a> {
    image: Image,
    rng: &'a mut Rng,
    bases: u32,
    /// Bases of allocations that are not made yet.
    left: Vec<LocalId>,
    /// Number of visited blocks.
    places: u32,
    /// Number of inputs of the next block.
    arity: u32,
}

impl Builder<'_> {
    /// The local that is no pointer.
    fn value(&self) -> LocalId {
        self.image.locals - 1
    }

    fn any(&mut self) -> LocalId {
        let value = self.value();
        if self.rng.percent(chance::NO_POINTER) { value } else { self.rng.below(value) }
    }

    /// A local that gets a pointer.
    fn target(&mut self) -> LocalId {
        let value = self.value();
        if self.rng.percent(chance::TO_A_BASE) { self.rng.below(self.bases) } else { self.rng.below(value) }
    }

    fn block(&mut self, place: BlockId) {
        let inputs = self.inputs();
        let first = self.image.operations.len() as u32;
        self.make(place);
        for _ in 0..self.rng.between((0, 4)) {
            self.link();
        }
        for _ in 0..self.rng.between((0, 2)) {
            self.publish();
        }
        let control = self.control(place);
        let count = self.rng.between((0, 3));
        let outputs: Vec<LocalId> = (0..count).map(|_| self.any()).collect();
        self.image.block(&inputs, &outputs, self.image.operations_from(first), control);
        self.arity = if control == Control::InternalReturn { 0 } else { count };
    }

    /// As many inputs as the block before asks for, no local twice.
    fn inputs(&mut self) -> Vec<LocalId> {
        let mut inputs = Vec::new();
        while inputs.len() < self.arity as usize {
            let local = self.target();
            if !inputs.contains(&local) {
                inputs.push(local);
            }
        }
        inputs
    }

    /// Makes some of the allocations; in the last visited block all that are left.
    fn make(&mut self, place: BlockId) {
        let most = self.left.len() as u32;
        let count = if place + 1 == self.places { most } else { self.rng.between((0, most)) };
        for base in self.left.split_off((most - count) as usize) {
            self.image.operation_with(Code::StaticAllocZeroed, &[], &[base], [32, base]);
        }
    }

    /// Hands a pointer on.
    fn link(&mut self) {
        let (from, other, to) = (self.any(), self.any(), self.target());
        match self.rng.below(3) {
            0 => self.image.operation(Code::Add, &[from, other], &[to]),
            _ => self.image.operation(Code::SetCopy, &[from], &[to]),
        };
    }

    /// An operation with an escaping operand.
    fn publish(&mut self) {
        let (local, value) = (self.any(), self.value());
        self.image.operation(Code::MemoryStore, &[value, local], &[]);
    }

    /// On to the next place, or back to the caller; at the end, and in the block that is not visited, the latter.
    fn control(&mut self, place: BlockId) -> Control {
        let next = place + 1;
        if next >= self.places {
            return Control::InternalReturn;
        }
        if self.image.main.is_none() && self.rng.percent(chance::RETURNS) {
            self.image.main = Some(self.image.function(next));
            return Control::InternalReturn;
        }
        Control::ContinuesTo(next)
    }
}
