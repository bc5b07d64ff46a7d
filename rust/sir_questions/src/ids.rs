//! Ids: each sort is a type of its own, so that none stands where another is meant.

/// An id, as a number.
pub trait Id: Copy {
    /// What it numbers.
    const KIND: IdKind;

    /// The id of a number.
    fn new(number: u32) -> Self;

    /// Its number.
    fn get(self) -> u32;
}

macro_rules! ids {
    ($($(#[$doc:meta])* $name:ident: $kind:ident;)*) => {
        /// What an id numbers.
        #[derive(Clone, Copy, Debug, PartialEq, Eq, Hash)]
        pub enum IdKind {
            $($(#[$doc])* $kind,)*
        }

        $(
            $(#[$doc])*
            #[derive(Clone, Copy, Debug, PartialEq, Eq, PartialOrd, Ord, Hash)]
            #[repr(transparent)]
            pub struct $name(pub u32);

            impl Id for $name {
                const KIND: IdKind = IdKind::$kind;

                fn new(number: u32) -> $name {
                    $name(number)
                }

                fn get(self) -> u32 {
                    self.0
                }
            }
        )*
    };
}

ids! {
    /// The number of a function.
    FunctionId: Function;
    /// The number of a block.
    BlockId: Block;
    /// The index of an operation.
    OpIdx: Operation;
    /// The number of a local.
    LocalId: Local;
    /// The number of an allocation, in the sequence in which the blocks of the order meet them.
    AllocId: Allocation;
}

/// At most so many of these ids, evenly apart; another turn begins at another place.
pub fn spread(ids: &[u32], most: u32, turn: u32) -> Vec<u32> {
    let step = ids.len().div_ceil(most.max(1) as usize).max(1);
    // Turns that follow each other begin far from each other.
    let start = turn.wrapping_mul(2_654_435_761) as usize % step;
    ids.iter().copied().skip(start).step_by(step).take(most as usize).collect()
}

#[cfg(test)]
mod tests {
    use super::*;

    #[test]
    fn some_of_many() {
        let ids: Vec<u32> = (100..110).collect();
        assert_eq!((spread(&ids, 10, 3), spread(&ids, 99, 3)), (ids.clone(), ids.clone()));
        assert_eq!(spread(&ids, 4, 0), [100, 103, 106, 109]);
        assert_eq!((spread(&ids, 0, 1), spread(&[], 4, 1)), (vec![], vec![]));
        for most in 1..10 {
            let some = (0..20).map(|turn| spread(&ids, most, turn));
            assert!(some.clone().all(|some| (1..=most as usize).contains(&some.len())));
            assert!(ids.iter().all(|id| some.clone().any(|some| some.contains(id))), "each comes up in its turn");
        }
    }
}
