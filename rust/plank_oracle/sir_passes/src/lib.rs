//! Plank's analyses, and that of allocations a second time with the arms of `Log1` to `Log4` altered (`altered`).
//!
//! Shims: the module `analyses` itself, its `cache::Analysis`, and `analyses::AnalysesStore` with `reachable_blocks`.
#![cfg_attr(plank_sources, allow(missing_docs, clippy::all))]

#[cfg(plank_sources)]
extern crate plank_outside as hashbrown;

#[cfg(plank_sources)]
pub mod analyses {
    include!(concat!(env!("OUT_DIR"), "/src/modules.rs"));

    pub use self::{
        allocation_liveness::{AllocData, AllocId, AllocKind, AllocationLiveness},
        def_use::{DefUse, UseKind, UseLocation},
        local_liveness::{Interval, IntervalEnd, IntervalStart, LocalIntervals, LocalLiveness},
        predecessors::Predecessors,
        reverse_post_order::ReversePostOrder,
    };
    use plank_core::DenseIndexSet;
    use sir_data::{BasicBlockId, EthIRProgram};
    use std::cell::OnceCell;

    /// Stands for the module `cache`.
    pub mod cache {
        use super::{AnalysesStore, EthIRProgram};

        /// What can be computed of a program.
        pub trait Analysis: Default {
            fn compute(&mut self, program: &EthIRProgram, store: &AnalysesStore);
        }
    }

    /// Stands for the store: each analysis of one program, computed from its default when first asked for, then kept.
    #[derive(Default)]
    pub struct AnalysesStore {
        reverse_post_order: OnceCell<ReversePostOrder>,
        reachable_blocks: OnceCell<DenseIndexSet<BasicBlockId>>,
        predecessors: OnceCell<Predecessors>,
        def_use: OnceCell<DefUse>,
        local_liveness: OnceCell<LocalLiveness>,
        allocation_liveness: OnceCell<AllocationLiveness>,
        altered_allocation_liveness: OnceCell<altered::allocation_liveness::AllocationLiveness>,
    }

    impl AnalysesStore {
        fn get<'a, A: cache::Analysis>(&self, cell: &'a OnceCell<A>, program: &EthIRProgram) -> &'a A {
            cell.get_or_init(|| {
                let mut analysis = A::default();
                analysis.compute(program, self);
                analysis
            })
        }

        pub fn reverse_post_order(&self, program: &EthIRProgram) -> &ReversePostOrder {
            self.get(&self.reverse_post_order, program)
        }

        /// The visited blocks: what the source calls reachable is not among the files.
        pub fn reachable_blocks(&self, program: &EthIRProgram) -> &DenseIndexSet<BasicBlockId> {
            self.reachable_blocks.get_or_init(|| {
                let mut visited = DenseIndexSet::new();
                for &block in self.reverse_post_order(program).blocks_rpo() {
                    visited.add(block);
                }
                visited
            })
        }

        pub fn predecessors(&self, program: &EthIRProgram) -> &Predecessors {
            self.get(&self.predecessors, program)
        }

        pub fn def_use(&self, program: &EthIRProgram) -> &DefUse {
            self.get(&self.def_use, program)
        }

        pub fn local_liveness(&self, program: &EthIRProgram) -> &LocalLiveness {
            self.get(&self.local_liveness, program)
        }

        pub fn allocation_liveness(&self, program: &EthIRProgram) -> &AllocationLiveness {
            self.get(&self.allocation_liveness, program)
        }

        pub fn altered_allocation_liveness(
            &self,
            program: &EthIRProgram,
        ) -> &altered::allocation_liveness::AllocationLiveness {
            self.get(&self.altered_allocation_liveness, program)
        }
    }
}
