//! Programs from images, and answers from the analyses.

use crate::Source;
use plank_core::{Idx, IndexVec, Span};
use sir_data::operation::{OperationKind, Record};
use sir_data::{
    BasicBlock, BasicBlockId, Branch, Cases, CasesBasicBlocksIdx, Control, EthIRProgram, Function, FunctionId,
    LargeConstId, LocalId, LocalIdx, Operation, OperationIdx, ReturnKind, Switch,
};
use sir_image::Image;
use sir_passes::analyses::{AnalysesStore, Interval, IntervalEnd, IntervalStart, UseKind};
use sir_passes::analyses::{allocation_liveness, altered};
use sir_questions::IdKind;
use std::cell::Cell;
use std::panic::{self, AssertUnwindSafe};
use std::sync::Once;

/// Where Plank's files are.
pub const SOURCES: Option<&str> = Some(env!("PLANK_SOURCES"));

/// A program in Plank's form.
#[derive(Clone, Debug)]
pub struct Program(EthIRProgram);

impl Program {
    /// The program of an image that Plank takes ([`takes`](crate::takes)), or `None` where Plank's files were missing.
    ///
    /// # Panics
    ///
    /// May panic, here or in the analyses, where Plank does not take the image.
    pub fn new(image: &Image) -> Option<Program> {
        let mut program = EthIRProgram {
            init_entry: FunctionId::new(image.init),
            main_entry: image.main.map(FunctionId::new),
            functions: functions(image),
            locals: image.operands.iter().map(|&local| LocalId::new(local)).collect(),
            cases_bb_ids: image.targets.iter().map(|&block| BasicBlockId::new(block)).collect(),
            next_free_local_id: LocalId::new(image.locals),
            ..EthIRProgram::default()
        };
        for block in &image.blocks {
            let control = control(block.control, &mut program.cases);
            program.basic_blocks.push(BasicBlock {
                inputs: span(block.inputs, LocalIdx::new),
                outputs: span(block.outputs, LocalIdx::new),
                operations: span(block.operations, OperationIdx::new),
                control,
            });
        }
        for operation in &image.operations {
            let record = Record {
                ins: span(operation.inputs, LocalIdx::new),
                outs: span(operation.outputs, LocalIdx::new),
                extras: operation.extras,
                locals: &program.locals,
            };
            let operation = Operation::read(OperationKind::ALL[operation.code as usize], record);
            program.operations.push(operation);
        }
        Some(Program(program))
    }

    /// Its analyses by the source, altered or not, none of them run yet.
    pub fn analyses(&self, source: Source) -> Analyses<'_> {
        Analyses { program: &self.0, store: AnalysesStore::default(), source }
    }
}

fn functions(image: &Image) -> IndexVec<FunctionId, Function> {
    let function = |&entry: &u32| Function::new(BasicBlockId::new(entry), ReturnKind::NEVER, None);
    image.entries.iter().map(function).collect()
}

fn span<I>(span: sir_image::Span, id: impl Fn(u32) -> I) -> Span<I> {
    Span::new(id(span.start), id(span.end))
}

fn control(control: sir_image::Control, cases: &mut IndexVec<sir_data::CasesId, Cases>) -> Control {
    match control {
        sir_image::Control::LastOpTerminates => Control::LastOpTerminates,
        sir_image::Control::InternalReturn => Control::InternalReturn,
        sir_image::Control::ContinuesTo(target) => Control::ContinuesTo(BasicBlockId::new(target)),
        sir_image::Control::Branches { condition, non_zero, zero } => Control::Branches(Branch {
            condition: LocalId::new(condition),
            non_zero_target: BasicBlockId::new(non_zero),
            zero_target: BasicBlockId::new(zero),
        }),
        sir_image::Control::Switch { condition, first, count, fallback } => Control::Switch(Switch {
            condition: LocalId::new(condition),
            fallback: fallback.map(BasicBlockId::new),
            cases: cases.push(Cases {
                values_start_id: LargeConstId::ZERO,
                targets_start_id: CasesBasicBlocksIdx::new(first),
                cases_count: count,
            }),
        }),
    }
}

/// The analyses of a program, each run when an answer first needs it.
///
/// An answer is the paper's, as words. Ids must be below their counts. Where two allocations share a base, only
/// [`Analyses::shares_a_base`] and the answers without allocations can be had: the source asserts in the others.
pub struct Analyses<'a> {
    program: &'a EthIRProgram,
    store: AnalysesStore,
    source: Source,
}

impl Analyses<'_> {
    fn allocations(&self) -> &dyn Allocations {
        match self.source {
            Source::Altered => self.store.altered_allocation_liveness(self.program),
            Source::Unaltered => self.store.allocation_liveness(self.program),
        }
    }

    /// Whether the source asserts that two allocations met in visited blocks share a base local: refusal 12.
    pub fn shares_a_base(&self) -> bool {
        let run = || {
            self.allocations();
        };
        let Err(payload) = quietly(run) else { return false };
        let message = payload.downcast_ref::<&str>().copied().or(payload.downcast_ref::<String>().map(String::as_str));
        let message = message.unwrap_or("no message");
        assert!(message.contains("self.local_to_alloc.insert(base_ptr, alloc_id)"), "Plank's analyses: {message}");
        true
    }

    /// For each function of the order: its id, its block count, its block ids.
    pub fn order(&self) -> Vec<u32> {
        let order = self.store.reverse_post_order(self.program);
        let mut words = Vec::new();
        for &function in order.functions_rpo() {
            let blocks = order.function_blocks_rpo(function).expect("a listed function was visited");
            words.extend([function.get(), blocks.len() as u32]);
            words.extend(blocks.iter().map(|block| block.get()));
        }
        words
    }

    /// The predecessors of a block.
    pub fn predecessors(&self, block: u32) -> Vec<u32> {
        let predecessors = self.store.predecessors(self.program).of(BasicBlockId::new(block));
        predecessors.iter().map(|block| block.get()).collect()
    }

    /// The entry set of a block.
    pub fn entry_set(&self, block: u32) -> Vec<u32> {
        ascending(self.store.local_liveness(self.program).get_live_at_entry(BasicBlockId::new(block)))
    }

    /// The exit set of a block.
    pub fn exit_set(&self, block: u32) -> Vec<u32> {
        ascending(self.store.local_liveness(self.program).get_live_at_exit(BasicBlockId::new(block)))
    }

    /// The uses of a local, three words each.
    pub fn uses(&self, local: u32) -> Vec<u32> {
        let uses = self.store.def_use(self.program).uses_of(LocalId::new(local));
        let words = uses.iter().flat_map(|place| {
            let (kind, at) = match place.kind {
                UseKind::Operation(operation) => (0, operation.get()),
                UseKind::Control => (1, 0),
                UseKind::BlockOutput(position) => (2, position),
            };
            [place.block_id.get(), kind, at]
        });
        words.collect()
    }

    /// The intervals of a local, three words each.
    pub fn intervals(&self, local: u32) -> Vec<u32> {
        interval_words(self.store.local_liveness(self.program).intervals_of(LocalId::new(local)))
    }

    /// How many there are of what an id numbers.
    pub fn count(&self, kind: IdKind) -> u32 {
        match kind {
            IdKind::Function => self.program.functions.len() as u32,
            IdKind::Block => self.program.basic_blocks.len() as u32,
            IdKind::Operation => self.program.operations.len() as u32,
            IdKind::Local => self.program.next_free_local_id.get(),
            IdKind::Allocation => self.allocations().count(),
        }
    }

    /// The record of an allocation, without flags.
    pub fn allocation(&self, allocation: u32) -> Vec<u32> {
        self.allocations().record(allocation)
    }

    /// The owner of a local: allocation + 1, or 0.
    pub fn owner(&self, local: u32) -> Vec<u32> {
        vec![self.allocations().owner(LocalId::new(local))]
    }
}

/// What is read of the analysis of allocations, whose types the source's file and its altered copy each define.
trait Allocations {
    fn count(&self) -> u32;
    fn record(&self, allocation: u32) -> Vec<u32>;
    fn owner(&self, local: LocalId) -> u32;
}

macro_rules! read_allocations {
    ($($file:path),*) => {$(
        const _: () = {
            use $file::{AllocId, AllocKind, AllocationLiveness};

            impl Allocations for AllocationLiveness {
                fn count(&self) -> u32 {
                    self.allocations.len() as u32
                }

                fn record(&self, allocation: u32) -> Vec<u32> {
                    let data = &self.allocations[AllocId::new(allocation)];
                    let (kind, size, id) = match data.kind {
                        AllocKind::Static { size, id } => (0, size, id.get()),
                        AllocKind::Dynamic { size_local } => (1, size_local.get(), 0),
                    };
                    let site = [data.def_block.get(), data.def_op.get(), data.base_ptr.get()];
                    let mark = [data.escapes.into(), data.intervals.len() as u32];
                    [&site, &[kind, size, id], mark.as_slice(), &interval_words(&data.intervals)].concat()
                }

                fn owner(&self, local: LocalId) -> u32 {
                    self.local_to_alloc.get(local).map_or(0, |allocation| allocation.get() + 1)
                }
            }
        };
    )*};
}

read_allocations!(allocation_liveness, altered::allocation_liveness);

fn ascending<'a>(set: impl IntoIterator<Item = &'a LocalId>) -> Vec<u32> {
    let mut words: Vec<u32> = set.into_iter().map(|local| local.get()).collect();
    words.sort_unstable();
    words
}

fn interval_words(intervals: &[(BasicBlockId, Interval)]) -> Vec<u32> {
    let words = intervals.iter().flat_map(|&(block, interval)| {
        let start = match interval.start {
            IntervalStart::BlockStart => 0,
            IntervalStart::At(operation) => operation.get() + 1,
        };
        let end = match interval.end {
            IntervalEnd::At(operation) => operation.get() + 1,
            IntervalEnd::BlockEnd => u32::MAX,
        };
        [block.get(), start, end]
    });
    words.collect()
}

thread_local! {
    static QUIET: Cell<bool> = const { Cell::new(false) };
}

/// Runs something, and gives a panic's payload without a word on standard error.
fn quietly<T>(run: impl FnOnce() -> T) -> std::thread::Result<T> {
    static HOOK: Once = Once::new();
    HOOK.call_once(|| {
        let told = panic::take_hook();
        panic::set_hook(Box::new(move |info| {
            if !QUIET.get() {
                told(info);
            }
        }));
    });
    QUIET.set(true);
    let result = panic::catch_unwind(AssertUnwindSafe(run));
    QUIET.set(false);
    result
}
