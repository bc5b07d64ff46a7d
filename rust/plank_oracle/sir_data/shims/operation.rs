//! Stands for `operation.rs`: the operations, with payloads of the shape that the analyses take apart.
//!
//! Operands keep the order that they have in an operation's record. The variants stand in the order of the codes.

use crate::{DataId, EthIRProgram, FunctionId, LargeConstId, LocalId, LocalIdx, StaticAllocId};
use plank_core::{Idx, IndexVec, Span};
use std::fmt;

/// What the record of an operation holds, and the operand words that it refers to.
#[derive(Clone, Copy)]
pub struct Record<'a> {
    pub ins: Span<LocalIdx>,
    pub outs: Span<LocalIdx>,
    pub extras: [u32; 2],
    pub locals: &'a IndexVec<LocalIdx, LocalId>,
}

impl Record<'_> {
    fn ins<const N: usize>(&self) -> [LocalId; N] {
        self.locals[self.ins].try_into().expect("operand counts are those of the code")
    }

    fn outs<const N: usize>(&self) -> [LocalId; N] {
        self.locals[self.outs].try_into().expect("operand counts are those of the code")
    }
}

/// What every payload offers.
trait Payload: Sized {
    fn read(record: Record<'_>) -> Self;
    fn inputs<'a>(&'a self, program: &'a EthIRProgram) -> &'a [LocalId];
    fn outputs<'a>(&'a self, program: &'a EthIRProgram) -> &'a [LocalId];
}

/// Operands that are held in the payload.
#[derive(Debug, Clone, Copy)]
pub struct Inline<const INS: usize, const OUTS: usize> {
    pub ins: [LocalId; INS],
    pub outs: [LocalId; OUTS],
}

impl<const INS: usize, const OUTS: usize> Payload for Inline<INS, OUTS> {
    fn read(record: Record<'_>) -> Self {
        Inline { ins: record.ins(), outs: record.outs() }
    }

    fn inputs<'a>(&'a self, _program: &'a EthIRProgram) -> &'a [LocalId] {
        &self.ins
    }

    fn outputs<'a>(&'a self, _program: &'a EthIRProgram) -> &'a [LocalId] {
        &self.outs
    }
}

/// Inputs that are held in the program, outputs in the payload.
#[derive(Debug, Clone, Copy)]
pub struct Allocated<const INS: usize, const OUTS: usize> {
    pub ins_start: LocalIdx,
    pub outs: [LocalId; OUTS],
}

impl<const INS: usize, const OUTS: usize> Allocated<INS, OUTS> {
    pub fn get_inputs<'a>(&self, program: &'a EthIRProgram) -> &'a [LocalId; INS] {
        program.locals[self.ins_start..].first_chunk().expect("the inputs are among the operand words")
    }
}

impl<const INS: usize, const OUTS: usize> Payload for Allocated<INS, OUTS> {
    fn read(record: Record<'_>) -> Self {
        let _: [LocalId; INS] = record.ins();
        Allocated { ins_start: record.ins.start, outs: record.outs() }
    }

    fn inputs<'a>(&'a self, program: &'a EthIRProgram) -> &'a [LocalId] {
        self.get_inputs(program)
    }

    fn outputs<'a>(&'a self, _program: &'a EthIRProgram) -> &'a [LocalId] {
        &self.outs
    }
}

/// Both kinds of internal call: any number of operands, held in the program.
#[derive(Debug, Clone, Copy)]
pub struct Call {
    pub function: FunctionId,
    pub ins: Span<LocalIdx>,
    pub outs: Span<LocalIdx>,
}

impl Payload for Call {
    fn read(record: Record<'_>) -> Self {
        Call { function: FunctionId::new(record.extras[0]), ins: record.ins, outs: record.outs }
    }

    fn inputs<'a>(&'a self, program: &'a EthIRProgram) -> &'a [LocalId] {
        &program.locals[self.ins]
    }

    fn outputs<'a>(&'a self, program: &'a EthIRProgram) -> &'a [LocalId] {
        &program.locals[self.outs]
    }
}

/// An allocation of a size that is known.
#[derive(Debug, Clone, Copy)]
pub struct StaticAlloc {
    pub size: u32,
    pub ptr_out: LocalId,
    pub alloc_id: StaticAllocId,
}

impl Payload for StaticAlloc {
    fn read(record: Record<'_>) -> Self {
        let [ptr_out] = record.outs();
        let [size, id] = record.extras;
        StaticAlloc { size, ptr_out, alloc_id: StaticAllocId::new(id) }
    }

    fn inputs<'a>(&'a self, _program: &'a EthIRProgram) -> &'a [LocalId] {
        &[]
    }

    fn outputs<'a>(&'a self, _program: &'a EthIRProgram) -> &'a [LocalId] {
        std::slice::from_ref(&self.ptr_out)
    }
}

impl Payload for () {
    fn read(_record: Record<'_>) -> Self {}

    fn inputs<'a>(&'a self, _program: &'a EthIRProgram) -> &'a [LocalId] {
        &[]
    }

    fn outputs<'a>(&'a self, _program: &'a EthIRProgram) -> &'a [LocalId] {
        &[]
    }
}

/// A payload that holds something beside its operands, which only text is made of.
macro_rules! payload_with {
    ($name:ident, $field:ident: $type:ty = $value:expr, $ins:literal to $outs:literal) => {
        #[derive(Debug, Clone, Copy)]
        pub struct $name {
            pub ins: [LocalId; $ins],
            pub outs: [LocalId; $outs],
            pub $field: $type,
        }

        impl Payload for $name {
            fn read(record: Record<'_>) -> Self {
                $name { ins: record.ins(), outs: record.outs(), $field: $value }
            }

            fn inputs<'a>(&'a self, _program: &'a EthIRProgram) -> &'a [LocalId] {
                &self.ins
            }

            fn outputs<'a>(&'a self, _program: &'a EthIRProgram) -> &'a [LocalId] {
                &self.outs
            }
        }
    };
}

payload_with!(MemoryLoad, size: MemorySize = MemorySize, 1 to 1);
payload_with!(MemoryStore, size: MemorySize = MemorySize, 2 to 0);
payload_with!(SetSmallConst, value: u32 = 0, 0 to 1);
payload_with!(SetLargeConst, value: LargeConstId = LargeConstId::ZERO, 0 to 1);
payload_with!(SetDataOffset, segment_id: DataId = DataId::ZERO, 0 to 1);

/// The width of a load or store, of which an image says nothing.
#[derive(Debug, Clone, Copy)]
pub struct MemorySize;

impl MemorySize {
    pub fn bits(self) -> u32 {
        256
    }
}

macro_rules! operations {
    ($($name:ident($payload:ty))*) => {
        #[derive(Debug, Clone, Copy)]
        pub enum Operation { $($name($payload)),* }

        /// An operation without its payload.
        #[derive(Debug, Clone, Copy, PartialEq, Eq)]
        pub enum OperationKind { $($name),* }

        impl OperationKind {
            /// Every kind, at its code.
            pub const ALL: &[OperationKind] = &[$(OperationKind::$name),*];

            pub fn mnemonic(self) -> &'static str {
                match self { $(OperationKind::$name => stringify!($name)),* }
            }
        }

        impl Operation {
            /// The operation of this kind with the operands and extras of a record.
            pub fn read(kind: OperationKind, record: Record<'_>) -> Operation {
                match kind { $(OperationKind::$name => Operation::$name(Payload::read(record))),* }
            }

            pub fn kind(&self) -> OperationKind {
                match self { $(Operation::$name(_) => OperationKind::$name),* }
            }

            pub fn inputs<'a>(&'a self, program: &'a EthIRProgram) -> &'a [LocalId] {
                match self { $(Operation::$name(data) => data.inputs(program)),* }
            }

            pub fn outputs<'a>(&'a self, program: &'a EthIRProgram) -> &'a [LocalId] {
                match self { $(Operation::$name(data) => data.outputs(program)),* }
            }
        }
    };
}

operations! {
    Keccak256(Inline<2, 1>)
    Balance(Inline<1, 1>)
    CallDataLoad(Inline<1, 1>)
    CallDataCopy(Inline<3, 0>)
    CodeCopy(Inline<3, 0>)
    ExtCodeSize(Inline<1, 1>)
    ExtCodeCopy(Allocated<4, 0>)
    ReturnDataCopy(Inline<3, 0>)
    ExtCodeHash(Inline<1, 1>)
    BlockHash(Inline<1, 1>)
    BlobHash(Inline<1, 1>)
    SLoad(Inline<1, 1>)
    SStore(Inline<2, 0>)
    TLoad(Inline<1, 1>)
    TStore(Inline<2, 0>)
    Create(Allocated<3, 1>)
    Create2(Allocated<4, 1>)
    Call(Allocated<7, 1>)
    CallCode(Allocated<7, 1>)
    DelegateCall(Allocated<6, 1>)
    StaticCall(Allocated<6, 1>)
    DynamicAllocZeroed(Inline<1, 1>)
    DynamicAllocAnyBytes(Inline<1, 1>)
    MemoryCopy(Inline<3, 0>)
    MemoryStore(MemoryStore)
    InternalCall(Call)
    InternalCallNever(Call)
    Add(Inline<2, 1>)
    Mul(Inline<2, 1>)
    Sub(Inline<2, 1>)
    Div(Inline<2, 1>)
    SDiv(Inline<2, 1>)
    Mod(Inline<2, 1>)
    SMod(Inline<2, 1>)
    AddMod(Allocated<3, 1>)
    MulMod(Allocated<3, 1>)
    Exp(Inline<2, 1>)
    SignExtend(Inline<2, 1>)
    Lt(Inline<2, 1>)
    Gt(Inline<2, 1>)
    SLt(Inline<2, 1>)
    SGt(Inline<2, 1>)
    Eq(Inline<2, 1>)
    IsZero(Inline<1, 1>)
    And(Inline<2, 1>)
    Or(Inline<2, 1>)
    Xor(Inline<2, 1>)
    Not(Inline<1, 1>)
    Byte(Inline<2, 1>)
    Shl(Inline<2, 1>)
    Shr(Inline<2, 1>)
    Sar(Inline<2, 1>)
    Clz(Inline<1, 1>)
    Address(Inline<0, 1>)
    Origin(Inline<0, 1>)
    Caller(Inline<0, 1>)
    CallValue(Inline<0, 1>)
    CallDataSize(Inline<0, 1>)
    CodeSize(Inline<0, 1>)
    GasPrice(Inline<0, 1>)
    ReturnDataSize(Inline<0, 1>)
    Gas(Inline<0, 1>)
    Coinbase(Inline<0, 1>)
    Timestamp(Inline<0, 1>)
    Number(Inline<0, 1>)
    Difficulty(Inline<0, 1>)
    GasLimit(Inline<0, 1>)
    ChainId(Inline<0, 1>)
    SelfBalance(Inline<0, 1>)
    BaseFee(Inline<0, 1>)
    BlobBaseFee(Inline<0, 1>)
    Log0(Inline<2, 0>)
    Log1(Inline<3, 0>)
    Log2(Allocated<4, 0>)
    Log3(Allocated<5, 0>)
    Log4(Allocated<6, 0>)
    Return(Inline<2, 0>)
    Stop(Inline<0, 0>)
    Revert(Inline<2, 0>)
    Invalid(Inline<0, 0>)
    SelfDestruct(Inline<1, 0>)
    AcquireFreePointer(Inline<0, 1>)
    StaticAllocZeroed(StaticAlloc)
    StaticAllocAnyBytes(StaticAlloc)
    MemoryLoad(MemoryLoad)
    SetCopy(Inline<1, 1>)
    SetSmallConst(SetSmallConst)
    SetLargeConst(SetLargeConst)
    SetDataOffset(SetDataOffset)
    Noop(())
    RuntimeStartOffset(Inline<0, 1>)
    InitEndOffset(Inline<0, 1>)
    RuntimeLength(Inline<0, 1>)
}

/// Where the operands of an operation lie; only text is made of it.
pub struct AllocatedSpans {
    pub input: Option<Span<LocalIdx>>,
    pub output: Option<Span<LocalIdx>>,
}

impl Operation {
    pub fn allocated_spans(&self, _program: &EthIRProgram) -> AllocatedSpans {
        AllocatedSpans { input: None, output: None }
    }

    pub fn op_fmt(&self, f: &mut impl fmt::Write, program: &EthIRProgram) -> fmt::Result {
        write!(f, "{} {:?} {:?}", self.kind().mnemonic(), self.outputs(program), self.inputs(program))
    }
}
