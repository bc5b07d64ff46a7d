//! Stands for `index.rs`: the ids that the other files name, each made by the source's own macro.

use plank_core::newtype_index;

newtype_index! {
    pub struct FunctionId;
    pub struct BasicBlockId;
    pub struct OperationIdx;
    pub struct LocalId;
    pub struct LocalIdx;
    pub struct LargeConstId;
    pub struct CasesId;
    pub struct CasesBasicBlocksIdx;
    pub struct DataId;
    pub struct StaticAllocId;
    pub struct OpaqueSourceId;
}
