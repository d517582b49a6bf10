//! Stands in for `rolldown_common`: only what the four files ask of it, in our own words.
mod interop;
mod module;
mod stage;
mod symbols;

pub use interop::{
    ChunkIdx, ExternalInteropUse, NamedImport, PostChunkOptimizationOperation, Specifier, UsedExternalSymbols,
};
pub use module::{
    EcmaModuleAstUsage, EcmaViewMeta, ExportsKind, ExternalModule, ImportKind, ImportRecord, ImportRecordIdx,
    ImportRecordMeta, ImportRecordStateResolved, IndexModules, Module, ModuleIdx, ModuleTable, NormalModule, StableId,
    WrapKind,
};
pub use stage::{CodeSplitting, NormalizedBundlerOptions, OutputFormat, RuntimeModuleBrief};
pub use symbols::{
    EvalFlags, StmtInfo, StmtInfoIdx, StmtInfoMeta, StmtInfos, SymbolOrMemberExprRef, SymbolRef, SymbolRefDb,
    TaggedSymbolRef,
};

/// An index type of its own.
macro_rules! index_type {
    ($name:ident) => {
        #[derive(Clone, Copy, Debug, Default, PartialEq, Eq, PartialOrd, Ord, Hash)]
        pub struct $name(u32);

        impl $name {
            pub fn from_usize(n: usize) -> Self {
                $name(u32::try_from(n).expect("an index is below 2^32"))
            }

            pub fn index(self) -> usize {
                self.0 as usize
            }
        }

        impl oxc_index::Idx for $name {
            fn from_usize(n: usize) -> Self {
                $name::from_usize(n)
            }

            fn index(self) -> usize {
                self.0 as usize
            }
        }
    };
}
pub(crate) use index_type;
