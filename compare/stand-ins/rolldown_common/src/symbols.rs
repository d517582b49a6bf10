//! Symbols, which no answer here depends on, and the statements that wrappers are.
use crate::{ModuleIdx, index_type};
use oxc_index::IndexVec;
use smallvec::SmallVec;

index_type!(StmtInfoIdx);

#[derive(Clone, Copy, Debug, Default, PartialEq, Eq, Hash)]
pub struct SymbolRef {
    pub owner: ModuleIdx,
    pub symbol: u32,
}

#[derive(Clone, Copy, Debug, PartialEq, Eq)]
pub struct SymbolOrMemberExprRef(pub SymbolRef);

impl From<SymbolRef> for SymbolOrMemberExprRef {
    fn from(symbol: SymbolRef) -> Self {
        SymbolOrMemberExprRef(symbol)
    }
}

#[derive(Clone, Copy, Debug)]
pub struct TaggedSymbolRef(pub SymbolRef);

impl TaggedSymbolRef {
    pub fn normal(symbol: SymbolRef) -> Self {
        TaggedSymbolRef(symbol)
    }
}

/// Makes no symbols: each answer is the module's own.
#[derive(Clone, Debug, Default)]
pub struct SymbolRefDb;

impl SymbolRefDb {
    pub fn create_facade_root_symbol_ref(&mut self, owner: ModuleIdx, _name: &str) -> SymbolRef {
        SymbolRef { owner, symbol: 0 }
    }

    /// Namespace numbers come in canonical.
    pub fn canonical_ref_for(&self, symbol: SymbolRef) -> SymbolRef {
        symbol
    }
}

#[derive(Clone, Copy, Debug, PartialEq, Eq)]
pub struct EvalFlags(pub bool);

impl From<bool> for EvalFlags {
    fn from(flag: bool) -> Self {
        EvalFlags(flag)
    }
}

#[derive(Clone, Copy, Debug, Default)]
pub struct StmtInfoMeta;

#[derive(Clone, Debug)]
pub struct StmtInfo {
    pub declared_symbols: SmallVec<TaggedSymbolRef>,
    pub referenced_symbols: Vec<SymbolOrMemberExprRef>,
    pub eval_flags: EvalFlags,
    pub import_records: Vec<u32>,
    #[cfg(debug_assertions)]
    pub debug_label: Option<String>,
    pub meta: StmtInfoMeta,
    pub force_tree_shaking: bool,
}

#[derive(Clone, Debug, Default)]
pub struct StmtInfos(pub IndexVec<StmtInfoIdx, StmtInfo>);

impl StmtInfos {
    pub fn add_stmt_info(&mut self, info: StmtInfo) -> StmtInfoIdx {
        self.0.push(info)
    }
}
