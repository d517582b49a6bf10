//! What interop with external modules is decided from.
use crate::{ImportRecordIdx, ModuleIdx, SymbolRef, index_type};
use rustc_hash::FxHashMap;

index_type!(ChunkIdx);

#[derive(Clone, Copy, Debug, Default, PartialEq, Eq)]
pub struct ExternalInteropUse {
    pub node_esm: bool,
    pub non_node_esm: bool,
}

impl ExternalInteropUse {
    pub fn union(self, other: Self) -> Self {
        ExternalInteropUse {
            node_esm: self.node_esm | other.node_esm,
            non_node_esm: self.non_node_esm | other.non_node_esm,
        }
    }
}

#[derive(Clone, Debug)]
pub enum Specifier {
    Star,
    Literal(String),
}

#[derive(Clone, Debug)]
pub struct NamedImport {
    pub imported: Specifier,
    pub record_idx: ImportRecordIdx,
}

#[derive(Clone, Copy, Debug, PartialEq, Eq)]
pub enum PostChunkOptimizationOperation {
    Removed,
}

/// The uses of each namespace, by observer; several uses by one observer are one, their union.
#[derive(Clone, Debug, Default)]
pub struct UsedExternalSymbols {
    uses: FxHashMap<SymbolRef, FxHashMap<ModuleIdx, ExternalInteropUse>>,
}

impl UsedExternalSymbols {
    pub fn record(&mut self, namespace: SymbolRef, observer: ModuleIdx, seen: ExternalInteropUse) {
        let uses = self.uses.entry(namespace).or_default().entry(observer).or_default();
        *uses = uses.union(seen);
    }

    pub fn interop_uses_by_observer(&self, namespace: &SymbolRef) -> Option<&FxHashMap<ModuleIdx, ExternalInteropUse>> {
        self.uses.get(namespace)
    }
}
