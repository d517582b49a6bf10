//! The passes of rolldown 1.2.15 as they were published, over stand-ins for the types that they use.
#![allow(dead_code)]

pub mod chunk_graph {
    use oxc_index::IndexVec;
    use rolldown_common::{ChunkIdx, ModuleIdx, PostChunkOptimizationOperation};
    use rustc_hash::FxHashMap;

    pub struct ChunkGraph {
        pub module_to_chunk: IndexVec<ModuleIdx, Option<ChunkIdx>>,
        pub post_chunk_optimization_operations: FxHashMap<ChunkIdx, PostChunkOptimizationOperation>,
    }
}

pub mod types {
    pub mod linking_metadata {
        use oxc_index::IndexVec;
        use rolldown_common::{ModuleIdx, StmtInfoIdx, SymbolRef, WrapKind};

        /// What linking settles of a module, as far as the passes write it.
        #[derive(Debug, Default, Clone)]
        pub struct LinkingMetadata {
            pub wrapper_ref: Option<SymbolRef>,
            pub wrapper_stmt_info: Option<StmtInfoIdx>,
            wrap: WrapKind,
            pub has_dynamic_exports: bool,
            pub required_by_other_module: bool,
            pub is_tla_or_contains_tla_dependency: bool,
        }

        impl LinkingMetadata {
            pub fn wrap_kind(&self) -> WrapKind {
                self.wrap
            }

            pub fn set_wrap_kind(&mut self, wrap: WrapKind) {
                self.wrap = wrap;
            }
        }

        pub type LinkingMetadataVec = IndexVec<ModuleIdx, LinkingMetadata>;
    }
}

pub mod stages {
    pub mod link_stage {
        use crate::types::linking_metadata::LinkingMetadataVec;
        use oxc::span::Span;
        use oxc_index::IndexVec;
        use rolldown_common::{
            ModuleIdx, ModuleTable, NormalizedBundlerOptions, RuntimeModuleBrief, StmtInfos, SymbolRef, SymbolRefDb,
            UsedExternalSymbols,
        };
        use rolldown_error::BuildDiagnostic;
        use rustc_hash::{FxHashMap, FxHashSet};

        include!(concat!(env!("OUT_DIR"), "/link_stage.rs"));

        #[derive(Default)]
        pub struct SafelyMergeCjsNsInfo {
            pub namespace_refs: Vec<SymbolRef>,
            pub needs_interop: bool,
        }

        /// The entries, asked only whether they have a module.
        #[derive(Default, Clone)]
        pub struct Entries(pub FxHashSet<ModuleIdx>);

        impl Entries {
            pub fn contains_key(&self, module: &ModuleIdx) -> bool {
                self.0.contains(module)
            }
        }

        /// What the three passes read and write.
        pub struct LinkStage<'a> {
            pub module_table: ModuleTable,
            pub entries: Entries,
            pub symbols: SymbolRefDb,
            pub stmt_infos: IndexVec<ModuleIdx, StmtInfos>,
            pub runtime: RuntimeModuleBrief,
            pub metas: LinkingMetadataVec,
            pub diagnostics: Vec<BuildDiagnostic>,
            pub options: &'a NormalizedBundlerOptions,
            pub safely_merge_cjs_ns_map: FxHashMap<ModuleIdx, SafelyMergeCjsNsInfo>,
            pub tla_module_count: usize,
            pub tla_keyword_span_map: FxHashMap<ModuleIdx, Span>,
        }

        impl LinkStage<'_> {
            /// The passes, in the order in which the link stage runs them.
            pub fn run(&mut self) {
                self.compute_tla();
                self.determine_module_exports_kind();
                self.wrap_modules();
            }
        }

        /// What the interop questions read.
        pub struct LinkStageOutput {
            pub module_table: ModuleTable,
            pub symbol_db: SymbolRefDb,
            pub used_external_symbols: UsedExternalSymbols,
        }
    }
}

pub mod utils {
    include!(concat!(env!("OUT_DIR"), "/utils.rs"));
}
