//! Modules and their records.
use crate::{NamedImport, SymbolRef, index_type};
use oxc::span::Span;
use oxc_index::IndexVec;
use rustc_hash::FxHashMap;
use std::ops::{Deref, Index, IndexMut};
use std::sync::Arc;

index_type!(ModuleIdx);
index_type!(ImportRecordIdx);

#[derive(Clone, Copy, Debug, Default, PartialEq, Eq)]
pub enum ExportsKind {
    #[default]
    None,
    Esm,
    CommonJs,
}

#[derive(Clone, Copy, Debug, Default, PartialEq, Eq)]
pub enum WrapKind {
    #[default]
    None,
    Cjs,
    Esm,
}

impl WrapKind {
    pub fn is_none(self) -> bool {
        self == WrapKind::None
    }
}

#[derive(Clone, Copy, Debug, PartialEq, Eq)]
pub enum ImportKind {
    Import,
    Require,
    DynamicImport,
    AtImport,
    UrlImport,
    NewUrl,
    HotAccept,
}

/// A few flags in one byte, each a constant of its type.
macro_rules! flag_type {
    ($name:ident { $($flag:ident = $bit:expr),* }) => {
        #[derive(Clone, Copy, Debug, Default, PartialEq, Eq)]
        pub struct $name(u8);

        #[allow(non_upper_case_globals)]
        impl $name {
            $(pub const $flag: $name = $name($bit);)*

            pub fn contains(self, other: $name) -> bool {
                self.0 & other.0 == other.0
            }

            pub fn intersects(self, other: $name) -> bool {
                self.0 & other.0 != 0
            }

            pub fn set(&mut self, other: $name, to: bool) {
                self.0 = if to { self.0 | other.0 } else { self.0 & !other.0 };
            }
        }
    };
}

flag_type!(EcmaModuleAstUsage { ModuleRef = 1, ExportsRef = 2, ModuleOrExports = 3, TopLevelAwait = 4 });
flag_type!(ImportRecordMeta { IsExportStar = 1 });
flag_type!(EcmaViewMeta { LazyExport = 1, NodeEsm = 2 });

impl EcmaViewMeta {
    pub fn has_lazy_export(self) -> bool {
        self.contains(EcmaViewMeta::LazyExport)
    }
}

/// Where a record leads.
#[derive(Clone, Copy, Debug, Default)]
pub struct ImportRecordStateResolved {
    pub resolved_module: Option<ModuleIdx>,
}

#[derive(Clone, Debug)]
pub struct ImportRecord {
    pub state: ImportRecordStateResolved,
    pub kind: ImportKind,
    pub meta: ImportRecordMeta,
    pub namespace_ref: SymbolRef,
    pub importer_span: Span,
}

impl Deref for ImportRecord {
    type Target = ImportRecordStateResolved;

    fn deref(&self) -> &ImportRecordStateResolved {
        &self.state
    }
}

/// The name of a module; here its number as text.
#[derive(Clone, Debug)]
pub struct StableId(pub Arc<str>);

impl StableId {
    pub fn as_arc_str(&self) -> &Arc<str> {
        &self.0
    }
}

#[derive(Clone, Debug)]
pub struct NormalModule {
    pub idx: ModuleIdx,
    pub exports_kind: ExportsKind,
    pub meta: EcmaViewMeta,
    pub ast_usage: EcmaModuleAstUsage,
    pub import_records: IndexVec<ImportRecordIdx, ImportRecord>,
    pub named_imports: FxHashMap<SymbolRef, NamedImport>,
    pub repr_name: String,
    pub stable_id: StableId,
    pub source: Arc<str>,
}

impl NormalModule {
    fn star_records(&self) -> impl Iterator<Item = &ImportRecord> {
        self.import_records
            .iter()
            .filter(|rec| rec.meta.contains(ImportRecordMeta::IsExportStar))
    }

    pub fn has_star_export(&self) -> bool {
        self.star_records().next().is_some()
    }

    pub fn star_export_module_ids(&self) -> impl Iterator<Item = ModuleIdx> + '_ {
        self.star_records().filter_map(|rec| rec.resolved_module)
    }

    pub fn should_consider_node_esm_spec_for_static_import(&self) -> bool {
        self.meta.contains(EcmaViewMeta::NodeEsm)
    }
}

#[derive(Clone, Debug)]
pub struct ExternalModule {
    pub idx: ModuleIdx,
    pub stable_id: StableId,
    pub import_records: IndexVec<ImportRecordIdx, ImportRecord>,
}

#[derive(Clone, Debug)]
pub enum Module {
    Normal(Box<NormalModule>),
    External(Box<ExternalModule>),
}

impl Module {
    pub fn idx(&self) -> ModuleIdx {
        match self {
            Module::Normal(m) => m.idx,
            Module::External(m) => m.idx,
        }
    }

    pub fn as_normal(&self) -> Option<&NormalModule> {
        match self {
            Module::Normal(m) => Some(m),
            Module::External(_) => None,
        }
    }

    pub fn as_normal_mut(&mut self) -> Option<&mut NormalModule> {
        match self {
            Module::Normal(m) => Some(m),
            Module::External(_) => None,
        }
    }

    pub fn import_records(&self) -> &IndexVec<ImportRecordIdx, ImportRecord> {
        match self {
            Module::Normal(m) => &m.import_records,
            Module::External(m) => &m.import_records,
        }
    }

    pub fn stable_id(&self) -> &StableId {
        match self {
            Module::Normal(m) => &m.stable_id,
            Module::External(m) => &m.stable_id,
        }
    }
}

pub type IndexModules = IndexVec<ModuleIdx, Module>;

#[derive(Clone, Debug, Default)]
pub struct ModuleTable {
    pub modules: IndexModules,
}

impl Index<ModuleIdx> for ModuleTable {
    type Output = Module;

    fn index(&self, at: ModuleIdx) -> &Module {
        &self.modules[at]
    }
}

impl IndexMut<ModuleIdx> for ModuleTable {
    fn index_mut(&mut self, at: ModuleIdx) -> &mut Module {
        &mut self.modules[at]
    }
}
