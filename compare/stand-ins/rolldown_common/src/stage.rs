//! How a bundle is to be made, and its runtime.
use crate::{ModuleIdx, SymbolRef};

#[derive(Clone, Copy, Debug, PartialEq, Eq)]
pub enum OutputFormat {
    Esm,
    Cjs,
    Iife,
    Umd,
}

#[derive(Clone, Copy, Debug)]
pub struct CodeSplitting {
    pub disabled: bool,
}

impl CodeSplitting {
    pub fn is_disabled(&self) -> bool {
        self.disabled
    }
}

#[derive(Clone, Debug)]
pub struct NormalizedBundlerOptions {
    pub format: OutputFormat,
    pub code_splitting: CodeSplitting,
    pub profiler_names: bool,
    pub strict_order: bool,
    pub manual_groups: bool,
}

impl NormalizedBundlerOptions {
    pub fn is_strict_execution_order_enabled(&self) -> bool {
        self.strict_order
    }

    pub fn has_manual_code_splitting_groups(&self) -> bool {
        self.manual_groups
    }
}

#[derive(Clone, Copy, Debug)]
pub struct RuntimeModuleBrief {
    pub idx: ModuleIdx,
}

impl RuntimeModuleBrief {
    /// The helpers by the order of their names here.
    pub const HELPERS: [&'static str; 4] = ["__commonJS", "__commonJSMin", "__esm", "__esmMin"];

    pub fn id(&self) -> ModuleIdx {
        self.idx
    }

    pub fn resolve_symbol(&self, name: &str) -> SymbolRef {
        let symbol = Self::HELPERS
            .iter()
            .position(|helper| *helper == name)
            .expect("a helper of the runtime");
        SymbolRef {
            owner: self.idx,
            symbol: symbol as u32,
        }
    }
}
