//! What a link answers, and what it refuses with.
use crate::source::{ExportsKind, Span};

#[derive(Clone, Copy, Debug, PartialEq, Eq)]
pub enum WrapKind {
    None,
    Cjs,
    Esm,
}

#[derive(Clone, Copy, Debug, PartialEq, Eq)]
pub struct Mark {
    pub kind: ExportsKind,
    pub wrap: WrapKind,
    pub required: bool,
    pub dynamic: bool,
    pub awaiting: bool,
    /// The entries that lead to the module, rank r as bit r.
    pub entries: u64,
}

#[derive(Clone, Copy, Debug, PartialEq, Eq)]
pub struct AwaitRow {
    pub importer: u32,
    pub record: u32,
    pub source: u32,
    pub span: Span,
    pub await_span: Span,
}

#[derive(Clone, Copy, Debug, PartialEq, Eq)]
pub struct WrapperRow {
    pub module: u32,
    pub wrap: WrapKind,
    pub helper: &'static str,
    pub eval: bool,
}

#[derive(Clone, Debug, Default, PartialEq, Eq)]
pub struct Answers {
    pub marks: Vec<Mark>,
    pub awaits: Vec<AwaitRow>,
    pub wrappers: Vec<WrapperRow>,
}

#[derive(Clone, Copy, Debug, PartialEq, Eq)]
pub enum Layer {
    Card,
    Source,
    Link,
    Interop,
}

#[derive(Clone, Copy, Debug, PartialEq, Eq)]
pub struct Fault {
    pub number: u32,
    pub layer: Layer,
    pub at: usize,
    pub record: usize,
}
