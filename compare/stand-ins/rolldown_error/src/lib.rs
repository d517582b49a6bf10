//! Stands in for `rolldown_error`: the one diagnostic that the await pass gives.
use oxc::span::Span;
use std::sync::Arc;

pub type ArcStr = Arc<str>;

#[derive(Debug, Clone)]
pub struct ImportChainNote {
    pub importer_stable_id: ArcStr,
    pub importer_source: ArcStr,
    pub importee_stable_id: ArcStr,
    pub import_span: Span,
}

#[derive(Debug, Clone)]
pub struct RequireTla {
    pub importer_stable_id: ArcStr,
    pub importer_source: ArcStr,
    pub require_span: Span,
    pub tla_source_stable_id: ArcStr,
    pub tla_source_text: ArcStr,
    pub tla_keyword_span: Span,
    pub import_chain: Vec<ImportChainNote>,
}

#[derive(Debug, Clone)]
pub enum BuildDiagnostic {
    RequireTla(RequireTla),
}

impl BuildDiagnostic {
    pub fn require_tla(found: RequireTla) -> BuildDiagnostic {
        BuildDiagnostic::RequireTla(found)
    }
}
