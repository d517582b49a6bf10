//! A source run through the Rust passes, and their answers in our words.
use crate::answers::{Answers, AwaitRow, Mark, WrapKind, WrapperRow};
use crate::source::{self, ExportsKind, Format, ImportKind, Options, Source};
use oxc::span::Span;
use oxc_index::IndexVec;
use passes::stages::link_stage::{Entries, LinkStage};
use passes::types::linking_metadata::LinkingMetadata;
use rolldown_common::{
    self as theirs, CodeSplitting, EcmaModuleAstUsage, EcmaViewMeta, ExternalModule, ImportRecord, ImportRecordMeta,
    ImportRecordStateResolved, ModuleIdx, ModuleTable, NormalModule, NormalizedBundlerOptions, RuntimeModuleBrief,
    StableId, StmtInfos, SymbolRef, SymbolRefDb,
};
use rolldown_error::BuildDiagnostic;
use rustc_hash::FxHashMap;

pub fn options(from: &Options) -> NormalizedBundlerOptions {
    NormalizedBundlerOptions {
        format: match from.format {
            Format::Esm => theirs::OutputFormat::Esm,
            Format::Cjs => theirs::OutputFormat::Cjs,
            Format::Iife => theirs::OutputFormat::Iife,
            Format::Umd => theirs::OutputFormat::Umd,
        },
        code_splitting: CodeSplitting {
            disabled: from.splitting_off,
        },
        profiler_names: from.profiler_names,
        strict_order: from.strict_order,
        manual_groups: from.manual_groups,
    }
}

fn exports_kind(from: ExportsKind) -> theirs::ExportsKind {
    match from {
        ExportsKind::None => theirs::ExportsKind::None,
        ExportsKind::Esm => theirs::ExportsKind::Esm,
        ExportsKind::CommonJs => theirs::ExportsKind::CommonJs,
    }
}

fn import_kind(from: ImportKind) -> theirs::ImportKind {
    match from {
        ImportKind::Import => theirs::ImportKind::Import,
        ImportKind::Require => theirs::ImportKind::Require,
        ImportKind::DynamicImport => theirs::ImportKind::DynamicImport,
        ImportKind::AtImport => theirs::ImportKind::AtImport,
        ImportKind::UrlImport => theirs::ImportKind::UrlImport,
        ImportKind::NewUrl => theirs::ImportKind::NewUrl,
        ImportKind::HotAccept => theirs::ImportKind::HotAccept,
    }
}

fn record((number, from): (usize, &source::Record)) -> ImportRecord {
    let mut meta = ImportRecordMeta::default();
    meta.set(ImportRecordMeta::IsExportStar, from.star);
    ImportRecord {
        state: ImportRecordStateResolved {
            resolved_module: from.target.map(|t| ModuleIdx::from_usize(t as usize)),
        },
        kind: import_kind(from.kind),
        meta,
        namespace_ref: SymbolRef::default(),
        importer_span: Span {
            start: from.span.start,
            end: from.span.end,
            record: number as u32,
        },
    }
}

fn normal(idx: ModuleIdx, stable_id: StableId, from: &source::Normal) -> NormalModule {
    let mut meta = EcmaViewMeta::default();
    meta.set(EcmaViewMeta::LazyExport, from.lazy);
    meta.set(EcmaViewMeta::NodeEsm, from.node_esm);
    let mut ast_usage = EcmaModuleAstUsage::default();
    ast_usage.set(EcmaModuleAstUsage::ModuleRef, from.module_or_exports);
    ast_usage.set(EcmaModuleAstUsage::TopLevelAwait, from.awaits);
    NormalModule {
        idx,
        exports_kind: exports_kind(from.scanned),
        meta,
        ast_usage,
        import_records: from.records.iter().enumerate().map(record).collect(),
        named_imports: FxHashMap::default(),
        repr_name: stable_id.0.to_string(),
        stable_id,
        source: "".into(),
    }
}

fn module((m, from): (usize, &source::Module)) -> theirs::Module {
    let idx = ModuleIdx::from_usize(m);
    let stable_id = StableId(m.to_string().into());
    match from.normal() {
        Some(n) => theirs::Module::Normal(Box::new(normal(idx, stable_id, n))),
        None => theirs::Module::External(Box::new(ExternalModule {
            idx,
            stable_id,
            import_records: IndexVec::default(),
        })),
    }
}

pub fn module_table(source: &Source) -> ModuleTable {
    ModuleTable {
        modules: source.modules.iter().enumerate().map(module).collect(),
    }
}

/// A link stage that is ready to run.
pub fn stage<'a>(source: &Source, options: &'a NormalizedBundlerOptions) -> LinkStage<'a> {
    let len = source.modules.len();
    let normals = || {
        source
            .modules
            .iter()
            .enumerate()
            .filter_map(|(m, n)| Some((ModuleIdx::from_usize(m), n.normal()?)))
    };
    let awaits: FxHashMap<ModuleIdx, Span> = normals()
        .filter(|(_, n)| n.awaits)
        .map(|(m, n)| {
            (
                m,
                Span {
                    start: n.await_span.start,
                    end: n.await_span.end,
                    record: 0,
                },
            )
        })
        .collect();
    LinkStage {
        module_table: module_table(source),
        entries: Entries(normals().filter(|(_, n)| n.entry).map(|(m, _)| m).collect()),
        symbols: SymbolRefDb,
        stmt_infos: (0..len).map(|_| StmtInfos::default()).collect(),
        runtime: RuntimeModuleBrief {
            idx: ModuleIdx::from_usize(source.runtime as usize),
        },
        metas: (0..len).map(|_| LinkingMetadata::default()).collect(),
        diagnostics: Vec::new(),
        options,
        safely_merge_cjs_ns_map: FxHashMap::default(),
        tla_module_count: awaits.len(),
        tla_keyword_span_map: awaits,
    }
}

fn wrap_kind(from: theirs::WrapKind) -> WrapKind {
    match from {
        theirs::WrapKind::None => WrapKind::None,
        theirs::WrapKind::Cjs => WrapKind::Cjs,
        theirs::WrapKind::Esm => WrapKind::Esm,
    }
}

fn mark(module: &theirs::Module, meta: &LinkingMetadata) -> Mark {
    let kind = match module.as_normal().map(|m| m.exports_kind) {
        Some(theirs::ExportsKind::Esm) => ExportsKind::Esm,
        Some(theirs::ExportsKind::CommonJs) => ExportsKind::CommonJs,
        Some(theirs::ExportsKind::None) | None => ExportsKind::None,
    };
    Mark {
        kind,
        wrap: wrap_kind(meta.wrap_kind()),
        required: meta.required_by_other_module,
        dynamic: meta.has_dynamic_exports,
        awaiting: meta.is_tla_or_contains_tla_dependency,
        entries: 0,
    }
}

fn plain_span(from: Span) -> source::Span {
    source::Span {
        start: from.start,
        end: from.end,
    }
}

fn await_row(BuildDiagnostic::RequireTla(row): &BuildDiagnostic) -> AwaitRow {
    let number = |id: &str| id.parse().expect("a module's name is its number");
    AwaitRow {
        importer: number(&row.importer_stable_id),
        record: row.require_span.record,
        source: number(&row.tla_source_stable_id),
        span: plain_span(row.require_span),
        await_span: plain_span(row.tla_keyword_span),
    }
}

/// The row that a module's wrapper statement stands for, if it has one.
fn wrapper_row(stage: &LinkStage, module: &theirs::Module) -> Option<WrapperRow> {
    let meta = &stage.metas[module.idx()];
    let info = &stage.stmt_infos[module.idx()].0[meta.wrapper_stmt_info?];
    Some(WrapperRow {
        module: module.idx().index() as u32,
        wrap: wrap_kind(meta.wrap_kind()),
        helper: RuntimeModuleBrief::HELPERS[info.referenced_symbols[0].0.symbol as usize],
        eval: info.eval_flags.0,
    })
}

/// What a link stage that has run answers.
pub fn answers(stage: &LinkStage) -> Answers {
    let modules = &stage.module_table.modules;
    Answers {
        marks: modules.iter().map(|m| mark(m, &stage.metas[m.idx()])).collect(),
        awaits: stage.diagnostics.iter().map(await_row).collect(),
        wrappers: modules.iter().filter_map(|m| wrapper_row(stage, m)).collect(),
    }
}

pub fn classify(source: &Source, options: &Options) -> Answers {
    let theirs = self::options(options);
    let mut stage = stage(source, &theirs);
    stage.run();
    answers(&stage)
}
