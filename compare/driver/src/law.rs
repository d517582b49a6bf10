//! Which sources a link refuses: the rules 2, 3, 6 to 11 of docs/REFUSALS.md, in their order.
use crate::answers::{Fault, Layer};
use crate::source::{ExportsKind, ImportKind, MODULE_LIMIT, Module, Options, RECORD_LIMIT, Record, Source};

pub fn link_fault(number: u32, at: usize, record: usize) -> Fault {
    Fault {
        number,
        layer: Layer::Link,
        at,
        record,
    }
}

/// Whether a record brings its target into the same file by running it: `require`, or `import()` without splitting.
pub fn runs_target(rec: &Record, options: &Options) -> bool {
    rec.kind == ImportKind::Require || (rec.kind == ImportKind::DynamicImport && options.splitting_off)
}

/// The number of the first rule that a record of a normal module breaks.
fn record_rule(source: &Source, m: usize, rec: &Record, options: &Options) -> Option<u32> {
    let target = rec.target.map(|t| source.modules.get(t as usize));
    if target == Some(None) {
        return Some(7);
    }
    let style = matches!(rec.kind, ImportKind::AtImport | ImportKind::UrlImport);
    if style && matches!(target, Some(Some(Module::Normal(_)))) {
        return Some(8);
    }
    let esm = source.modules[m]
        .normal()
        .is_some_and(|n| n.scanned == ExportsKind::Esm);
    if rec.star && !(rec.kind == ImportKind::Import && esm) {
        return Some(9);
    }
    (runs_target(rec, options) && rec.target == Some(source.runtime)).then_some(10)
}

/// The first fault of a source, if it is not lawful.
pub fn source_fault(source: &Source, options: &Options) -> Option<Fault> {
    if source.modules.len() > MODULE_LIMIT {
        return Some(link_fault(2, 0, 0));
    }
    if source.record_count() > RECORD_LIMIT {
        return Some(link_fault(3, 0, 0));
    }
    if source
        .normal(source.runtime)
        .is_none_or(|m| m.scanned != ExportsKind::Esm)
    {
        return Some(link_fault(6, 0, 0));
    }
    for (m, module) in source.modules.iter().enumerate() {
        for (k, rec) in module.records().iter().enumerate() {
            if let Some(number) = record_rule(source, m, rec, options) {
                return Some(link_fault(number, m, k));
            }
        }
    }
    None
}

/// The first fault of the whole job, which asks for entries too.
pub fn job_fault(source: &Source, options: &Options) -> Option<Fault> {
    let too_many = source
        .modules
        .iter()
        .filter(|m| m.normal().is_some_and(|n| n.entry))
        .count()
        > 64;
    source_fault(source, options).or(too_many.then(|| link_fault(11, 0, 0)))
}

/// Whether the Rust indexes past the end or comes to a place that it calls unreachable.
pub fn rust_panics(source: &Source) -> bool {
    source.resolved().any(|(_, _, rec, t)| match source.modules.get(t) {
        None => true,
        Some(Module::Normal(_)) => matches!(rec.kind, ImportKind::AtImport | ImportKind::UrlImport),
        Some(Module::External) => false,
    })
}
