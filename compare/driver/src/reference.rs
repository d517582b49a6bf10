//! The settled marks and rows by the rules alone: each is a question of which records lead where.
use crate::answers::{Answers, AwaitRow, Mark, WrapKind, WrapperRow};
use crate::law::runs_target;
use crate::source::{ExportsKind, Format, ImportKind, Module, Normal, Options, Record, Source};

/// Everything that the steps lead to from the starts, the starts included.
pub fn led_to(len: usize, starts: impl Iterator<Item = usize>, steps: &[Vec<usize>]) -> Vec<bool> {
    let mut reached = vec![false; len];
    let mut open: Vec<usize> = starts.collect();
    while let Some(m) = open.pop() {
        if !std::mem::replace(&mut reached[m], true) {
            open.extend(&steps[m]);
        }
    }
    reached
}

/// For each module the targets of those of its records that are meant.
pub fn steps(source: &Source, meant: impl Fn(&Record) -> bool) -> Vec<Vec<usize>> {
    let mut to = vec![Vec::new(); source.modules.len()];
    source
        .resolved()
        .filter(|(_, _, rec, _)| meant(rec))
        .for_each(|(m, _, _, t)| to[m].push(t));
    to
}

pub fn backward(steps: &[Vec<usize>]) -> Vec<Vec<usize>> {
    let mut back = vec![Vec::new(); steps.len()];
    for (m, targets) in steps.iter().enumerate() {
        targets.iter().for_each(|t| back[*t].push(m));
    }
    back
}

/// What the first counting record to a module of no kind makes of it.
fn counted_kind(target: &Normal, rec: &Record, options: &Options) -> Option<ExportsKind> {
    if runs_target(rec, options) {
        return Some(ExportsKind::CommonJs);
    }
    (rec.kind == ImportKind::Import && !target.lazy).then_some(ExportsKind::Esm)
}

pub fn kinds(source: &Source, options: &Options) -> Vec<ExportsKind> {
    let scanned = |m: &Module| m.normal().map_or(ExportsKind::None, |n| n.scanned);
    let mut kinds: Vec<_> = source.modules.iter().map(scanned).collect();
    for (_, _, rec, t) in source.resolved() {
        let Some(target) = source.modules[t].normal() else {
            continue;
        };
        if kinds[t] == ExportsKind::None {
            kinds[t] = counted_kind(target, rec, options).unwrap_or(ExportsKind::None);
        }
    }
    kinds
}

fn is_normal(source: &Source, m: usize) -> bool {
    source.modules[m].normal().is_some()
}

/// Whether a module that was scanned as CommonJS is wrapped for its own sake.
fn importer_rule(module: &Normal, options: &Options) -> bool {
    let alone = !module.entry || options.format == Format::Esm;
    let loose = matches!(options.format, Format::Iife | Format::Umd) && module.module_or_exports;
    module.scanned == ExportsKind::CommonJs && (alone || loose)
}

fn wrapped(source: &Source, options: &Options, kinds: &[ExportsKind]) -> Vec<bool> {
    let runtime = source.runtime as usize;
    let mut causes = vec![false; kinds.len()];
    for (m, module) in source.modules.iter().enumerate() {
        causes[m] = module.normal().is_some_and(|n| importer_rule(n, options));
    }
    for (_, _, rec, t) in source.resolved().filter(|(_, _, _, t)| is_normal(source, *t)) {
        causes[t] |= runs_target(rec, options) || kinds[t] == ExportsKind::CommonJs;
    }
    let mut on = steps(source, |_| true);
    on[runtime].clear();
    let starts = (0..kinds.len()).filter(|m| causes[*m] && *m != runtime);
    let reached = led_to(kinds.len(), starts, &on);
    (0..kinds.len())
        .map(|m| reached[m] && is_normal(source, m) && m != runtime)
        .collect()
}

fn required(source: &Source, wrapped: &[bool]) -> Vec<bool> {
    let mut required = vec![false; wrapped.len()];
    for (m, _, rec, t) in source.resolved() {
        required[t] |= rec.kind == ImportKind::Require && (is_normal(source, t) || wrapped[m]);
    }
    required
}

pub fn star_steps(source: &Source) -> Vec<Vec<usize>> {
    steps(source, |rec| rec.star)
}

pub fn import_steps(source: &Source) -> Vec<Vec<usize>> {
    steps(source, |rec| rec.kind == ImportKind::Import)
}

fn dynamic(source: &Source, kinds: &[ExportsKind]) -> Vec<bool> {
    let stars = star_steps(source);
    let open = |m: &usize| !is_normal(source, *m) || kinds[*m] == ExportsKind::CommonJs;
    let leads = led_to(kinds.len(), (0..kinds.len()).filter(open), &backward(&stars));
    let mut concerned: Vec<bool> = source
        .modules
        .iter()
        .map(|m| m.records().iter().any(|r| r.star))
        .collect();
    stars.iter().flatten().for_each(|t| concerned[*t] = true);
    (0..kinds.len()).map(|m| leads[m] && concerned[m]).collect()
}

fn awaits(source: &Source, m: usize) -> bool {
    source.modules[m].normal().is_some_and(|n| n.awaits)
}

fn awaiting(source: &Source, imports: &[Vec<usize>]) -> Vec<bool> {
    let starts = (0..imports.len()).filter(|m| awaits(source, *m));
    let leads = led_to(imports.len(), starts, &backward(imports));
    (0..imports.len()).map(|m| leads[m] && is_normal(source, m)).collect()
}

/// Where the search from a module stops: it enters a module once, follows imports in order, and ends at an await.
fn await_source(source: &Source, imports: &[Vec<usize>], from: usize) -> Option<usize> {
    let mut entered = vec![false; imports.len()];
    let mut open = vec![from];
    while let Some(m) = open.pop() {
        if std::mem::replace(&mut entered[m], true) {
            continue;
        }
        if awaits(source, m) {
            return Some(m);
        }
        open.extend(imports[m].iter().rev());
    }
    None
}

fn await_rows(source: &Source, imports: &[Vec<usize>], awaiting: &[bool]) -> Vec<AwaitRow> {
    let requires = source
        .resolved()
        .filter(|(_, _, rec, t)| rec.kind == ImportKind::Require && awaiting[*t]);
    requires
        .map(|(m, k, rec, t)| {
            let found = await_source(source, imports, t).expect("an awaiting module leads to an await");
            let stops = source.modules[found].normal().expect("only normal modules await");
            AwaitRow {
                importer: m as u32,
                record: k as u32,
                source: found as u32,
                span: rec.span,
                await_span: stops.await_span,
            }
        })
        .collect()
}

fn entry_sets(source: &Source) -> Vec<u64> {
    let on = steps(source, |rec| {
        matches!(rec.kind, ImportKind::Import | ImportKind::Require)
    });
    let mut sets = vec![0; on.len()];
    let entries = (0..on.len()).filter(|m| source.modules[*m].normal().is_some_and(|n| n.entry));
    for (rank, entry) in entries.take(64).enumerate() {
        let reached = led_to(on.len(), std::iter::once(entry), &on);
        (0..on.len()).filter(|m| reached[*m]).for_each(|m| sets[m] |= 1 << rank);
    }
    sets
}

pub fn wrap_of(kind: ExportsKind, wrapped: bool) -> WrapKind {
    match kind {
        _ if !wrapped => WrapKind::None,
        ExportsKind::CommonJs => WrapKind::Cjs,
        ExportsKind::None | ExportsKind::Esm => WrapKind::Esm,
    }
}

fn wrapper_row(module: usize, wrap: WrapKind, options: &Options) -> WrapperRow {
    let helper = match (wrap, options.profiler_names) {
        (WrapKind::Cjs, true) => "__commonJS",
        (WrapKind::Cjs, false) => "__commonJSMin",
        (_, true) => "__esm",
        (_, false) => "__esmMin",
    };
    WrapperRow {
        module: module as u32,
        wrap,
        helper,
        eval: wrap == WrapKind::Esm,
    }
}

/// What every accepted job on a lawful source leaves.
pub fn classify(source: &Source, options: &Options) -> Answers {
    let kinds = kinds(source, options);
    let mut wrapped = wrapped(source, options, &kinds);
    let required = required(source, &wrapped);
    let dynamic = dynamic(source, &kinds);
    let imports = import_steps(source);
    let awaiting = awaiting(source, &imports);
    let awaits = await_rows(source, &imports, &awaiting);
    let entries = entry_sets(source);
    for m in 0..kinds.len() {
        let all = options.strict_order && options.manual_groups;
        wrapped[m] |= all && is_normal(source, m) && kinds[m] == ExportsKind::CommonJs;
    }
    let marks: Vec<Mark> = (0..kinds.len())
        .map(|m| Mark {
            kind: kinds[m],
            wrap: wrap_of(kinds[m], wrapped[m]),
            required: required[m],
            dynamic: dynamic[m],
            awaiting: awaiting[m],
            entries: entries[m],
        })
        .collect();
    let rows = marks.iter().enumerate().filter(|(_, mark)| mark.wrap != WrapKind::None);
    let wrappers = rows.map(|(m, mark)| wrapper_row(m, mark.wrap, options)).collect();
    Answers {
        marks,
        awaits,
        wrappers,
    }
}
