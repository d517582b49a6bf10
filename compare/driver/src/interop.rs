//! The interop questions: the Rust's answers on random rows, held against the rules.
use crate::generate::{Random, random_lawful};
use crate::rust_side;
use crate::source::{Options, Source};
use passes::stages::link_stage::LinkStageOutput;
use passes::utils::external_import_interop::{
    ChunkAssignments, chunk_external_interop_modes, chunk_has_node_esm_reader, chunk_recorded_external_interop,
};
use rolldown_common::{
    ChunkIdx, ExternalInteropUse, ImportRecordIdx, ModuleIdx, NamedImport, PostChunkOptimizationOperation, Specifier,
    SymbolRef, SymbolRefDb, UsedExternalSymbols,
};

/// For Node.js, and for the other manner.
type Use = (bool, bool);

#[derive(Clone, Copy, Debug, PartialEq, Eq)]
enum Imported {
    Namespace,
    Default,
    Name,
}

#[derive(Debug)]
struct Rows {
    /// Namespace, observer, use.
    observers: Vec<(u32, usize, Use)>,
    imports: Vec<(usize, Imported)>,
    assigned: Vec<Option<u32>>,
    removed: Vec<u32>,
}

#[derive(Debug, PartialEq, Eq)]
struct Answer {
    recorded: Option<Use>,
    modes: Option<Use>,
    reader: bool,
}

fn joined(uses: impl Iterator<Item = Use>) -> Option<Use> {
    uses.reduce(|a, b| (a.0 | b.0, a.1 | b.1))
}

/// The three answers by the rules of docs/INTEROP.md.
fn by_rules(source: &Source, rows: &Rows, namespace: u32, chunk: u32) -> Answer {
    let node = |m: usize| source.modules[m].normal().is_some_and(|n| n.node_esm);
    let live = |m: usize| {
        rows.assigned
            .get(m)
            .copied()
            .flatten()
            .filter(|c| !rows.removed.contains(c))
    };
    let counting: Vec<_> = rows
        .observers
        .iter()
        .filter(|(ns, m, _)| *ns == namespace && live(*m).is_none_or(|c| c == chunk))
        .collect();
    let written: Vec<_> = rows
        .imports
        .iter()
        .filter(|(_, what)| *what != Imported::Name)
        .map(|(m, _)| *m)
        .collect();
    let recorded = joined(counting.iter().map(|(_, _, used)| *used));
    let of_imports = written.iter().map(|m| (node(*m), !node(*m)));
    Answer {
        recorded,
        modes: joined(recorded.into_iter().chain(of_imports)),
        reader: counting.iter().any(|(_, m, _)| node(*m)) || written.iter().any(|m| node(*m)),
    }
}

fn named_import((m, what): &(usize, Imported)) -> (ModuleIdx, NamedImport) {
    let imported = match what {
        Imported::Namespace => Specifier::Star,
        Imported::Default => Specifier::Literal("default".into()),
        Imported::Name => Specifier::Literal("hoist".into()),
    };
    (
        ModuleIdx::from_usize(*m),
        NamedImport {
            imported,
            record_idx: ImportRecordIdx::from_usize(0),
        },
    )
}

fn namespace_ref(namespace: u32) -> SymbolRef {
    SymbolRef {
        owner: ModuleIdx::from_usize(0),
        symbol: namespace,
    }
}

fn of_rust(source: &Source, rows: &Rows, namespace: u32, chunk: u32) -> Answer {
    let mut used = UsedExternalSymbols::default();
    for (ns, m, (node_esm, non_node_esm)) in &rows.observers {
        let seen = ExternalInteropUse {
            node_esm: *node_esm,
            non_node_esm: *non_node_esm,
        };
        used.record(namespace_ref(*ns), ModuleIdx::from_usize(*m), seen);
    }
    let output = LinkStageOutput {
        module_table: rust_side::module_table(source),
        symbol_db: SymbolRefDb,
        used_external_symbols: used,
    };
    let chunk_idx = |c: u32| ChunkIdx::from_usize(c as usize);
    let assigned = rows.assigned.iter().map(|c| c.map(chunk_idx)).collect();
    let removed = rows
        .removed
        .iter()
        .map(|c| (chunk_idx(*c), PostChunkOptimizationOperation::Removed))
        .collect();
    let chunks = ChunkAssignments::new(&assigned, &removed);
    let imports: Vec<_> = rows.imports.iter().map(named_import).collect();
    let (at, ns) = (chunk_idx(chunk), namespace_ref(namespace));
    let plain = |used: ExternalInteropUse| (used.node_esm, used.non_node_esm);
    Answer {
        recorded: chunk_recorded_external_interop(&output, chunks, at, ns).map(plain),
        modes: chunk_external_interop_modes(&output, chunks, at, ns, Some(&imports)).map(plain),
        reader: chunk_has_node_esm_reader(&output, chunks, at, ns, Some(&imports)),
    }
}

fn random_rows(random: &mut Random, modules: usize) -> Rows {
    let (observers, imports, assigned, removed) = (
        random.below(6),
        random.below(4),
        random.below(modules + 2),
        random.below(3),
    );
    Rows {
        observers: (0..observers)
            .map(|_| {
                (
                    random.below(2) as u32,
                    random.below(modules),
                    (random.percent(50), random.percent(50)),
                )
            })
            .collect(),
        imports: (0..imports)
            .map(|_| {
                let what = random.pick(&[Imported::Namespace, Imported::Default, Imported::Name]);
                (random.below(modules), what)
            })
            .collect(),
        assigned: (0..assigned)
            .map(|_| random.percent(75).then(|| random.below(3) as u32))
            .collect(),
        removed: (0..removed).map(|_| random.below(3) as u32).collect(),
    }
}

/// Every answer must be the Rust's; there is no listed difference.
pub fn random_questions(count: u64, seed: u64) {
    let mut random = Random::new(seed);
    let mut none = 0;
    for _ in 0..count {
        let modules = 1 + random.below(5);
        let source = random_lawful(&mut random, modules, 0, &Options::numbered(0));
        let rows = random_rows(&mut random, modules);
        let (namespace, chunk) = (random.below(2) as u32, random.below(3) as u32);
        let expected = by_rules(&source, &rows, namespace, chunk);
        let rust = of_rust(&source, &rows, namespace, chunk);
        assert_eq!(
            rust, expected,
            "{source:?}\n{rows:?} namespace {namespace} chunk {chunk}"
        );
        none += u64::from(rust.modes.is_none());
    }
    println!("interop questions={count} without-modes={none} differences=0");
}
