//! Runs of sources through the Rust passes and ours, with every difference by its name.
use crate::answers::Answers;
use crate::differences::{Difference, LISTED, differences};
use crate::generate::{Family, Random, all_descriptions, damaged, described, full_size, random_lawful};
use crate::law::{job_fault, rust_panics, source_fault};
use crate::source::{ExportsKind, ImportKind, Module, Options, Source};
use crate::{ours, reference, rust_side, table};
use std::collections::BTreeMap;

/// How many sources were run, and how many of them show each listed difference.
#[derive(Default)]
pub struct Tally {
    pub sources: u64,
    pub records: u64,
    pub equal: u64,
    pub shown: BTreeMap<Difference, u64>,
}

impl Tally {
    fn print(&self, name: &str) {
        print!(
            "compared family={name} sources={} records={} equal={}",
            self.sources, self.records, self.equal
        );
        for listed in LISTED {
            print!(" {listed:?}={}", self.shown.get(&listed).unwrap_or(&0));
        }
        println!();
    }
}

/// Ends the run: a difference is on no list.
fn fail(source: &Source, options: &Options, what: &str) -> ! {
    eprintln!("{what}\n{options:?}\n{}", table::text(source));
    std::process::exit(1)
}

/// Our answers on a lawful source: the library's, which must be the reference's, or the reference's alone.
fn our_answers(source: &Source, options: &Options) -> Answers {
    let expected = reference::classify(source, options);
    match ours::classify(source, options) {
        None => {}
        Some(Err(fault)) => fail(source, options, &format!("refused here: {fault:?}")),
        Some(Ok(answers)) if answers != expected => {
            fail(source, options, &format!("here {answers:?}\nby the rules {expected:?}"))
        }
        Some(Ok(_)) => {}
    }
    expected
}

/// The differences on one lawful source, each name once.
pub fn shown(source: &Source, options: &Options) -> Vec<Difference> {
    let ours = our_answers(source, options);
    let rust = rust_side::classify(source, options);
    match differences(source, &ours, &rust) {
        Err(what) => fail(source, options, &what),
        Ok(mut found) => {
            found.sort();
            found.dedup();
            found
        }
    }
}

fn run(tally: &mut Tally, source: &Source, options: &Options) {
    if job_fault(source, options).is_some() {
        return;
    }
    let found = shown(source, options);
    tally.sources += 1;
    tally.records += source.record_count() as u64;
    tally.equal += u64::from(found.is_empty());
    found
        .into_iter()
        .for_each(|name| *tally.shown.entry(name).or_default() += 1);
}

fn random_sources(count: u64, seed: u64) {
    let mut tally = Tally::default();
    let mut random = Random::new(seed);
    for _ in 0..count {
        let options = random.options();
        let modules = 1 + random.below(24);
        let records = random.below(3 * modules);
        let source = random_lawful(&mut random, modules, records, &options);
        run(&mut tally, &source, &options);
    }
    tally.print("random");
}

fn full_sources(count: u64, seed: u64) {
    let mut tally = Tally::default();
    let mut random = Random::new(seed);
    for _ in 0..count {
        let options = random.options();
        let source = full_size(&mut random, &options);
        run(&mut tally, &source, &options);
    }
    tally.print("full-size");
}

/// Two modules with every description, up to two records, under every format and switch that a pass reads.
fn pairs() -> Family {
    let mut kinds: Vec<_> = [
        ImportKind::Import,
        ImportKind::Require,
        ImportKind::DynamicImport,
        ImportKind::NewUrl,
        ImportKind::HotAccept,
    ]
    .map(|kind| (kind, false))
    .into();
    kinds.push((ImportKind::Import, true));
    Family {
        modules: 2,
        records: 2,
        described: all_descriptions(),
        kinds,
        to_runtime: true,
    }
}

/// Three modules and up to four records of the kinds that spread.
fn triples() -> Family {
    let described = vec![
        Module::External,
        described(ExportsKind::None, false),
        described(ExportsKind::Esm, false),
        described(ExportsKind::Esm, true),
        described(ExportsKind::CommonJs, false),
    ];
    let kinds = vec![
        (ImportKind::Import, false),
        (ImportKind::Import, true),
        (ImportKind::Require, false),
    ];
    Family {
        modules: 3,
        records: 4,
        described,
        kinds,
        to_runtime: false,
    }
}

fn small_sources(name: &str, family: &Family, options: impl Iterator<Item = u32> + Clone) {
    let mut tally = Tally::default();
    family.every(&mut |source| {
        for n in options.clone() {
            run(&mut tally, source, &Options::numbered(n));
        }
    });
    tally.print(name);
}

/// Sources that break rules: refused here by the first, and what the Rust does with them.
fn refused_sources(count: u64, seed: u64) {
    let mut random = Random::new(seed);
    let mut rust: BTreeMap<u32, (u64, u64)> = BTreeMap::new();
    for _ in 0..count {
        let options = random.options();
        let modules = 1 + random.below(12);
        let records = random.below(3 * modules);
        let lawful = random_lawful(&mut random, modules, records, &options);
        let source = damaged(&mut random, lawful);
        let Some(fault) = source_fault(&source, &options) else {
            continue;
        };
        if ours::classify(&source, &options).is_some_and(|answer| answer != Err(fault)) {
            fail(
                &source,
                &options,
                &format!("not refused by {fault:?}: {:?}", ours::classify(&source, &options)),
            );
        }
        let panics = std::panic::catch_unwind(|| rust_side::classify(&source, &options)).is_err();
        if panics != rust_panics(&source) {
            fail(&source, &options, "the Rust panics elsewhere than is listed");
        }
        let counts = rust.entry(fault.number).or_default();
        *(if panics { &mut counts.0 } else { &mut counts.1 }) += 1;
    }
    for (number, (panics, answers)) in rust {
        println!("refused number={number} rust-panics={panics} rust-answers={answers}");
    }
}

/// The whole comparison; `scale` multiplies the random parts.
pub fn everything(scale: u64) {
    std::panic::set_hook(Box::new(|_| {}));
    refused_sources(200_000 * scale, 1);
    random_sources(1_000_000 * scale, 2);
    full_sources(40 * scale, 3);
    small_sources("triples", &triples(), [0, 4].into_iter());
    small_sources("pairs", &pairs(), (0..8).chain(24..32));
}

/// The comparison on sources that are given as tables.
pub fn graphs(paths: &[String]) {
    for path in paths {
        let text = std::fs::read_to_string(path).unwrap_or_else(|e| panic!("{path}: {e}"));
        let source = table::read(&text).unwrap_or_else(|e| panic!("{path}: {e}"));
        for n in 0..64 {
            let mut tally = Tally::default();
            let options = Options::numbered(n);
            run(&mut tally, &source, &options);
            if n == 0 {
                let name = std::path::Path::new(path)
                    .file_stem()
                    .and_then(|s| s.to_str())
                    .unwrap_or("table");
                tally.print(name);
                list_star_differences(&source, &options);
            }
        }
    }
}

/// The modules that star exports leave open here and not in the Rust.
fn list_star_differences(source: &Source, options: &Options) {
    let ours = our_answers(source, options);
    let rust = rust_side::classify(source, options);
    for (m, (mine, theirs)) in ours.marks.iter().zip(&rust.marks).enumerate() {
        if mine.dynamic != theirs.dynamic {
            println!(
                "  dynamic module={m} kind={} here=yes rust=no",
                table::kind_word(mine.kind)
            );
        }
    }
}

fn smallest_of(name: Difference, families: &[Family]) {
    let options = Options::numbered(0);
    for family in families {
        for records in 0..=family.records {
            let mut first = None;
            family.each(records, &mut |source| {
                if first.is_none()
                    && source_fault(source, &options).is_none()
                    && shown(source, &options).contains(&name)
                {
                    first = Some(source.clone());
                }
            });
            if let Some(source) = first {
                println!("smallest {name:?}\n{}", table::text(&source));
                print_both(&source, &options);
                return;
            }
        }
    }
    println!("smallest {name:?}: none found");
}

fn print_both(source: &Source, options: &Options) {
    let ours = our_answers(source, options);
    let rust = rust_side::classify(source, options);
    for (m, (mine, theirs)) in ours.marks.iter().zip(&rust.marks).enumerate() {
        if (mine.dynamic, mine.awaiting) != (theirs.dynamic, theirs.awaiting) {
            println!(
                "  module {m}: here dynamic={} awaiting={}, rust dynamic={} awaiting={}",
                mine.dynamic, mine.awaiting, theirs.dynamic, theirs.awaiting
            );
        }
    }
    let rows = |answers: &Answers| -> Vec<_> {
        answers
            .awaits
            .iter()
            .map(|r| (r.importer, r.record, r.source))
            .collect()
    };
    println!(
        "  rows (importer, record, source): here {:?}, rust {:?}\n",
        rows(&ours),
        rows(&rust)
    );
}

/// The smallest source that shows each listed difference: fewest modules, then fewest records.
pub fn smallest() {
    let stars = |modules, records| Family {
        modules,
        records,
        described: vec![
            described(ExportsKind::Esm, false),
            described(ExportsKind::CommonJs, false),
            Module::External,
        ],
        kinds: vec![(ImportKind::Import, true)],
        to_runtime: false,
    };
    let awaits = |modules, records| Family {
        modules,
        records,
        described: vec![described(ExportsKind::Esm, false), described(ExportsKind::Esm, true)],
        kinds: vec![(ImportKind::Import, false), (ImportKind::Require, false)],
        to_runtime: false,
    };
    let star_families = [stars(1, 3), stars(2, 4), stars(3, 4), stars(4, 4)];
    let await_families = [awaits(1, 3), awaits(2, 5), awaits(3, 5), awaits(4, 5)];
    smallest_of(Difference::StarPastFirstHit, &star_families);
    smallest_of(Difference::StarInCircle, &star_families);
    smallest_of(Difference::AwaitingInCircle, &await_families);
    smallest_of(Difference::AwaitRowMissed, &await_families);
    smallest_of(Difference::OtherSourceNamed, &await_families);
}
