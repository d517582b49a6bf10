//! What the passes cost, ours and the Rust's, in one run on one machine.
use crate::generate::{Random, described, of_mix};
use crate::source::{ExportsKind, ImportKind, Module, Normal, Options, Record, Source, Span};
use crate::{card, ours, rust_side, table};
use std::time::{Duration, Instant};

fn record(kind: ImportKind, target: usize, star: bool) -> Record {
    Record {
        kind,
        target: Some(target as u32),
        star,
        span: Span::default(),
    }
}

fn runtime() -> Module {
    Module::Normal(Normal::plain(ExportsKind::Esm))
}

/// Module 1 is a CommonJS entry that requires the first of a line of ES modules; `next` says what each of them imports.
fn line(modules: usize, first: usize, star: bool, next: impl Fn(usize) -> Option<usize>) -> Source {
    let mut entry = Normal::plain(ExportsKind::CommonJs);
    entry.entry = true;
    entry.records.push(record(ImportKind::Require, first, false));
    let mut source = Source {
        runtime: 0,
        modules: vec![runtime(), Module::Normal(entry)],
    };
    for m in 2..modules {
        let mut n = Normal::plain(ExportsKind::Esm);
        n.records.extend(next(m).map(|t| record(ImportKind::Import, t, star)));
        n.awaits = next(m).is_none() && !star;
        source.modules.push(Module::Normal(n));
    }
    source
}

/// A chain through modules that are numbered at random.
fn shuffled_chain(modules: usize, random: &mut Random) -> Source {
    let mut order: Vec<usize> = (2..modules).collect();
    for at in (1..order.len()).rev() {
        order.swap(at, random.below(at + 1));
    }
    let mut next = vec![None; modules];
    order.windows(2).for_each(|pair| next[pair[0]] = Some(pair[1]));
    line(modules, order[0], false, |m| next[m])
}

fn circle(modules: usize) -> Source {
    let mut source = line(modules, 2, false, |m| Some(if m + 1 < modules { m + 1 } else { 2 }));
    source.modules[modules / 2] = match &source.modules[modules / 2] {
        Module::Normal(n) => Module::Normal(Normal {
            awaits: true,
            ..n.clone()
        }),
        Module::External => Module::External,
    };
    source
}

/// Every module stars the next, and the last is CommonJS.
fn star_chain(modules: usize) -> Source {
    let mut source = line(modules, 2, true, |m| (m + 1 < modules).then_some(m + 1));
    source.modules[modules - 1] = described(ExportsKind::CommonJs, false);
    source
}

fn shapes(modules: usize) -> Vec<(String, Source)> {
    let mut random = Random::new(11);
    let last = modules - 1;
    let named = |name: &str, source| (format!("{name} {modules}"), source);
    vec![
        named(
            "random",
            of_mix(&mut random, 0, modules, 8 * modules, &Options::numbered(0)),
        ),
        named(
            "imports and requires",
            of_mix(&mut random, 2, modules, 8 * modules, &Options::numbered(0)),
        ),
        named(
            "chain in order",
            line(modules, 2, false, |m| (m < last).then_some(m + 1)),
        ),
        named(
            "chain in reverse",
            line(modules, last, false, |m| (m > 2).then_some(m - 1)),
        ),
        named("chain numbered at random", shuffled_chain(modules, &mut random)),
        named("one circle", circle(modules)),
        named("star chain", star_chain(modules)),
    ]
}

/// The best of many runs of `work`, of which each is made ready before the clock starts.
fn best<T>(mut ready: impl FnMut() -> T, mut work: impl FnMut(&mut T)) -> Duration {
    let mut best = Duration::MAX;
    let started = Instant::now();
    let mut runs = 0;
    while runs < 10 || (runs < 2000 && started.elapsed() < Duration::from_millis(400)) {
        let mut state = ready();
        let clock = Instant::now();
        work(&mut state);
        best = best.min(clock.elapsed());
        runs += 1;
    }
    best
}

fn micros(time: Duration) -> f64 {
    time.as_nanos() as f64 / 1000.0
}

fn measure(name: &str, source: &Source) {
    let options = Options::numbered(0);
    let theirs = rust_side::options(&options);
    let image = card::write(source);
    let mut table = vec![0; ours::table_size(&image)];
    let rust = best(|| rust_side::stage(source, &theirs), |stage| stage.run());
    let mine = best(
        || (),
        |()| ours::classify_card(&image, &options, &mut table).expect("a lawful source"),
    );
    let records = source.record_count();
    println!(
        "| {name} | {} | {records} | {:.1} | {:.1} | {:.2} | {:.0} | {:.0} |",
        source.modules.len(),
        micros(mine),
        micros(rust),
        micros(mine) / micros(rust),
        1000.0 * micros(mine) / records as f64,
        1000.0 * micros(rust) / records as f64,
    );
}

fn measure_card(name: &str, source: &Source) {
    let image = card::write(source);
    let mut out = vec![0; image.len()];
    let check = best(|| (), |()| ours::check(&image).expect("a good card"));
    let write = best(|| (), |()| ours::rewrite(&image, &mut out).expect("a good card"));
    let copy = best(|| (), |()| out.copy_from_slice(std::hint::black_box(&image)));
    println!(
        "| {name} | {} | {:.1} | {:.1} | {:.2} | {:.2} |",
        image.len(),
        micros(check),
        micros(write),
        micros(copy),
        1000.0 * micros(check) / image.len() as f64,
    );
}

pub fn everything(paths: &[String]) {
    let mut sources: Vec<_> = [64, 512, 4096].into_iter().flat_map(shapes).collect();
    for path in paths {
        let text = std::fs::read_to_string(path).unwrap_or_else(|e| panic!("{path}: {e}"));
        let name = std::path::Path::new(path)
            .file_stem()
            .and_then(|s| s.to_str())
            .unwrap_or("table");
        sources.push((
            name.to_string(),
            table::read(&text).unwrap_or_else(|e| panic!("{path}: {e}")),
        ));
    }
    println!(
        "| Source | Modules | Records | Ours, µs | Rust, µs | Ours / Rust | Ours, ns a record | Rust, ns a record |"
    );
    println!("|---|---:|---:|---:|---:|---:|---:|---:|");
    sources.iter().for_each(|(name, source)| measure(name, source));
    println!("\n| Card of | Bytes | Check, µs | Check, open and write, µs | Copy, µs | Check, ns a byte |");
    println!("|---|---:|---:|---:|---:|---:|");
    sources
        .iter()
        .filter(|(name, _)| name.starts_with("random"))
        .for_each(|(name, s)| measure_card(name, s));
}
