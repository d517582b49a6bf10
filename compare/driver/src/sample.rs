//! A sample of the Rust's answers: few cases that show every rule and option, as one text.
use crate::answers::{Answers, WrapKind};
use crate::compare::shown;
use crate::generate::{Random, random_lawful};
use crate::law::job_fault;
use crate::source::{ExportsKind, Format, Module, Options, Source, Span};
use crate::{rust_side, table};
use std::collections::BTreeSet;
use std::fmt::Write;

/// What a case shows: words for each module with its marks, each record with what it leads to, the options and rows.
fn features(source: &Source, options: &Options, rust: &Answers) -> BTreeSet<String> {
    let mut found = BTreeSet::new();
    let described = |m: usize| source.modules[m].normal().map(|n| (n.scanned, n.lazy));
    for (m, mark) in rust.marks.iter().enumerate() {
        let own = source.modules[m].normal().map(|n| n.scanned);
        found.insert(format!("{own:?} {:?} {:?} {}", mark.kind, mark.wrap, mark.required));
        found.insert(format!("{own:?} {} {}", mark.dynamic, mark.awaiting));
        if let Some(n) = source.modules[m]
            .normal()
            .filter(|n| n.scanned == ExportsKind::CommonJs)
        {
            found.insert(format!(
                "{} {} {:?} {:?}",
                n.entry, n.module_or_exports, options.format, mark.wrap
            ));
        }
    }
    for (m, _, rec, t) in source.resolved() {
        let off = options.splitting_off;
        found.insert(format!(
            "{:?} {} {:?} {:?} {off}",
            rec.kind,
            rec.star,
            described(t),
            rust.marks[t].wrap
        ));
        found.insert(format!("{:?} {:?} {}", described(m), rec.kind, rust.marks[t].required));
    }
    for row in &rust.wrappers {
        let strict = options.strict_order && options.manual_groups;
        found.insert(format!("{:?} {} {} {strict}", row.wrap, row.helper, row.eval));
    }
    found.insert(format!("{options:?}"));
    found.insert(format!("rows {}", rust.awaits.len().min(3)));
    found.extend(shown(source, options).iter().map(|name| format!("{name:?}")));
    found
}

/// The same source with positions that are short to read and all different.
fn tidy(mut source: Source) -> Source {
    let mut at = 0;
    let mut next = || {
        at += 10;
        Span { start: at, end: at + 5 }
    };
    for module in &mut source.modules {
        let Module::Normal(n) = module else { continue };
        n.await_span = if n.awaits { next() } else { Span::default() };
        n.records.iter_mut().for_each(|rec| rec.span = next());
    }
    source
}

fn option_words(options: &Options) -> String {
    let format = match options.format {
        Format::Esm => "esm",
        Format::Cjs => "cjs",
        Format::Iife => "iife",
        Format::Umd => "umd",
    };
    let switches = [
        ("--no-splitting", options.splitting_off),
        ("--strict-order", options.strict_order),
        ("--manual-groups", options.manual_groups),
        ("--profiler-names", options.profiler_names),
    ];
    let on: String = switches
        .iter()
        .filter(|(_, on)| *on)
        .map(|(word, _)| format!(" {word}"))
        .collect();
    format!("--format={format}{on}")
}

fn yes(flag: bool) -> &'static str {
    if flag { "yes" } else { "no" }
}

fn wrap_word(wrap: WrapKind) -> &'static str {
    match wrap {
        WrapKind::None => "none",
        WrapKind::Cjs => "cjs",
        WrapKind::Esm => "esm",
    }
}

fn mark_lines(source: &Source, rust: &Answers, text: &mut String) {
    for (m, mark) in rust.marks.iter().enumerate() {
        let external = matches!(source.modules[m], Module::External);
        let kind = if external {
            "external"
        } else {
            table::kind_word(mark.kind)
        };
        let _ = writeln!(
            text,
            "mark module={m} kind={kind} wrap={} required={} dynamic={} awaiting={}",
            wrap_word(mark.wrap),
            yes(mark.required),
            yes(mark.dynamic),
            yes(mark.awaiting)
        );
    }
}

fn case_text(number: usize, source: &Source, options: &Options, rust: &Answers) -> String {
    let mut text = format!(
        "case {number} {}\n{}answers\n",
        option_words(options),
        table::text(source)
    );
    for name in shown(source, options) {
        let _ = writeln!(text, "differs {name:?}");
    }
    mark_lines(source, rust, &mut text);
    for row in &rust.awaits {
        let (span, at) = (row.span, row.await_span);
        let _ = writeln!(
            text,
            "await importer={} record={} start={} end={} source={} await_start={} await_end={}",
            row.importer, row.record, span.start, span.end, row.source, at.start, at.end
        );
    }
    for row in &rust.wrappers {
        let (wrap, eval) = (wrap_word(row.wrap), yes(row.eval));
        let _ = writeln!(
            text,
            "wrapper module={} wrap={wrap} helper={} eval={eval}",
            row.module, row.helper
        );
    }
    text
}

const HEAD: &str = "\
# Answers of the link stage passes of rolldown 1.2.15, compiled unchanged and run by `compare sample`.
# Cases are five that show the listed differences, and random lawful sources of up to 7 modules, of which one is kept where
# it shows something that none before it shows: a kind of module with its marks, a CommonJS module's flags with its wrapper
# under a format, a kind of record with what it leads to, a set of options, a kind of wrapper row, a number of await rows.
# A case is a line `case NUMBER OPTION..`, the source's table, a line `answers`, and the Rust's answers. A line
# `differs NAME` says that the answers there are not Tuchovai's, by a difference that docs/DIFFERENCES.md lists.
# Entry sets are left out, since the Rust has none.
";

/// Sources that show the listed differences, in words of their own.
const SHOWING: [&str; 5] = [
    "runtime 0\nmodule esm\nmodule esm\nimport 2 star 10..15\nimport 3 star 20..25\nmodule cjs\nmodule cjs",
    "runtime 0\nmodule esm\nmodule esm\nimport 2 star 10..15\nimport 3 star 20..25\nmodule esm\nimport 1 star 30..35\n\
     module cjs",
    "runtime 0\nmodule esm\nmodule esm\nimport 2 10..15\nimport 3 20..25\nmodule esm\nimport 1 30..35\n\
     module esm await 40..45",
    "runtime 0\nmodule esm\nmodule esm\nimport 2 10..15\nimport 3 20..25\nmodule esm\nimport 1 30..35\n\
     module esm await 40..45\nmodule esm\nrequire 2 50..55",
    "runtime 0\nmodule esm\nmodule esm\nimport 2 10..15\nimport 4 20..25\nmodule esm\nimport 1 30..35\nimport 3 40..45\n\
     module esm await 50..55\nmodule esm await 60..65\nmodule esm\nrequire 2 70..75",
];

/// The cases that are looked at: those above, and then random ones.
fn candidates(tries: u64) -> impl Iterator<Item = (Source, Options)> {
    let showing = SHOWING
        .iter()
        .map(|text| (table::read(text).expect("a table"), Options::numbered(0)));
    let mut random = Random::new(21);
    let drawn = (0..tries).map(move |_| {
        let options = random.options();
        let modules = 2 + random.below(6);
        let records = random.below(9);
        (tidy(random_lawful(&mut random, modules, records, &options)), options)
    });
    showing
        .chain(drawn)
        .filter(|(source, options)| job_fault(source, options).is_none())
}

/// The cases that show something new.
pub fn write(tries: u64) {
    let mut seen = BTreeSet::new();
    let mut text = HEAD.to_string();
    let mut cases = 0;
    for (source, options) in candidates(tries) {
        let rust = rust_side::classify(&source, &options);
        let mut new = features(&source, &options, &rust);
        if new.iter().any(|feature| !seen.contains(feature)) {
            text += &case_text(cases, &source, &options, &rust);
            seen.append(&mut new);
            cases += 1;
        }
    }
    print!("{text}");
    eprintln!("cases={cases} features={}", seen.len());
}
