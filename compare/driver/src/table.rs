//! The text form of a source, read and written.
use crate::source::{ExportsKind, ImportKind, Module, Normal, Record, Source, Span};
use std::fmt::Write;

const KIND_WORDS: [(&str, ExportsKind); 3] = [
    ("none", ExportsKind::None),
    ("esm", ExportsKind::Esm),
    ("cjs", ExportsKind::CommonJs),
];

const IMPORT_WORDS: [(&str, ImportKind); 7] = [
    ("import", ImportKind::Import),
    ("require", ImportKind::Require),
    ("dynamic-import", ImportKind::DynamicImport),
    ("at-import", ImportKind::AtImport),
    ("url-import", ImportKind::UrlImport),
    ("new-url", ImportKind::NewUrl),
    ("hot-accept", ImportKind::HotAccept),
];

fn meant<T: Copy>(words: &[(&str, T)], word: &str) -> Option<T> {
    words.iter().find(|(w, _)| *w == word).map(|(_, x)| *x)
}

pub fn word_of<T: PartialEq + Copy>(words: &[(&'static str, T)], x: T) -> &'static str {
    words.iter().find(|(_, y)| *y == x).expect("each case has a word").0
}

pub fn kind_word(kind: ExportsKind) -> &'static str {
    word_of(&KIND_WORDS, kind)
}

fn span(word: &str) -> Option<Span> {
    let (start, end) = word.split_once("..")?;
    Some(Span {
        start: start.parse().ok()?,
        end: end.parse().ok()?,
    })
}

fn module<'a>(mut words: impl Iterator<Item = &'a str>) -> Option<Module> {
    let mut n = Normal::plain(meant(&KIND_WORDS, words.next()?)?);
    for word in words {
        match word {
            "lazy" => n.lazy = true,
            "await" => n.awaits = true,
            "module" => n.module_or_exports = true,
            "node" => n.node_esm = true,
            "entry" => n.entry = true,
            other => n.await_span = span(other)?,
        }
    }
    Some(Module::Normal(n))
}

fn record<'a>(kind: &str, mut words: impl Iterator<Item = &'a str>) -> Option<Record> {
    let kind = meant(&IMPORT_WORDS, kind)?;
    let target = match words.next()? {
        "-" => None,
        number => Some(number.parse().ok()?),
    };
    let next = words.next()?;
    let star = next == "star";
    let span = span(if star { words.next()? } else { next })?;
    Some(Record {
        kind,
        target,
        star,
        span,
    })
}

fn line(source: &mut Source, text: &str) -> Option<()> {
    let mut words = text.split('#').next()?.split_whitespace();
    match words.next() {
        None => {}
        Some("runtime") => source.runtime = words.next()?.parse().ok()?,
        Some("external") => source.modules.push(Module::External),
        Some("module") => source.modules.push(module(words)?),
        Some(kind) => match source.modules.last_mut()? {
            Module::Normal(n) => n.records.push(record(kind, words)?),
            Module::External => return None,
        },
    }
    Some(())
}

pub fn read(text: &str) -> Result<Source, String> {
    let mut source = Source {
        runtime: 0,
        modules: Vec::new(),
    };
    for (n, text) in text.lines().enumerate() {
        line(&mut source, text).ok_or_else(|| format!("line {} does not read: {text}", n + 1))?;
    }
    Ok(source)
}

fn module_text(n: &Normal) -> String {
    let flags = [
        ("lazy", n.lazy),
        ("await", n.awaits),
        ("module", n.module_or_exports),
        ("node", n.node_esm),
        ("entry", n.entry),
    ];
    let mut text = format!("module {}", kind_word(n.scanned));
    flags.iter().filter(|(_, on)| *on).for_each(|(word, _)| {
        text.push(' ');
        text.push_str(word);
    });
    if n.await_span != Span::default() {
        let _ = write!(text, " {}..{}", n.await_span.start, n.await_span.end);
    }
    text
}

fn record_text(rec: &Record) -> String {
    let target = rec.target.map_or("-".to_string(), |t| t.to_string());
    let star = if rec.star { " star" } else { "" };
    format!(
        "  {} {target}{star} {}..{}",
        word_of(&IMPORT_WORDS, rec.kind),
        rec.span.start,
        rec.span.end
    )
}

pub fn text(source: &Source) -> String {
    let mut lines = vec![format!("runtime {}", source.runtime)];
    for module in &source.modules {
        lines.push(module.normal().map_or("external".to_string(), module_text));
        lines.extend(module.records().iter().map(record_text));
    }
    lines.join("\n") + "\n"
}
