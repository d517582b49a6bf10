//! Sources: random ones, shapes of a given size, and every small one of a family.
use crate::law::runs_target;
use crate::source::{ExportsKind, IMPORT_KINDS, ImportKind, Module, Normal, Options, Record, Source, Span};

/// A repeatable stream of numbers.
pub struct Random(u64);

impl Random {
    pub fn new(seed: u64) -> Random {
        Random(seed)
    }

    pub fn next(&mut self) -> u64 {
        self.0 = self.0.wrapping_add(0x9e37_79b9_7f4a_7c15);
        let mixed = (self.0 ^ (self.0 >> 30)).wrapping_mul(0xbf58_476d_1ce4_e5b9);
        let mixed = (mixed ^ (mixed >> 27)).wrapping_mul(0x94d0_49bb_1331_11eb);
        mixed ^ (mixed >> 31)
    }

    /// A number below `n`.
    pub fn below(&mut self, n: usize) -> usize {
        (self.next() % n as u64) as usize
    }

    pub fn percent(&mut self, n: usize) -> bool {
        self.below(100) < n
    }

    pub fn pick<T: Copy>(&mut self, from: &[T]) -> T {
        from[self.below(from.len())]
    }

    fn span(&mut self) -> Span {
        Span {
            start: self.next() as u32,
            end: self.next() as u32,
        }
    }

    pub fn options(&mut self) -> Options {
        Options::numbered(self.next() as u32)
    }
}

/// How a random source is mixed, in percent.
struct Mix {
    external: usize,
    flag: usize,
    awaits: usize,
    star: usize,
    /// Kinds that are drawn from, some of them several times.
    kinds: &'static [ImportKind],
    scanned: &'static [ExportsKind],
}

const MIXES: [Mix; 5] = [
    Mix {
        external: 15,
        flag: 30,
        awaits: 10,
        star: 25,
        kinds: &IMPORT_KINDS,
        scanned: &[ExportsKind::None, ExportsKind::Esm, ExportsKind::CommonJs],
    },
    Mix {
        external: 5,
        flag: 10,
        awaits: 5,
        star: 70,
        kinds: &[ImportKind::Import],
        scanned: &[
            ExportsKind::Esm,
            ExportsKind::Esm,
            ExportsKind::Esm,
            ExportsKind::Esm,
            ExportsKind::CommonJs,
        ],
    },
    Mix {
        external: 5,
        flag: 10,
        awaits: 15,
        star: 5,
        kinds: &[
            ImportKind::Import,
            ImportKind::Import,
            ImportKind::Import,
            ImportKind::Require,
        ],
        scanned: &[ExportsKind::Esm],
    },
    Mix {
        external: 10,
        flag: 40,
        awaits: 2,
        star: 0,
        kinds: &[ImportKind::Import, ImportKind::Require, ImportKind::DynamicImport],
        scanned: &[
            ExportsKind::None,
            ExportsKind::None,
            ExportsKind::CommonJs,
            ExportsKind::Esm,
        ],
    },
    Mix {
        external: 20,
        flag: 5,
        awaits: 0,
        star: 40,
        kinds: &[
            ImportKind::Import,
            ImportKind::DynamicImport,
            ImportKind::NewUrl,
            ImportKind::HotAccept,
        ],
        scanned: &[ExportsKind::None, ExportsKind::Esm],
    },
];

fn random_module(random: &mut Random, mix: &Mix) -> Module {
    if random.percent(mix.external) {
        return Module::External;
    }
    let awaits = random.percent(mix.awaits);
    Module::Normal(Normal {
        scanned: random.pick(mix.scanned),
        lazy: random.percent(mix.flag),
        awaits,
        module_or_exports: random.percent(mix.flag),
        node_esm: random.percent(mix.flag),
        entry: random.percent(mix.flag / 3),
        await_span: random.span(),
        records: Vec::new(),
    })
}

/// A record of a normal module that no rule refuses.
fn lawful_record(random: &mut Random, mix: &Mix, source: &Source, m: usize, options: &Options) -> Record {
    let len = source.modules.len();
    let near = (m + len + random.below(7) - 3) % len;
    let place = if random.percent(30) { near } else { random.below(len) };
    let mut rec = Record {
        kind: random.pick(mix.kinds),
        target: (!random.percent(4)).then_some(place as u32),
        star: false,
        span: random.span(),
    };
    let normal = rec.target.is_some_and(|t| source.normal(t).is_some());
    if normal && matches!(rec.kind, ImportKind::AtImport | ImportKind::UrlImport) {
        rec.kind = ImportKind::NewUrl;
    }
    if runs_target(&rec, options) && rec.target == Some(source.runtime) {
        rec.kind = ImportKind::HotAccept;
    }
    let esm = source.normal(m as u32).is_some_and(|n| n.scanned == ExportsKind::Esm);
    rec.star = rec.kind == ImportKind::Import && esm && random.percent(mix.star);
    rec
}

/// A random lawful source of so many modules and about so many records, with at most 64 entries.
pub fn random_lawful(random: &mut Random, modules: usize, records: usize, options: &Options) -> Source {
    let mix = random.below(MIXES.len());
    of_mix(random, mix, modules, records, options)
}

/// The same of one mix, by its number.
pub fn of_mix(random: &mut Random, mix: usize, modules: usize, records: usize, options: &Options) -> Source {
    let mix = &MIXES[mix];
    let mut source = Source {
        runtime: random.below(modules) as u32,
        modules: Vec::new(),
    };
    source.modules.extend((0..modules).map(|_| random_module(random, mix)));
    source.modules[source.runtime as usize] = Module::Normal(Normal::plain(ExportsKind::Esm));
    let mut entries = 0;
    for module in &mut source.modules {
        if let Module::Normal(n) = module {
            n.entry &= entries < 64;
            entries += usize::from(n.entry);
        }
    }
    for _ in 0..records {
        let m = random.below(modules);
        if source.normal(m as u32).is_some() {
            let rec = lawful_record(random, mix, &source, m, options);
            let Module::Normal(n) = &mut source.modules[m] else {
                continue;
            };
            n.records.push(rec);
        }
    }
    source
}

/// A lawful source of the full size: 4,096 modules and 32,768 records.
pub fn full_size(random: &mut Random, options: &Options) -> Source {
    let mut source = random_lawful(random, 4096, 32768, options);
    let runtime = source.runtime as usize;
    while source.record_count() < 32768 {
        let m = random.below(4096);
        let missing = 32768 - source.record_count();
        let Module::Normal(n) = &mut source.modules[m] else {
            continue;
        };
        let url = Record {
            kind: ImportKind::NewUrl,
            target: Some(runtime as u32),
            star: false,
            span: Span::default(),
        };
        n.records.extend(vec![url; missing.min(1000)]);
    }
    source
}

/// Breaks one rule or several, or none.
pub fn damaged(random: &mut Random, mut source: Source) -> Source {
    for _ in 0..1 + random.below(2) {
        let m = random.below(source.modules.len());
        let len = source.modules.len();
        match random.below(6) {
            0 => source.runtime = random.below(len + 2) as u32,
            1 => source.modules[m] = random_module(random, &MIXES[0]),
            damage => {
                let (runtime, star, past) = (source.runtime, damage == 2, len + random.below(3));
                let Module::Normal(n) = &mut source.modules[m] else {
                    continue;
                };
                if n.records.is_empty() {
                    continue;
                }
                let at = random.below(n.records.len());
                let rec = &mut n.records[at];
                rec.star |= star;
                match damage {
                    3 => rec.target = Some(past as u32),
                    4 => rec.kind = random.pick(&IMPORT_KINDS),
                    5 => rec.target = Some(runtime),
                    _ => {}
                }
            }
        }
    }
    source
}

/// Small sources: module 0 is the runtime without records, and the others and their records are drawn from two lists.
pub struct Family {
    pub modules: usize,
    pub records: usize,
    pub described: Vec<Module>,
    /// A kind and a star; each comes with every target.
    pub kinds: Vec<(ImportKind, bool)>,
    /// Whether the runtime is a target too.
    pub to_runtime: bool,
}

/// The numbers of one choice for each of `places`, each below `choices`; false after the last.
fn next_choice(places: &mut [usize], choices: usize) -> bool {
    for place in places.iter_mut() {
        *place += 1;
        if *place < choices {
            return true;
        }
        *place = 0;
    }
    false
}

/// The next list of importers, none before the one in front of it; false after the last.
fn next_rising(importers: &mut [usize], choices: usize) -> bool {
    for at in (0..importers.len()).rev() {
        if importers[at] + 1 < choices {
            let next = importers[at] + 1;
            importers[at..].fill(next);
            return true;
        }
    }
    false
}

impl Family {
    fn record(&self, choice: usize, at: usize) -> Record {
        let lowest = usize::from(!self.to_runtime);
        let targets = self.modules + 1 - lowest;
        let (kind, star) = self.kinds[choice / targets];
        let target = (choice % targets + lowest) as u32;
        let start = 10 * at as u32;
        Record {
            kind,
            target: Some(target),
            star,
            span: Span { start, end: start + 5 },
        }
    }

    /// The source of these choices, if no external module would have a record.
    fn source(&self, described: &[usize], importers: &[usize], choices: &[usize]) -> Option<Source> {
        let mut modules = vec![Module::Normal(Normal::plain(ExportsKind::Esm))];
        modules.extend(described.iter().map(|d| self.described[*d].clone()));
        for (at, (importer, choice)) in importers.iter().zip(choices).enumerate() {
            let Module::Normal(n) = &mut modules[importer + 1] else {
                return None;
            };
            n.records.push(self.record(*choice, at));
        }
        Some(Source { runtime: 0, modules })
    }

    /// Visits every source with exactly so many records.
    pub fn each(&self, records: usize, visit: &mut impl FnMut(&Source)) {
        let choices = self.kinds.len() * (self.modules + usize::from(self.to_runtime));
        let mut importers = vec![0; records];
        loop {
            let mut chosen = vec![0; records];
            loop {
                let mut described = vec![0; self.modules];
                loop {
                    if let Some(source) = self.source(&described, &importers, &chosen) {
                        visit(&source);
                    }
                    if !next_choice(&mut described, self.described.len()) {
                        break;
                    }
                }
                if !next_choice(&mut chosen, choices) {
                    break;
                }
            }
            if !next_rising(&mut importers, self.modules) {
                break;
            }
        }
    }

    /// Visits every source of the family, those with fewer records first.
    pub fn every(&self, visit: &mut impl FnMut(&Source)) {
        for records in 0..=self.records {
            self.each(records, visit);
        }
    }
}

/// Every description with the flags that a pass reads, and the external one.
pub fn all_descriptions() -> Vec<Module> {
    let mut all = vec![Module::External];
    for scanned in [ExportsKind::None, ExportsKind::Esm, ExportsKind::CommonJs] {
        for flags in 0..16 {
            let mut n = Normal::plain(scanned);
            n.lazy = flags & 1 != 0;
            n.awaits = flags & 2 != 0;
            n.module_or_exports = flags & 4 != 0;
            n.entry = flags & 8 != 0;
            n.await_span = if n.awaits {
                Span { start: 90, end: 95 }
            } else {
                Span::default()
            };
            all.push(Module::Normal(n));
        }
    }
    all
}

/// A module of a kind, awaiting or not.
pub fn described(scanned: ExportsKind, awaits: bool) -> Module {
    let mut n = Normal::plain(scanned);
    n.awaits = awaits;
    n.await_span = if awaits {
        Span { start: 90, end: 95 }
    } else {
        Span::default()
    };
    Module::Normal(n)
}
