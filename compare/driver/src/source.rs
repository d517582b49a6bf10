//! A source of scanned modules, as plain values.

pub const MODULE_LIMIT: usize = 4096;
pub const RECORD_LIMIT: usize = 32768;

#[derive(Clone, Copy, Debug, PartialEq, Eq)]
pub enum ExportsKind {
    None,
    Esm,
    CommonJs,
}

#[derive(Clone, Copy, Debug, PartialEq, Eq)]
pub enum ImportKind {
    Import,
    Require,
    DynamicImport,
    AtImport,
    UrlImport,
    NewUrl,
    HotAccept,
}

pub const IMPORT_KINDS: [ImportKind; 7] = [
    ImportKind::Import,
    ImportKind::Require,
    ImportKind::DynamicImport,
    ImportKind::AtImport,
    ImportKind::UrlImport,
    ImportKind::NewUrl,
    ImportKind::HotAccept,
];

#[derive(Clone, Copy, Debug, Default, PartialEq, Eq)]
pub struct Span {
    pub start: u32,
    pub end: u32,
}

#[derive(Clone, Debug, PartialEq, Eq)]
pub struct Record {
    pub kind: ImportKind,
    pub target: Option<u32>,
    pub star: bool,
    pub span: Span,
}

#[derive(Clone, Debug, PartialEq, Eq)]
pub struct Normal {
    pub scanned: ExportsKind,
    pub lazy: bool,
    pub awaits: bool,
    pub module_or_exports: bool,
    pub node_esm: bool,
    pub entry: bool,
    pub await_span: Span,
    pub records: Vec<Record>,
}

impl Normal {
    /// A module of this kind with no flag and no record.
    pub fn plain(scanned: ExportsKind) -> Normal {
        Normal {
            scanned,
            lazy: false,
            awaits: false,
            module_or_exports: false,
            node_esm: false,
            entry: false,
            await_span: Span::default(),
            records: Vec::new(),
        }
    }
}

#[derive(Clone, Debug, PartialEq, Eq)]
pub enum Module {
    External,
    Normal(Normal),
}

impl Module {
    pub fn normal(&self) -> Option<&Normal> {
        match self {
            Module::External => None,
            Module::Normal(m) => Some(m),
        }
    }

    pub fn records(&self) -> &[Record] {
        self.normal().map_or(&[], |m| &m.records)
    }
}

#[derive(Clone, Debug, PartialEq, Eq)]
pub struct Source {
    pub runtime: u32,
    pub modules: Vec<Module>,
}

impl Source {
    pub fn record_count(&self) -> usize {
        self.modules.iter().map(|m| m.records().len()).sum()
    }

    pub fn normal(&self, m: u32) -> Option<&Normal> {
        self.modules.get(m as usize).and_then(Module::normal)
    }

    /// Every record with a target, in scan order: importer, place of the record, record, target.
    pub fn resolved(&self) -> impl Iterator<Item = (usize, usize, &Record, usize)> {
        self.modules.iter().enumerate().flat_map(|(m, module)| {
            let records = module.records().iter().enumerate();
            records.filter_map(move |(k, rec)| rec.target.map(|t| (m, k, rec, t as usize)))
        })
    }
}

#[derive(Clone, Copy, Debug, PartialEq, Eq)]
pub enum Format {
    Esm,
    Cjs,
    Iife,
    Umd,
}

pub const FORMATS: [Format; 4] = [Format::Esm, Format::Cjs, Format::Iife, Format::Umd];

#[derive(Clone, Copy, Debug, PartialEq, Eq)]
pub struct Options {
    pub format: Format,
    pub splitting_off: bool,
    pub strict_order: bool,
    pub manual_groups: bool,
    pub profiler_names: bool,
}

impl Options {
    /// The format by its low two bits, then the four switches.
    pub fn numbered(n: u32) -> Options {
        Options {
            format: FORMATS[(n % 4) as usize],
            splitting_off: n & 4 != 0,
            strict_order: n & 8 != 0,
            manual_groups: n & 16 != 0,
            profiler_names: n & 32 != 0,
        }
    }

    pub fn number(&self) -> u32 {
        let format = FORMATS.iter().position(|f| *f == self.format).expect("one of four") as u32;
        format
            + 4 * u32::from(self.splitting_off)
            + 8 * u32::from(self.strict_order)
            + 16 * u32::from(self.manual_groups)
            + 32 * u32::from(self.profiler_names)
    }
}
