//! Cards, written and checked by docs/CARD.md alone.
use crate::answers::{Fault, Layer};
use crate::source::{ExportsKind, IMPORT_KINDS, Module, Normal, Record, Source, Span};

fn put2(out: &mut Vec<u8>, n: u16) {
    out.extend(n.to_le_bytes());
}

fn put4(out: &mut Vec<u8>, n: u32) {
    out.extend(n.to_le_bytes());
}

fn put_normal(out: &mut Vec<u8>, n: &Normal) {
    let flags = [n.lazy, n.awaits, n.module_or_exports, n.node_esm, n.entry];
    let bits = flags
        .iter()
        .enumerate()
        .map(|(place, flag)| u16::from(*flag) << place)
        .sum();
    out.extend([1, n.scanned as u8]);
    put2(out, bits);
    put4(out, n.await_span.start);
    put4(out, n.await_span.end);
}

fn put_module(out: &mut Vec<u8>, module: &Module, first: u32) {
    put2(out, 24);
    put2(out, 2);
    match module {
        Module::External => out.extend([0; 12]),
        Module::Normal(n) => put_normal(out, n),
    }
    put4(out, first);
    put4(out, module.records().len() as u32);
}

fn put_record(out: &mut Vec<u8>, rec: &Record) {
    let kind = IMPORT_KINDS
        .iter()
        .position(|kind| *kind == rec.kind)
        .expect("one of seven");
    put2(out, 18);
    put2(out, 3);
    out.extend([kind as u8, u8::from(rec.star)]);
    put4(out, rec.target.unwrap_or(u32::MAX));
    put4(out, rec.span.start);
    put4(out, rec.span.end);
}

pub fn write(source: &Source) -> Vec<u8> {
    let mut out = Vec::with_capacity(16 + 24 * source.modules.len() + 18 * source.record_count());
    put2(&mut out, 16);
    put2(&mut out, 1);
    put4(&mut out, source.runtime);
    put4(&mut out, source.modules.len() as u32);
    put4(&mut out, source.record_count() as u32);
    let mut first = 0;
    for module in &source.modules {
        put_module(&mut out, module, first);
        first += module.records().len() as u32;
    }
    source
        .modules
        .iter()
        .flat_map(Module::records)
        .for_each(|rec| put_record(&mut out, rec));
    out
}

fn two(image: &[u8], at: usize) -> u64 {
    u64::from(image[at]) + 256 * u64::from(image[at + 1])
}

fn four(image: &[u8], at: usize) -> u64 {
    two(image, at) + 65536 * two(image, at + 2)
}

fn refuse(number: u32, at: usize) -> Result<(), Fault> {
    Err(Fault {
        number,
        layer: Layer::Card,
        at,
        record: 0,
    })
}

fn check_head(image: &[u8]) -> Result<(), Fault> {
    if image.len() < 16 {
        return refuse(13, image.len());
    }
    if two(image, 0) != 16 || two(image, 2) != 1 {
        return refuse(14, 0);
    }
    if four(image, 8) > 4096 {
        return refuse(2, 0);
    }
    if four(image, 12) > 32768 {
        return refuse(3, 0);
    }
    if image.len() as u64 != 16 + 24 * four(image, 8) + 18 * four(image, 12) {
        return refuse(13, image.len());
    }
    Ok(())
}

/// Whether a field of the module block is outside its values.
fn module_field_wrong(block: &[u8]) -> bool {
    let (class, scanned, flags) = (block[4], block[5], two(block, 6));
    let blank = scanned == 0 && flags == 0 && four(block, 8) == 0 && four(block, 12) == 0 && four(block, 20) == 0;
    class > 1 || scanned > 2 || flags > 31 || (class == 0 && !blank)
}

/// The first fault of the module blocks, or where the records of the last module end.
fn check_modules(image: &[u8], modules: usize) -> Result<u64, Fault> {
    let mut next = 0;
    for m in 0..modules {
        let at = 16 + 24 * m;
        let block = &image[at..at + 24];
        if two(block, 0) != 24 || two(block, 2) != 2 {
            refuse(14, at)?;
        }
        if module_field_wrong(block) {
            refuse(15, at)?;
        }
        if four(block, 16) != next {
            refuse(16, m)?;
        }
        next += four(block, 20);
    }
    Ok(next)
}

fn check_records(image: &[u8], start: usize, records: usize) -> Result<(), Fault> {
    for r in 0..records {
        let at = start + 18 * r;
        let block = &image[at..at + 18];
        if two(block, 0) != 18 || two(block, 2) != 3 {
            return refuse(14, at);
        }
        if block[4] > 6 || block[5] > 1 {
            return refuse(15, at);
        }
    }
    Ok(())
}

/// The first fault of an image.
pub fn check(image: &[u8]) -> Result<(), Fault> {
    check_head(image)?;
    let (modules, records) = (four(image, 8) as usize, four(image, 12));
    let end = check_modules(image, modules)?;
    check_records(image, 16 + 24 * modules, records as usize)?;
    if end != records {
        return refuse(16, modules);
    }
    Ok(())
}

fn read_module(block: &[u8]) -> Module {
    if block[4] == 0 {
        return Module::External;
    }
    let flag = |bit: u64| two(block, 6) & bit != 0;
    Module::Normal(Normal {
        scanned: [ExportsKind::None, ExportsKind::Esm, ExportsKind::CommonJs][block[5] as usize],
        lazy: flag(1),
        awaits: flag(2),
        module_or_exports: flag(4),
        node_esm: flag(8),
        entry: flag(16),
        await_span: Span {
            start: four(block, 8) as u32,
            end: four(block, 12) as u32,
        },
        records: Vec::new(),
    })
}

fn read_record(block: &[u8]) -> Record {
    Record {
        kind: IMPORT_KINDS[block[4] as usize],
        star: block[5] == 1,
        target: Some(four(block, 6) as u32).filter(|t| *t != u32::MAX),
        span: Span {
            start: four(block, 10) as u32,
            end: four(block, 14) as u32,
        },
    }
}

/// The source that an accepted image means.
pub fn read(image: &[u8]) -> Source {
    let (runtime, count) = (four(image, 4) as u32, four(image, 8) as usize);
    let records = &image[16 + 24 * count..];
    let modules = image[16..16 + 24 * count].chunks(24).map(|block| {
        let mut module = read_module(block);
        let first = 18 * four(block, 16) as usize;
        if let Module::Normal(n) = &mut module {
            n.records = records[first..first + 18 * four(block, 20) as usize]
                .chunks(18)
                .map(read_record)
                .collect();
        }
        module
    });
    Source {
        runtime,
        modules: modules.collect(),
    }
}
