//! Tuchovai through its static library, where it is linked.
use crate::answers::{Answers, Fault};
use crate::source::{Options, Source};

#[cfg(library)]
pub use linked::{check, classify_card, rewrite, table_size};

/// The library's answer; none where it is not linked.
#[cfg(not(library))]
pub fn classify(_source: &Source, _options: &Options) -> Option<Result<Answers, Fault>> {
    None
}

/// The library's answer; none where it is not linked.
#[cfg(library)]
pub fn classify(source: &Source, options: &Options) -> Option<Result<Answers, Fault>> {
    Some(linked::classify(source, options))
}

#[cfg(library)]
mod linked {
    use crate::answers::{Answers, AwaitRow, Fault, Layer, Mark, WrapKind, WrapperRow};
    use crate::card;
    use crate::source::{ExportsKind, Options, Source, Span};

    /// A fault as the library writes it.
    #[repr(C)]
    #[derive(Clone, Copy, Default)]
    struct RawFault {
        number: u32,
        layer: u32,
        at: u64,
        record: u64,
    }

    unsafe extern "C" {
        fn tuchovai_check_card(image: *const u8, length: usize, fault: *mut RawFault) -> u32;
        fn tuchovai_table_size(image: *const u8, length: usize) -> usize;
        fn tuchovai_rewrite_card(
            image: *const u8,
            length: usize,
            out: *mut u8,
            room: usize,
            fault: *mut RawFault,
        ) -> u32;
        fn tuchovai_classify(
            image: *const u8,
            length: usize,
            options: u32,
            table: *mut u8,
            room: usize,
            fault: *mut RawFault,
        ) -> u32;
    }

    fn told(status: u32, fault: RawFault) -> Result<(), Fault> {
        match status {
            0 => Ok(()),
            1 => Err(Fault {
                number: fault.number,
                layer: [Layer::Card, Layer::Source, Layer::Link, Layer::Interop][fault.layer as usize - 1],
                at: fault.at as usize,
                record: fault.record as usize,
            }),
            other => panic!("status {other}"),
        }
    }

    pub fn check(image: &[u8]) -> Result<(), Fault> {
        let mut fault = RawFault::default();
        // SAFETY: the pointers and the length are those of live borrows.
        let status = unsafe { tuchovai_check_card(image.as_ptr(), image.len(), &mut fault) };
        told(status, fault)
    }

    pub fn table_size(image: &[u8]) -> usize {
        // SAFETY: as above.
        unsafe { tuchovai_table_size(image.as_ptr(), image.len()) }
    }

    pub fn rewrite(image: &[u8], out: &mut [u8]) -> Result<(), Fault> {
        let mut fault = RawFault::default();
        // SAFETY: as above; `out` and `image` are different borrows.
        let status =
            unsafe { tuchovai_rewrite_card(image.as_ptr(), image.len(), out.as_mut_ptr(), out.len(), &mut fault) };
        told(status, fault)
    }

    pub fn classify_card(image: &[u8], options: &Options, table: &mut [u8]) -> Result<(), Fault> {
        let mut fault = RawFault::default();
        let number = options.number();
        // SAFETY: as above; `table` and `image` are different borrows.
        let status = unsafe {
            tuchovai_classify(
                image.as_ptr(),
                image.len(),
                number,
                table.as_mut_ptr(),
                table.len(),
                &mut fault,
            )
        };
        told(status, fault)
    }

    fn four(bytes: &[u8], at: usize) -> u32 {
        u32::from_le_bytes(bytes[at..at + 4].try_into().expect("four bytes"))
    }

    fn wrap(number: u8) -> WrapKind {
        [WrapKind::None, WrapKind::Cjs, WrapKind::Esm][number as usize]
    }

    fn mark(row: &[u8]) -> Mark {
        assert!(row[5..8] == [0, 0, 0], "the padding is zero");
        Mark {
            kind: [ExportsKind::None, ExportsKind::Esm, ExportsKind::CommonJs][row[0] as usize],
            wrap: wrap(row[1]),
            required: row[2] == 1,
            dynamic: row[3] == 1,
            awaiting: row[4] == 1,
            entries: u64::from(four(row, 8)) + (u64::from(four(row, 12)) << 32),
        }
    }

    fn await_row(row: &[u8]) -> AwaitRow {
        AwaitRow {
            importer: four(row, 0),
            record: four(row, 4),
            source: four(row, 8),
            span: Span {
                start: four(row, 12),
                end: four(row, 16),
            },
            await_span: Span {
                start: four(row, 20),
                end: four(row, 24),
            },
        }
    }

    fn wrapper_row(row: &[u8]) -> WrapperRow {
        WrapperRow {
            wrap: wrap(row[0]),
            helper: ["__commonJS", "__commonJSMin", "__esm", "__esmMin"][row[1] as usize],
            eval: row[2] == 1,
            module: four(row, 4),
        }
    }

    /// The rows of a table.
    fn answers(table: &[u8]) -> Answers {
        let [marks, awaits, wrappers, length] = [0, 4, 8, 12].map(|at| four(table, at) as usize);
        let (awaits_at, wrappers_at) = (16 + 16 * marks, 16 + 16 * marks + 28 * awaits);
        assert_eq!(length, wrappers_at + 8 * wrappers, "the table's length");
        Answers {
            marks: table[16..awaits_at].chunks(16).map(mark).collect(),
            awaits: table[awaits_at..wrappers_at].chunks(28).map(await_row).collect(),
            wrappers: table[wrappers_at..length].chunks(8).map(wrapper_row).collect(),
        }
    }

    pub fn classify(source: &Source, options: &Options) -> Result<Answers, Fault> {
        let image = card::write(source);
        let mut table = vec![0; table_size(&image)];
        classify_card(&image, options, &mut table)?;
        Ok(answers(&table))
    }
}
