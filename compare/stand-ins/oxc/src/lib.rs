//! Stands in for `oxc`: where a piece of a script stands.

pub mod span {
    /// A span that also carries the number of the record it belongs to, so that a diagnostic tells its record.
    #[derive(Clone, Copy, Debug, Default, PartialEq, Eq)]
    pub struct Span {
        pub start: u32,
        pub end: u32,
        pub record: u32,
    }

    impl Span {
        pub const fn empty(at: u32) -> Span {
            Span {
                start: at,
                end: at,
                record: 0,
            }
        }
    }
}
