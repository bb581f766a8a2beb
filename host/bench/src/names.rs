//! The names of the parts of a run, of what is measured and of the ratios, as they stand in the stored runs and the tables.

/// The part with the calls on every load.
pub const CALLS: &str = "calls";
/// The part with the searches without the check of the record.
pub const SEARCHES: &str = "searches";

/// The part with the searches without the check of the record, on the points of a series.
pub fn searches_of(series: &str) -> String {
    format!("{SEARCHES}, {series}")
}

/// The proved library.
pub const PROVED: &str = "proved";
/// The same algorithm in unverified Rust.
pub const PLAIN: &str = "plain";
/// The scan of a cell matrix; for fragmentation, the flood fill of one.
pub const MATRIX: &str = "matrix";
/// The comparison of two records.
pub const MEMCMP: &str = "memcmp";

/// Two of what is measured, of which the first is divided by the second.
pub type Ratio = (&'static str, &'static str);

/// The ratios of a call; a row without a cell matrix lacks that one.
pub const CALL_RATIOS: [Ratio; 3] = [(PROVED, PLAIN), (MATRIX, PROVED), (PROVED, MEMCMP)];
/// The ratios of a search. The proved one can be next to nothing beside the check, so it is not divided by.
pub const SEARCH_RATIOS: [Ratio; 2] = [(MATRIX, PLAIN), (PROVED, MATRIX)];

/// How the name of a time ends.
const NS: &str = " ns";

/// The name of a time.
pub fn time(of: &str) -> String {
    format!("{of}{NS}")
}

/// What a name is the time of, if it is a time's.
pub fn timed(name: &str) -> Option<&str> {
    name.strip_suffix(NS)
}

/// The name of a ratio.
pub fn ratio((over, under): Ratio) -> String {
    format!("{over} / {under}")
}
