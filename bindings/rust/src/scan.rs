//! What a requirement matches, as scans of an index.

use crate::calls::answer;
use crate::externs::semver_scan;
use crate::raw::Scans;

/// The sort keys at or above `low` and below `high`, of releases or of pre-releases.
#[derive(Clone, Debug, PartialEq, Eq)]
pub struct Scan {
    /// Whether it is about pre-releases.
    pub is_pre: bool,
    /// The lowest string that is in it.
    pub low: String,
    /// The lowest string above it.
    pub high: String,
}

impl Scan {
    /// The scan at an index, which is asked for its lengths first.
    pub(crate) fn at(scans: &Scans, index: usize) -> Scan {
        let (mut low_len, mut high_len) = (0, 0);
        semver_scan(scans, index, &mut [], &mut low_len, &mut [], &mut high_len);
        let (mut low, mut high) = (vec![0; low_len], vec![0; high_len]);
        let code = semver_scan(scans, index, &mut low, &mut low_len, &mut high, &mut high_len);
        let key = |bytes| String::from_utf8(bytes).expect("keys are ASCII");
        Scan { is_pre: answer(code) == Some(true), low: key(low), high: key(high) }
    }
}
