use super::Read;
use std::cmp::Ordering;

/// A version of SemVer 2.0.0, by its precedence. One `v` may lead, and missing numbers are 0.
pub struct SemVer(semver::Version);

impl<'a> Read<'a> for SemVer {
    fn read(text: &'a str) -> Option<Self> {
        let text = text.strip_prefix('v').unwrap_or(text);
        let end = text
            .bytes()
            .position(|b| b == b'-' || b == b'+')
            .unwrap_or(text.len());
        let (numbers, rest) = text.split_at(end);
        let missing = match numbers.bytes().filter(|b| *b == b'.').count() {
            0 => ".0.0",
            1 => ".0",
            _ => return semver::Version::parse(text).ok().map(SemVer),
        };
        semver::Version::parse(&[numbers, missing, rest].concat())
            .ok()
            .map(SemVer)
    }
}

impl Ord for SemVer {
    fn cmp(&self, other: &Self) -> Ordering {
        let numbers = |version: &semver::Version| (version.major, version.minor, version.patch);
        numbers(&self.0)
            .cmp(&numbers(&other.0))
            .then_with(|| self.0.pre.cmp(&other.0.pre))
    }
}

impl PartialOrd for SemVer {
    fn partial_cmp(&self, other: &Self) -> Option<Ordering> {
        Some(self.cmp(other))
    }
}

impl PartialEq for SemVer {
    fn eq(&self, other: &Self) -> bool {
        self.cmp(other) == Ordering::Equal
    }
}

impl Eq for SemVer {}
