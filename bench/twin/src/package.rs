use std::borrow::Cow;

/// A package under its normal name.
pub struct Package<'a> {
    pub ecosystem: Cow<'a, str>,
    pub name: Cow<'a, str>,
}

impl<'a> Package<'a> {
    pub fn new(ecosystem: Cow<'a, str>, name: Cow<'a, str>) -> Self {
        let name = if base(&ecosystem) == "PyPI" {
            simple_name(name)
        } else {
            name
        };
        Package { ecosystem, name }
    }

    /// The ecosystem without what stands behind its first `:`.
    pub fn base(&self) -> &str {
        base(&self.ecosystem)
    }

    /// Whether this package, an advisory's, matches the asked one.
    pub fn matches(&self, asked: &Package) -> bool {
        self.name == asked.name
            && (self.ecosystem == asked.ecosystem
                || !asked.ecosystem.contains(':') && base(&self.ecosystem) == asked.ecosystem)
    }
}

/// The text before the first `:`, or all of it.
fn base(ecosystem: &str) -> &str {
    ecosystem.split(':').next().unwrap_or(ecosystem)
}

fn is_separator(byte: u8) -> bool {
    matches!(byte, b'-' | b'_' | b'.')
}

/// The name in lower case, with one dash for each run of separators (PEP 503).
fn simple_name(name: Cow<str>) -> Cow<str> {
    let bytes = name.as_bytes();
    let is_simple = !bytes
        .iter()
        .any(|b| b.is_ascii_uppercase() || matches!(b, b'_' | b'.'))
        && !bytes.windows(2).any(|pair| pair == b"--");
    if is_simple {
        return name;
    }
    let mut simple = String::with_capacity(name.len());
    for (at, letter) in name.char_indices() {
        if !letter.is_ascii() || !is_separator(letter as u8) {
            simple.push(letter.to_ascii_lowercase());
        } else if !matches!(bytes.get(at + 1), Some(next) if is_separator(*next)) {
            simple.push('-');
        }
    }
    Cow::Owned(simple)
}
