use crate::fault::{Fault, Field};
use crate::json::{skip, Element, Form, Name, Value};
use crate::package::Package;
use crate::range::Range;
use crate::time::is_time;
use crate::version::Version;
use serde::de::MapAccess;
use std::borrow::Cow;

const MOST_BYTES: usize = 1 << 24;

/// What is read of an advisory. Its texts are borrowed from the line where they have no escapes.
pub struct Advisory<'a> {
    pub id: Cow<'a, str>,
    pub modified: Cow<'a, str>,
    is_withdrawn: bool,
    affected: Vec<Affected<'a>>,
}

struct Affected<'a> {
    package: Option<Package<'a>>,
    ranges: Vec<Range<'a>>,
    versions: Vec<Cow<'a, str>>,
}

impl<'a> Advisory<'a> {
    /// The advisory, or the first test that fails: those of a member come where the tests have it,
    /// wherever it stands in the line.
    pub fn read(line: &'a [u8]) -> Result<Self, Fault> {
        if line.len() > MOST_BYTES {
            return Err(Fault::TooLarge);
        }
        let text = std::str::from_utf8(line).map_err(|_| Fault::NotJson)?;
        let value: Value<Advisory> = serde_json::from_str(text).map_err(|_| Fault::NotJson)?;
        value.needed(Fault::NotObject, Fault::NotObject)
    }

    /// The packages of its entries.
    pub fn packages(&self) -> impl Iterator<Item = &Package<'a>> {
        self.affected.iter().filter_map(|entry| entry.package.as_ref())
    }

    pub fn git_ranges(&self) -> usize {
        let ranges = |entry: &Affected| entry.ranges.iter().filter(|range| range.is_git()).count();
        self.affected.iter().map(ranges).sum()
    }

    /// Whether it touches the package, in the version where one is asked.
    pub fn is_hit(&self, asked: &Package, version: Option<&Version>) -> bool {
        !self.is_withdrawn
            && self
                .affected
                .iter()
                .any(|entry| entry.is_hit(asked, version))
    }
}

impl Affected<'_> {
    fn is_hit(&self, asked: &Package, version: Option<&Version>) -> bool {
        let package = match &self.package {
            Some(package) if package.matches(asked) => package,
            _ => return false,
        };
        version.map_or(true, |version| {
            self.versions.iter().any(|listed| listed == version.text)
                || self
                    .ranges
                    .iter()
                    .any(|range| range.contains(package.base(), version))
        })
    }
}

fn is_id(text: &str) -> bool {
    let is_id_byte = |b: u8| b.is_ascii_alphanumeric() || b"-_.:+".contains(&b);
    (1..=128).contains(&text.len()) && text.bytes().all(is_id_byte)
}

/// The value where it holds of it, else the fault.
fn tested<T>(value: T, holds: impl FnOnce(&T) -> bool, fault: Fault) -> Result<T, Fault> {
    if holds(&value) {
        Ok(value)
    } else {
        Err(fault)
    }
}

impl<'de> Form<'de> for Advisory<'de> {
    fn object<A: MapAccess<'de>>(mut object: A) -> Result<Value<Self>, A::Error> {
        let mut id: Value<Cow<str>> = Value::Null;
        let mut modified: Value<Cow<str>> = Value::Null;
        let mut withdrawn: Value<Cow<str>> = Value::Null;
        let mut affected: Value<Vec<Affected>> = Value::Null;
        while let Some(Name(name)) = object.next_key()? {
            match &*name {
                "id" => id = object.next_value()?,
                "modified" => modified = object.next_value()?,
                "withdrawn" => withdrawn = object.next_value()?,
                "affected" => affected = object.next_value()?,
                _ => skip(&mut object)?,
            }
        }
        let read = || {
            let id = tested(
                id.needed(Fault::NoId, Fault::BadId)?,
                |id| is_id(id),
                Fault::BadId,
            )?;
            let modified = modified.needed(Fault::NoModified, Fault::BadModified)?;
            let modified = tested(modified, |time| is_time(time), Fault::BadModified)?;
            let wrong = Fault::WrongType(Field::Withdrawn);
            let is_withdrawn = match withdrawn.if_there(wrong)? {
                Some(time) => tested(true, |_| is_time(&time), wrong)?,
                None => false,
            };
            let affected = affected
                .if_there(Fault::WrongType(Field::Affected))?
                .unwrap_or_default();
            Ok(Advisory {
                id,
                modified,
                is_withdrawn,
                affected,
            })
        };
        Ok(Value::Read(read()))
    }
}

impl Element for Affected<'_> {
    const OTHER: Fault = Fault::WrongType(Field::Entry);
}

/// A version in a list of them.
impl Element for Cow<'_, str> {
    const OTHER: Fault = Fault::WrongType(Field::Version);
}

impl<'de> Form<'de> for Affected<'de> {
    fn object<A: MapAccess<'de>>(mut object: A) -> Result<Value<Self>, A::Error> {
        let mut package: Value<Package> = Value::Null;
        let mut ranges: Value<Vec<Range>> = Value::Null;
        let mut versions: Value<Vec<Cow<str>>> = Value::Null;
        while let Some(Name(name)) = object.next_key()? {
            match &*name {
                "package" => package = object.next_value()?,
                "ranges" => ranges = object.next_value()?,
                "versions" => versions = object.next_value()?,
                _ => skip(&mut object)?,
            }
        }
        let read = || {
            Ok(Affected {
                package: package.if_there(Fault::BadPackage)?,
                ranges: ranges
                    .if_there(Fault::WrongType(Field::Ranges))?
                    .unwrap_or_default(),
                versions: versions
                    .if_there(Fault::WrongType(Field::Versions))?
                    .unwrap_or_default(),
            })
        };
        Ok(Value::Read(read()))
    }
}

impl<'de> Form<'de> for Package<'de> {
    fn object<A: MapAccess<'de>>(mut object: A) -> Result<Value<Self>, A::Error> {
        let mut ecosystem: Value<Cow<str>> = Value::Null;
        let mut name: Value<Cow<str>> = Value::Null;
        while let Some(Name(member)) = object.next_key()? {
            match &*member {
                "ecosystem" => ecosystem = object.next_value()?,
                "name" => name = object.next_value()?,
                _ => skip(&mut object)?,
            }
        }
        let text = |value: Value<Cow<'de, str>>| {
            let text = value.needed(Fault::BadPackage, Fault::BadPackage)?;
            tested(text, |text| !text.is_empty(), Fault::BadPackage)
        };
        let read = || Ok(Package::new(text(ecosystem)?, text(name)?));
        Ok(Value::Read(read()))
    }
}
