//! Queries, and the package URLs and tokens in them.

use serde_json::{Map, Value};
use std::borrow::Cow;
use twin::package::Package;

/// Why a query is refused: the number and the name.
pub type Fault = (u8, &'static str);

/// What is asked: a package or, where there is none, a commit alone; behind which advisory of which snapshot.
pub struct Query {
    pub package: Option<Package<'static>>,
    pub version: Option<String>,
    pub commit: Option<[u8; 20]>,
    pub token: Option<(u64, String)>,
}

/// A member that is there: null and the empty text count as absent.
fn member<'a>(object: &'a Map<String, Value>, name: &str) -> Option<&'a Value> {
    match object.get(name) {
        None | Some(Value::Null) => None,
        Some(Value::String(text)) if text.is_empty() => None,
        found => found,
    }
}

fn text<'a>(object: &'a Map<String, Value>, name: &str, fault: &'static str) -> Result<Option<&'a str>, Fault> {
    match member(object, name) {
        None => Ok(None),
        Some(Value::String(text)) => Ok(Some(text)),
        Some(_) => Err((3, fault)),
    }
}

pub fn is_id(text: &str) -> bool {
    let is_id_byte = |b: u8| b.is_ascii_alphanumeric() || b"-_.:+".contains(&b);
    (1..=128).contains(&text.len()) && text.bytes().all(is_id_byte)
}

fn token(text: &str) -> Option<(u64, String)> {
    let (number, id) = text.split_once('~')?;
    let is_plain = number.bytes().all(|b| b.is_ascii_digit()) && (number == "0" || !number.starts_with('0'));
    if !is_plain || !is_id(id) {
        return None;
    }
    Some((number.parse().ok()?, id.to_string()))
}

/// The bytes that a text with `%` and two hex digits stands for.
pub fn percent_decoded(text: &str) -> Vec<u8> {
    let bytes = text.as_bytes();
    let mut found = Vec::with_capacity(bytes.len());
    let mut at = 0;
    while at < bytes.len() {
        let digits = bytes.get(at + 1..at + 3).filter(|two| bytes[at] == b'%' && two.iter().all(u8::is_ascii_hexdigit));
        match digits.and_then(|two| u8::from_str_radix(std::str::from_utf8(two).ok()?, 16).ok()) {
            Some(byte) => {
                found.push(byte);
                at += 3;
            }
            None => {
                found.push(bytes[at]);
                at += 1;
            }
        }
    }
    found
}

fn part(text: &str) -> Option<String> {
    String::from_utf8(percent_decoded(text)).ok().filter(|text| !text.is_empty())
}

/// The package and the version of a package URL.
fn purl(text: &str) -> Option<(Package<'static>, Option<String>)> {
    let text = text.strip_prefix("pkg:")?.trim_start_matches('/');
    let text = text.split('#').next()?.split('?').next()?;
    let (front, last) = text.rsplit_once('/')?;
    let (name, version) = match last.rfind('@') {
        Some(at) if at > 0 => (&last[..at], Some(part(&last[at + 1..])?)),
        _ => (last, None),
    };
    let mut parts = front.split('/');
    let kind = parts.next()?.to_ascii_lowercase();
    let space: Vec<String> = parts.map(part).collect::<Option<_>>()?;
    let name = part(name)?;
    let joined = |mark: &str| [space.clone(), vec![name.clone()]].concat().join(mark);
    let (ecosystem, name) = match (kind.as_str(), space.len()) {
        ("pypi", 0) => ("PyPI", name),
        ("npm", 0 | 1) => ("npm", joined("/")),
        ("cargo", 0) => ("crates.io", name),
        ("golang", _) => ("Go", joined("/")),
        ("gem", 0) => ("RubyGems", name),
        ("nuget", 0) => ("NuGet", name),
        ("composer", 1) => ("Packagist", joined("/")),
        ("maven", 1) => ("Maven", joined(":")),
        ("deb", 1) if space[0] == "debian" => ("Debian", name),
        ("deb", 1) if space[0] == "ubuntu" => ("Ubuntu", name),
        _ => return None,
    };
    Some((Package::new(ecosystem.into(), Cow::Owned(name)), version))
}

fn query_of(value: &Value) -> Result<Query, Fault> {
    let object = value.as_object().ok_or((2, "NotObject"))?;
    let commit = text(object, "commit", "WrongType(Commit)")?;
    let package = match member(object, "package") {
        None => None,
        Some(Value::Object(package)) => Some(package),
        Some(_) => return Err((3, "WrongType(Package)")),
    };
    let version = text(object, "version", "WrongType(Version)")?;
    let page_token = text(object, "page_token", "WrongType(PageToken)")?;
    let none = Map::new();
    let parts = package.unwrap_or(&none);
    let name = text(parts, "name", "WrongType(Name)")?;
    let ecosystem = text(parts, "ecosystem", "WrongType(Ecosystem)")?;
    let url = text(parts, "purl", "WrongType(Purl)")?;
    let commit = commit.map(|text| commit_of(text).ok_or((4, "BadCommit"))).transpose()?;
    let named = url.map(|url| purl(url).ok_or((5, "BadPurl"))).transpose()?;
    let (mut key, mut in_purl) = (None, None);
    match (package, named, ecosystem, name) {
        (None, ..) => {}
        (_, Some((found, version)), None, None) => (key, in_purl) = (Some(found), version),
        (_, None, Some(ecosystem), Some(name)) => {
            key = Some(Package::new(Cow::Owned(ecosystem.into()), Cow::Owned(name.into())));
        }
        _ => return Err((6, "BadPackage")),
    }
    if in_purl.is_some() && version.is_some() {
        return Err((6, "BadPackage"));
    }
    if commit.is_none() && package.is_none() {
        return Err((7, "NoSubject"));
    }
    let version = version.map(str::to_string).or(in_purl);
    if commit.is_some() && version.is_some() {
        return Err((8, "CommitWithVersion"));
    }
    let token = page_token.map(|text| token(text).ok_or((9, "BadToken"))).transpose()?;
    Ok(Query { package: key, version, commit, token })
}

/// The commit that 40 hex digits spell.
pub fn commit_of(text: &str) -> Option<[u8; 20]> {
    let is_hex = text.len() == 40 && text.bytes().all(|b| b.is_ascii_hexdigit());
    let mut found = [0; 20];
    for (at, byte) in found.iter_mut().enumerate().filter(|_| is_hex) {
        *byte = u8::from_str_radix(&text[2 * at..2 * at + 2], 16).ok()?;
    }
    is_hex.then_some(found)
}

fn json(body: &[u8]) -> Result<Value, Fault> {
    serde_json::from_slice(body).map_err(|_| (1, "NotJson"))
}

pub fn read_query(body: &[u8]) -> Result<Query, Fault> {
    query_of(&json(body)?)
}

/// The queries of a batch, or the fault and the index of the query that has it.
pub fn read_batch(body: &[u8]) -> Result<Vec<Query>, (Option<usize>, Fault)> {
    let value = json(body).map_err(|fault| (None, fault))?;
    let object = value.as_object().ok_or((None, (2, "NotObject")))?;
    let queries = object.get("queries").and_then(Value::as_array).ok_or((None, (10, "NoQueries")))?;
    if queries.len() > 1_000 {
        return Err((None, (11, "TooManyQueries")));
    }
    queries.iter().enumerate().map(|(index, query)| query_of(query).map_err(|fault| (Some(index), fault))).collect()
}
