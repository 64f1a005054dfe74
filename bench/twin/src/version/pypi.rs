use super::digits::{digits, Number};
use super::Read;
use std::cmp::Ordering;

/// A version of PEP 440, in any of its spellings. The parts compare one after another.
#[derive(PartialEq, Eq, PartialOrd, Ord)]
pub struct Pypi<'a> {
    epoch: Number<'a>,
    release: Release<'a>,
    pre: Pre<'a>,
    post: Option<Number<'a>>,
    dev: Dev<'a>,
    local: Option<Local<'a>>,
}

/// A development release without pre and post is below every pre-release, a release above.
#[derive(PartialEq, Eq, PartialOrd, Ord)]
enum Pre<'a> {
    OfDev,
    Before(Word, Number<'a>),
    OfRelease,
}

#[derive(Clone, Copy, PartialEq, Eq, PartialOrd, Ord)]
enum Word {
    A,
    B,
    Rc,
}

#[derive(PartialEq, Eq, PartialOrd, Ord)]
enum Dev<'a> {
    At(Number<'a>),
    Never,
}

/// Numbers with dots between them; zeros at the end don't count.
struct Release<'a>(&'a str);

/// Segments of letters and digits with separators between them.
struct Local<'a>(&'a str);

/// Where one word begins another, the longer one comes first.
const WORDS: [(&str, Word); 8] = [
    ("alpha", Word::A),
    ("a", Word::A),
    ("beta", Word::B),
    ("b", Word::B),
    ("preview", Word::Rc),
    ("pre", Word::Rc),
    ("rc", Word::Rc),
    ("c", Word::Rc),
];

impl<'a> Read<'a> for Pypi<'a> {
    fn read(text: &'a str) -> Option<Self> {
        let text = text.trim_matches(|c| matches!(c, ' ' | '\t' | '\n' | '\x0b' | '\x0c' | '\r'));
        let text = after_word(text, "v").unwrap_or(text);
        let (epoch, rest) = epoch(text);
        let (release, rest) = release(rest)?;
        let (pre, rest) = pre(rest).map_or((None, rest), |(pre, rest)| (Some(pre), rest));
        let (post, rest) = post(rest).map_or((None, rest), |(post, rest)| (Some(post), rest));
        let (dev, rest) =
            numbered(rest, "dev").map_or((Dev::Never, rest), |(n, rest)| (Dev::At(n), rest));
        let local = match rest.strip_prefix('+') {
            Some(segments) => Some(local(segments)?),
            None if rest.is_empty() => None,
            None => return None,
        };
        let pre = pre.unwrap_or(match (&post, &dev) {
            (None, Dev::At(_)) => Pre::OfDev,
            _ => Pre::OfRelease,
        });
        Some(Pypi {
            epoch,
            release,
            pre,
            post,
            dev,
            local,
        })
    }
}

fn is_separator(byte: u8) -> bool {
    matches!(byte, b'-' | b'_' | b'.')
}

/// The text without a separator at its front, if there is one.
fn after_separator(text: &str) -> &str {
    match text.as_bytes() {
        [first, ..] if is_separator(*first) => &text[1..],
        _ => text,
    }
}

/// The text after a word at its front, whose letters are read without regard to case.
fn after_word<'a>(text: &'a str, word: &str) -> Option<&'a str> {
    match text.as_bytes().get(..word.len()) {
        Some(front) if front.eq_ignore_ascii_case(word.as_bytes()) => Some(&text[word.len()..]),
        _ => None,
    }
}

/// The number after a word: perhaps a separator before it and behind, and perhaps no digits.
fn numbered<'a>(text: &'a str, word: &str) -> Option<(Number<'a>, &'a str)> {
    let rest = after_word(after_separator(text), word)?;
    let (number, rest) = digits(after_separator(rest));
    Some((Number::new(number), rest))
}

fn epoch(text: &str) -> (Number<'_>, &str) {
    match digits(text) {
        (number, rest) if !number.is_empty() && rest.starts_with('!') => {
            (Number::new(number), &rest[1..])
        }
        _ => (Number::default(), text),
    }
}

fn release(text: &str) -> Option<(Release<'_>, &str)> {
    let (number, mut rest) = digits(text);
    if number.is_empty() {
        return None;
    }
    while let Some(behind) = rest.strip_prefix('.') {
        let (number, next) = digits(behind);
        if number.is_empty() {
            break;
        }
        rest = next;
    }
    Some((Release(&text[..text.len() - rest.len()]), rest))
}

fn pre(text: &str) -> Option<(Pre<'_>, &str)> {
    let letter = after_separator(text).bytes().next()?.to_ascii_lowercase();
    if !matches!(letter, b'a' | b'b' | b'c' | b'p' | b'r') {
        return None;
    }
    WORDS.iter().find_map(|(spelled, word)| {
        let (number, rest) = numbered(text, spelled)?;
        Some((Pre::Before(*word, number), rest))
    })
}

fn post(text: &str) -> Option<(Number<'_>, &str)> {
    if let Some((number, rest)) = text.strip_prefix('-').map(digits) {
        if !number.is_empty() {
            return Some((Number::new(number), rest));
        }
    }
    ["post", "rev", "r"]
        .iter()
        .find_map(|word| numbered(text, word))
}

fn local(text: &str) -> Option<Local<'_>> {
    let is_segment =
        |segment: &[u8]| !segment.is_empty() && segment.iter().all(u8::is_ascii_alphanumeric);
    text.as_bytes()
        .split(|b| is_separator(*b))
        .all(is_segment)
        .then_some(Local(text))
}

impl Ord for Release<'_> {
    fn cmp(&self, other: &Self) -> Ordering {
        let (mut ours, mut theirs) = (self.0.split('.'), other.0.split('.'));
        loop {
            let (our, their) = (ours.next(), theirs.next());
            if our.is_none() && their.is_none() {
                return Ordering::Equal;
            }
            let number = |part: Option<_>| part.map_or(Number::default(), Number::new);
            match number(our).cmp(&number(their)) {
                Ordering::Equal => {}
                unequal => return unequal,
            }
        }
    }
}

impl Ord for Local<'_> {
    fn cmp(&self, other: &Self) -> Ordering {
        let segments = |local: &Self| local.0.split(|c| is_separator(c as u8)).map(Segment::new);
        segments(self).cmp(segments(other))
    }
}

/// A text is below a number.
#[derive(PartialEq, Eq, PartialOrd, Ord)]
enum Segment<'a> {
    Letters(Letters<'a>),
    Number(Number<'a>),
}

/// A text whose letters compare in lower case.
struct Letters<'a>(&'a str);

impl<'a> Segment<'a> {
    fn new(text: &'a str) -> Self {
        if text.bytes().all(|b| b.is_ascii_digit()) {
            Segment::Number(Number::new(text))
        } else {
            Segment::Letters(Letters(text))
        }
    }
}

impl Ord for Letters<'_> {
    fn cmp(&self, other: &Self) -> Ordering {
        let lower = |letters: &Self| letters.0.bytes().map(|b| b.to_ascii_lowercase());
        lower(self).cmp(lower(other))
    }
}

macro_rules! compare_by_ord {
    ($($name:ident),*) => {$(
        impl PartialOrd for $name<'_> {
            fn partial_cmp(&self, other: &Self) -> Option<Ordering> {
                Some(self.cmp(other))
            }
        }

        impl PartialEq for $name<'_> {
            fn eq(&self, other: &Self) -> bool {
                self.cmp(other) == Ordering::Equal
            }
        }

        impl Eq for $name<'_> {}
    )*};
}

compare_by_ord!(Release, Local, Letters);
