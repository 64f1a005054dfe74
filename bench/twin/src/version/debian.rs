use super::digits::{digits, Number};
use super::Read;
use std::cmp::Ordering;

/// A version of Debian Policy, 5.6.12. The parts compare one after another.
#[derive(PartialEq, Eq, PartialOrd, Ord)]
pub struct Debian<'a> {
    epoch: Number<'a>,
    upstream: Part<'a>,
    revision: Part<'a>,
}

struct Part<'a>(&'a str);

impl<'a> Read<'a> for Debian<'a> {
    fn read(text: &'a str) -> Option<Self> {
        let (epoch, rest) = match text.split_once(':') {
            Some((epoch, rest)) => (Some(epoch), rest),
            None => (None, text),
        };
        let (upstream, revision) = match rest.rsplit_once('-') {
            Some((upstream, revision)) => (upstream, Some(revision)),
            None => (rest, None),
        };
        let is_in =
            |signs: &'static [u8]| move |b: u8| b.is_ascii_alphanumeric() || signs.contains(&b);
        let is_epoch = |text: &str| !text.is_empty() && text.bytes().all(|b| b.is_ascii_digit());
        let is_upstream = !upstream.is_empty() && upstream.bytes().all(is_in(b".+-~:"));
        let is_revision = |text: &str| !text.is_empty() && text.bytes().all(is_in(b"+.~"));
        let is_version =
            epoch.map_or(true, is_epoch) && is_upstream && revision.map_or(true, is_revision);
        is_version.then(|| Debian {
            epoch: Number::new(epoch.unwrap_or("")),
            upstream: Part(upstream),
            revision: Part(revision.unwrap_or("")),
        })
    }
}

/// What a sign counts where there are no digits: `~` below the end, letters above it, then the others.
fn weight(byte: Option<&u8>) -> i32 {
    match byte {
        Some(b'~') => -1,
        None => 0,
        Some(byte) if byte.is_ascii_alphabetic() => i32::from(*byte),
        Some(byte) => i32::from(*byte) + 256,
    }
}

/// The front without digits, and the rest.
fn signs(text: &str) -> (&str, &str) {
    let end = text
        .bytes()
        .position(|b| b.is_ascii_digit())
        .unwrap_or(text.len());
    text.split_at(end)
}

fn compare_signs(ours: &str, theirs: &str) -> Ordering {
    let (ours, theirs) = (ours.as_bytes(), theirs.as_bytes());
    (0..ours.len().max(theirs.len()))
        .map(|at| weight(ours.get(at)).cmp(&weight(theirs.get(at))))
        .find(|order| order.is_ne())
        .unwrap_or(Ordering::Equal)
}

impl Ord for Part<'_> {
    fn cmp(&self, other: &Self) -> Ordering {
        let (mut ours, mut theirs) = (self.0, other.0);
        while !(ours.is_empty() && theirs.is_empty()) {
            let (our_signs, our_rest) = signs(ours);
            let (their_signs, their_rest) = signs(theirs);
            let (our_digits, our_rest) = digits(our_rest);
            let (their_digits, their_rest) = digits(their_rest);
            let order = compare_signs(our_signs, their_signs)
                .then_with(|| Number::new(our_digits).cmp(&Number::new(their_digits)));
            if order.is_ne() {
                return order;
            }
            (ours, theirs) = (our_rest, their_rest);
        }
        Ordering::Equal
    }
}

impl PartialOrd for Part<'_> {
    fn partial_cmp(&self, other: &Self) -> Option<Ordering> {
        Some(self.cmp(other))
    }
}

impl PartialEq for Part<'_> {
    fn eq(&self, other: &Self) -> bool {
        self.cmp(other) == Ordering::Equal
    }
}

impl Eq for Part<'_> {}
