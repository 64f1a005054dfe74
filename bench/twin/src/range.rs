use crate::fault::{Fault, Field};
use crate::json::{skip, Element, Form, Name, Value};
use crate::version::{Order, Read, Version};
use serde::de::MapAccess;
use std::borrow::Cow;
use std::cmp::Ordering;

pub struct Range<'a> {
    kind: RangeKind,
    events: Vec<Event<'a>>,
}

#[derive(Clone, Copy, PartialEq)]
enum RangeKind {
    SemVer,
    Ecosystem,
    Git,
}

struct Event<'a> {
    kind: EventKind,
    value: Cow<'a, str>,
}

/// In the order of events at one version.
#[derive(Clone, Copy, PartialEq, Eq, PartialOrd, Ord)]
enum EventKind {
    Introduced,
    Fixed,
    LastAffected,
    Limit,
}

/// Where an event stands: `introduced` with `0` below every version, `limit` with `*` above.
#[derive(PartialEq, Eq, PartialOrd, Ord)]
enum Bound<V> {
    Lowest,
    At(V),
    Endless,
}

impl RangeKind {
    fn named(name: &str) -> Option<Self> {
        match name {
            "SEMVER" => Some(RangeKind::SemVer),
            "ECOSYSTEM" => Some(RangeKind::Ecosystem),
            "GIT" => Some(RangeKind::Git),
            _ => None,
        }
    }

    fn order(self, base: &str) -> Option<Order> {
        match (self, base) {
            (RangeKind::Git, _) => None,
            (RangeKind::SemVer, _) | (_, "npm" | "crates.io" | "Go") => Some(Order::SemVer),
            (_, "PyPI") => Some(Order::Pypi),
            (_, "Debian" | "Ubuntu") => Some(Order::Debian),
            _ => None,
        }
    }
}

impl Range<'_> {
    pub fn is_git(&self) -> bool {
        self.kind == RangeKind::Git
    }

    /// Whether the version is in the range of a package of this ecosystem.
    pub fn contains<'b>(&'b self, base: &str, version: &'b Version<'b>) -> bool {
        match self.kind.order(base) {
            None => false,
            Some(Order::SemVer) => is_in(&self.events, version.semver.as_ref()),
            Some(Order::Pypi) => is_in(&self.events, version.pypi.as_ref()),
            Some(Order::Debian) => is_in(&self.events, version.debian.as_ref()),
        }
    }
}

/// Whether the last event by its bound and kind that acts on the version is an introduction, and some
/// limit is above the version where there are limits. Where a value can't be read it is in none.
fn is_in<'a, V: Read<'a> + Ord>(events: &'a [Event], version: Option<&V>) -> bool {
    let version = match version {
        Some(version) => version,
        None => return false,
    };
    let mut last: Option<(Bound<V>, EventKind)> = None;
    let mut is_limited = false;
    let mut is_below_a_limit = false;
    for event in events {
        let bound: Bound<V> = match event.bound() {
            Some(bound) => bound,
            None => return false,
        };
        let order = bound.compare(version);
        if event.kind == EventKind::Limit {
            is_limited = true;
            is_below_a_limit |= order.is_gt();
            continue;
        }
        let acts = order.is_lt() || order.is_eq() && event.kind != EventKind::LastAffected;
        let placed = (bound, event.kind);
        if acts && last.as_ref().map_or(true, |last| *last < placed) {
            last = Some(placed);
        }
    }
    let is_introduced = matches!(last, Some((_, EventKind::Introduced)));
    is_introduced && (is_below_a_limit || !is_limited)
}

impl<V: Ord> Bound<V> {
    fn compare(&self, version: &V) -> Ordering {
        match self {
            Bound::Lowest => Ordering::Less,
            Bound::At(bound) => bound.cmp(version),
            Bound::Endless => Ordering::Greater,
        }
    }
}

impl Event<'_> {
    fn bound<'a, V: Read<'a>>(&'a self) -> Option<Bound<V>> {
        match (self.kind, &*self.value) {
            (EventKind::Introduced, "0") => Some(Bound::Lowest),
            (EventKind::Limit, "*") => Some(Bound::Endless),
            (_, value) => V::read(value).map(Bound::At),
        }
    }
}

impl Element for Range<'_> {
    const OTHER: Fault = Fault::WrongType(Field::Range);
}

impl Element for Event<'_> {
    const OTHER: Fault = Fault::BadEvent;
}

impl<'de> Form<'de> for Range<'de> {
    fn object<A: MapAccess<'de>>(mut object: A) -> Result<Value<Self>, A::Error> {
        let mut kind: Value<Cow<str>> = Value::Null;
        let mut repo: Value<Cow<str>> = Value::Null;
        let mut events: Value<Vec<Event>> = Value::Null;
        while let Some(Name(name)) = object.next_key()? {
            match &*name {
                "type" => kind = object.next_value()?,
                "repo" => repo = object.next_value()?,
                "events" => events = object.next_value()?,
                _ => skip(&mut object)?,
            }
        }
        let read = || {
            let kind = kind.needed(Fault::BadRangeType, Fault::BadRangeType)?;
            let kind = RangeKind::named(&kind).ok_or(Fault::BadRangeType)?;
            let repo = repo.if_there(Fault::WrongType(Field::Repo))?;
            if kind == RangeKind::Git && repo.map_or(true, |repo| repo.is_empty()) {
                return Err(Fault::GitWithoutRepo);
            }
            let events = events.needed(Fault::NoEvents, Fault::WrongType(Field::Events))?;
            if events.is_empty() {
                return Err(Fault::NoEvents);
            }
            if !events
                .iter()
                .any(|event| event.kind == EventKind::Introduced)
            {
                return Err(Fault::NoIntroduced);
            }
            Ok(Range { kind, events })
        };
        Ok(Value::Read(read()))
    }
}

impl<'de> Form<'de> for Event<'de> {
    fn object<A: MapAccess<'de>>(mut object: A) -> Result<Value<Self>, A::Error> {
        let kinds = [
            EventKind::Introduced,
            EventKind::Fixed,
            EventKind::LastAffected,
            EventKind::Limit,
        ];
        let mut values: [Value<Cow<str>>; 4] = [Value::Null, Value::Null, Value::Null, Value::Null];
        while let Some(Name(name)) = object.next_key()? {
            match &*name {
                "introduced" => values[0] = object.next_value()?,
                "fixed" => values[1] = object.next_value()?,
                "last_affected" => values[2] = object.next_value()?,
                "limit" => values[3] = object.next_value()?,
                _ => skip(&mut object)?,
            }
        }
        let mut there = kinds
            .into_iter()
            .zip(values)
            .filter(|(_, value)| !value.is_null());
        let event = match (there.next(), there.next()) {
            (Some((kind, Value::Read(Ok(value)))), None) if !value.is_empty() => {
                Ok(Event { kind, value })
            }
            _ => Err(Fault::BadEvent),
        };
        Ok(Value::Read(event))
    }
}
