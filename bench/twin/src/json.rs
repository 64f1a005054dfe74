//! JSON values that are read as a form, or read over. Whatever is in them, a line that is no JSON is
//! refused as such, so no value is left before its end.

use crate::fault::Fault;
use serde::de::{Deserialize, Deserializer, MapAccess, SeqAccess, Visitor};
use std::borrow::Cow;
use std::fmt;
use std::marker::PhantomData;

/// A JSON value that was read as a form, or has another one.
pub enum Value<T> {
    Null,
    Other,
    Read(Result<T, Fault>),
}

impl<T> Value<T> {
    /// The value, or nothing where it is null. A member that is not there is null.
    pub fn if_there(self, other: Fault) -> Result<Option<T>, Fault> {
        match self {
            Value::Null => Ok(None),
            Value::Other => Err(other),
            Value::Read(value) => value.map(Some),
        }
    }

    pub fn needed(self, missing: Fault, other: Fault) -> Result<T, Fault> {
        self.if_there(other)?.ok_or(missing)
    }

    pub fn is_null(&self) -> bool {
        matches!(self, Value::Null)
    }
}

/// What a text, a list or an object is read as. What is not read as the form is another one.
pub trait Form<'de>: Sized {
    fn text(_text: &str) -> Value<Self> {
        Value::Other
    }

    /// A text that stands in the line as it is, without escapes.
    fn borrowed_text(text: &'de str) -> Value<Self> {
        Self::text(text)
    }

    fn list<A: SeqAccess<'de>>(mut list: A) -> Result<Value<Self>, A::Error> {
        while list.next_element::<Value<Unread>>()?.is_some() {}
        Ok(Value::Other)
    }

    fn object<A: MapAccess<'de>>(mut object: A) -> Result<Value<Self>, A::Error> {
        while object
            .next_entry::<Value<Unread>, Value<Unread>>()?
            .is_some()
        {}
        Ok(Value::Other)
    }
}

/// A value that is not looked at.
pub struct Unread;

impl<'de> Form<'de> for Unread {}

impl<'de> Form<'de> for Cow<'de, str> {
    fn text(text: &str) -> Value<Self> {
        Value::Read(Ok(Cow::Owned(text.to_string())))
    }

    fn borrowed_text(text: &'de str) -> Value<Self> {
        Value::Read(Ok(Cow::Borrowed(text)))
    }
}

/// What stands in lists.
pub trait Element {
    /// The refusal of an element that is of another form, or null.
    const OTHER: Fault;
}

/// All elements, or the fault of the first one that has one.
impl<'de, T: Form<'de> + Element> Form<'de> for Vec<T> {
    fn list<A: SeqAccess<'de>>(mut list: A) -> Result<Value<Self>, A::Error> {
        let mut values = Ok(Vec::new());
        while let Some(element) = list.next_element::<Value<T>>()? {
            if let Ok(read) = &mut values {
                match element.needed(T::OTHER, T::OTHER) {
                    Ok(value) => read.push(value),
                    Err(fault) => values = Err(fault),
                }
            }
        }
        Ok(Value::Read(values))
    }
}

/// Reads over the value of a member.
pub fn skip<'de, A: MapAccess<'de>>(object: &mut A) -> Result<(), A::Error> {
    object.next_value::<Value<Unread>>().map(|_| ())
}

/// The name of a member.
pub struct Name<'a>(pub Cow<'a, str>);

impl<'de> Deserialize<'de> for Name<'de> {
    fn deserialize<D: Deserializer<'de>>(deserializer: D) -> Result<Self, D::Error> {
        struct OfName;

        impl<'de> Visitor<'de> for OfName {
            type Value = Name<'de>;

            fn expecting(&self, f: &mut fmt::Formatter) -> fmt::Result {
                f.write_str("a name")
            }

            fn visit_borrowed_str<E>(self, text: &'de str) -> Result<Self::Value, E> {
                Ok(Name(Cow::Borrowed(text)))
            }

            fn visit_str<E>(self, text: &str) -> Result<Self::Value, E> {
                Ok(Name(Cow::Owned(text.to_string())))
            }
        }

        deserializer.deserialize_str(OfName)
    }
}

impl<'de, T: Form<'de>> Deserialize<'de> for Value<T> {
    fn deserialize<D: Deserializer<'de>>(deserializer: D) -> Result<Self, D::Error> {
        deserializer.deserialize_any(OfValue(PhantomData))
    }
}

struct OfValue<T>(PhantomData<T>);

impl<'de, T: Form<'de>> Visitor<'de> for OfValue<T> {
    type Value = Value<T>;

    fn expecting(&self, f: &mut fmt::Formatter) -> fmt::Result {
        f.write_str("a JSON value")
    }

    fn visit_unit<E>(self) -> Result<Self::Value, E> {
        Ok(Value::Null)
    }

    fn visit_bool<E>(self, _: bool) -> Result<Self::Value, E> {
        Ok(Value::Other)
    }

    fn visit_i64<E>(self, _: i64) -> Result<Self::Value, E> {
        Ok(Value::Other)
    }

    fn visit_u64<E>(self, _: u64) -> Result<Self::Value, E> {
        Ok(Value::Other)
    }

    fn visit_f64<E>(self, _: f64) -> Result<Self::Value, E> {
        Ok(Value::Other)
    }

    fn visit_borrowed_str<E>(self, text: &'de str) -> Result<Self::Value, E> {
        Ok(T::borrowed_text(text))
    }

    fn visit_str<E>(self, text: &str) -> Result<Self::Value, E> {
        Ok(T::text(text))
    }

    fn visit_seq<A: SeqAccess<'de>>(self, list: A) -> Result<Self::Value, A::Error> {
        T::list(list)
    }

    fn visit_map<A: MapAccess<'de>>(self, object: A) -> Result<Self::Value, A::Error> {
        T::object(object)
    }
}
