//! The trees that are encoded and read.
use crate::extension::{Date, Interval, Timestamp, TimestampTz};
use crate::number::Number;
use std::borrow::Cow;
use std::collections::BTreeMap;

pub type Object<'a> = BTreeMap<String, Value<'a>>;

#[derive(Clone, Debug)]
pub enum Value<'a> {
    Null,
    Bool(bool),
    String(Cow<'a, str>),
    Number(Number),
    Binary(&'a [u8]),
    Date(Date),
    Timestamp(Timestamp),
    TimestampTz(TimestampTz),
    Interval(Interval),
    Array(Vec<Value<'a>>),
    Object(Object<'a>),
}

impl<'a> Value<'a> {
    pub fn as_str(&self) -> Option<&Cow<'a, str>> {
        if let Value::String(text) = self {
            Some(text)
        } else {
            None
        }
    }
}

#[derive(Clone, Debug)]
pub enum JsonAst<'a> {
    Null,
    Bool(bool),
    String(Cow<'a, str>),
    Number(Number),
    Array(Vec<JsonAst<'a>>),
    Object(Vec<(Cow<'a, str>, JsonAst<'a>, usize)>),
}
