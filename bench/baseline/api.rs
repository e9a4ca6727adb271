//! The scalar accessors, which the order of the crate calls, and the calls that `driver.rs` times.
use crate::core::{Decoder, Encoder, JsonbItem};
use crate::error::Result;
use crate::{ExtensionValue, Number, RawJsonb, Value};
use std::borrow::Cow;

impl<'a> RawJsonb<'a> {
    pub fn as_str(&self) -> Result<Option<Cow<'a, str>>> {
        Ok(JsonbItem::from_raw_jsonb(*self)?.as_str())
    }

    pub fn as_bool(&self) -> Result<Option<bool>> {
        match JsonbItem::from_raw_jsonb(*self)? {
            JsonbItem::Boolean(truth) => Ok(Some(truth)),
            _ => Ok(None),
        }
    }

    pub fn as_number(&self) -> Result<Option<Number>> {
        match JsonbItem::from_raw_jsonb(*self)? {
            JsonbItem::Number(number) => number.as_number().map(Some),
            _ => Ok(None),
        }
    }

    pub fn as_extension_value(&self) -> Result<Option<ExtensionValue<'a>>> {
        match JsonbItem::from_raw_jsonb(*self)? {
            JsonbItem::Extension(extension) => extension.as_extension_value().map(Some),
            _ => Ok(None),
        }
    }
}

pub fn encode(value: &Value<'_>, buf: &mut Vec<u8>) {
    Encoder::new(buf).encode(value)
}

pub fn decode(bytes: &[u8]) -> Result<Value<'_>> {
    Decoder::new(bytes).decode()
}

/// Whether an object has a key of that name.
pub fn has(bytes: &[u8], name: &str) -> bool {
    let found = RawJsonb::new(bytes).get_object_value_by_key_name(&name.into(), |l, r| l == r);
    matches!(found, Ok(Some(_)))
}

/// Whether an object has a member of that name and number.
pub fn has_number(bytes: &[u8], name: &str, wanted: &Number) -> bool {
    match RawJsonb::new(bytes).get_object_value_by_key_name(&name.into(), |l, r| l == r) {
        Ok(Some(JsonbItem::Number(number))) => number.as_number().is_ok_and(|it| it == *wanted),
        _ => false,
    }
}
