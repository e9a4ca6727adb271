//! Answers the lines of docs/CONFORMANCE.md with the core of the Rust crate.
//!
//! `compare.py` gives it lines that are well formed and that the core has a call for. Where the
//! call panics the answer is `panic`.
use crate_baseline::core::{
    ArrayDistinctBuilder, ArrayIterator, Decoder, Encoder, JsonbItem, JsonbItemType,
    ObjectIterator, ObjectKeyIterator, ObjectValueIterator,
};
use crate_baseline::error::Result;
use crate_baseline::{Error, ExtensionValue, Number, OwnedJsonb, RawJsonb, Value};
use std::cmp::Ordering;
use std::io::{BufRead, Write};

fn main() {
    std::panic::set_hook(Box::new(|_| {}));
    for line in std::io::stdin().lock().lines() {
        let line = line.unwrap();
        let answer = std::panic::catch_unwind(|| answer(&line));
        println!("{}", answer.unwrap_or_else(|_| "panic".to_string()));
        // What was answered before a failed growth ends the process is kept.
        std::io::stdout().flush().unwrap();
    }
}

fn answer(line: &str) -> String {
    let mut words = line.split(' ');
    let name = words.next().unwrap();
    let words: Vec<&str> = words.collect();
    let bytes = |at: usize| from_hex(words[at]);
    let index = |at: usize| words[at].parse::<usize>().unwrap();
    let answer = match name {
        "value_of" => RawJsonb::new(&bytes(0)).to_value().map(|value| encoded(&value)),
        "decoder" => Decoder::new(&bytes(0)).decode().map(|value| encoded(&value)),
        "item_type" => RawJsonb::new(&bytes(0)).jsonb_item_type().map(type_text),
        "item" => item(&bytes(0)),
        "array" => array(&bytes(0)),
        "keys" => keys(&bytes(0)),
        "values" => values(&bytes(0)),
        "pairs" => pairs(&bytes(0)),
        "lookup" => lookup(&bytes(0), words[1], |wanted, key| wanted == key),
        "lookup_nocase" => lookup(&bytes(0), words[1], <[u8]>::eq_ignore_ascii_case),
        "cmp" => Ok(cmp(&bytes(0), &bytes(1))),
        "try_cmp" => Ok(order(RawJsonb::new(&bytes(0)).partial_cmp(&RawJsonb::new(&bytes(1))))),
        "item_cmp" => item_cmp(&bytes(0), &bytes(1)),
        "rank" => rank(&bytes(0), &bytes(1)),
        "array_of" => array_of(&words),
        "object_of" => object_of(&words),
        "distinct" => Ok(distinct(&words)),
        "number" => Number::decode(&bytes(0)).map(number_text),
        "extension" => extension(&bytes(0)),
        "header" => header(&bytes(0), index(1)),
        "jentry" => jentry(&bytes(0), index(1)),
        "word" => RawJsonb::new(&bytes(0)).read_u32(index(1)).map(|word| format!("ok {word:08x}")),
        _ => unreachable!(),
    };
    answer.unwrap_or_else(error_text)
}

fn from_hex(word: &str) -> Vec<u8> {
    let digits = |at: usize| u8::from_str_radix(&word[at..at + 2], 16).unwrap();
    (0..word.len()).step_by(2).map(digits).collect()
}

fn hex(bytes: &[u8]) -> String {
    bytes.iter().map(|byte| format!("{byte:02x}")).collect()
}

fn error_text(error: Error) -> String {
    format!("error {error:?}")
}

fn order(order: Option<Ordering>) -> String {
    order.map_or("none".to_string(), |order| format!("{order:?}").to_lowercase())
}

fn encoded(value: &Value) -> String {
    let mut bytes = Vec::new();
    Encoder::new(&mut bytes).encode(value);
    format!("ok {}", hex(&bytes))
}

fn type_text(item_type: JsonbItemType) -> String {
    match item_type {
        JsonbItemType::Array(count) => format!("ok array {count}"),
        JsonbItemType::Object(count) => format!("ok object {count}"),
        scalar => format!("ok {scalar:?}").to_lowercase(),
    }
}

fn item_text(item: JsonbItem) -> Result<String> {
    let variant = match item {
        JsonbItem::Null => "null",
        JsonbItem::Boolean(_) => "boolean",
        JsonbItem::Number(_) => "number",
        JsonbItem::String(_) => "string",
        JsonbItem::Extension(_) => "extension",
        JsonbItem::Raw(_) => "raw",
        JsonbItem::Owned(_) => "owned",
    };
    Ok(format!("{variant} {}", hex(&OwnedJsonb::from_item(item)?.to_vec())))
}

fn item(bytes: &[u8]) -> Result<String> {
    Ok(format!("ok {}", item_text(JsonbItem::from_raw_jsonb(RawJsonb::new(bytes))?)?))
}

// A walk is left after two errors, since some of the crate's never end.
fn walk<T>(
    len: usize,
    walk: impl Iterator<Item = Result<T>>,
    text: impl Fn(T) -> Result<String>,
) -> String {
    let mut parts = vec![format!("len {len}")];
    let mut errors = 0;
    for step in walk {
        parts.push(step.and_then(&text).unwrap_or_else(|error| {
            errors += 1;
            error_text(error)
        }));
        if errors == 2 {
            break;
        }
    }
    parts.push(format!("end {len}"));
    parts.join(" | ")
}

fn array(bytes: &[u8]) -> Result<String> {
    let items = ArrayIterator::new(RawJsonb::new(bytes))?;
    Ok(items.map_or("none".to_string(), |items| walk(items.len(), items, item_text)))
}

fn keys(bytes: &[u8]) -> Result<String> {
    let keys = ObjectKeyIterator::new(RawJsonb::new(bytes))?;
    Ok(keys.map_or("none".to_string(), |keys| walk(keys.len(), keys, item_text)))
}

fn values(bytes: &[u8]) -> Result<String> {
    let values = ObjectValueIterator::new(RawJsonb::new(bytes))?;
    Ok(values.map_or("none".to_string(), |values| walk(values.len(), values, item_text)))
}

fn pairs(bytes: &[u8]) -> Result<String> {
    let pairs = ObjectIterator::new(RawJsonb::new(bytes))?;
    let text = |(key, value): (&str, JsonbItem)| {
        Ok(format!("{} {}", hex(key.as_bytes()), item_text(value)?))
    };
    Ok(pairs.map_or("none".to_string(), |pairs| walk(pairs.len(), pairs, text)))
}

fn lookup(bytes: &[u8], key: &str, is_wanted: fn(&[u8], &[u8]) -> bool) -> Result<String> {
    let name = String::from_utf8(from_hex(key)).unwrap().into();
    let found = RawJsonb::new(bytes).get_object_value_by_key_name(&name, is_wanted)?;
    found.map_or(Ok("none".to_string()), item_text)
}

fn cmp(left: &[u8], right: &[u8]) -> String {
    let (left, right) = (RawJsonb::new(left), RawJsonb::new(right));
    let same = if left == right { "same" } else { "different" };
    format!("{} {same}", order(Some(left.cmp(&right))))
}

fn item_cmp(left: &[u8], right: &[u8]) -> Result<String> {
    let left = JsonbItem::from_raw_jsonb(RawJsonb::new(left))?;
    let right = JsonbItem::from_raw_jsonb(RawJsonb::new(right))?;
    Ok(order(Some(left.cmp(&right))))
}

fn rank(left: &[u8], right: &[u8]) -> Result<String> {
    let left = RawJsonb::new(left).jsonb_item_type()?;
    let right = RawJsonb::new(right).jsonb_item_type()?;
    Ok(order(left.partial_cmp(&right)))
}

fn array_of(words: &[&str]) -> Result<String> {
    let inputs: Vec<Vec<u8>> = words.iter().map(|word| from_hex(word)).collect();
    let built = OwnedJsonb::build_array(inputs.iter().map(|bytes| RawJsonb::new(bytes)))?;
    Ok(format!("ok {}", hex(&built.to_vec())))
}

fn object_of(words: &[&str]) -> Result<String> {
    let pair = |word: &&str| {
        let (key, value) = word.split_once('=').unwrap();
        (String::from_utf8(from_hex(key)).unwrap(), from_hex(value))
    };
    let pairs: Vec<(String, Vec<u8>)> = words.iter().map(pair).collect();
    let built =
        OwnedJsonb::build_object(pairs.iter().map(|(key, value)| (key, RawJsonb::new(value))))?;
    Ok(format!("ok {}", hex(&built.to_vec())))
}

fn distinct(words: &[&str]) -> String {
    let steps: Vec<(bool, Vec<u8>)> =
        words.iter().map(|word| (word.starts_with('+'), from_hex(&word[1..]))).collect();
    let mut builder = ArrayDistinctBuilder::new(0);
    let mut results = String::new();
    for (is_push, bytes) in &steps {
        if *is_push {
            builder.push_raw_jsonb(RawJsonb::new(bytes));
        } else {
            let popped = builder.pop_raw_jsonb(RawJsonb::new(bytes));
            results += if popped.is_some() { "some " } else { "none " };
        }
    }
    let built = builder.build();
    results + &built.map_or_else(error_text, |built| format!("ok {}", hex(&built.to_vec())))
}

fn number_text(number: Number) -> String {
    let mut payload = Vec::new();
    number.compact_encode(&mut payload).unwrap();
    let value = match number {
        Number::Int64(value) => format!("int64 {value}"),
        Number::UInt64(value) => format!("uint64 {value}"),
        Number::Float64(value) => format!("float64 {value}"),
        Number::Decimal64(decimal) => format!("decimal64 {} {}", decimal.value, decimal.scale),
        Number::Decimal128(decimal) => format!("decimal128 {} {}", decimal.value, decimal.scale),
        Number::Decimal256(decimal) => format!("decimal256 {}", decimal.scale),
    };
    format!("ok {value} {}", hex(&payload))
}

fn extension(bytes: &[u8]) -> Result<String> {
    let mut payload = Vec::new();
    ExtensionValue::decode(bytes)?.compact_encode(&mut payload)?;
    Ok(format!("ok {}", hex(&payload)))
}

fn header(bytes: &[u8], index: usize) -> Result<String> {
    let (tag, count) = RawJsonb::new(bytes).read_header(index)?;
    Ok(format!("ok {tag:08x} {count}"))
}

fn jentry(bytes: &[u8], index: usize) -> Result<String> {
    let entry = RawJsonb::new(bytes).read_jentry(index)?;
    Ok(format!("ok {:08x} {} {:08x}", entry.type_code, entry.length, entry.encoded()))
}
