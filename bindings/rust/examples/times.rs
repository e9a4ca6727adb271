//! Times the crate, and prints a table: the median of the rounds, in which the calls take turns.
//!
//!     cargo run --release --example times

use std::time::Instant;

use kohiblad::{bytes, Error, OwnedJsonb, Path, RawJsonb};

const ROUNDS: usize = 21;
const ROWS: usize = 2000;

/// A call on all rows, of which the table shows the time of one. The compiler cannot drop a call of
/// the library, so the results need no use.
struct Timed<'a> {
    name: &'a str,
    call: Box<dyn Fn() -> Result<(), Error> + 'a>,
    nanoseconds: Vec<f64>,
}

fn timed<'a>(name: &'a str, call: impl Fn() -> Result<(), Error> + 'a) -> Timed<'a> {
    Timed {
        name,
        call: Box::new(call),
        nanoseconds: Vec::new(),
    }
}

/// A call on each row.
fn each<'a, R, T>(
    name: &'a str,
    rows: &'a [R],
    call: impl Fn(&'a R) -> Result<T, Error> + 'a,
) -> Timed<'a> {
    timed(name, move || {
        for row in rows {
            call(row)?;
        }
        Ok(())
    })
}

/// A row of ten members; the numbers of rows are in no order.
fn text(number: usize) -> String {
    let id = number * 7919 % ROWS;
    [
        format!(r#"{{"id":{id},"name":"Ada Lovelace","price":12.50,"tags":["new","red"],"#),
        r#""seen":null,"active":true,"city":"Oslo","lat":59.913868,"lon":10.752245,"#.into(),
        r#""note":"a \"short\" note"}"#.into(),
    ]
    .concat()
}

fn main() -> Result<(), Error> {
    let texts: Vec<_> = (0..ROWS).map(text).collect();
    let parsed: Result<Vec<_>, _> = texts.iter().map(|it| OwnedJsonb::parse(it, 64)).collect();
    let documents = parsed?;
    let rows: Vec<_> = documents.iter().map(OwnedJsonb::as_raw).collect();
    let wanted = OwnedJsonb::parse(r#"{"city":"Oslo","tags":["red"]}"#, 64)?;
    let more = OwnedJsonb::parse(r#"{"price":3,"stock":7}"#, 64)?;
    let (price, second_tag) = (Path::new().key("price"), Path::new().key("tags").index(1));
    let mut table = [
        each("parse", &texts, |text| OwnedJsonb::parse(text, 64)),
        each("print", &rows, |row| row.compact_text()),
        each("check", &rows, |row| RawJsonb::new(row.as_bytes())),
        each("find the last key, in place", &rows, |row| {
            Ok(row.find("tags"))
        }),
        each("get the last key, as a document", &rows, |row| {
            row.get("tags")
        }),
        each("the same, of a row that is not checked", &rows, |row| {
            bytes::get(row.as_bytes(), "tags")
        }),
        each("walk over all members", &rows, |row| {
            Ok(row.members().map(Iterator::count))
        }),
        each("make the comparable key", &rows, |row| row.key()),
        each("contains two members", &rows, |row| {
            row.contains(wanted.as_raw())
        }),
        each("set a member", &rows, |row| row.set(&price, 3)),
        each("remove an item of a member", &rows, |row| {
            row.remove(&second_tag)
        }),
        each("concatenate with two members", &rows, |row| {
            row.concat(more.as_raw())
        }),
        each("index keys", &rows, |row| row.index_keys()),
        timed("sort: `bytes::sorted_order`", || {
            bytes::sorted_order(&rows).map(drop)
        }),
        timed("sort by the comparable key", || {
            let keys: Result<Vec<_>, _> = rows.iter().map(RawJsonb::key).collect();
            let mut keyed: Vec<_> = keys?.into_iter().zip(&rows).collect();
            keyed.sort_by(|left, right| left.0.cmp(&right.0));
            Ok(())
        }),
        timed("sort: `Vec::sort`", || {
            let mut sorted = rows.clone();
            sorted.sort();
            Ok(())
        }),
    ];
    for _ in 0..ROUNDS {
        for row in &mut table {
            let start = Instant::now();
            (row.call)()?;
            row.nanoseconds
                .push(start.elapsed().as_nanos() as f64 / ROWS as f64);
        }
    }
    println!("| call | ns for a row |\n|---|---|");
    for row in &mut table {
        row.nanoseconds.sort_by(f64::total_cmp);
        println!("| {} | {:.0} |", row.name, row.nanoseconds[ROUNDS / 2]);
    }
    Ok(())
}
