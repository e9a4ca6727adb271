//! Times the library beside the core of the Rust crate, in one run, on the same bytes.
use crate_baseline::core::{ArrayBuilder, ObjectBuilder};
use crate_baseline::{api, Decimal64, Number, RawJsonb, Value};
use std::borrow::Cow;
use std::collections::BTreeMap;
use std::hint::black_box;
use std::time::Instant;

// What takes memory here has a parameter of no bytes, which C does not see.
extern "C" {
    fn measured_check(bytes: *const u8, length: usize) -> bool;
    fn measured_build(bytes: *const u8, length: usize) -> bool;
    fn measured_encode(bytes: *const u8, length: usize, times: usize) -> usize;
    fn measured_find(bytes: *const u8, length: usize, name: *const u8, name_length: usize) -> bool;
    fn measured_get(
        bytes: *const u8,
        length: usize,
        name: *const u8,
        name_length: usize,
        times: usize,
    ) -> usize;
    fn measured_text(bytes: *const u8, length: usize, times: usize) -> usize;
    fn measured_cmp(
        left: *const u8,
        left_length: usize,
        right: *const u8,
        right_length: usize,
    ) -> i32;
    fn measured_print(bytes: *const u8, length: usize) -> usize;
    fn measured_parse(text: *const u8, length: usize) -> usize;
    fn measured_sort(
        bytes: *const u8,
        length: usize,
        ends: *const u64,
        count: usize,
        order: *mut u64,
        room: usize,
    ) -> bool;
    fn measured_sort_views(
        bytes: *const u8,
        length: usize,
        ends: *const u64,
        count: usize,
    ) -> usize;
    fn measured_keys(bytes: *const u8, length: usize, ends: *const u64, count: usize) -> usize;
    fn measured_sort_by_keys(
        bytes: *const u8,
        length: usize,
        ends: *const u64,
        count: usize,
        order: *mut u64,
        room: usize,
    ) -> bool;
    fn measured_canonical(bytes: *const u8, length: usize) -> usize;
    fn measured_array(
        bytes: *const u8,
        length: usize,
        ends: *const u64,
        count: usize,
        times: usize,
    ) -> usize;
    fn measured_array_of_documents(
        bytes: *const u8,
        length: usize,
        ends: *const u64,
        count: usize,
        times: usize,
    ) -> usize;
    fn measured_object(
        names: *const u8,
        names_length: usize,
        name_ends: *const u64,
        name_count: usize,
        bytes: *const u8,
        length: usize,
        ends: *const u64,
        count: usize,
        times: usize,
    ) -> usize;
    fn measured_object_of_documents(
        names: *const u8,
        names_length: usize,
        name_ends: *const u64,
        name_count: usize,
        bytes: *const u8,
        length: usize,
        ends: *const u64,
        count: usize,
        times: usize,
    ) -> usize;
}

unsafe extern "C" {
    // 1 if simdjson reads the text.
    fn simdjson_reads(text: *const u8, length: usize) -> usize;
}

// The seconds that a call of each takes, the least of fifteen. They take turns, so that what else
// the machine does meets all.
fn least_of<const N: usize>(mut calls: [&mut dyn FnMut() -> usize; N]) -> [f64; N] {
    let mut least = [f64::INFINITY; N];
    for _ in 0..15 {
        for (call, least) in calls.iter_mut().zip(&mut least) {
            *least = least.min(seconds(call));
        }
    }
    least
}

fn fastest(mut ours: impl FnMut() -> usize, mut theirs: impl FnMut() -> usize) -> (f64, f64) {
    let [ours, theirs] = least_of([&mut ours, &mut theirs]);
    (ours, theirs)
}

fn seconds(call: &mut (impl FnMut() -> usize + ?Sized)) -> f64 {
    let start = Instant::now();
    black_box(call());
    start.elapsed().as_secs_f64()
}

fn numbers() -> Value<'static> {
    Value::Array(
        (0..100_000u64)
            .map(|i| Value::Number(Number::UInt64(i * 7919 % 1_000_003)))
            .collect(),
    )
}

fn string(text: String) -> Value<'static> {
    Value::String(Cow::Owned(text))
}

fn objects(count: usize) -> Value<'static> {
    let object = |i: usize| {
        let pairs = (0..10).map(|k| (format!("key{k:02}"), string(format!("value {i} {k}"))));
        Value::Object(pairs.collect::<BTreeMap<_, _>>())
    };
    Value::Array((0..count).map(object).collect())
}

fn deep() -> Value<'static> {
    (0..1000).fold(Value::Null, |inner, _| {
        Value::Object(BTreeMap::from([("inner".to_string(), inner)]))
    })
}

// An object of so many keys: of numbers in order, which begin alike, or of numbers scattered, which
// differ from their first bytes on.
fn keyed(count: usize, name: fn(usize) -> String) -> Value<'static> {
    let pairs = (0..count).map(|k| (name(k), Value::Number(Number::UInt64(k as u64))));
    Value::Object(pairs.collect::<BTreeMap<_, _>>())
}

fn numbered(number: usize) -> String {
    format!("key{number:06}")
}

fn scattered(number: usize) -> String {
    format!("{:08x}x", (number as u32).wrapping_mul(2_654_435_761))
}

fn report(name: &str, what: &str, bytes: usize, ours: f64, theirs: f64) {
    report_beside(name, what, bytes, ours, theirs, "");
}

// The same, with what the other side is, if it is not the crate.
fn report_beside(name: &str, what: &str, bytes: usize, ours: f64, theirs: f64, side: &str) {
    let megabytes = bytes as f64 / 1e6;
    println!(
        "{name:10} {what:8} {:9.1} MB/s, the crate {:9.1} MB/s: {:.2} of its time{side}",
        megabytes / ours,
        megabytes / theirs,
        ours / theirs
    );
}

fn documents() {
    for (name, value) in [
        ("numbers", numbers()),
        ("objects", objects(10_000)),
        ("deep", deep()),
        ("of 3000", keyed(3_000, numbered)),
    ] {
        let mut bytes = Vec::new();
        api::encode(&value, &mut bytes);
        let (start, length) = (bytes.as_ptr(), bytes.len());
        assert!(unsafe { measured_check(start, length) });
        let (ours, theirs) = fastest(
            || unsafe { measured_check(start, length) as usize },
            || api::decode(&bytes).is_ok() as usize,
        );
        report(name, "check", length, ours, theirs);
        let to_value = || RawJsonb::new(&bytes).to_value().is_ok() as usize;
        let (ours, theirs) = fastest(
            || unsafe { measured_build(start, length) as usize },
            to_value,
        );
        report(name, "build", length, ours, theirs);
        encode(name, &value, &bytes);
    }
}

// Our side builds the value that it encodes: what ten more turns take is the encoder's alone.
fn encode(name: &str, value: &Value, bytes: &[u8]) {
    let (start, length) = (bytes.as_ptr(), bytes.len());
    assert_eq!(unsafe { measured_encode(start, length, 1) }, length);
    let turns = |times| move || unsafe { measured_encode(start, length, times) };
    let (eleven, theirs) = fastest(turns(11), || (0..10).map(|_| encoded(value).len()).sum());
    let (once, _) = fastest(turns(1), || encoded(value).len());
    report(name, "encode", 10 * length, eleven - once, theirs);
}

fn look_ups() {
    for (shape, name) in [
        ("numbered", numbered as fn(usize) -> String),
        ("scattered", scattered),
    ] {
        for count in [10, 1_000, 100_000] {
            look_up(shape, count, name);
        }
    }
}

fn look_up(shape: &str, count: usize, name: fn(usize) -> String) {
    let value = keyed(count, name);
    let bytes = encoded(&value);
    let Value::Object(pairs) = &value else {
        unreachable!()
    };
    let turns = 1_000_000 / count;
    for (place, key) in [("first", 0), ("middle", count / 2), ("last", count - 1)] {
        let name = pairs.keys().nth(key).unwrap();
        let find = || unsafe {
            measured_find(
                black_box(bytes.as_ptr()),
                bytes.len(),
                name.as_ptr(),
                name.len(),
            )
        };
        let (ours, theirs) = fastest(
            || (0..turns).filter(|_| find()).count(),
            || {
                (0..turns)
                    .filter(|_| api::has(black_box(&bytes), name))
                    .count()
            },
        );
        println!(
            "{place:6} of {count:6} {shape:9} {:10.1} ns, the crate {:10.1} ns: {:.2} of its time",
            ours * 1e9 / turns as f64,
            theirs * 1e9 / turns as f64,
            ours / theirs
        );
        // A document is checked at each call: what so many more turns take is the look-up's alone.
        let get = |times| unsafe {
            measured_get(
                black_box(bytes.as_ptr()),
                bytes.len(),
                name.as_ptr(),
                name.len(),
                times,
            )
        };
        assert_eq!(get(turns), turns);
        let (more, theirs) = fastest(
            || get(turns + 1),
            || {
                (0..turns)
                    .filter(|_| api::has(black_box(&bytes), name))
                    .count()
            },
        );
        let (once, _) = fastest(|| get(1), || 0);
        let ours = more - once;
        println!(
            "{place:6} of {count:6} {shape:9} {:10.1} ns, the crate {:10.1} ns: \
             {:.2} of its time (get of a document)",
            ours * 1e9 / turns as f64,
            theirs * 1e9 / turns as f64,
            ours / theirs
        );
    }
}

fn encoded(value: &Value) -> Vec<u8> {
    let mut bytes = Vec::new();
    api::encode(value, &mut bytes);
    bytes
}

fn sorts() {
    let shapes: [(&str, fn(usize) -> Value<'static>); 5] = [
        ("numbers", |i| {
            Value::Number(Number::UInt64((i as u64 * 7919) % 1_000_003))
        }),
        ("strings", |i| {
            string(format!("value {}", (i * 7919) % 1_000_003))
        }),
        ("objects", |i| {
            let pairs = (0..4).map(|k| {
                (
                    format!("key{k}"),
                    Value::Number(Number::UInt64(((i * 7919 + k * i) % 100_003) as u64)),
                )
            });
            Value::Object(pairs.collect::<BTreeMap<_, _>>())
        }),
        ("of 20", |i| {
            let pairs = (0..20).map(|k| {
                (
                    format!("key{k:02}"),
                    Value::Number(Number::UInt64(((i * 7919 + k * i) % 100_003) as u64)),
                )
            });
            Value::Object(pairs.collect::<BTreeMap<_, _>>())
        }),
        ("arrays", |i| {
            Value::Array(
                (0..50)
                    .map(|k| Value::Number(Number::UInt64(((i * 7919 + k * i) % 100_003) as u64)))
                    .collect(),
            )
        }),
    ];
    for (name, shape) in shapes {
        let documents: Vec<Vec<u8>> = (0..100_000).map(|i| encoded(&shape(i))).collect();
        let size = documents.iter().map(Vec::len).sum();
        let sort = || {
            let mut all: Vec<&[u8]> = documents.iter().map(Vec::as_slice).collect();
            all.sort_by(|l, r| {
                unsafe { measured_cmp(l.as_ptr(), l.len(), r.as_ptr(), r.len()) }.cmp(&0)
            });
            all[0].len()
        };
        let (ours, theirs) = fastest(sort, || sort_theirs(&documents));
        report(name, "sort", size, ours, theirs);
        sort_views(name, &documents);
        sort_once(name, &documents);
        sort_by_keys(name, &documents);
    }
}

fn sort_theirs(documents: &[Vec<u8>]) -> usize {
    let mut all: Vec<RawJsonb> = documents.iter().map(|d| RawJsonb::new(d)).collect();
    all.sort();
    all[0].len()
}

// Our side sorts views, each checked once.
fn sort_views(name: &str, documents: &[Vec<u8>]) {
    let (bytes, ends) = joined(documents);
    let sort = || unsafe {
        measured_sort_views(bytes.as_ptr(), bytes.len(), ends.as_ptr(), ends.len())
    };
    assert_eq!(sort(), sort_theirs(documents));
    let (ours, theirs) = fastest(sort, || sort_theirs(documents));
    report(name, "sort views", bytes.len(), ours, theirs);
}

// Our side checks each document once, and sorts the keys.
fn sort_once(name: &str, documents: &[Vec<u8>]) {
    let (bytes, ends) = joined(documents);
    let mut order = vec![0; ends.len()];
    let once = || {
        let done = unsafe {
            measured_sort(
                bytes.as_ptr(),
                bytes.len(),
                ends.as_ptr(),
                ends.len(),
                order.as_mut_ptr(),
                order.len(),
            )
        };
        assert!(done);
        1
    };
    let (ours, theirs) = fastest(once, || sort_theirs(documents));
    report(name, "sort once", bytes.len(), ours, theirs);
}

// Our side makes the comparable key of each document, and sorts the keys as bytes. `made` is the
// time of the keys alone.
fn sort_by_keys(name: &str, documents: &[Vec<u8>]) {
    let (bytes, ends) = joined(documents);
    let mut order = vec![0; ends.len()];
    let by_keys = || {
        let done = unsafe {
            measured_sort_by_keys(
                bytes.as_ptr(),
                bytes.len(),
                ends.as_ptr(),
                ends.len(),
                order.as_mut_ptr(),
                order.len(),
            )
        };
        assert!(done);
        1
    };
    let (sorted, theirs) = fastest(by_keys, || sort_theirs(documents));
    report(name, "sort by keys", bytes.len(), sorted, theirs);
    let keys = || unsafe { measured_keys(bytes.as_ptr(), bytes.len(), ends.as_ptr(), ends.len()) };
    let (made, _) = fastest(keys, || 0);
    report(name, "keys made", bytes.len(), made, theirs);
}

// One object of so many keys, as many small ones that are above it, and as many that are below, in
// an order in which a sort compares it with each of these. The first keys of all are alike, or each
// has one of its own.
fn one_large() {
    for count in [1_000, 2_000, 4_000] {
        let shapes: [(&str, fn(char, usize) -> String); 2] = [
            ("alike", |_, _| "a".to_string()),
            ("apart", |kind, i| format!("{kind}{i:07}")),
        ];
        for (name, key) in shapes {
            let number = |n: usize| Value::Number(Number::UInt64(n as u64));
            let small = |kind, i, n| {
                encoded(&Value::Object(BTreeMap::from([(key(kind, i), number(n))])))
            };
            let mut pairs = BTreeMap::from([(key('b', 0), number(count))]);
            pairs.extend((1..count).map(|k| (format!("z{k:07}"), Value::Null)));
            let mut documents = vec![encoded(&Value::Object(pairs))];
            documents.extend((0..count).map(|i| small('c', i, count + 1 + i)));
            documents.extend((0..count).map(|i| small('a', i, i)));
            sort_once(&format!("{name} {count}"), &documents);
        }
    }
}

// The parts one after another, and where each ends.
fn joined(parts: &[impl AsRef<[u8]>]) -> (Vec<u8>, Vec<u64>) {
    let (mut bytes, mut ends) = (Vec::new(), Vec::new());
    for part in parts {
        bytes.extend_from_slice(part.as_ref());
        ends.push(bytes.len() as u64);
    }
    (bytes, ends)
}

// An array and an object of 100,000 documents. Our builders check each document that they are
// given, unless it was checked before, and the crate's do not.
fn builders() {
    let shapes: [(&str, fn(usize) -> Value<'static>); 2] = [
        ("numbers", |i| {
            Value::Number(Number::UInt64((i as u64 * 7919) % 1_000_003))
        }),
        ("objects", |i| {
            let pairs = (0..4).map(|k| (format!("key{k}"), string(format!("value {i} {k}"))));
            Value::Object(pairs.collect::<BTreeMap<_, _>>())
        }),
    ];
    let names: Vec<String> = (0..100_000).map(scattered).collect();
    let (text, name_ends) = joined(&names);
    for (name, shape) in shapes {
        let documents: Vec<Vec<u8>> = (0..100_000).map(|i| encoded(&shape(i))).collect();
        let (bytes, ends) = joined(&documents);
        let array = |times| unsafe {
            measured_array(bytes.as_ptr(), bytes.len(), ends.as_ptr(), ends.len(), times)
        };
        let their_array = || {
            let mut builder = ArrayBuilder::new();
            for document in &documents {
                builder.push_raw_jsonb(RawJsonb::new(document));
            }
            builder.build().unwrap().to_vec().len()
        };
        build(name, "array", bytes.len(), array, their_array);
        let checked = |times| unsafe {
            measured_array_of_documents(
                bytes.as_ptr(),
                bytes.len(),
                ends.as_ptr(),
                ends.len(),
                times,
            )
        };
        build(name, "array checked", bytes.len(), checked, their_array);
        let object = |times| unsafe {
            measured_object(
                text.as_ptr(),
                text.len(),
                name_ends.as_ptr(),
                name_ends.len(),
                bytes.as_ptr(),
                bytes.len(),
                ends.as_ptr(),
                ends.len(),
                times,
            )
        };
        let their_object = || {
            let mut builder = ObjectBuilder::new();
            for (name, document) in names.iter().zip(&documents) {
                builder.push_raw_jsonb(name, RawJsonb::new(document)).unwrap();
            }
            builder.build().unwrap().to_vec().len()
        };
        build(name, "object", bytes.len(), object, their_object);
        let checked = |times| unsafe {
            measured_object_of_documents(
                text.as_ptr(),
                text.len(),
                name_ends.as_ptr(),
                name_ends.len(),
                bytes.as_ptr(),
                bytes.len(),
                ends.as_ptr(),
                ends.len(),
                times,
            )
        };
        build(name, "object checked", bytes.len(), checked, their_object);
    }
}

// Our side makes the list of its inputs first: what five more turns take is the builder's alone.
fn build(
    name: &str,
    what: &str,
    length: usize,
    ours: impl Fn(usize) -> usize,
    theirs: impl Fn() -> usize,
) {
    assert_eq!(ours(1), theirs());
    let (six, five) = fastest(|| ours(6), || (0..5).map(|_| theirs()).sum());
    let (once, _) = fastest(|| ours(1), || 0);
    report(name, what, 5 * length, six - once, five);
}

// Containers inside one another, so many levels of them, each beside a second child.
#[derive(Clone, Copy)]
enum Chain {
    FirstInArrays,
    FirstInObjects,
    LastInArrays,
    BesideEmpty,
}

fn chain(levels: usize, kind: Chain) -> Value<'static> {
    let one = || Value::Number(Number::UInt64(1));
    (0..levels).fold(one(), |inner, _| match kind {
        Chain::FirstInArrays => Value::Array(vec![inner, one()]),
        Chain::FirstInObjects => Value::Object(BTreeMap::from([
            ("a".to_string(), inner),
            ("b".to_string(), one()),
        ])),
        Chain::LastInArrays => Value::Array(vec![one(), inner]),
        Chain::BesideEmpty => Value::Array(vec![inner, Value::Array(vec![])]),
    })
}

fn halves(levels: usize) -> Value<'static> {
    match levels {
        0 => Value::Number(Number::UInt64(1)),
        _ => Value::Array(vec![halves(levels - 1), halves(levels - 1)]),
    }
}

// An object of 1.5 H² keys, and so many levels H above it, each of them the level below and an
// array of nulls: three at the lowest level, and three more at each level above.
fn large_below(levels: usize) -> Value<'static> {
    let pairs = (0..levels * levels * 3 / 2).map(|k| (format!("{k:07x}"), Value::Null));
    let object = Value::Object(pairs.collect::<BTreeMap<_, _>>());
    (1..=levels).fold(object, |below, level| {
        let nulls = (0..3 * level).map(|_| Value::Null).collect();
        Value::Array(vec![below, Value::Array(nulls)])
    })
}

// The shapes whose lengths are dearest to find: what encoding and the canonical form cost beside
// the crate's encoder.
fn nested() {
    let mut shapes: Vec<(String, Value)> = Vec::new();
    for levels in [100, 1_000, 10_000] {
        for (name, kind) in [
            ("arrays", Chain::FirstInArrays),
            ("objects", Chain::FirstInObjects),
            ("last", Chain::LastInArrays),
            ("beside", Chain::BesideEmpty),
        ] {
            shapes.push((format!("{name} {levels}"), chain(levels, kind)));
        }
    }
    shapes.push(("halves 17".to_string(), halves(17)));
    for levels in [200, 400, 800] {
        shapes.push((format!("large {levels}"), large_below(levels)));
    }
    for (name, value) in shapes {
        let bytes = encoded(&value);
        let build = || unsafe { measured_encode(bytes.as_ptr(), bytes.len(), 0) };
        let both = || unsafe { measured_encode(bytes.as_ptr(), bytes.len(), 1) };
        // Both include the build of the value, so its own time is subtracted.
        let (with, without) = fastest(both, build);
        let (theirs, canonical) = fastest(
            || encoded(&value).len(),
            || unsafe { measured_canonical(bytes.as_ptr(), bytes.len()) },
        );
        report(
            &name,
            "encode",
            bytes.len(),
            (with - without).max(1e-9),
            theirs,
        );
        report(&name, "canon", bytes.len(), canonical, theirs);
        std::mem::forget(value);
    }
}

// A text of so many records of five members.
fn records(count: usize) -> String {
    let item = |i: usize| {
        format!(
            r#"{{"id":{i},"name":"name of {i}","price":{}.{:02},"tags":["a","b\n{i}"],"on":true}}"#,
            i % 1000,
            i % 100
        )
    };
    format!("[{}]", (0..count).map(item).collect::<Vec<_>>().join(","))
}

fn texts() {
    let text = records(130_000);
    let value: serde_json::Value = serde_json::from_str(&text).unwrap();
    let length = text.len();
    read_text("text", &text);
    let whole = || encoded(&value_of_json(serde_json::from_str(&text).unwrap())).len();
    assert_eq!(whole(), unsafe { measured_parse(text.as_ptr(), length) });
    let (ours, theirs) = fastest(|| unsafe { measured_parse(text.as_ptr(), length) }, whole);
    report("text", "document", length, ours, theirs);
    let objects = encoded(&objects(10_000));
    let printed = unsafe { measured_print(objects.as_ptr(), objects.len()) };
    let tree: serde_json::Value = objects_as_json();
    assert_eq!(printed, serde_json::to_string(&tree).unwrap().len());
    let to_string = || serde_json::to_string(&tree).unwrap().len();
    let (ours, theirs) = fastest(
        || unsafe { measured_print(objects.as_ptr(), objects.len()) },
        to_string,
    );
    report("objects", "print", printed, ours, theirs);
    let (start, count) = (objects.as_ptr(), objects.len());
    let (more, theirs) = fastest(
        || unsafe { measured_text(start, count, 5) },
        || (0..4).map(|_| to_string()).sum(),
    );
    let (once, _) = fastest(|| unsafe { measured_text(start, count, 1) }, || 0);
    report("objects", "text", 4 * printed, more - once, theirs);
    drop(value);
}

// The texts of the folder that TEXTS names.
fn kinds_of_text() {
    let folder = std::env::var("TEXTS").expect("TEXTS names the folder of texts.py");
    let mut paths: Vec<_> = std::fs::read_dir(folder)
        .unwrap()
        .map(|entry| entry.unwrap().path())
        .collect();
    paths.sort();
    for path in paths {
        let text = std::fs::read_to_string(&path).unwrap();
        let document = encoded(&value_of_json(serde_json::from_str(&text).unwrap()));
        let length = unsafe { measured_parse(text.as_ptr(), text.len()) };
        assert_eq!(length, document.len());
        read_text(path.file_stem().unwrap().to_str().unwrap(), &text);
    }
}

// A text read beside serde_json, which keeps the digits of numbers as the crate has it, serde_json
// as it is without that, and simdjson, which reads into a tape of its own. Short texts are read
// many times in a row.
fn read_text(name: &str, text: &str) {
    let times = 1 + 300_000 / text.len();
    let exact = || serde_json::from_str::<serde_json::Value>(black_box(text)).is_ok() as usize;
    let plain = || {
        plain_serde_json::from_str::<plain_serde_json::Value>(black_box(text)).is_ok() as usize
    };
    let start = text.as_ptr();
    let [ours, exact, plain, tape] = least_of([
        &mut || (0..times).map(|_| unsafe { measured_parse(black_box(start), text.len()) }).sum(),
        &mut || (0..times).map(|_| exact()).sum(),
        &mut || (0..times).map(|_| plain()).sum(),
        &mut || (0..times).map(|_| unsafe { simdjson_reads(black_box(start), text.len()) }).sum(),
    ]);
    let bytes = times * text.len();
    report(name, "parse", bytes, ours, exact);
    report_beside(name, "parse", bytes, ours, plain, " (without exact numbers)");
    report_beside(name, "parse", bytes, ours, tape, " (simdjson)");
}

// What ten times the size costs, up to 100 MB. The encoder's time includes the build.
fn sizes() {
    let mut before = [0.0; 4];
    for count in [13_000, 130_000, 1_300_000] {
        let text = records(count);
        let document = encoded(&objects(count / 3));
        let (start, length) = (document.as_ptr(), document.len());
        let now = [
            least(|| unsafe { measured_parse(text.as_ptr(), text.len()) }),
            least(|| unsafe { measured_build(start, length) as usize }),
            least(|| unsafe { measured_encode(start, length, 1) }),
            least(|| unsafe { measured_print(start, length) }),
        ];
        let lengths = [text.len(), length, length, length];
        for (i, name) in ["parse", "build", "encode", "print"].iter().enumerate() {
            let megabytes = lengths[i] as f64 / 1e6;
            print!("{name:8} of {megabytes:6.1} MB takes {:8.1} ms", now[i] * 1e3);
            if before[i] > 0.0 {
                print!(", {:.1} times what a tenth takes", now[i] / before[i]);
            }
            println!();
        }
        before = now;
    }
}

fn least(mut call: impl FnMut() -> usize) -> f64 {
    (0..3).map(|_| seconds(&mut call)).fold(f64::INFINITY, f64::min)
}

// The crate's value of serde_json's, as a user of the crate makes it.
fn value_of_json(json: serde_json::Value) -> Value<'static> {
    match json {
        serde_json::Value::Null => Value::Null,
        serde_json::Value::Bool(truth) => Value::Bool(truth),
        serde_json::Value::Number(number) => Value::Number(number_of_json(&number)),
        serde_json::Value::String(text) => string(text),
        serde_json::Value::Array(items) => {
            Value::Array(items.into_iter().map(value_of_json).collect())
        }
        serde_json::Value::Object(pairs) => Value::Object(
            pairs
                .into_iter()
                .map(|(key, value)| (key, value_of_json(value)))
                .collect(),
        ),
    }
}

fn number_of_json(number: &serde_json::Number) -> Number {
    if let Some(value) = number.as_u64() {
        return Number::UInt64(value);
    }
    if let Some(value) = number.as_i64() {
        return Number::Int64(value);
    }
    let text = number.to_string();
    let (whole, fraction) = text.split_once('.').unwrap();
    Number::Decimal64(Decimal64 {
        scale: fraction.len() as u8,
        value: format!("{whole}{fraction}").parse().unwrap(),
    })
}

fn objects_as_json() -> serde_json::Value {
    let object = |i: usize| {
        let pairs = (0..10).map(|k| {
            (
                format!("key{k:02}"),
                serde_json::Value::String(format!("value {i} {k}")),
            )
        });
        serde_json::Value::Object(pairs.collect())
    };
    serde_json::Value::Array((0..10_000).map(object).collect())
}

fn main() {
    let parts: [(&str, fn()); 9] = [
        ("documents", documents),
        ("look_ups", look_ups),
        ("sorts", sorts),
        ("one_large", one_large),
        ("builders", builders),
        ("nested", nested),
        ("texts", texts),
        ("kinds_of_text", kinds_of_text),
        ("sizes", sizes),
    ];
    let wanted: Vec<String> = std::env::args().skip(1).collect();
    for (name, part) in parts {
        if wanted.is_empty() || wanted.iter().any(|it| it == name) {
            part();
        }
    }
}
