//! Stores JSON texts as rows in one buffer, sorts them, looks a key up and prints.

const OK: u32 = 0;
const NO_ROOM: u32 = 11;
const NONE: u32 = 12;
const DEPTH: usize = 64;
const EXPONENTS_ALLOWED: u32 = 1;

mod library {
    #[link(name = "kohiblad")]
    extern "C" {
        pub fn kohiblad_parse(
            text: *const u8,
            size: usize,
            depth: usize,
            exponents: u32,
            out: *mut u8,
            room: usize,
            length: *mut usize,
        ) -> u32;
        pub fn kohiblad_get_key(
            bytes: *const u8,
            size: usize,
            name: *const u8,
            name_size: usize,
            out: *mut u8,
            room: usize,
            length: *mut usize,
        ) -> u32;
        pub fn kohiblad_print(
            bytes: *const u8,
            size: usize,
            depth: usize,
            out: *mut u8,
            room: usize,
            length: *mut usize,
        ) -> u32;
        pub fn kohiblad_sort(
            bytes: *const u8,
            size: usize,
            offsets: *const usize,
            count: usize,
            depth: usize,
            order: *mut usize,
            room: usize,
        ) -> u32;
    }
}

/// The bytes that a call writes to `out`, of `room` bytes: it is called again where they did not
/// fit. An error is the status.
fn written(call: impl Fn(*mut u8, usize, *mut usize) -> u32) -> Result<Vec<u8>, u32> {
    let mut out = vec![0; 64];
    let mut length = 0;
    let mut status = call(out.as_mut_ptr(), out.len(), &mut length);
    if status == NO_ROOM {
        out.resize(length, 0);
        status = call(out.as_mut_ptr(), out.len(), &mut length);
    }
    out.truncate(length);
    if status == OK {
        Ok(out)
    } else {
        Err(status)
    }
}

// Each call gets slices by their pointer and length, which is what it requires.

fn document_of(text: &str) -> Result<Vec<u8>, u32> {
    written(|out, room, length| unsafe {
        let (bytes, size) = (text.as_ptr(), text.len());
        library::kohiblad_parse(bytes, size, DEPTH, EXPONENTS_ALLOWED, out, room, length)
    })
}

fn value_of(row: &[u8], name: &str) -> Result<Option<Vec<u8>>, u32> {
    let found = written(|out, room, length| unsafe {
        let (bytes, size) = (row.as_ptr(), row.len());
        library::kohiblad_get_key(bytes, size, name.as_ptr(), name.len(), out, room, length)
    });
    match found {
        Err(NONE) => Ok(None),
        other => other.map(Some),
    }
}

fn text_of(row: &[u8]) -> Result<String, u32> {
    let text = written(|out, room, length| unsafe {
        library::kohiblad_print(row.as_ptr(), row.len(), DEPTH, out, room, length)
    })?;
    Ok(String::from_utf8(text).expect("texts are UTF-8"))
}

fn order_of(rows: &[Vec<u8>]) -> Result<Vec<usize>, u32> {
    let column = rows.concat();
    let mut end = 0;
    let mut offsets = vec![end];
    for row in rows {
        end += row.len();
        offsets.push(end);
    }
    let mut order = vec![0; rows.len()];
    let status = unsafe {
        let (bytes, size) = (column.as_ptr(), column.len());
        let (starts, count) = (offsets.as_ptr(), offsets.len());
        let (written, room) = (order.as_mut_ptr(), order.len());
        library::kohiblad_sort(bytes, size, starts, count, DEPTH, written, room)
    };
    if status == OK {
        Ok(order)
    } else {
        Err(status)
    }
}

fn main() -> Result<(), u32> {
    let texts = [
        r#"{"id": 3, "price": 2.50}"#,
        r#"{"id": 1, "price": null}"#,
        "[1, 2]",
        r#"{"id": 2, "price": 2.5}"#,
        r#""a note""#,
    ];
    let rows = texts
        .iter()
        .map(|text| document_of(text))
        .collect::<Result<Vec<_>, _>>()?;
    for number in order_of(&rows)? {
        match value_of(&rows[number], "price")? {
            Some(price) => println!("{}  costs {}", text_of(&rows[number])?, text_of(&price)?),
            None => println!("{}", text_of(&rows[number])?),
        }
    }
    Ok(())
}
