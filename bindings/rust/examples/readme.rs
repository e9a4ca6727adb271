use kohiblad::{JsonPath, OwnedJsonb, Path};

fn main() -> Result<(), kohiblad::Error> {
    let mut rows = Vec::new();
    for text in [r#"{"id": 7, "price": 2.50}"#, r#"{"id": 3, "price": 10}"#] {
        rows.push(OwnedJsonb::parse(text, 64)?);
    }
    rows.push(OwnedJsonb::object_of([("id", 5), ("price", 12)])?);
    rows.sort();
    for row in &rows {
        if let Some(price) = row.as_raw().get("price")? {
            println!("{row} costs {price}");
        }
    }
    let dear = JsonPath::parse("$.price > 5")?;
    for row in &rows {
        if dear.matches(row.as_raw())? == Some(true) {
            println!("{row} is dear");
        }
    }
    let cheaper = rows[0].as_raw().set(&Path::new().key("price"), 9)?;
    let wanted = OwnedJsonb::object_of([("price", 9)])?;
    if cheaper.as_raw().contains(wanted.as_raw())? {
        println!("{cheaper}");
    }
    if let Err(refused) = OwnedJsonb::parse(r#"{"id": 1e5}"#, 64) {
        println!("{refused}");
    }
    if let Err(refused) = JsonPath::parse("$.price = 5") {
        println!("{refused}");
    }
    Ok(())
}
