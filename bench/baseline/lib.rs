//! The core of the Rust crate `jsonb` over stand-ins for what was not published with it.
#![allow(dead_code, unused_imports, clippy::all)]

pub mod core {
    pub mod databend {
        pub mod builder;
        pub mod constants;
        pub mod de;
        pub mod iterator;
        pub mod jentry;
        pub mod ser;
        pub mod util;
    }
    pub mod item;

    pub use databend::builder::*;
    pub use databend::de::Decoder;
    pub use databend::iterator::*;
    pub use databend::ser::{Encoder, JsonAstEncoder};
    pub use item::*;
}
pub mod api;
pub mod error;
pub mod ethnum;
pub mod extension;
pub mod number;
pub mod owned;
pub mod raw;
pub mod value;

pub use error::Error;
pub use extension::*;
pub use number::*;
pub use owned::OwnedJsonb;
pub use raw::RawJsonb;
pub use value::*;
