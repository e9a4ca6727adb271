//! Whole numbers of 256 bits, which are only read and written here.
#![allow(non_camel_case_types)]

#[derive(Clone, Copy, Debug, PartialEq)]
pub struct i256 {
    bytes: [u8; 32],
}

impl i256 {
    pub fn from_be_bytes(bytes: [u8; 32]) -> i256 {
        i256 { bytes }
    }

    pub fn to_be_bytes(self) -> [u8; 32] {
        self.bytes
    }
}
