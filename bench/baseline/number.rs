//! Numbers. Their order is this project's: by exact value, and none of floats and wider decimals.
use crate::ethnum::i256;
use std::cmp::Ordering;

#[derive(Clone, Debug, PartialEq)]
pub enum Number {
    Int64(i64),
    UInt64(u64),
    Float64(f64),
    Decimal64(Decimal64),
    Decimal128(Decimal128),
    Decimal256(Decimal256),
}

#[derive(Clone, Debug, PartialEq)]
pub struct Decimal64 {
    pub scale: u8,
    pub value: i64,
}

#[derive(Clone, Debug, PartialEq)]
pub struct Decimal128 {
    pub scale: u8,
    pub value: i128,
}

#[derive(Clone, Debug, PartialEq)]
pub struct Decimal256 {
    pub scale: u8,
    pub value: i256,
}

impl Number {
    fn value_and_scale(&self) -> Option<(i128, u8)> {
        match self {
            Number::Int64(value) => Some((i128::from(*value), 0)),
            Number::UInt64(value) => Some((i128::from(*value), 0)),
            Number::Decimal64(decimal) => Some((i128::from(decimal.value), decimal.scale)),
            Number::Decimal128(decimal) => Some((decimal.value, decimal.scale)),
            Number::Float64(_) | Number::Decimal256(_) => None,
        }
    }
}

impl PartialOrd for Number {
    fn partial_cmp(&self, other: &Number) -> Option<Ordering> {
        let (left, left_scale) = self.value_and_scale()?;
        let (right, right_scale) = other.value_and_scale()?;
        Some(if left_scale <= right_scale {
            cmp_raised(left, right_scale - left_scale, right)
        } else {
            cmp_raised(right, left_scale - right_scale, left).reverse()
        })
    }
}

/// The order of `left` times ten to a power beside `right`. A product that 128 bits do not hold is
/// further from 0 than `right`.
fn cmp_raised(left: i128, power: u8, right: i128) -> Ordering {
    match (0..power).try_fold(left, |product, _| product.checked_mul(10)) {
        Some(product) => product.cmp(&right),
        None => left.cmp(&0),
    }
}
