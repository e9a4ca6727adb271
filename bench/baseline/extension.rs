//! Extension values. Their order is this project's: by variant, then by the fields as they stand.

#[derive(Clone, Debug, PartialEq, PartialOrd)]
pub enum ExtensionValue<'a> {
    Binary(&'a [u8]),
    Date(Date),
    Timestamp(Timestamp),
    TimestampTz(TimestampTz),
    Interval(Interval),
}

#[derive(Clone, Debug, PartialEq, PartialOrd)]
pub struct Date {
    pub value: i32,
}

#[derive(Clone, Debug, PartialEq, PartialOrd)]
pub struct Timestamp {
    pub value: i64,
}

#[derive(Clone, Debug, PartialEq, PartialOrd)]
pub struct TimestampTz {
    pub value: i64,
    pub offset: i32,
}

#[derive(Clone, Debug, PartialEq, PartialOrd)]
pub struct Interval {
    pub months: i32,
    pub days: i32,
    pub micros: i64,
}
