//! The exports of libkohiblad, with what they take and return: tools/pages makes this file of
//! kohiblad.h.
// The crate does not call all of them.
#![allow(dead_code)]

#[repr(C)]
#[derive(Clone, Copy, Debug, Default)]
pub struct ValueKind {
    pub status: u32,
    pub kind: u32,
    pub count: u64,
}

#[repr(C)]
#[derive(Clone, Copy, Debug, Default)]
pub struct Place {
    pub status: u32,
    pub r#type: u32,
    pub offset: u64,
    pub length: u64,
}

#[repr(C)]
#[derive(Clone, Copy, Debug, Default)]
pub struct Fault {
    pub status: u32,
    pub offset: u64,
}

#[repr(C)]
#[derive(Clone, Copy, Debug, Default)]
pub struct Expected {
    pub status: u32,
    pub classes: u32,
}

#[repr(C)]
#[derive(Clone, Copy, Debug, Default)]
pub struct PathRefusal {
    pub status: u32,
    pub reason: u32,
    pub offset: u64,
    pub expected: u32,
    pub mark: u32,
    pub found: u32,
    pub left_out: u32,
}

#[repr(C)]
#[derive(Clone, Copy, Debug, Default)]
pub struct Cursor {
    pub index: u64,
    pub key: u64,
    pub value: u64,
}

#[repr(C)]
#[derive(Clone, Copy, Debug, Default)]
pub struct Decimal {
    pub status: u32,
    pub scale: u32,
    pub high: i64,
    pub low: u64,
}

#[repr(C)]
#[derive(Clone, Copy, Debug, Default)]
pub struct Integer {
    pub status: u32,
    pub value: i64,
}

#[repr(C)]
#[derive(Clone, Copy, Debug, Default)]
pub struct Truth {
    pub status: u32,
    pub value: u32,
}

#[repr(C)]
#[derive(Clone, Copy, Debug, Default)]
pub struct ExtensionValue {
    pub status: u32,
    pub tag: u32,
    pub value: i64,
    pub months: i32,
    pub days: i32,
    pub seconds: i32,
    pub offset: u64,
    pub length: u64,
}

#[repr(C)]
#[derive(Clone, Copy, Debug, Default)]
pub struct Int128 {
    pub low: u64,
    pub high: i64,
}

#[repr(C)]
#[derive(Clone, Copy, Debug, Default)]
pub struct TimestampTz {
    pub value: i64,
    pub seconds: i32,
}

#[repr(C)]
#[derive(Clone, Copy, Debug, Default)]
pub struct Interval {
    pub months: i32,
    pub days: i32,
    pub micros: i64,
}

#[repr(C)]
#[derive(Clone, Copy, Debug, Default)]
pub struct Int64Zone {
    pub least: i64,
    pub greatest: i64,
    pub has_value: u64,
}

#[repr(C)]
#[derive(Clone, Copy, Debug, Default)]
pub struct Uint64Zone {
    pub least: u64,
    pub greatest: u64,
    pub has_value: u64,
}

#[repr(C)]
#[derive(Clone, Copy, Debug, Default)]
pub struct DecimalZone {
    pub least: Int128,
    pub greatest: Int128,
    pub has_value: u64,
}

#[repr(C)]
#[derive(Clone, Copy, Debug, Default)]
pub struct DateZone {
    pub least: i32,
    pub greatest: i32,
    pub has_value: u64,
}

#[repr(C)]
#[derive(Clone, Copy, Debug, Default)]
pub struct TypedFile {
    pub status: u32,
    pub rows: u64,
    pub columns: u64,
}

#[repr(C)]
#[derive(Clone, Copy, Debug, Default)]
pub struct TypedColumn {
    pub r#type: u32,
    pub scale: u32,
    pub rows: u64,
    pub name: u64,
    pub name_length: u64,
    pub flags: u64,
    pub flags_length: u64,
    pub numbers: u64,
    pub numbers_length: u64,
    pub texts: u64,
    pub texts_length: u64,
}

#[repr(C)]
#[derive(Clone, Copy, Debug, Default)]
pub struct Taken {
    pub status: u32,
    pub unfit: u64,
    pub first_unfit: u64,
}

#[repr(C)]
#[derive(Clone, Copy, Debug, Default)]
pub struct SurveyCounts {
    pub status: u32,
    pub least_scale: u32,
    pub greatest_scale: u32,
    pub most_digits: u64,
    pub longest_text: u64,
    pub rows: u64,
    pub not_documents: u64,
    pub absent: u64,
    pub nulls: u64,
    pub booleans: u64,
    pub int64s: u64,
    pub uint64s: u64,
    pub decimal64s: u64,
    pub decimal128s: u64,
    pub texts: u64,
    pub binaries: u64,
    pub dates: u64,
    pub timestamps: u64,
    pub zoned_timestamps: u64,
    pub intervals: u64,
    pub opaques: u64,
    pub arrays: u64,
    pub objects: u64,
}

extern "C" {
    pub fn kohiblad_version() -> u32;
    pub fn kohiblad_status_name(status: u32, out: *mut u8, room: usize, length: *mut usize) -> u32;
    pub fn kohiblad_check(bytes: *const u8, size: usize, depth: usize) -> bool;
    pub fn kohiblad_compare(
        left: *const u8,
        left_size: usize,
        right: *const u8,
        right_size: usize,
        depth: usize,
    ) -> i32;
    pub fn kohiblad_kind(bytes: *const u8, size: usize) -> ValueKind;
    pub fn kohiblad_get_key(
        bytes: *const u8,
        size: usize,
        name: *const u8,
        name_size: usize,
        out: *mut u8,
        room: usize,
        length: *mut usize,
    ) -> u32;
    pub fn kohiblad_find_key(
        bytes: *const u8,
        size: usize,
        name: *const u8,
        name_size: usize,
    ) -> Place;
    pub fn kohiblad_find_index(bytes: *const u8, size: usize, number: usize) -> Place;
    pub fn kohiblad_find_key_in_prefix(
        prefix: *const u8,
        prefix_size: usize,
        size: usize,
        name: *const u8,
        name_size: usize,
    ) -> Place;
    pub fn kohiblad_find_index_in_prefix(
        prefix: *const u8,
        prefix_size: usize,
        size: usize,
        index: usize,
    ) -> Place;
    pub fn kohiblad_begin(bytes: *const u8, size: usize, cursor: *mut Cursor) -> u32;
    pub fn kohiblad_next(
        bytes: *const u8,
        size: usize,
        cursor: *mut Cursor,
        key: *mut Place,
        value: *mut Place,
    ) -> u32;
    pub fn kohiblad_copy(
        r#type: u32,
        payload: *const u8,
        size: usize,
        out: *mut u8,
        room: usize,
        length: *mut usize,
    ) -> u32;
    pub fn kohiblad_get_index(
        bytes: *const u8,
        size: usize,
        index: usize,
        out: *mut u8,
        room: usize,
        length: *mut usize,
    ) -> u32;
    pub fn kohiblad_get_member(
        bytes: *const u8,
        size: usize,
        index: usize,
        key: *mut u8,
        key_room: usize,
        key_length: *mut usize,
        out: *mut u8,
        room: usize,
        length: *mut usize,
    ) -> u32;
    pub fn kohiblad_as_decimal(bytes: *const u8, size: usize) -> Decimal;
    pub fn kohiblad_as_int64(bytes: *const u8, size: usize) -> Integer;
    pub fn kohiblad_as_string(bytes: *const u8, size: usize) -> Place;
    pub fn kohiblad_as_boolean(bytes: *const u8, size: usize) -> Truth;
    pub fn kohiblad_as_extension(bytes: *const u8, size: usize) -> ExtensionValue;
    pub fn kohiblad_of_null(out: *mut u8, room: usize, length: *mut usize) -> u32;
    pub fn kohiblad_of_boolean(value: u32, out: *mut u8, room: usize, length: *mut usize) -> u32;
    pub fn kohiblad_of_string(
        text: *const u8,
        size: usize,
        out: *mut u8,
        room: usize,
        length: *mut usize,
    ) -> u32;
    pub fn kohiblad_of_int64(value: i64, out: *mut u8, room: usize, length: *mut usize) -> u32;
    pub fn kohiblad_of_decimal(
        high: i64,
        low: u64,
        scale: u32,
        out: *mut u8,
        room: usize,
        length: *mut usize,
    ) -> u32;
    pub fn kohiblad_of_extension(
        tag: u32,
        value: i64,
        months: i32,
        days: i32,
        seconds: i32,
        data: *const u8,
        size: usize,
        out: *mut u8,
        room: usize,
        length: *mut usize,
    ) -> u32;
    pub fn kohiblad_print(
        bytes: *const u8,
        size: usize,
        depth: usize,
        out: *mut u8,
        room: usize,
        length: *mut usize,
    ) -> u32;
    pub fn kohiblad_pretty(
        bytes: *const u8,
        size: usize,
        depth: usize,
        out: *mut u8,
        room: usize,
        length: *mut usize,
    ) -> u32;
    pub fn kohiblad_print_at(
        r#type: u32,
        payload: *const u8,
        size: usize,
        depth: usize,
        out: *mut u8,
        room: usize,
        length: *mut usize,
    ) -> u32;
    pub fn kohiblad_pretty_at(
        r#type: u32,
        payload: *const u8,
        size: usize,
        depth: usize,
        out: *mut u8,
        room: usize,
        length: *mut usize,
    ) -> u32;
    pub fn kohiblad_parse(
        text: *const u8,
        size: usize,
        depth: usize,
        exponents: u32,
        out: *mut u8,
        room: usize,
        length: *mut usize,
    ) -> u32;
    pub fn kohiblad_text_fault(text: *const u8, size: usize, depth: usize, exponents: u32)
        -> Fault;
    pub fn kohiblad_text_expected(
        text: *const u8,
        size: usize,
        depth: usize,
        exponents: u32,
    ) -> Expected;
    pub fn kohiblad_build_array(
        bytes: *const u8,
        size: usize,
        offsets: *const usize,
        count: usize,
        depth: usize,
        out: *mut u8,
        room: usize,
        length: *mut usize,
    ) -> u32;
    pub fn kohiblad_build_object(
        bytes: *const u8,
        size: usize,
        offsets: *const usize,
        count: usize,
        depth: usize,
        out: *mut u8,
        room: usize,
        length: *mut usize,
    ) -> u32;
    pub fn kohiblad_is_canonical(bytes: *const u8, size: usize, depth: usize) -> bool;
    pub fn kohiblad_canonical(
        bytes: *const u8,
        size: usize,
        depth: usize,
        out: *mut u8,
        room: usize,
        length: *mut usize,
    ) -> u32;
    pub fn kohiblad_key_layout() -> u32;
    pub fn kohiblad_key(
        bytes: *const u8,
        size: usize,
        depth: usize,
        out: *mut u8,
        room: usize,
        length: *mut usize,
    ) -> u32;
    pub fn kohiblad_key_cut(
        bytes: *const u8,
        size: usize,
        depth: usize,
        out: *mut u8,
        room: usize,
        length: *mut usize,
    ) -> u32;
    pub fn kohiblad_member_key(
        bytes: *const u8,
        size: usize,
        names: *const u8,
        names_size: usize,
        depth: usize,
        out: *mut u8,
        room: usize,
        length: *mut usize,
    ) -> u32;
    pub fn kohiblad_sort(
        bytes: *const u8,
        size: usize,
        offsets: *const usize,
        count: usize,
        depth: usize,
        order: *mut usize,
        room: usize,
    ) -> u32;
    pub fn kohiblad_survey(
        bytes: *const u8,
        size: usize,
        offsets: *const usize,
        count: usize,
        path: *const u8,
        path_size: usize,
        depth: usize,
    ) -> SurveyCounts;
    pub fn kohiblad_take_int64(
        bytes: *const u8,
        size: usize,
        offsets: *const usize,
        count: usize,
        path: *const u8,
        path_size: usize,
        depth: usize,
        fit: u32,
        values: *mut i64,
        room: usize,
        states: *mut u8,
        states_room: usize,
    ) -> Taken;
    pub fn kohiblad_take_uint64(
        bytes: *const u8,
        size: usize,
        offsets: *const usize,
        count: usize,
        path: *const u8,
        path_size: usize,
        depth: usize,
        fit: u32,
        values: *mut u64,
        room: usize,
        states: *mut u8,
        states_room: usize,
    ) -> Taken;
    pub fn kohiblad_take_decimal(
        bytes: *const u8,
        size: usize,
        offsets: *const usize,
        count: usize,
        path: *const u8,
        path_size: usize,
        depth: usize,
        fit: u32,
        scale: u32,
        values: *mut Int128,
        room: usize,
        states: *mut u8,
        states_room: usize,
    ) -> Taken;
    pub fn kohiblad_take_boolean(
        bytes: *const u8,
        size: usize,
        offsets: *const usize,
        count: usize,
        path: *const u8,
        path_size: usize,
        depth: usize,
        values: *mut u8,
        room: usize,
        states: *mut u8,
        states_room: usize,
    ) -> Taken;
    pub fn kohiblad_take_text(
        bytes: *const u8,
        size: usize,
        offsets: *const usize,
        count: usize,
        path: *const u8,
        path_size: usize,
        depth: usize,
        out: *mut u8,
        room: usize,
        length: *mut usize,
        text_offsets: *mut usize,
        offsets_room: usize,
        states: *mut u8,
        states_room: usize,
    ) -> Taken;
    pub fn kohiblad_take_int64_unchecked(
        bytes: *const u8,
        size: usize,
        offsets: *const usize,
        count: usize,
        path: *const u8,
        path_size: usize,
        depth: usize,
        fit: u32,
        values: *mut i64,
        room: usize,
        states: *mut u8,
        states_room: usize,
    ) -> Taken;
    pub fn kohiblad_take_uint64_unchecked(
        bytes: *const u8,
        size: usize,
        offsets: *const usize,
        count: usize,
        path: *const u8,
        path_size: usize,
        depth: usize,
        fit: u32,
        values: *mut u64,
        room: usize,
        states: *mut u8,
        states_room: usize,
    ) -> Taken;
    pub fn kohiblad_take_decimal_unchecked(
        bytes: *const u8,
        size: usize,
        offsets: *const usize,
        count: usize,
        path: *const u8,
        path_size: usize,
        depth: usize,
        fit: u32,
        scale: u32,
        values: *mut Int128,
        room: usize,
        states: *mut u8,
        states_room: usize,
    ) -> Taken;
    pub fn kohiblad_take_boolean_unchecked(
        bytes: *const u8,
        size: usize,
        offsets: *const usize,
        count: usize,
        path: *const u8,
        path_size: usize,
        depth: usize,
        values: *mut u8,
        room: usize,
        states: *mut u8,
        states_room: usize,
    ) -> Taken;
    pub fn kohiblad_take_text_unchecked(
        bytes: *const u8,
        size: usize,
        offsets: *const usize,
        count: usize,
        path: *const u8,
        path_size: usize,
        depth: usize,
        out: *mut u8,
        room: usize,
        length: *mut usize,
        text_offsets: *mut usize,
        offsets_room: usize,
        states: *mut u8,
        states_room: usize,
    ) -> Taken;
    pub fn kohiblad_take_text32(
        bytes: *const u8,
        size: usize,
        offsets: *const usize,
        count: usize,
        path: *const u8,
        path_size: usize,
        depth: usize,
        out: *mut u8,
        room: usize,
        length: *mut usize,
        text_offsets: *mut u32,
        offsets_room: usize,
        states: *mut u8,
        states_room: usize,
    ) -> Taken;
    pub fn kohiblad_take_text32_unchecked(
        bytes: *const u8,
        size: usize,
        offsets: *const usize,
        count: usize,
        path: *const u8,
        path_size: usize,
        depth: usize,
        out: *mut u8,
        room: usize,
        length: *mut usize,
        text_offsets: *mut u32,
        offsets_room: usize,
        states: *mut u8,
        states_room: usize,
    ) -> Taken;
    pub fn kohiblad_take_binary(
        bytes: *const u8,
        size: usize,
        offsets: *const usize,
        count: usize,
        path: *const u8,
        path_size: usize,
        depth: usize,
        out: *mut u8,
        room: usize,
        length: *mut usize,
        value_offsets: *mut usize,
        offsets_room: usize,
        states: *mut u8,
        states_room: usize,
    ) -> Taken;
    pub fn kohiblad_take_binary_unchecked(
        bytes: *const u8,
        size: usize,
        offsets: *const usize,
        count: usize,
        path: *const u8,
        path_size: usize,
        depth: usize,
        out: *mut u8,
        room: usize,
        length: *mut usize,
        value_offsets: *mut usize,
        offsets_room: usize,
        states: *mut u8,
        states_room: usize,
    ) -> Taken;
    pub fn kohiblad_take_date(
        bytes: *const u8,
        size: usize,
        offsets: *const usize,
        count: usize,
        path: *const u8,
        path_size: usize,
        depth: usize,
        values: *mut i32,
        room: usize,
        states: *mut u8,
        states_room: usize,
    ) -> Taken;
    pub fn kohiblad_take_date_unchecked(
        bytes: *const u8,
        size: usize,
        offsets: *const usize,
        count: usize,
        path: *const u8,
        path_size: usize,
        depth: usize,
        values: *mut i32,
        room: usize,
        states: *mut u8,
        states_room: usize,
    ) -> Taken;
    pub fn kohiblad_take_timestamp(
        bytes: *const u8,
        size: usize,
        offsets: *const usize,
        count: usize,
        path: *const u8,
        path_size: usize,
        depth: usize,
        values: *mut i64,
        room: usize,
        states: *mut u8,
        states_room: usize,
    ) -> Taken;
    pub fn kohiblad_take_timestamp_unchecked(
        bytes: *const u8,
        size: usize,
        offsets: *const usize,
        count: usize,
        path: *const u8,
        path_size: usize,
        depth: usize,
        values: *mut i64,
        room: usize,
        states: *mut u8,
        states_room: usize,
    ) -> Taken;
    pub fn kohiblad_take_timestamp_tz(
        bytes: *const u8,
        size: usize,
        offsets: *const usize,
        count: usize,
        path: *const u8,
        path_size: usize,
        depth: usize,
        values: *mut TimestampTz,
        room: usize,
        states: *mut u8,
        states_room: usize,
    ) -> Taken;
    pub fn kohiblad_take_timestamp_tz_unchecked(
        bytes: *const u8,
        size: usize,
        offsets: *const usize,
        count: usize,
        path: *const u8,
        path_size: usize,
        depth: usize,
        values: *mut TimestampTz,
        room: usize,
        states: *mut u8,
        states_room: usize,
    ) -> Taken;
    pub fn kohiblad_take_interval(
        bytes: *const u8,
        size: usize,
        offsets: *const usize,
        count: usize,
        path: *const u8,
        path_size: usize,
        depth: usize,
        values: *mut Interval,
        room: usize,
        states: *mut u8,
        states_room: usize,
    ) -> Taken;
    pub fn kohiblad_take_interval_unchecked(
        bytes: *const u8,
        size: usize,
        offsets: *const usize,
        count: usize,
        path: *const u8,
        path_size: usize,
        depth: usize,
        values: *mut Interval,
        room: usize,
        states: *mut u8,
        states_room: usize,
    ) -> Taken;
    pub fn kohiblad_zones_int64(
        values: *const i64,
        values_count: usize,
        states: *const u8,
        states_count: usize,
        block_rows: usize,
        out: *mut Int64Zone,
        room: usize,
        count: *mut usize,
    ) -> u32;
    pub fn kohiblad_zones_uint64(
        values: *const u64,
        values_count: usize,
        states: *const u8,
        states_count: usize,
        block_rows: usize,
        out: *mut Uint64Zone,
        room: usize,
        count: *mut usize,
    ) -> u32;
    pub fn kohiblad_zones_decimal(
        values: *const Int128,
        values_count: usize,
        states: *const u8,
        states_count: usize,
        block_rows: usize,
        out: *mut DecimalZone,
        room: usize,
        count: *mut usize,
    ) -> u32;
    pub fn kohiblad_zones_date(
        values: *const i32,
        values_count: usize,
        states: *const u8,
        states_count: usize,
        block_rows: usize,
        out: *mut DateZone,
        room: usize,
        count: *mut usize,
    ) -> u32;
    pub fn kohiblad_build_typed_file(
        bytes: *const u8,
        size: usize,
        offsets: *const usize,
        count: usize,
        names: *const u8,
        names_size: usize,
        types: *const u8,
        types_size: usize,
        depth: usize,
        out: *mut u8,
        room: usize,
        length: *mut usize,
    ) -> u32;
    pub fn kohiblad_check_typed_file(bytes: *const u8, size: usize, depth: usize) -> TypedFile;
    pub fn kohiblad_typed_columns(
        bytes: *const u8,
        size: usize,
        out: *mut TypedColumn,
        room: usize,
        count: *mut usize,
    ) -> u32;
    pub fn kohiblad_typed_row(
        bytes: *const u8,
        size: usize,
        index: usize,
        depth: usize,
        out: *mut u8,
        room: usize,
        length: *mut usize,
    ) -> u32;
    pub fn kohiblad_locate(
        bytes: *const u8,
        size: usize,
        offsets: *const usize,
        count: usize,
        names: *const u8,
        names_size: usize,
        depth: usize,
        places: *mut Place,
        room: usize,
    ) -> u32;
    pub fn kohiblad_locate_unchecked(
        bytes: *const u8,
        size: usize,
        offsets: *const usize,
        count: usize,
        names: *const u8,
        names_size: usize,
        depth: usize,
        places: *mut Place,
        room: usize,
    ) -> u32;
    pub fn kohiblad_take_int64_at(
        bytes: *const u8,
        size: usize,
        places: *const Place,
        count: usize,
        step: usize,
        fit: u32,
        values: *mut i64,
        room: usize,
        states: *mut u8,
        states_room: usize,
    ) -> Taken;
    pub fn kohiblad_take_uint64_at(
        bytes: *const u8,
        size: usize,
        places: *const Place,
        count: usize,
        step: usize,
        fit: u32,
        values: *mut u64,
        room: usize,
        states: *mut u8,
        states_room: usize,
    ) -> Taken;
    pub fn kohiblad_take_decimal_at(
        bytes: *const u8,
        size: usize,
        places: *const Place,
        count: usize,
        step: usize,
        fit: u32,
        scale: u32,
        values: *mut Int128,
        room: usize,
        states: *mut u8,
        states_room: usize,
    ) -> Taken;
    pub fn kohiblad_take_boolean_at(
        bytes: *const u8,
        size: usize,
        places: *const Place,
        count: usize,
        step: usize,
        values: *mut u8,
        room: usize,
        states: *mut u8,
        states_room: usize,
    ) -> Taken;
    pub fn kohiblad_take_date_at(
        bytes: *const u8,
        size: usize,
        places: *const Place,
        count: usize,
        step: usize,
        values: *mut i32,
        room: usize,
        states: *mut u8,
        states_room: usize,
    ) -> Taken;
    pub fn kohiblad_take_timestamp_at(
        bytes: *const u8,
        size: usize,
        places: *const Place,
        count: usize,
        step: usize,
        values: *mut i64,
        room: usize,
        states: *mut u8,
        states_room: usize,
    ) -> Taken;
    pub fn kohiblad_take_timestamp_tz_at(
        bytes: *const u8,
        size: usize,
        places: *const Place,
        count: usize,
        step: usize,
        values: *mut TimestampTz,
        room: usize,
        states: *mut u8,
        states_room: usize,
    ) -> Taken;
    pub fn kohiblad_take_interval_at(
        bytes: *const u8,
        size: usize,
        places: *const Place,
        count: usize,
        step: usize,
        values: *mut Interval,
        room: usize,
        states: *mut u8,
        states_room: usize,
    ) -> Taken;
    pub fn kohiblad_take_text_at(
        bytes: *const u8,
        size: usize,
        places: *const Place,
        count: usize,
        step: usize,
        out: *mut u8,
        room: usize,
        length: *mut usize,
        text_offsets: *mut usize,
        offsets_room: usize,
        states: *mut u8,
        states_room: usize,
    ) -> Taken;
    pub fn kohiblad_take_text32_at(
        bytes: *const u8,
        size: usize,
        places: *const Place,
        count: usize,
        step: usize,
        out: *mut u8,
        room: usize,
        length: *mut usize,
        text_offsets: *mut u32,
        offsets_room: usize,
        states: *mut u8,
        states_room: usize,
    ) -> Taken;
    pub fn kohiblad_take_binary_at(
        bytes: *const u8,
        size: usize,
        places: *const Place,
        count: usize,
        step: usize,
        out: *mut u8,
        room: usize,
        length: *mut usize,
        value_offsets: *mut usize,
        offsets_room: usize,
        states: *mut u8,
        states_room: usize,
    ) -> Taken;
    pub fn kohiblad_contains(
        left: *const u8,
        left_size: usize,
        right: *const u8,
        right_size: usize,
        depth: usize,
        steps: usize,
    ) -> Truth;
    pub fn kohiblad_exists(
        bytes: *const u8,
        size: usize,
        key: *const u8,
        key_size: usize,
        depth: usize,
    ) -> Truth;
    pub fn kohiblad_exists_any(
        bytes: *const u8,
        size: usize,
        names: *const u8,
        names_size: usize,
        depth: usize,
    ) -> Truth;
    pub fn kohiblad_exists_all(
        bytes: *const u8,
        size: usize,
        names: *const u8,
        names_size: usize,
        depth: usize,
    ) -> Truth;
    pub fn kohiblad_concat(
        left: *const u8,
        left_size: usize,
        right: *const u8,
        right_size: usize,
        depth: usize,
        out: *mut u8,
        room: usize,
        length: *mut usize,
    ) -> u32;
    pub fn kohiblad_merge_patch(
        target: *const u8,
        target_size: usize,
        patch: *const u8,
        patch_size: usize,
        depth: usize,
        out: *mut u8,
        room: usize,
        length: *mut usize,
    ) -> u32;
    pub fn kohiblad_strip_nulls(
        bytes: *const u8,
        size: usize,
        depth: usize,
        out: *mut u8,
        room: usize,
        length: *mut usize,
    ) -> u32;
    pub fn kohiblad_pick(
        bytes: *const u8,
        size: usize,
        names: *const u8,
        names_size: usize,
        others: u32,
        depth: usize,
        out: *mut u8,
        room: usize,
        length: *mut usize,
    ) -> u32;
    pub fn kohiblad_object_keys(
        bytes: *const u8,
        size: usize,
        depth: usize,
        out: *mut u8,
        room: usize,
        length: *mut usize,
    ) -> u32;
    pub fn kohiblad_array_distinct(
        bytes: *const u8,
        size: usize,
        depth: usize,
        out: *mut u8,
        room: usize,
        length: *mut usize,
    ) -> u32;
    pub fn kohiblad_array_intersection(
        left: *const u8,
        left_size: usize,
        right: *const u8,
        right_size: usize,
        depth: usize,
        out: *mut u8,
        room: usize,
        length: *mut usize,
    ) -> u32;
    pub fn kohiblad_array_except(
        left: *const u8,
        left_size: usize,
        right: *const u8,
        right_size: usize,
        depth: usize,
        out: *mut u8,
        room: usize,
        length: *mut usize,
    ) -> u32;
    pub fn kohiblad_array_overlap(
        left: *const u8,
        left_size: usize,
        right: *const u8,
        right_size: usize,
        depth: usize,
    ) -> Truth;
    pub fn kohiblad_edit(
        bytes: *const u8,
        size: usize,
        path: *const u8,
        path_size: usize,
        edit: u32,
        value: *const u8,
        value_size: usize,
        depth: usize,
        out: *mut u8,
        room: usize,
        length: *mut usize,
    ) -> u32;
    pub fn kohiblad_path_of_text(
        text: *const u8,
        size: usize,
        out: *mut u8,
        room: usize,
        length: *mut usize,
    ) -> u32;
    pub fn kohiblad_path_in(
        bytes: *const u8,
        size: usize,
        text: *const u8,
        text_size: usize,
        depth: usize,
        out: *mut u8,
        room: usize,
        length: *mut usize,
    ) -> u32;
    pub fn kohiblad_get_path(
        bytes: *const u8,
        size: usize,
        path: *const u8,
        path_size: usize,
        depth: usize,
    ) -> Place;
    pub fn kohiblad_select(
        bytes: *const u8,
        size: usize,
        path: *const u8,
        path_size: usize,
        depth: usize,
        out: *mut Place,
        room: usize,
        count: *mut usize,
    ) -> u32;
    pub fn kohiblad_select_within(
        bytes: *const u8,
        size: usize,
        path: *const u8,
        path_size: usize,
        depth: usize,
        steps: usize,
        out: *mut Place,
        room: usize,
        count: *mut usize,
    ) -> u32;
    pub fn kohiblad_index_keys(
        bytes: *const u8,
        size: usize,
        depth: usize,
        out: *mut u64,
        room: usize,
        count: *mut usize,
    ) -> u32;
    pub fn kohiblad_top_keys(
        bytes: *const u8,
        size: usize,
        depth: usize,
        out: *mut u64,
        room: usize,
        count: *mut usize,
    ) -> u32;
    pub fn kohiblad_path_fault(path: *const u8, path_size: usize) -> PathRefusal;
    pub fn kohiblad_path_report(
        path: *const u8,
        path_size: usize,
        out: *mut u8,
        room: usize,
        length: *mut usize,
    ) -> u32;
    pub fn kohiblad_path_print(
        path: *const u8,
        path_size: usize,
        out: *mut u8,
        room: usize,
        length: *mut usize,
    ) -> u32;
    pub fn kohiblad_path_query(
        bytes: *const u8,
        size: usize,
        path: *const u8,
        path_size: usize,
        variables: *const u8,
        variables_size: usize,
        silent: u32,
        depth: usize,
        out: *mut u8,
        room: usize,
        length: *mut usize,
    ) -> u32;
    pub fn kohiblad_path_exists(
        bytes: *const u8,
        size: usize,
        path: *const u8,
        path_size: usize,
        variables: *const u8,
        variables_size: usize,
        silent: u32,
        depth: usize,
    ) -> Truth;
    pub fn kohiblad_path_match(
        bytes: *const u8,
        size: usize,
        path: *const u8,
        path_size: usize,
        variables: *const u8,
        variables_size: usize,
        silent: u32,
        depth: usize,
    ) -> Truth;
}
