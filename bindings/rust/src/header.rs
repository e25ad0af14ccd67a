//! What bindings/c/dotenvy.h declares, with its names: the numbers, the structs and the calls that this crate uses.

pub const OK: u32 = 0;
pub const LINE_PARSE: u32 = 1;
pub const NOT_UTF8: u32 = 2;
pub const NUL: u32 = 3;
pub const NO_MEMORY: u32 = 5;
pub const NO_KEY: u32 = 7;
pub const ABSENT: u32 = 8;
pub const QUOTE_OPEN: u32 = 9;
pub const END_OPEN: u32 = 10;
pub const UNREADABLE: u32 = 11;
pub const LONG_COMMENT: u32 = 12;
pub const UNPORTABLE_MARK: u32 = 13;
pub const UNPORTABLE_CARRIAGE_RETURN: u32 = 14;
pub const UNPORTABLE_APOSTROPHE: u32 = 15;
pub const UNPORTABLE_LINE_FEED: u32 = 16;
pub const UNPORTABLE_BACKSLASHES: u32 = 17;
pub const UNPORTABLE_LAST_BACKSLASH: u32 = 18;
pub const UNPORTABLE_SUBSTITUTION: u32 = 19;
pub const UNPORTABLE_COMMENT: u32 = 20;
pub const UNPORTABLE_WHITE_SPACE: u32 = 22;

/// `dotenvy_load`: a name that is there gets the value of the file.
pub const OVERRIDE: u32 = 1;

/// The second dialect.
pub const NEXT_DIALECT: u32 = 2;

/// `dotenvy_items`: a byte order mark at the start is dropped, as a load does.
pub const DROP_MARK: u32 = 4;

/// `dotenvy_set`: a line that the readers of Python, Node and Ruby read alike.
pub const PORTABLE: u32 = 8;

pub const MENTIONS: u32 = 1;
pub const STOPS_BEFORE: u32 = 2;
pub const REMOVED: u32 = 3;

#[repr(C)]
#[derive(Default)]
pub struct Answer {
    pub status: u32,
    pub fits: bool,
    pub index: usize,
    pub block_len: usize,
    pub text_len: usize,
    pub reserved: [u64; 2],
}

#[repr(C)]
#[derive(Clone, Copy, Default)]
pub struct Item {
    pub status: u32,
    pub key_at: usize,
    pub key_len: usize,
    pub text_len: usize,
    pub index: usize,
    pub first_line: u64,
    pub last_line: u64,
    pub file_at: usize,
    pub file_len: usize,
    pub reserved: [u64; 2],
}

#[repr(C)]
#[derive(Default)]
pub struct Counts {
    pub status: u32,
    pub fits: bool,
    pub items: usize,
    pub text_len: usize,
    pub reserved: [u64; 2],
}

#[repr(C)]
#[derive(Default)]
pub struct Text {
    pub status: u32,
    pub fits: bool,
    pub text_len: usize,
    pub reserved: [u64; 2],
}

#[repr(C)]
#[derive(Default)]
pub struct Edit {
    pub status: u32,
    pub fits: bool,
    pub line: u64,
    pub file_len: usize,
    pub names_len: usize,
    pub warnings: usize,
    pub reserved: [u64; 2],
}

#[repr(C)]
#[derive(Clone, Copy, Default)]
pub struct Warning {
    pub kind: u32,
    pub name_at: usize,
    pub name_len: usize,
    pub first_line: u64,
    pub last_line: u64,
    pub reserved: [u64; 2],
}

extern "C" {
    pub fn dotenvy_load(
        file: *const u8,
        file_len: usize,
        block: *const u8,
        block_len: usize,
        options: u32,
        answer: *mut Answer,
        out: *mut u8,
        out_len: usize,
    ) -> u32;

    pub fn dotenvy_items(
        file: *const u8,
        file_len: usize,
        block: *const u8,
        block_len: usize,
        options: u32,
        counts: *mut Counts,
        items: *mut Item,
        items_len: usize,
        out: *mut u8,
        out_len: usize,
    ) -> u32;

    pub fn dotenvy_whole(file: *const u8, file_len: usize, options: u32, whole: *mut usize) -> u32;

    pub fn dotenvy_write(
        key: *const u8,
        key_len: usize,
        value: *const u8,
        value_len: usize,
        options: u32,
        answer: *mut Text,
        out: *mut u8,
        out_len: usize,
    ) -> u32;

    pub fn dotenvy_set(
        file: *const u8,
        file_len: usize,
        key: *const u8,
        key_len: usize,
        value: *const u8,
        value_len: usize,
        options: u32,
        edit: *mut Edit,
        warnings: *mut Warning,
        warnings_len: usize,
        out: *mut u8,
        out_len: usize,
    ) -> u32;

    pub fn dotenvy_unset(
        file: *const u8,
        file_len: usize,
        key: *const u8,
        key_len: usize,
        options: u32,
        edit: *mut Edit,
        warnings: *mut Warning,
        warnings_len: usize,
        out: *mut u8,
        out_len: usize,
    ) -> u32;

    pub fn dotenvy_version() -> u32;
}

#[cfg(test)]
mod tests {
    use super::*;
    use std::mem::{offset_of, size_of};

    // A line of layout.txt: each field with its offset and its size.
    macro_rules! layout {
        ($name:literal, $type:ident: $($field:ident),*) => {{
            let mut line = format!("{} {}", $name, size_of::<$type>());
            $(
                let size = field_size(|it: &$type| &it.$field);
                line += &format!(" {}={}:{size}", stringify!($field), offset_of!($type, $field));
            )*
            line
        }};
    }

    fn field_size<T, F>(_: fn(&T) -> &F) -> usize {
        size_of::<F>()
    }

    #[test]
    fn structs_have_the_layout_of_the_header() {
        let lines = [
            layout!("answer", Answer: status, fits, index, block_len, text_len, reserved),
            layout!("item", Item: status, key_at, key_len, text_len, index, first_line, last_line, file_at,
                file_len, reserved),
            layout!("counts", Counts: status, fits, items, text_len, reserved),
            layout!("text", Text: status, fits, text_len, reserved),
            layout!("edit", Edit: status, fits, line, file_len, names_len, warnings, reserved),
            layout!("warning", Warning: kind, name_at, name_len, first_line, last_line, reserved),
        ];
        assert_eq!(lines.join("\n") + "\n", include_str!("../layout.txt"));
    }
}
