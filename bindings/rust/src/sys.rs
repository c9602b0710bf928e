//! The calls of `include/oer.h`, as C has them.

use std::os::raw::{c_char, c_void};

#[repr(C)]
pub struct OerTypes {
    pub at_: *mut c_void,
    pub full_: u32,
}

#[repr(C)]
pub struct OerParsed {
    pub status: u32,
    pub why: u32,
    pub place: u64,
}

#[repr(C)]
pub struct OerUnderstood {
    pub status: u32,
    pub why: u32,
    pub text: u64,
    pub place: u64,
    pub line: u64,
    pub column: u64,
    pub words: u64,
}

#[repr(C)]
pub struct OerMessage {
    pub at: usize,
    pub length: usize,
}

#[repr(C)]
#[derive(Clone, Copy)]
pub struct OerChecked {
    pub status: u32,
    pub why: u32,
    pub octets: u64,
    pub canonical: u32,
}

#[repr(C)]
pub struct OerWritten {
    pub status: u32,
    pub why: u32,
    pub octets: u64,
    pub written: u64,
}

#[repr(C)]
pub struct OerLocated {
    pub status: u32,
    pub why: u32,
    pub octets: u64,
    pub at: usize,
    pub length: usize,
}

pub const OK: u32 = 0;
pub const REJECTED: u32 = 1;
pub const NO_TYPES: u32 = 2;
pub const UNNAMED: u32 = 3;
pub const MEMORY: u32 = 4;
pub const ROOM: u32 = 5;
pub const NO_PATH: u32 = 6;
pub const NO_STEP: u32 = 7;
pub const ABSENT: u32 = 8;
pub const NO_JSON: u32 = 9;
pub const OUTSIDE: u32 = 10;
pub const NOT_CANONICAL: u32 = 11;
pub const FOLLOWS: u32 = 12;

extern "C" {
    pub fn oer_version() -> u32;
    pub fn oer_types_read(types: *mut OerTypes, text: *const c_char, text_length: usize) -> OerParsed;
    pub fn oer_types_read_within(types: *mut OerTypes, text: *const c_char, text_length: usize, parts: u64) -> OerParsed;
    pub fn oer_types_read_modules(
        types: *mut OerTypes,
        texts: *const c_char,
        texts_length: usize,
        places: *const OerMessage,
        places_length: usize,
        nesting: u8,
        words: *mut c_char,
        room: usize,
    ) -> OerUnderstood;
    pub fn oer_explain_types(text: *const c_char, text_length: usize, out: *mut c_char, room: usize) -> OerWritten;
    pub fn oer_types_free(types: *mut OerTypes);
    pub fn oer_types_share(types: *mut OerTypes, other: *mut OerTypes) -> u32;
    pub fn oer_check(
        types: *mut OerTypes,
        name: *const c_char,
        name_length: usize,
        octets: *const u8,
        octets_length: usize,
    ) -> OerChecked;
    pub fn oer_check_whole(
        types: *mut OerTypes,
        name: *const c_char,
        name_length: usize,
        octets: *const u8,
        octets_length: usize,
    ) -> OerChecked;
    pub fn oer_check_nesting(
        types: *mut OerTypes,
        name: *const c_char,
        name_length: usize,
        octets: *const u8,
        octets_length: usize,
    ) -> OerChecked;
    pub fn oer_check_many(
        types: *mut OerTypes,
        name: *const c_char,
        name_length: usize,
        octets: *const u8,
        octets_length: usize,
        messages: *const OerMessage,
        messages_length: usize,
        answers: *mut OerChecked,
        answers_length: usize,
    ) -> u32;
    pub fn oer_canon(
        types: *mut OerTypes,
        name: *const c_char,
        name_length: usize,
        octets: *const u8,
        octets_length: usize,
        limit: u64,
        out: *mut u8,
        room: usize,
    ) -> OerWritten;
    pub fn oer_part(
        types: *mut OerTypes,
        name: *const c_char,
        name_length: usize,
        octets: *const u8,
        octets_length: usize,
        path: *const c_char,
        path_length: usize,
        out: *mut u8,
        room: usize,
    ) -> OerWritten;
    pub fn oer_part_at(
        types: *mut OerTypes,
        name: *const c_char,
        name_length: usize,
        octets: *const u8,
        octets_length: usize,
        path: *const c_char,
        path_length: usize,
    ) -> OerLocated;
    pub fn oer_part_named(
        types: *mut OerTypes,
        name: *const c_char,
        name_length: usize,
        octets: *const u8,
        octets_length: usize,
        names: *const c_char,
        names_length: usize,
        out: *mut u8,
        room: usize,
    ) -> OerWritten;
    pub fn oer_part_named_at(
        types: *mut OerTypes,
        name: *const c_char,
        name_length: usize,
        octets: *const u8,
        octets_length: usize,
        names: *const c_char,
        names_length: usize,
    ) -> OerLocated;
    pub fn oer_to_json(
        types: *mut OerTypes,
        name: *const c_char,
        name_length: usize,
        octets: *const u8,
        octets_length: usize,
        limit: u64,
        out: *mut c_char,
        room: usize,
    ) -> OerWritten;
    pub fn oer_from_json(
        types: *mut OerTypes,
        name: *const c_char,
        name_length: usize,
        text: *const c_char,
        text_length: usize,
        out: *mut u8,
        room: usize,
    ) -> OerWritten;
    pub fn oer_explain_octets(
        types: *mut OerTypes,
        name: *const c_char,
        name_length: usize,
        octets: *const u8,
        octets_length: usize,
        out: *mut c_char,
        room: usize,
    ) -> OerWritten;
    pub fn oer_explain_json(
        types: *mut OerTypes,
        name: *const c_char,
        name_length: usize,
        text: *const c_char,
        text_length: usize,
        out: *mut c_char,
        room: usize,
    ) -> OerWritten;
}

#[cfg(test)]
mod tests {
    use super::*;
    use std::mem::{align_of, size_of};

    fn size_at<T>(_: *const T) -> usize {
        size_of::<T>()
    }

    /// The size of a struct, and the offset and size of each field, in the order of the header.
    macro_rules! layout {
        ($struct:ident, $($field:ident),*) => {{
            let at = std::mem::MaybeUninit::<$struct>::uninit();
            let start = at.as_ptr();
            let mut found = vec![size_of::<$struct>().to_string()];
            $(
                // SAFETY: the place is only compared, and nothing is read.
                let field = unsafe { std::ptr::addr_of!((*start).$field) };
                found.push(format!("{}+{}", field as usize - start as usize, size_at(field)));
            )*
            found
        }};
    }

    #[test]
    fn structs_lie_as_in_the_header() {
        let found = [
            ("oer_types", layout!(OerTypes, at_, full_)),
            ("oer_parsed", layout!(OerParsed, status, why, place)),
            ("oer_understood", layout!(OerUnderstood, status, why, text, place, line, column, words)),
            ("oer_checked", layout!(OerChecked, status, why, octets, canonical)),
            ("oer_message", layout!(OerMessage, at, length)),
            ("oer_written", layout!(OerWritten, status, why, octets, written)),
            ("oer_located", layout!(OerLocated, status, why, octets, at, length)),
        ];
        let wanted = crate::table::rows("layout");
        assert_eq!(found.len(), wanted.len());
        for ((name, numbers), row) in found.iter().zip(wanted) {
            assert_eq!((*name, &numbers[..]), (row[0].as_str(), &row[1..]));
        }
        assert_eq!(align_of::<OerWritten>(), 8);
    }
}
