//! The functions of the proved library that the crate calls, each behind a safe one.
//!
//! The library asks nothing of the numbers and bytes that it is lent: bad ones are refused. What it asks is what Rust's slices and references are by
//! themselves: pointers that are not null and aligned, to as many elements as the length says, at most `isize::MAX` bytes, a lent buffer that nothing else
//! reaches while the call runs. So the safe functions have nothing left to test. They turn a refusal into an [`Error`].
use crate::{ContainerError, Error, IdIndex, TypeIndex};
use std::ops::Range;

/// How much a sheet call printed.
///
/// The lines themselves are the first `bytes` bytes of the buffer.
#[derive(Clone, Copy, Debug, PartialEq, Eq)]
pub struct Printed {
    /// How many bytes were printed.
    pub bytes: usize,
    /// How many lines they are.
    pub lines: usize,
    /// Whether lines are left that did not fit.
    pub more: bool,
}

/// How long a text is, and what it takes to write it: what the measure of a call gives.
///
/// A buffer of `length` bytes is always enough for the call that writes the text, and one byte less never is, where the text has bytes.
#[derive(Clone, Copy, Debug, PartialEq, Eq)]
pub struct Measure {
    /// How many bytes the text has.
    pub length: usize,
    /// How many indexes are opened for it. One that is opened again counts again. The function type 0 is not opened, nor is an index that is written by
    /// itself and that a mark replaces, `<missing type 0x2000>`.
    pub opened: u64,
}

/// What a batch says of one index: where its text lies in the lent buffer, or why it has none.
#[derive(Clone, Copy, Debug, Default, PartialEq, Eq)]
#[repr(C)]
pub struct BatchAnswer {
    refusal: u64,
    detail: u64,
    start: u64,
    len: u64,
}

impl BatchAnswer {
    /// Where the text lies in the buffer of the call, or the refusal.
    pub fn range(&self) -> Result<Range<usize>, Error> {
        answer(self.refusal as u32, self.detail as u32, self.start as usize..(self.start + self.len) as usize)
    }

    /// The text, of the buffer that the call was lent, or the refusal.
    ///
    /// # Panics
    ///
    /// Where `out` is another buffer, in which there is no such range.
    pub fn text<'a>(&self, out: &'a [u8]) -> Result<&'a [u8], Error> {
        self.range().map(|range| &out[range])
    }
}

// The numbers that the library fills in for one index.
const NUMBERS: usize = 4;

mod library {
    // `tools/staticlib.sh` builds it; c/yokberd.h documents it.
    extern "C" {
        pub fn yokberd_read_stream(file: *const u8, file_len: usize, stream: u32, out: *mut u8, out_len: usize, at: *mut usize, len: *mut usize) -> u32;
        pub fn yokberd_check_streams(
            types: *const u8,
            types_len: usize,
            ids: *const u8,
            ids_len: usize,
            stride: u32,
            checked: *mut u32,
            checked_len: usize,
        ) -> usize;
        pub fn yokberd_checked_format_function(
            types: *const u8,
            types_len: usize,
            checked: *const u32,
            checked_len: usize,
            out: *mut u8,
            out_len: usize,
            flags: u32,
            pointer_size: u32,
            name: *const u8,
            name_len: usize,
            index: u32,
            detail: *mut u32,
            text_len: *mut usize,
        ) -> u32;
        pub fn yokberd_checked_format_id(
            types: *const u8,
            types_len: usize,
            ids: *const u8,
            ids_len: usize,
            checked: *const u32,
            checked_len: usize,
            out: *mut u8,
            out_len: usize,
            flags: u32,
            pointer_size: u32,
            index: u32,
            detail: *mut u32,
            text_len: *mut usize,
        ) -> u32;
        pub fn yokberd_checked_format_type(
            types: *const u8,
            types_len: usize,
            checked: *const u32,
            checked_len: usize,
            out: *mut u8,
            out_len: usize,
            flags: u32,
            pointer_size: u32,
            index: u32,
            detail: *mut u32,
            text_len: *mut usize,
        ) -> u32;
        pub fn yokberd_checked_measure_function(
            types: *const u8,
            types_len: usize,
            checked: *const u32,
            checked_len: usize,
            flags: u32,
            pointer_size: u32,
            name: *const u8,
            name_len: usize,
            index: u32,
            detail: *mut u32,
            length: *mut usize,
            opened: *mut u64,
        ) -> u32;
        pub fn yokberd_checked_measure_id(
            types: *const u8,
            types_len: usize,
            ids: *const u8,
            ids_len: usize,
            checked: *const u32,
            checked_len: usize,
            flags: u32,
            pointer_size: u32,
            index: u32,
            detail: *mut u32,
            length: *mut usize,
            opened: *mut u64,
        ) -> u32;
        pub fn yokberd_checked_measure_type(
            types: *const u8,
            types_len: usize,
            checked: *const u32,
            checked_len: usize,
            flags: u32,
            pointer_size: u32,
            index: u32,
            detail: *mut u32,
            length: *mut usize,
            opened: *mut u64,
        ) -> u32;
        pub fn yokberd_checked_get_type_size(
            types: *const u8,
            types_len: usize,
            checked: *const u32,
            checked_len: usize,
            pointer_size: u32,
            index: u32,
            detail: *mut u32,
            size: *mut u64,
        ) -> u32;
        pub fn yokberd_checked_format_ids(
            types: *const u8,
            types_len: usize,
            ids: *const u8,
            ids_len: usize,
            checked: *const u32,
            checked_len: usize,
            out: *mut u8,
            out_len: usize,
            flags: u32,
            pointer_size: u32,
            indexes: *const u32,
            indexes_len: usize,
            answers: *mut u64,
            answers_len: usize,
        ) -> usize;
        pub fn yokberd_checked_format_types(
            types: *const u8,
            types_len: usize,
            checked: *const u32,
            checked_len: usize,
            out: *mut u8,
            out_len: usize,
            flags: u32,
            pointer_size: u32,
            indexes: *const u32,
            indexes_len: usize,
            answers: *mut u64,
            answers_len: usize,
        ) -> usize;
        pub fn yokberd_checked_print_sheet(
            types: *const u8,
            types_len: usize,
            ids: *const u8,
            ids_len: usize,
            checked: *const u32,
            checked_len: usize,
            sheet: *const u8,
            sheet_len: usize,
            out: *mut u8,
            out_len: usize,
            skip: usize,
            bytes: *mut usize,
            lines: *mut usize,
        ) -> u32;
        pub fn yokberd_fill_places(types: *const u8, types_len: usize, places: *mut u32, places_len: usize, detail: *mut u32, filled: *mut usize) -> u32;
        pub fn yokberd_placed_format_function(
            types: *const u8,
            types_len: usize,
            places: *const u32,
            places_len: usize,
            out: *mut u8,
            out_len: usize,
            flags: u32,
            pointer_size: u32,
            name: *const u8,
            name_len: usize,
            index: u32,
            detail: *mut u32,
            text_len: *mut usize,
        ) -> u32;
        pub fn yokberd_placed_format_id(
            types: *const u8,
            types_len: usize,
            ids: *const u8,
            ids_len: usize,
            places: *const u32,
            places_len: usize,
            out: *mut u8,
            out_len: usize,
            flags: u32,
            pointer_size: u32,
            index: u32,
            detail: *mut u32,
            text_len: *mut usize,
        ) -> u32;
        pub fn yokberd_placed_format_type(
            types: *const u8,
            types_len: usize,
            places: *const u32,
            places_len: usize,
            out: *mut u8,
            out_len: usize,
            flags: u32,
            pointer_size: u32,
            index: u32,
            detail: *mut u32,
            text_len: *mut usize,
        ) -> u32;
        pub fn yokberd_placed_measure_function(
            types: *const u8,
            types_len: usize,
            places: *const u32,
            places_len: usize,
            flags: u32,
            pointer_size: u32,
            name: *const u8,
            name_len: usize,
            index: u32,
            detail: *mut u32,
            length: *mut usize,
            opened: *mut u64,
        ) -> u32;
        pub fn yokberd_placed_measure_id(
            types: *const u8,
            types_len: usize,
            ids: *const u8,
            ids_len: usize,
            places: *const u32,
            places_len: usize,
            flags: u32,
            pointer_size: u32,
            index: u32,
            detail: *mut u32,
            length: *mut usize,
            opened: *mut u64,
        ) -> u32;
        pub fn yokberd_placed_measure_type(
            types: *const u8,
            types_len: usize,
            places: *const u32,
            places_len: usize,
            flags: u32,
            pointer_size: u32,
            index: u32,
            detail: *mut u32,
            length: *mut usize,
            opened: *mut u64,
        ) -> u32;
        pub fn yokberd_placed_get_type_size(
            types: *const u8,
            types_len: usize,
            places: *const u32,
            places_len: usize,
            pointer_size: u32,
            index: u32,
            detail: *mut u32,
            size: *mut u64,
        ) -> u32;
    }
}

fn answer<T>(number: u32, detail: u32, value: T) -> Result<T, Error> {
    if number == 0 {
        return Ok(value);
    }
    Err(Error::from_refusal(number, detail).expect("the library refuses by the numbers of its table"))
}

/// The bytes of a stream of a .pdb file in the start of `out`, and its length.
pub fn read_stream(file: &[u8], stream: u32, out: &mut [u8]) -> Result<usize, ContainerError> {
    let (mut at, mut len) = (0, 0);
    // SAFETY: the pointers and lengths are those of slices that live through the call, and `out` and the two numbers are lent to it alone.
    let number = unsafe { library::yokberd_read_stream(file.as_ptr(), file.len(), stream, out.as_mut_ptr(), out.len(), &mut at, &mut len) };
    if number == 0 {
        return Ok(len);
    }
    Err(ContainerError::from_case(number, at).expect("the library refuses by the numbers of its table"))
}

/// Checks both streams, and notes in `checked` what the calls that are lent it go by. Gives how many numbers of it serve; where it has fewer, look-ups take
/// longer.
pub fn check_streams(types: &[u8], ids: &[u8], stride: u32, checked: &mut [u32]) -> usize {
    // SAFETY: the pointers and lengths are those of slices that live through the call, and `checked` is lent to it alone.
    unsafe { library::yokberd_check_streams(types.as_ptr(), types.len(), ids.as_ptr(), ids.len(), stride, checked.as_mut_ptr(), checked.len()) }
}

/// The text of a function in the start of `out`, and its length.
pub fn format_function(types: &[u8], checked: &[u32], out: &mut [u8], flags: u32, pointer_size: u32, name: &[u8], index: u32) -> Result<usize, Error> {
    let (mut detail, mut text_len) = (0, 0);
    // SAFETY: the pointers and lengths are those of slices that live through the call, and `out` and the two numbers are lent to it alone.
    let number = unsafe {
        library::yokberd_checked_format_function(
            types.as_ptr(),
            types.len(),
            checked.as_ptr(),
            checked.len(),
            out.as_mut_ptr(),
            out.len(),
            flags,
            pointer_size,
            name.as_ptr(),
            name.len(),
            index,
            &mut detail,
            &mut text_len,
        )
    };
    answer(number, detail, text_len)
}

/// The text of an id in the start of `out`, and its length.
pub fn format_id(types: &[u8], ids: &[u8], checked: &[u32], out: &mut [u8], flags: u32, pointer_size: u32, index: u32) -> Result<usize, Error> {
    let (mut detail, mut text_len) = (0, 0);
    // SAFETY: as in `format_function`.
    let number = unsafe {
        library::yokberd_checked_format_id(
            types.as_ptr(),
            types.len(),
            ids.as_ptr(),
            ids.len(),
            checked.as_ptr(),
            checked.len(),
            out.as_mut_ptr(),
            out.len(),
            flags,
            pointer_size,
            index,
            &mut detail,
            &mut text_len,
        )
    };
    answer(number, detail, text_len)
}

/// The text of a type in the start of `out`, and its length.
pub fn format_type(types: &[u8], checked: &[u32], out: &mut [u8], flags: u32, pointer_size: u32, index: u32) -> Result<usize, Error> {
    let (mut detail, mut text_len) = (0, 0);
    // SAFETY: as in `format_function`.
    let number = unsafe {
        library::yokberd_checked_format_type(
            types.as_ptr(),
            types.len(),
            checked.as_ptr(),
            checked.len(),
            out.as_mut_ptr(),
            out.len(),
            flags,
            pointer_size,
            index,
            &mut detail,
            &mut text_len,
        )
    };
    answer(number, detail, text_len)
}

/// How long the text of a function is, and how many indexes are opened for it.
pub fn measure_function(types: &[u8], checked: &[u32], flags: u32, pointer_size: u32, name: &[u8], index: u32) -> Result<Measure, Error> {
    let (mut detail, mut length, mut opened) = (0, 0, 0);
    // SAFETY: the pointers and lengths are those of slices that live through the call, and the three numbers are lent to it alone.
    let number = unsafe {
        library::yokberd_checked_measure_function(
            types.as_ptr(),
            types.len(),
            checked.as_ptr(),
            checked.len(),
            flags,
            pointer_size,
            name.as_ptr(),
            name.len(),
            index,
            &mut detail,
            &mut length,
            &mut opened,
        )
    };
    answer(number, detail, Measure { length, opened })
}

/// The same of an id.
pub fn measure_id(types: &[u8], ids: &[u8], checked: &[u32], flags: u32, pointer_size: u32, index: u32) -> Result<Measure, Error> {
    let (mut detail, mut length, mut opened) = (0, 0, 0);
    // SAFETY: as in `measure_function`.
    let number = unsafe {
        library::yokberd_checked_measure_id(
            types.as_ptr(),
            types.len(),
            ids.as_ptr(),
            ids.len(),
            checked.as_ptr(),
            checked.len(),
            flags,
            pointer_size,
            index,
            &mut detail,
            &mut length,
            &mut opened,
        )
    };
    answer(number, detail, Measure { length, opened })
}

/// The same of a type.
pub fn measure_type(types: &[u8], checked: &[u32], flags: u32, pointer_size: u32, index: u32) -> Result<Measure, Error> {
    let (mut detail, mut length, mut opened) = (0, 0, 0);
    // SAFETY: as in `measure_function`.
    let number = unsafe {
        library::yokberd_checked_measure_type(
            types.as_ptr(),
            types.len(),
            checked.as_ptr(),
            checked.len(),
            flags,
            pointer_size,
            index,
            &mut detail,
            &mut length,
            &mut opened,
        )
    };
    answer(number, detail, Measure { length, opened })
}

/// The texts of ids, one behind another from the start of `out`, with an answer for each; gives how many of the ids are done.
#[allow(clippy::too_many_arguments)]
pub fn format_ids(
    types: &[u8],
    ids: &[u8],
    checked: &[u32],
    out: &mut [u8],
    flags: u32,
    pointer_size: u32,
    indexes: &[IdIndex],
    answers: &mut [BatchAnswer],
) -> usize {
    // SAFETY: as in `format_function`. An index is laid out as its number, and an answer as four numbers, any of which are good.
    unsafe {
        library::yokberd_checked_format_ids(
            types.as_ptr(),
            types.len(),
            ids.as_ptr(),
            ids.len(),
            checked.as_ptr(),
            checked.len(),
            out.as_mut_ptr(),
            out.len(),
            flags,
            pointer_size,
            indexes.as_ptr().cast(),
            indexes.len(),
            answers.as_mut_ptr().cast(),
            answers.len() * NUMBERS,
        )
    }
}

/// The texts of types in the same form.
pub fn format_types(
    types: &[u8],
    checked: &[u32],
    out: &mut [u8],
    flags: u32,
    pointer_size: u32,
    indexes: &[TypeIndex],
    answers: &mut [BatchAnswer],
) -> usize {
    // SAFETY: as in `format_ids`.
    unsafe {
        library::yokberd_checked_format_types(
            types.as_ptr(),
            types.len(),
            checked.as_ptr(),
            checked.len(),
            out.as_mut_ptr(),
            out.len(),
            flags,
            pointer_size,
            indexes.as_ptr().cast(),
            indexes.len(),
            answers.as_mut_ptr().cast(),
            answers.len() * NUMBERS,
        )
    }
}

/// The size of a type.
pub fn get_type_size(types: &[u8], checked: &[u32], pointer_size: u32, index: u32) -> Result<u64, Error> {
    let (mut detail, mut size) = (0, 0);
    // SAFETY: as in `format_function`.
    let number = unsafe {
        library::yokberd_checked_get_type_size(types.as_ptr(), types.len(), checked.as_ptr(), checked.len(), pointer_size, index, &mut detail, &mut size)
    };
    answer(number, detail, size)
}

/// The lines of a sheet behind the first `skip`, as far as whole lines fit.
pub fn print_sheet(types: &[u8], ids: &[u8], checked: &[u32], sheet: &[u8], out: &mut [u8], skip: usize) -> Printed {
    let (mut bytes, mut lines) = (0, 0);
    // SAFETY: as in `format_function`.
    let left = unsafe {
        library::yokberd_checked_print_sheet(
            types.as_ptr(),
            types.len(),
            ids.as_ptr(),
            ids.len(),
            checked.as_ptr(),
            checked.len(),
            sheet.as_ptr(),
            sheet.len(),
            out.as_mut_ptr(),
            out.len(),
            skip,
            &mut bytes,
            &mut lines,
        )
    };
    Printed { bytes, lines, more: left != 0 }
}

/// The places of every 64th type record in the front of `places`, and how many these are.
pub fn fill_places(types: &[u8], places: &mut [u32]) -> Result<usize, Error> {
    let (mut detail, mut filled) = (0, 0);
    // SAFETY: the pointers and lengths are those of slices that live through the call, and `places` and the two numbers are lent to it alone.
    let number = unsafe { library::yokberd_fill_places(types.as_ptr(), types.len(), places.as_mut_ptr(), places.len(), &mut detail, &mut filled) };
    answer(number, detail, filled)
}

/// The text of a function in the start of `out`, and its length, over places of any numbers.
pub fn placed_format_function(
    types: &[u8],
    places: &[u32],
    out: &mut [u8],
    flags: u32,
    pointer_size: u32,
    name: &[u8],
    index: u32,
) -> Result<usize, Error> {
    let (mut detail, mut text_len) = (0, 0);
    // SAFETY: as in `format_function`.
    let number = unsafe {
        library::yokberd_placed_format_function(
            types.as_ptr(),
            types.len(),
            places.as_ptr(),
            places.len(),
            out.as_mut_ptr(),
            out.len(),
            flags,
            pointer_size,
            name.as_ptr(),
            name.len(),
            index,
            &mut detail,
            &mut text_len,
        )
    };
    answer(number, detail, text_len)
}

/// The text of an id in the same form.
pub fn placed_format_id(types: &[u8], ids: &[u8], places: &[u32], out: &mut [u8], flags: u32, pointer_size: u32, index: u32) -> Result<usize, Error> {
    let (mut detail, mut text_len) = (0, 0);
    // SAFETY: as in `format_function`.
    let number = unsafe {
        library::yokberd_placed_format_id(
            types.as_ptr(),
            types.len(),
            ids.as_ptr(),
            ids.len(),
            places.as_ptr(),
            places.len(),
            out.as_mut_ptr(),
            out.len(),
            flags,
            pointer_size,
            index,
            &mut detail,
            &mut text_len,
        )
    };
    answer(number, detail, text_len)
}

/// The text of a type in the same form.
pub fn placed_format_type(types: &[u8], places: &[u32], out: &mut [u8], flags: u32, pointer_size: u32, index: u32) -> Result<usize, Error> {
    let (mut detail, mut text_len) = (0, 0);
    // SAFETY: as in `format_function`.
    let number = unsafe {
        library::yokberd_placed_format_type(
            types.as_ptr(),
            types.len(),
            places.as_ptr(),
            places.len(),
            out.as_mut_ptr(),
            out.len(),
            flags,
            pointer_size,
            index,
            &mut detail,
            &mut text_len,
        )
    };
    answer(number, detail, text_len)
}

/// How long the text of a function is, and how many indexes are opened for it, over places of any numbers.
pub fn placed_measure_function(types: &[u8], places: &[u32], flags: u32, pointer_size: u32, name: &[u8], index: u32) -> Result<Measure, Error> {
    let (mut detail, mut length, mut opened) = (0, 0, 0);
    // SAFETY: as in `measure_function`.
    let number = unsafe {
        library::yokberd_placed_measure_function(
            types.as_ptr(),
            types.len(),
            places.as_ptr(),
            places.len(),
            flags,
            pointer_size,
            name.as_ptr(),
            name.len(),
            index,
            &mut detail,
            &mut length,
            &mut opened,
        )
    };
    answer(number, detail, Measure { length, opened })
}

/// The same of an id.
pub fn placed_measure_id(types: &[u8], ids: &[u8], places: &[u32], flags: u32, pointer_size: u32, index: u32) -> Result<Measure, Error> {
    let (mut detail, mut length, mut opened) = (0, 0, 0);
    // SAFETY: as in `measure_function`.
    let number = unsafe {
        library::yokberd_placed_measure_id(
            types.as_ptr(),
            types.len(),
            ids.as_ptr(),
            ids.len(),
            places.as_ptr(),
            places.len(),
            flags,
            pointer_size,
            index,
            &mut detail,
            &mut length,
            &mut opened,
        )
    };
    answer(number, detail, Measure { length, opened })
}

/// The same of a type.
pub fn placed_measure_type(types: &[u8], places: &[u32], flags: u32, pointer_size: u32, index: u32) -> Result<Measure, Error> {
    let (mut detail, mut length, mut opened) = (0, 0, 0);
    // SAFETY: as in `measure_function`.
    let number = unsafe {
        library::yokberd_placed_measure_type(
            types.as_ptr(),
            types.len(),
            places.as_ptr(),
            places.len(),
            flags,
            pointer_size,
            index,
            &mut detail,
            &mut length,
            &mut opened,
        )
    };
    answer(number, detail, Measure { length, opened })
}

/// The size of a type over places of any numbers.
pub fn placed_get_type_size(types: &[u8], places: &[u32], pointer_size: u32, index: u32) -> Result<u64, Error> {
    let (mut detail, mut size) = (0, 0);
    // SAFETY: as in `format_function`.
    let number = unsafe {
        library::yokberd_placed_get_type_size(types.as_ptr(), types.len(), places.as_ptr(), places.len(), pointer_size, index, &mut detail, &mut size)
    };
    answer(number, detail, size)
}
