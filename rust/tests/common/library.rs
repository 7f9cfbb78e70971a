//! The library's calls as C has them: the plain ones, each of which checks its streams, and those over streams that were checked once, with any numbers in
//! place of what the check noted.
use super::Call;
use yokberd::{Error, Measure};

extern "C" {
    fn yokberd_format_function(
        types: *const u8,
        types_len: usize,
        out: *mut u8,
        out_len: usize,
        flags: u32,
        pointer_size: u32,
        name: *const u8,
        name_len: usize,
        index: u32,
        detail: *mut u32,
        text_len: *mut usize,
    ) -> u32;
    fn yokberd_format_id(
        types: *const u8,
        types_len: usize,
        ids: *const u8,
        ids_len: usize,
        out: *mut u8,
        out_len: usize,
        flags: u32,
        pointer_size: u32,
        index: u32,
        detail: *mut u32,
        text_len: *mut usize,
    ) -> u32;
    fn yokberd_format_type(
        types: *const u8,
        types_len: usize,
        out: *mut u8,
        out_len: usize,
        flags: u32,
        pointer_size: u32,
        index: u32,
        detail: *mut u32,
        text_len: *mut usize,
    ) -> u32;
    fn yokberd_get_type_size(types: *const u8, types_len: usize, pointer_size: u32, index: u32, detail: *mut u32, size: *mut u64) -> u32;
    fn yokberd_check_streams(
        types: *const u8,
        types_len: usize,
        ids: *const u8,
        ids_len: usize,
        stride: u32,
        checked: *mut u32,
        checked_len: usize,
    ) -> usize;
    fn yokberd_checked_format_function(
        types: *const u8,
        types_len: usize,
        checked: *const u32,
        checked_len: usize,
        out: *mut u8,
        out_len: usize,
        flags: u32,
        pointer_size: u32,
        name: *const u8,
        name_len: usize,
        index: u32,
        detail: *mut u32,
        text_len: *mut usize,
    ) -> u32;
    fn yokberd_checked_format_id(
        types: *const u8,
        types_len: usize,
        ids: *const u8,
        ids_len: usize,
        checked: *const u32,
        checked_len: usize,
        out: *mut u8,
        out_len: usize,
        flags: u32,
        pointer_size: u32,
        index: u32,
        detail: *mut u32,
        text_len: *mut usize,
    ) -> u32;
    fn yokberd_checked_format_type(
        types: *const u8,
        types_len: usize,
        checked: *const u32,
        checked_len: usize,
        out: *mut u8,
        out_len: usize,
        flags: u32,
        pointer_size: u32,
        index: u32,
        detail: *mut u32,
        text_len: *mut usize,
    ) -> u32;
    fn yokberd_checked_get_type_size(
        types: *const u8,
        types_len: usize,
        checked: *const u32,
        checked_len: usize,
        pointer_size: u32,
        index: u32,
        detail: *mut u32,
        size: *mut u64,
    ) -> u32;
    fn yokberd_measure_function(
        types: *const u8,
        types_len: usize,
        flags: u32,
        pointer_size: u32,
        name: *const u8,
        name_len: usize,
        index: u32,
        detail: *mut u32,
        length: *mut usize,
        opened: *mut u64,
    ) -> u32;
    fn yokberd_measure_id(
        types: *const u8,
        types_len: usize,
        ids: *const u8,
        ids_len: usize,
        flags: u32,
        pointer_size: u32,
        index: u32,
        detail: *mut u32,
        length: *mut usize,
        opened: *mut u64,
    ) -> u32;
    fn yokberd_measure_type(
        types: *const u8,
        types_len: usize,
        flags: u32,
        pointer_size: u32,
        index: u32,
        detail: *mut u32,
        length: *mut usize,
        opened: *mut u64,
    ) -> u32;
    fn yokberd_checked_measure_function(
        types: *const u8,
        types_len: usize,
        checked: *const u32,
        checked_len: usize,
        flags: u32,
        pointer_size: u32,
        name: *const u8,
        name_len: usize,
        index: u32,
        detail: *mut u32,
        length: *mut usize,
        opened: *mut u64,
    ) -> u32;
    fn yokberd_checked_measure_id(
        types: *const u8,
        types_len: usize,
        ids: *const u8,
        ids_len: usize,
        checked: *const u32,
        checked_len: usize,
        flags: u32,
        pointer_size: u32,
        index: u32,
        detail: *mut u32,
        length: *mut usize,
        opened: *mut u64,
    ) -> u32;
    fn yokberd_checked_measure_type(
        types: *const u8,
        types_len: usize,
        checked: *const u32,
        checked_len: usize,
        flags: u32,
        pointer_size: u32,
        index: u32,
        detail: *mut u32,
        length: *mut usize,
        opened: *mut u64,
    ) -> u32;
    fn yokberd_format_ids(
        types: *const u8,
        types_len: usize,
        ids: *const u8,
        ids_len: usize,
        out: *mut u8,
        out_len: usize,
        flags: u32,
        pointer_size: u32,
        indexes: *const u32,
        indexes_len: usize,
        answers: *mut u64,
        answers_len: usize,
    ) -> usize;
    fn yokberd_format_types(
        types: *const u8,
        types_len: usize,
        out: *mut u8,
        out_len: usize,
        flags: u32,
        pointer_size: u32,
        indexes: *const u32,
        indexes_len: usize,
        answers: *mut u64,
        answers_len: usize,
    ) -> usize;
    fn yokberd_checked_format_ids(
        types: *const u8,
        types_len: usize,
        ids: *const u8,
        ids_len: usize,
        checked: *const u32,
        checked_len: usize,
        out: *mut u8,
        out_len: usize,
        flags: u32,
        pointer_size: u32,
        indexes: *const u32,
        indexes_len: usize,
        answers: *mut u64,
        answers_len: usize,
    ) -> usize;
    fn yokberd_checked_format_types(
        types: *const u8,
        types_len: usize,
        checked: *const u32,
        checked_len: usize,
        out: *mut u8,
        out_len: usize,
        flags: u32,
        pointer_size: u32,
        indexes: *const u32,
        indexes_len: usize,
        answers: *mut u64,
        answers_len: usize,
    ) -> usize;
    fn yokberd_print_sheet(
        types: *const u8,
        types_len: usize,
        ids: *const u8,
        ids_len: usize,
        sheet: *const u8,
        sheet_len: usize,
        out: *mut u8,
        out_len: usize,
        skip: usize,
        bytes: *mut usize,
        lines: *mut usize,
    ) -> u32;
    fn yokberd_checked_print_sheet(
        types: *const u8,
        types_len: usize,
        ids: *const u8,
        ids_len: usize,
        checked: *const u32,
        checked_len: usize,
        sheet: *const u8,
        sheet_len: usize,
        out: *mut u8,
        out_len: usize,
        skip: usize,
        bytes: *mut usize,
        lines: *mut usize,
    ) -> u32;
}

/// What a batch is asked for.
#[derive(Clone, Copy, Debug)]
pub enum Batch {
    Ids,
    Types,
}

/// Two streams and settings.
#[derive(Clone, Copy)]
pub struct Plain<'a> {
    pub types: &'a [u8],
    pub ids: &'a [u8],
    pub pointer_size: u32,
    pub flags: u32,
}

/// What a call answers: the length of a text, which is at the start of the buffer, or a size.
pub type Number = Result<u64, Error>;

fn told(number: u32, detail: u32, value: u64) -> Number {
    match number {
        0 => {
            assert_eq!(detail, 0);
            Ok(value)
        }
        _ => {
            assert_eq!(value, 0);
            Err(Error::from_refusal(number, detail).expect("a number of the table"))
        }
    }
}

fn told_measure(number: u32, detail: u32, length: usize, opened: u64) -> Result<Measure, Error> {
    assert!(number == 0 || opened == 0, "indexes opened by a refused measure");
    told(number, detail, length as u64).map(|_| Measure { length, opened })
}

impl Plain<'_> {
    /// A plain call.
    pub fn ask(&self, call: Call, out: &mut [u8]) -> Number {
        let (types, types_len, ids, ids_len) = (self.types.as_ptr(), self.types.len(), self.ids.as_ptr(), self.ids.len());
        let (flags, pointer_size, at, room) = (self.flags, self.pointer_size, out.as_mut_ptr(), out.len());
        let (mut detail, mut text_len, mut size) = (7, 7, 7);
        let (detail_at, len_at) = (&mut detail, &mut text_len);
        // SAFETY: the pointers and lengths are those of slices that live through the call, and what it writes is lent to it alone.
        unsafe {
            let number = match call {
                Call::Function(name, index) => {
                    let (name, name_len) = (name.as_ptr(), name.len());
                    yokberd_format_function(types, types_len, at, room, flags, pointer_size, name, name_len, index, detail_at, len_at)
                }
                Call::Id(index) => yokberd_format_id(types, types_len, ids, ids_len, at, room, flags, pointer_size, index, detail_at, len_at),
                Call::Type(index) => yokberd_format_type(types, types_len, at, room, flags, pointer_size, index, detail_at, len_at),
                Call::Size(index) => {
                    let number = yokberd_get_type_size(types, types_len, pointer_size, index, detail_at, &mut size);
                    return told(number, detail, size);
                }
            };
            told(number, detail, text_len as u64)
        }
    }

    /// A plain measure, of a call that writes a text.
    pub fn measure(&self, call: Call) -> Result<Measure, Error> {
        let (types, types_len, ids, ids_len) = (self.types.as_ptr(), self.types.len(), self.ids.as_ptr(), self.ids.len());
        let (flags, size) = (self.flags, self.pointer_size);
        let (mut detail, mut length, mut opened) = (7, 7, 7);
        let (detail_at, length_at, opened_at) = (&mut detail, &mut length, &mut opened);
        // SAFETY: as in `ask`.
        let number = unsafe {
            match call {
                Call::Function(name, index) => {
                    let (name, name_len) = (name.as_ptr(), name.len());
                    yokberd_measure_function(types, types_len, flags, size, name, name_len, index, detail_at, length_at, opened_at)
                }
                Call::Id(index) => yokberd_measure_id(types, types_len, ids, ids_len, flags, size, index, detail_at, length_at, opened_at),
                Call::Type(index) => yokberd_measure_type(types, types_len, flags, size, index, detail_at, length_at, opened_at),
                Call::Size(_) => panic!("a size call writes no text"),
            }
        };
        told_measure(number, detail, length, opened)
    }

    /// The same over any numbers.
    pub fn measure_checked(&self, checked: &[u32], call: Call) -> Result<Measure, Error> {
        let (types, types_len, ids, ids_len) = (self.types.as_ptr(), self.types.len(), self.ids.as_ptr(), self.ids.len());
        let (flags, size, places, count) = (self.flags, self.pointer_size, checked.as_ptr(), checked.len());
        let (mut detail, mut length, mut opened) = (7, 7, 7);
        let (detail_at, length_at, opened_at) = (&mut detail, &mut length, &mut opened);
        // SAFETY: as in `ask`.
        let number = unsafe {
            match call {
                Call::Function(name, index) => {
                    let (name, name_len) = (name.as_ptr(), name.len());
                    yokberd_checked_measure_function(types, types_len, places, count, flags, size, name, name_len, index, detail_at, length_at, opened_at)
                }
                Call::Id(index) => {
                    yokberd_checked_measure_id(types, types_len, ids, ids_len, places, count, flags, size, index, detail_at, length_at, opened_at)
                }
                Call::Type(index) => yokberd_checked_measure_type(types, types_len, places, count, flags, size, index, detail_at, length_at, opened_at),
                Call::Size(_) => panic!("a size call writes no text"),
            }
        };
        told_measure(number, detail, length, opened)
    }

    /// The lines of a sheet behind the first `skip`, which checks its streams: whether lines are left, how many bytes and lines were printed.
    pub fn print(&self, sheet: &[u8], out: &mut [u8], skip: usize) -> (bool, usize, usize) {
        let (types, ids, at, room) = (self.types, self.ids, out.as_mut_ptr(), out.len());
        let (mut bytes, mut lines) = (7, 7);
        // SAFETY: as in `ask`.
        let left = unsafe {
            yokberd_print_sheet(types.as_ptr(), types.len(), ids.as_ptr(), ids.len(), sheet.as_ptr(), sheet.len(), at, room, skip, &mut bytes, &mut lines)
        };
        assert!(left <= 1);
        (left == 1, bytes, lines)
    }

    /// The same over any numbers.
    pub fn print_checked(&self, checked: &[u32], sheet: &[u8], out: &mut [u8], skip: usize) -> (bool, usize, usize) {
        let (types, types_len, ids, ids_len) = (self.types.as_ptr(), self.types.len(), self.ids.as_ptr(), self.ids.len());
        let (places, count, at, room) = (checked.as_ptr(), checked.len(), out.as_mut_ptr(), out.len());
        let (mut bytes, mut lines) = (7, 7);
        let (sheet, sheet_len, bytes_at, lines_at) = (sheet.as_ptr(), sheet.len(), &mut bytes, &mut lines);
        // SAFETY: as in `ask`.
        let left =
            unsafe { yokberd_checked_print_sheet(types, types_len, ids, ids_len, places, count, sheet, sheet_len, at, room, skip, bytes_at, lines_at) };
        assert!(left <= 1);
        (left == 1, bytes, lines)
    }

    /// Many ids or types, four numbers each; gives how many are done. It checks its streams.
    pub fn batch(&self, what: Batch, indexes: &[u32], out: &mut [u8], answers: &mut [u64]) -> usize {
        let (types, types_len, ids, ids_len) = (self.types.as_ptr(), self.types.len(), self.ids.as_ptr(), self.ids.len());
        let (flags, pointer_size, at, room) = (self.flags, self.pointer_size, out.as_mut_ptr(), out.len());
        let (indexes, count, answers, slots) = (indexes.as_ptr(), indexes.len(), answers.as_mut_ptr(), answers.len());
        // SAFETY: as in `ask`.
        unsafe {
            match what {
                Batch::Ids => yokberd_format_ids(types, types_len, ids, ids_len, at, room, flags, pointer_size, indexes, count, answers, slots),
                Batch::Types => yokberd_format_types(types, types_len, at, room, flags, pointer_size, indexes, count, answers, slots),
            }
        }
    }

    /// The same over any numbers.
    pub fn batch_checked(&self, checked: &[u32], what: Batch, indexes: &[u32], out: &mut [u8], answers: &mut [u64]) -> usize {
        let (types, types_len, ids, ids_len) = (self.types.as_ptr(), self.types.len(), self.ids.as_ptr(), self.ids.len());
        let (flags, size, at, room) = (self.flags, self.pointer_size, out.as_mut_ptr(), out.len());
        let (indexes, count, answers, slots) = (indexes.as_ptr(), indexes.len(), answers.as_mut_ptr(), answers.len());
        let (places, len) = (checked.as_ptr(), checked.len());
        // SAFETY: as in `ask`.
        unsafe {
            match what {
                Batch::Ids => {
                    yokberd_checked_format_ids(types, types_len, ids, ids_len, places, len, at, room, flags, size, indexes, count, answers, slots)
                }
                Batch::Types => yokberd_checked_format_types(types, types_len, places, len, at, room, flags, size, indexes, count, answers, slots),
            }
        }
    }

    /// Checks both streams; gives how many numbers serve.
    pub fn check(&self, stride: u32, checked: &mut [u32]) -> usize {
        let (types, ids) = (self.types, self.ids);
        // SAFETY: as in `ask`.
        unsafe { yokberd_check_streams(types.as_ptr(), types.len(), ids.as_ptr(), ids.len(), stride, checked.as_mut_ptr(), checked.len()) }
    }

    /// As many numbers as serve, with what the check notes in them. By a stride of 0 as many places are noted as fit: then some hundreds.
    pub fn checked(&self, stride: u32) -> Vec<u32> {
        let serving = if stride == 0 { 300 } else { self.check(stride, &mut [0; 19]).max(19) };
        let mut checked = vec![0; serving];
        let said = self.check(stride, &mut checked);
        assert!(stride == 0 || said.max(19) == serving, "how many numbers serve depends on how many are lent");
        checked
    }

    /// A call over any numbers.
    pub fn ask_checked(&self, checked: &[u32], call: Call, out: &mut [u8]) -> Number {
        let (types, types_len, ids, ids_len) = (self.types.as_ptr(), self.types.len(), self.ids.as_ptr(), self.ids.len());
        let (flags, pointer_size, at, room) = (self.flags, self.pointer_size, out.as_mut_ptr(), out.len());
        let (places, count) = (checked.as_ptr(), checked.len());
        let (mut detail, mut text_len, mut size) = (7, 7, 7);
        let (detail_at, len_at) = (&mut detail, &mut text_len);
        // SAFETY: as in `ask`.
        unsafe {
            let number = match call {
                Call::Function(name, index) => {
                    let (name, name_len) = (name.as_ptr(), name.len());
                    yokberd_checked_format_function(
                        types,
                        types_len,
                        places,
                        count,
                        at,
                        room,
                        flags,
                        pointer_size,
                        name,
                        name_len,
                        index,
                        detail_at,
                        len_at,
                    )
                }
                Call::Id(index) => {
                    yokberd_checked_format_id(types, types_len, ids, ids_len, places, count, at, room, flags, pointer_size, index, detail_at, len_at)
                }
                Call::Type(index) => yokberd_checked_format_type(types, types_len, places, count, at, room, flags, pointer_size, index, detail_at, len_at),
                Call::Size(index) => {
                    let number = yokberd_checked_get_type_size(types, types_len, places, count, pointer_size, index, detail_at, &mut size);
                    return told(number, detail, size);
                }
            };
            told(number, detail, text_len as u64)
        }
    }
}
