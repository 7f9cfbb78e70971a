//! `TypeFormatter`: the API of the original over the proved library.
use crate::text::{self, into_string, write_text};
use crate::{boundary, BatchAnswer, Error, IdIndex, Measure, Printed, Sheet, TypeFormatterFlags, TypeIndex};
use std::fmt::Write;
use std::ops::Range;

type Result<T> = std::result::Result<T, Error>;

/// The longest text that a formatter gives, in bytes, where [`TypeFormatter::with_text_limit`] sets no other.
pub const TEXT_LIMIT: usize = 1 << 20;

/// The longest text that is measured, in bytes.
pub const MEASURE_LIMIT: usize = (1 << 24) - 1;

// How many records apart the places are that a formatter notes: so a look-up passes seven records at most.
const STRIDE: u32 = 8;

/// The longest stream that is not refused, in bytes.
pub const STREAM_LIMIT: usize = 1 << 24;

// A buffer for a sheet's lines, of which any one has at most 4,150 bytes, and for the texts of a batch.
const PAGE: usize = 1 << 16;

// How many indexes one call of a batch answers at most.
const BATCH: usize = 1 << 10;

/// Allows printing function signatures, for example for use in stack traces.
///
/// It is made over the bytes of the type stream and the id stream of a PDB. Both are checked then, once, in one pass over their records, and the places of
/// every eighth record are noted: some half of a byte for each record, which the formatter keeps beside the borrowed streams. A damaged stream is no error
/// then: each call over it is refused, and the others are not. Every call ends, and its answer is the one that the library is proved to give, whatever was
/// asked before.
///
/// A look-up starts at a noted place, so a call does not take longer on longer streams. What does bound its time is said at the [crate](crate#time). Who
/// uses a formatter need not mind places: it fills its own, nearer ones and of both streams, once. [`PlacedFormatter`](crate::PlacedFormatter) is for
/// places that are kept from run to run.
///
/// A text is UTF-8: each ill-formed part of a record's name is replaced by U+FFFD, as the original replaces it. Only the name that is given to a call of a
/// function stays as it is, and as bytes it may be ill-formed. The calls named as in the original give the text as a `String`; those with `_bytes` give its
/// bytes, those with `_into` write them into a buffer of the caller's and allocate nothing. The others write into a buffer of their thread, which is kept
/// for the next call and grows with the texts up to 64 KiB, and copy the text out of it.
///
/// The module index is taken so that calls written for the original can stay as they are. It is not used: an index that leads into another module, which
/// has bit 31 set, is refused ([`Error::CrossModule`]).
///
/// ```
/// use yokberd::{TypeFormatter, TypeFormatterFlags, TypeIndex};
///
/// let types = std::fs::read("../crates/test_vectors/data/overloads-types.bin")?;
/// let ids = std::fs::read("../crates/test_vectors/data/overloads-ids.bin")?;
/// let formatter = TypeFormatter::new_from_parts(&types, &ids, 8, TypeFormatterFlags::default());
/// assert_eq!(formatter.format_id(0, 0x1001.into())?, "loom::advance(float)");
/// assert_eq!(formatter.format_function("advance", 0, TypeIndex(0x1001))?, "advance(float)");
/// assert_eq!(formatter.format_type(0, TypeIndex(0x40))?, "float");
/// assert_eq!(formatter.get_type_size(0, TypeIndex(0x40))?, 4);
/// # Ok::<(), Box<dyn std::error::Error>>(())
/// ```
#[derive(Clone, Debug)]
pub struct TypeFormatter<'a> {
    types: &'a [u8],
    ids: &'a [u8],
    // What the check of both streams noted. They are borrowed, so it holds as long as the formatter is there.
    checked: Vec<u32>,
    ptr_size: u8,
    flags: TypeFormatterFlags,
    text_limit: usize,
}

impl<'a> TypeFormatter<'a> {
    /// A formatter over the bytes of a type stream and an id stream (streams 2 and 4 of a PDB), for a machine with pointers of `ptr_size` bytes. It checks
    /// both streams; where one is refused, so is each call over it.
    ///
    /// An empty slice for the ids says that there are none, as in a program that was linked without an id stream: each id is then written as missing.
    ///
    /// ```
    /// use yokberd::{Error, IdIndex, TypeFormatter, TypeFormatterFlags};
    ///
    /// let types = std::fs::read("../crates/test_vectors/data/overloads-types.bin")?;
    /// let formatter = TypeFormatter::new_from_parts(&types, &[], 8, TypeFormatterFlags::default());
    /// assert_eq!(formatter.format_id(0, IdIndex(0x1001))?, "<missing type 0x1001>");
    /// assert_eq!(formatter.format_id(0, IdIndex(0x8000_1001)), Err(Error::CrossModule(0x8000_1001)));
    /// # Ok::<(), Box<dyn std::error::Error>>(())
    /// ```
    pub fn new_from_parts(types: &'a [u8], ids: &'a [u8], ptr_size: u8, flags: TypeFormatterFlags) -> Self {
        TypeFormatter { types, ids, checked: check(types, ids), ptr_size, flags, text_limit: TEXT_LIMIT }
    }

    /// The same formatter with another limit for the texts that it allocates; a longer text is refused with [`Error::NoRoom`]. The texts that are written
    /// into a lent buffer, and the measures, have no such limit.
    ///
    /// A hostile stream can ask for a very long text, and for much work with each byte of it ([time](crate#time)). So a service that is sent streams from
    /// elsewhere sets a small limit.
    pub fn with_text_limit(self, text_limit: usize) -> Self {
        TypeFormatter { text_limit, ..self }
    }

    /// Get the size, in bytes, of the type at `index`. What cannot be read has the size 0, as in the original; a broken stream, a bad pointer size and a
    /// chain of more than 32 records are refused.
    pub fn get_type_size(&self, _module_index: usize, index: TypeIndex) -> Result<u64> {
        boundary::get_type_size(self.types, &self.checked, self.ptr_size.into(), index.0)
    }

    /// Return a string with the function or method signature, including return type (if requested), namespace and/or class qualifiers, and arguments.
    /// If the TypeIndex is 0, then only the raw name is emitted.
    pub fn format_function(&self, name: &str, module_index: usize, function_type_index: TypeIndex) -> Result<String> {
        self.text(|out| self.format_function_into(out, name.as_bytes(), module_index, function_type_index), into_string)
    }

    /// [`format_function`](Self::format_function) with bytes for the name and the text.
    pub fn format_function_bytes(&self, name: &[u8], module_index: usize, function_type_index: TypeIndex) -> Result<Vec<u8>> {
        self.text(|out| self.format_function_into(out, name, module_index, function_type_index), <[u8]>::to_vec)
    }

    /// [`format_function`](Self::format_function) into the start of a buffer; gives the text's length. The bytes behind the text stay as they were. Where
    /// the call is refused, the whole buffer is filled with zeros.
    pub fn format_function_into(&self, out: &mut [u8], name: &[u8], _module_index: usize, function_type_index: TypeIndex) -> Result<usize> {
        boundary::format_function(self.types, &self.checked, out, self.flags.bits(), self.ptr_size.into(), name, function_type_index.0)
    }

    /// How long the text of [`format_function`](Self::format_function) is, and how many indexes are opened for it, without writing it: to lay out a page,
    /// or to lend [`format_function_into`](Self::format_function_into) just as many bytes as it needs.
    ///
    /// It does not depend on the text limit. It is refused exactly as the call with a buffer of [`MEASURE_LIMIT`] bytes is, and takes about as long: so over
    /// streams from elsewhere, lend a small buffer in place of a measure ([time](crate#time)).
    ///
    /// ```
    /// use yokberd::{Error, Measure, TypeFormatter, TypeFormatterFlags, TypeIndex};
    ///
    /// let types = std::fs::read("../crates/test_vectors/data/overloads-types.bin")?;
    /// let formatter = TypeFormatter::new_from_parts(&types, &[], 8, TypeFormatterFlags::empty());
    /// let measure = formatter.measure_function(b"advance", 0, TypeIndex(0x1001))?;
    /// assert_eq!(measure, Measure { length: 19, opened: 4 }); // the procedure, its result, its argument list and float
    /// let mut out = vec![0; measure.length];
    /// assert_eq!(formatter.format_function_into(&mut out, b"advance", 0, TypeIndex(0x1001)), Ok(19));
    /// assert_eq!(out, b"void advance(float)");
    /// assert_eq!(formatter.format_function_into(&mut out[1..], b"advance", 0, TypeIndex(0x1001)), Err(Error::NoRoom));
    /// # Ok::<(), Box<dyn std::error::Error>>(())
    /// ```
    pub fn measure_function(&self, name: &[u8], _module_index: usize, function_type_index: TypeIndex) -> Result<Measure> {
        boundary::measure_function(self.types, &self.checked, self.flags.bits(), self.ptr_size.into(), name, function_type_index.0)
    }

    /// Write out the text of [`format_function`](Self::format_function). Where the call is refused, nothing is written.
    pub fn emit_function(&self, w: &mut impl Write, name: &str, module_index: usize, function_type_index: TypeIndex) -> Result<()> {
        self.text(|out| self.format_function_into(out, name.as_bytes(), module_index, function_type_index), |text| write_text(w, text))?
    }

    /// Return a string with the function or method signature of an id, including return type (if requested), namespace and/or class qualifiers, and
    /// arguments. This method is used for inlined functions.
    pub fn format_id(&self, module_index: usize, id_index: IdIndex) -> Result<String> {
        self.text(|out| self.format_id_into(out, module_index, id_index), into_string)
    }

    /// [`format_id`](Self::format_id) as bytes: those of that string.
    pub fn format_id_bytes(&self, module_index: usize, id_index: IdIndex) -> Result<Vec<u8>> {
        self.text(|out| self.format_id_into(out, module_index, id_index), <[u8]>::to_vec)
    }

    /// [`format_id`](Self::format_id) into the start of a buffer, which is left as [`format_function_into`](Self::format_function_into) leaves it.
    pub fn format_id_into(&self, out: &mut [u8], _module_index: usize, id_index: IdIndex) -> Result<usize> {
        boundary::format_id(self.types, self.ids, &self.checked, out, self.flags.bits(), self.ptr_size.into(), id_index.0)
    }

    /// How long the text of [`format_id`](Self::format_id) is, and how many indexes are opened for it, in the way of
    /// [`measure_function`](Self::measure_function).
    pub fn measure_id(&self, _module_index: usize, id_index: IdIndex) -> Result<Measure> {
        boundary::measure_id(self.types, self.ids, &self.checked, self.flags.bits(), self.ptr_size.into(), id_index.0)
    }

    /// Write out the text of [`format_id`](Self::format_id). Where the call is refused, nothing is written.
    pub fn emit_id(&self, w: &mut impl Write, module_index: usize, id_index: IdIndex) -> Result<()> {
        self.text(|out| self.format_id_into(out, module_index, id_index), |text| write_text(w, text))?
    }

    /// Return a string with the text of a type. The original writes it too, as a part of signatures, and offers no call for it.
    pub fn format_type(&self, module_index: usize, index: TypeIndex) -> Result<String> {
        self.text(|out| self.format_type_into(out, module_index, index), into_string)
    }

    /// [`format_type`](Self::format_type) as bytes: those of that string.
    pub fn format_type_bytes(&self, module_index: usize, index: TypeIndex) -> Result<Vec<u8>> {
        self.text(|out| self.format_type_into(out, module_index, index), <[u8]>::to_vec)
    }

    /// [`format_type`](Self::format_type) into the start of a buffer, which is left as [`format_function_into`](Self::format_function_into) leaves it.
    pub fn format_type_into(&self, out: &mut [u8], _module_index: usize, index: TypeIndex) -> Result<usize> {
        boundary::format_type(self.types, &self.checked, out, self.flags.bits(), self.ptr_size.into(), index.0)
    }

    /// How long the text of [`format_type`](Self::format_type) is, and how many indexes are opened for it, in the way of
    /// [`measure_function`](Self::measure_function).
    pub fn measure_type(&self, _module_index: usize, index: TypeIndex) -> Result<Measure> {
        boundary::measure_type(self.types, &self.checked, self.flags.bits(), self.ptr_size.into(), index.0)
    }

    /// Write out the text of [`format_type`](Self::format_type). Where the call is refused, nothing is written.
    pub fn emit_type(&self, w: &mut impl Write, module_index: usize, index: TypeIndex) -> Result<()> {
        self.text(|out| self.format_type_into(out, module_index, index), |text| write_text(w, text))?
    }

    /// The texts of many ids: for each what [`format_id`](Self::format_id) gives. Each stream is checked once, when the formatter is made.
    ///
    /// ```
    /// use yokberd::{Error, IdIndex, TypeFormatter, TypeFormatterFlags};
    ///
    /// let types = std::fs::read("../crates/test_vectors/data/overloads-types.bin")?;
    /// let ids = std::fs::read("../crates/test_vectors/data/overloads-ids.bin")?;
    /// let formatter = TypeFormatter::new_from_parts(&types, &ids, 8, TypeFormatterFlags::default());
    /// let texts = formatter.format_ids(&[IdIndex(0x1001), IdIndex(0x1002), IdIndex(0x8000_1001)]);
    /// assert_eq!(texts, [Ok("loom::advance(float)".into()), Ok("loom::advance(int)".into()), Err(Error::CrossModule(0x8000_1001))]);
    /// # Ok::<(), std::io::Error>(())
    /// ```
    pub fn format_ids(&self, indexes: &[IdIndex]) -> Vec<Result<String>> {
        self.ids_by(indexes, into_string)
    }

    /// [`format_ids`](Self::format_ids) as bytes.
    pub fn format_ids_bytes(&self, indexes: &[IdIndex]) -> Vec<Result<Vec<u8>>> {
        self.ids_by(indexes, <[u8]>::to_vec)
    }

    /// [`format_ids`](Self::format_ids) into lent buffers; gives how many of the ids are done.
    ///
    /// The texts lie one behind another from the start of `out`, and every byte behind them is 0; the answer of each id that is done says where its text is.
    /// It ends early where `answers` is full or where the room behind the others is too short for the next text: ask again with the rest. A text that is
    /// longer than the whole of `out` is refused ([`Error::NoRoom`]), and its id is done: so a call with an id and an answer does one at least. Nothing is
    /// allocated.
    pub fn format_ids_into(&self, out: &mut [u8], answers: &mut [BatchAnswer], indexes: &[IdIndex]) -> usize {
        boundary::format_ids(self.types, self.ids, &self.checked, out, self.flags.bits(), self.ptr_size.into(), indexes, answers)
    }

    /// The texts of many types: for each what [`format_type`](Self::format_type) gives.
    pub fn format_types(&self, indexes: &[TypeIndex]) -> Vec<Result<String>> {
        self.types_by(indexes, into_string)
    }

    /// [`format_types`](Self::format_types) as bytes.
    pub fn format_types_bytes(&self, indexes: &[TypeIndex]) -> Vec<Result<Vec<u8>>> {
        self.types_by(indexes, <[u8]>::to_vec)
    }

    /// [`format_types`](Self::format_types) into lent buffers, in the way of [`format_ids_into`](Self::format_ids_into).
    pub fn format_types_into(&self, out: &mut [u8], answers: &mut [BatchAnswer], indexes: &[TypeIndex]) -> usize {
        boundary::format_types(self.types, &self.checked, out, self.flags.bits(), self.ptr_size.into(), indexes, answers)
    }

    /// The indexes of the type stream, or the refusal of each call over it.
    pub fn type_indexes(&self) -> Result<Range<u32>> {
        // a size asks for nothing but a stream that is accepted
        boundary::get_type_size(self.types, &self.checked, 8, 0)?;
        Ok(header_indexes(self.types))
    }

    /// The indexes of the id stream, none where it has no bytes, or the refusal of each call over it. Such a call needs the type stream too.
    pub fn id_indexes(&self) -> Result<Range<u32>> {
        match boundary::format_id(self.types, self.ids, &self.checked, &mut [], 0, 8, 0) {
            Err(error @ (Error::Header(_) | Error::Tiling(_))) => Err(error),
            _ => Ok(header_indexes(self.ids)),
        }
    }

    /// A sheet that starts with the formatter's flags and pointer size.
    pub fn sheet(&self) -> Sheet {
        let mut sheet = Sheet::new();
        sheet.flags(self.flags).pointer_size(self.ptr_size);
        sheet
    }

    /// Answers a sheet: many calls in one. Gives all lines. Flags and pointer size are those that the sheet sets, and its
    /// texts have at most 4,096 bytes.
    pub fn sheet_lines(&self, sheet: &Sheet) -> Vec<u8> {
        let mut page = vec![0; PAGE];
        let mut lines = Vec::new();
        let mut skip = 0;
        loop {
            let printed = self.print_sheet(sheet, &mut page, skip);
            lines.extend_from_slice(&page[..printed.bytes]);
            skip += printed.lines;
            if !printed.more {
                return lines;
            }
        }
    }

    /// [`sheet_lines`](Self::sheet_lines) into the start of a buffer: as many whole lines behind the first `skip` as fit. Where there are more, ask again
    /// with as many more to skip as lines were printed. A buffer of 4,150 bytes takes any one line. The bytes behind the lines stay as they were.
    pub fn print_sheet(&self, sheet: &Sheet, out: &mut [u8], skip: usize) -> Printed {
        boundary::print_sheet(self.types, self.ids, &self.checked, sheet.as_bytes(), out, skip)
    }

    fn ids_by<T>(&self, indexes: &[IdIndex], made_of: fn(&[u8]) -> T) -> Vec<Result<T>> {
        let call = |out: &mut [u8], answers: &mut [BatchAnswer], rest: &[IdIndex]| self.format_ids_into(out, answers, rest);
        self.batches(indexes, call, |index| self.text(|out| self.format_id_into(out, 0, index), made_of), made_of)
    }

    fn types_by<T>(&self, indexes: &[TypeIndex], made_of: fn(&[u8]) -> T) -> Vec<Result<T>> {
        let call = |out: &mut [u8], answers: &mut [BatchAnswer], rest: &[TypeIndex]| self.format_types_into(out, answers, rest);
        self.batches(indexes, call, |index| self.text(|out| self.format_type_into(out, 0, index), made_of), made_of)
    }

    // What is made of the texts of many indexes, in as many calls as it takes; a text that a page is too short for is asked for alone.
    fn batches<I: Copy, T>(
        &self,
        indexes: &[I],
        call: impl Fn(&mut [u8], &mut [BatchAnswer], &[I]) -> usize,
        alone: impl Fn(I) -> Result<T>,
        made_of: fn(&[u8]) -> T,
    ) -> Vec<Result<T>> {
        let mut page = vec![0; PAGE.min(self.text_limit)];
        let mut answers = vec![BatchAnswer::default(); indexes.len().min(BATCH)];
        let mut all = Vec::with_capacity(indexes.len());
        while all.len() < indexes.len() {
            let rest = &indexes[all.len()..];
            let done = call(&mut page, &mut answers, rest);
            all.extend(rest[..done].iter().zip(&answers).map(|(index, answer)| match answer.text(&page) {
                Err(Error::NoRoom) if page.len() < self.text_limit => alone(*index),
                text => text.map(made_of),
            }));
        }
        all
    }

    fn text<T>(&self, call: impl Fn(&mut [u8]) -> Result<usize>, made_of: impl FnOnce(&[u8]) -> T) -> Result<T> {
        text::of(self.text_limit, call, made_of)
    }
}

// What the library notes of both streams. Its answer, how many numbers serve, is not needed: what is lent serves on any stream that is not refused.
fn check(types: &[u8], ids: &[u8]) -> Vec<u32> {
    let mut checked = vec![0; numbers(types) + numbers(ids)];
    boundary::check_streams(types, ids, STRIDE, &mut checked);
    checked
}

// Numbers for a stream: ten for what is known of it, and its places.
fn numbers(stream: &[u8]) -> usize {
    record_limit(stream).div_ceil(STRIDE as usize) + 10
}

/// The records of a stream that is not refused, by what its header says of them. Each has four bytes at least, and a stream that is longer than the limit is
/// refused, so a header that says more makes no buffer longer.
pub fn record_limit(stream: &[u8]) -> usize {
    header_indexes(stream).len().min(stream.len().min(STREAM_LIMIT) / 4)
}

// The first index and the one behind the last, as the header has them; none where it has fewer bytes.
fn header_indexes(stream: &[u8]) -> Range<u32> {
    let word = |at: usize| stream.get(at..at + 4).map_or(0, |bytes| u32::from_le_bytes([bytes[0], bytes[1], bytes[2], bytes[3]]));
    word(8)..word(12)
}
