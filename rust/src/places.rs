//! Record places kept beside the type stream, from run to run, and the calls over them.
use crate::formatter::record_limit;
use crate::text::{self, into_string, write_text};
use crate::{boundary, Error, IdIndex, Measure, TypeFormatterFlags, TypeIndex, TEXT_LIMIT};
use std::fmt::Write;

type Result<T> = std::result::Result<T, Error>;

// How many records apart the places are.
const APART: usize = 64;

/// The most places that a stream can need: 16,777,216 bytes hold at most 4,194,290 records.
pub const PLACES_LIMIT: usize = 1 << 16;

/// The places of a type stream, for a [`PlacedFormatter`]: as many entries as it needs, one for each 64 records.
///
/// Entry `k` is the number of bytes from the first byte of the stream, which is its header's, to the length field of record `64 * k`, counted from 0. A
/// stream that is refused has none ([`Error::Header`], [`Error::Tiling`]).
///
/// ```
/// let types = std::fs::read("../crates/test_vectors/data/arrays-types.bin")?;
/// let places = yokberd::fill_places(&types)?;
/// assert_eq!((places.len(), places[0]), (3, 56)); // 149 records, the first of them behind the header
/// # Ok::<(), Box<dyn std::error::Error>>(())
/// ```
pub fn fill_places(types: &[u8]) -> Result<Vec<u32>> {
    let mut places = vec![0; record_limit(types).div_ceil(APART)];
    let filled = fill_places_into(types, &mut places)?;
    places.truncate(filled);
    Ok(places)
}

/// [`fill_places`] into the front of a buffer; gives how many entries were filled. Those behind them stay as they were.
///
/// A buffer of too few entries is refused, [`Error::WrongPlace`] with the number of the first that lacks, which is its length. [`PLACES_LIMIT`] entries are
/// enough for any stream. Where the call is refused, the whole buffer is filled with zeros.
pub fn fill_places_into(types: &[u8], places: &mut [u32]) -> Result<usize> {
    boundary::fill_places(types, places)
}

/// The calls of a [`TypeFormatter`](crate::TypeFormatter) over places that are kept beside the file, from run to run.
///
/// It is for a program that asks little in each run and keeps what [`fill_places`] gave, in a file say. It borrows the streams and the places, and nothing
/// is done when it is made. Each call takes any places and checks them, in one pass over the record heads of its streams: where an entry is lacking or is
/// not that of this type stream, the call is refused, [`Error::WrongPlace`] with the number of the first such entry. That comes behind the refusals of
/// flags, pointer size and streams, and before all others. Entries behind those that the stream needs are never read. Otherwise every answer is the one of a
/// `TypeFormatter`. So stale or damaged places are found by the first call: then fill them again.
///
/// With the places a look-up passes at most 63 records of the type stream. The check of each call grows with the streams ([time](crate#time)): to ask much in
/// one run make a `TypeFormatter`, which checks once.
///
/// Methods, parameters and the buffers afterwards are those of `TypeFormatter`; the module index is not used here either.
///
/// ```
/// use yokberd::{fill_places, Error, IdIndex, PlacedFormatter, TypeFormatterFlags};
///
/// let types = std::fs::read("../crates/test_vectors/data/overloads-types.bin")?;
/// let ids = std::fs::read("../crates/test_vectors/data/overloads-ids.bin")?;
/// let kept = fill_places(&types)?;
/// let formatter = PlacedFormatter::new(&types, &ids, &kept, 8, TypeFormatterFlags::default());
/// assert_eq!(formatter.format_id(0, IdIndex(0x1001))?, "loom::advance(float)");
/// // places of another stream
/// let stale = PlacedFormatter::new(&types, &ids, &[60], 8, TypeFormatterFlags::default());
/// assert_eq!(stale.format_id(0, IdIndex(0x1001)), Err(Error::WrongPlace(0)));
/// # Ok::<(), Box<dyn std::error::Error>>(())
/// ```
#[derive(Clone, Copy, Debug)]
pub struct PlacedFormatter<'a> {
    types: &'a [u8],
    ids: &'a [u8],
    places: &'a [u32],
    ptr_size: u8,
    flags: TypeFormatterFlags,
    text_limit: usize,
}

impl<'a> PlacedFormatter<'a> {
    /// A formatter over the bytes of a type stream and an id stream, with places of the type stream, for a machine with pointers of `ptr_size` bytes. An
    /// empty slice for the ids says that there are none.
    pub const fn new(types: &'a [u8], ids: &'a [u8], places: &'a [u32], ptr_size: u8, flags: TypeFormatterFlags) -> Self {
        PlacedFormatter { types, ids, places, ptr_size, flags, text_limit: TEXT_LIMIT }
    }

    /// The same formatter with another limit for the texts that it allocates; a longer text is refused with [`Error::NoRoom`]. Measures have no such limit.
    pub const fn with_text_limit(self, text_limit: usize) -> Self {
        PlacedFormatter { text_limit, ..self }
    }

    /// Get the size, in bytes, of the type at `index`.
    pub fn get_type_size(&self, _module_index: usize, index: TypeIndex) -> Result<u64> {
        boundary::placed_get_type_size(self.types, self.places, self.ptr_size.into(), index.0)
    }

    /// Return a string with the function or method signature.
    pub fn format_function(&self, name: &str, module_index: usize, function_type_index: TypeIndex) -> Result<String> {
        self.text(|out| self.format_function_into(out, name.as_bytes(), module_index, function_type_index), into_string)
    }

    /// [`format_function`](Self::format_function) with bytes for the name and the text.
    pub fn format_function_bytes(&self, name: &[u8], module_index: usize, function_type_index: TypeIndex) -> Result<Vec<u8>> {
        self.text(|out| self.format_function_into(out, name, module_index, function_type_index), <[u8]>::to_vec)
    }

    /// [`format_function`](Self::format_function) into the start of a buffer; gives the text's length. The bytes behind the text stay as they were. Where
    /// the call is refused, the whole buffer is filled with zeros.
    pub fn format_function_into(&self, out: &mut [u8], name: &[u8], _module_index: usize, function_type_index: TypeIndex) -> Result<usize> {
        boundary::placed_format_function(self.types, self.places, out, self.flags.bits(), self.ptr_size.into(), name, function_type_index.0)
    }

    /// How long the text of [`format_function`](Self::format_function) is, and how many indexes are opened for it, without writing it. It is refused exactly
    /// as the call with a buffer of [`MEASURE_LIMIT`](crate::MEASURE_LIMIT) bytes is, by [`Error::WrongPlace`] too, and does not depend on the text limit.
    ///
    /// ```
    /// use yokberd::{fill_places, Error, Measure, PlacedFormatter, TypeFormatterFlags, TypeIndex};
    ///
    /// let types = std::fs::read("../crates/test_vectors/data/overloads-types.bin")?;
    /// let places = fill_places(&types)?;
    /// let formatter = PlacedFormatter::new(&types, &[], &places, 8, TypeFormatterFlags::NO_ARGUMENTS);
    /// let measure = formatter.measure_function(b"advance", 0, TypeIndex(0x1001))?;
    /// assert_eq!(measure, Measure { length: "void advance".len(), opened: 2 }); // the procedure and its result
    /// let stale = PlacedFormatter::new(&types, &[], &[60], 8, TypeFormatterFlags::NO_ARGUMENTS);
    /// assert_eq!(stale.measure_function(b"advance", 0, TypeIndex(0x1001)), Err(Error::WrongPlace(0)));
    /// # Ok::<(), Box<dyn std::error::Error>>(())
    /// ```
    pub fn measure_function(&self, name: &[u8], _module_index: usize, function_type_index: TypeIndex) -> Result<Measure> {
        boundary::placed_measure_function(self.types, self.places, self.flags.bits(), self.ptr_size.into(), name, function_type_index.0)
    }

    /// Write out the text of [`format_function`](Self::format_function). Where the call is refused, nothing is written.
    pub fn emit_function(&self, w: &mut impl Write, name: &str, module_index: usize, function_type_index: TypeIndex) -> Result<()> {
        self.text(|out| self.format_function_into(out, name.as_bytes(), module_index, function_type_index), |text| write_text(w, text))?
    }

    /// Return a string with the function or method signature of an id.
    pub fn format_id(&self, module_index: usize, id_index: IdIndex) -> Result<String> {
        self.text(|out| self.format_id_into(out, module_index, id_index), into_string)
    }

    /// [`format_id`](Self::format_id) as bytes: those of that string.
    pub fn format_id_bytes(&self, module_index: usize, id_index: IdIndex) -> Result<Vec<u8>> {
        self.text(|out| self.format_id_into(out, module_index, id_index), <[u8]>::to_vec)
    }

    /// [`format_id`](Self::format_id) into the start of a buffer, which is left as [`format_function_into`](Self::format_function_into) leaves it.
    pub fn format_id_into(&self, out: &mut [u8], _module_index: usize, id_index: IdIndex) -> Result<usize> {
        boundary::placed_format_id(self.types, self.ids, self.places, out, self.flags.bits(), self.ptr_size.into(), id_index.0)
    }

    /// How long the text of [`format_id`](Self::format_id) is, and how many indexes are opened for it, in the way of
    /// [`measure_function`](Self::measure_function).
    pub fn measure_id(&self, _module_index: usize, id_index: IdIndex) -> Result<Measure> {
        boundary::placed_measure_id(self.types, self.ids, self.places, self.flags.bits(), self.ptr_size.into(), id_index.0)
    }

    /// Write out the text of [`format_id`](Self::format_id). Where the call is refused, nothing is written.
    pub fn emit_id(&self, w: &mut impl Write, module_index: usize, id_index: IdIndex) -> Result<()> {
        self.text(|out| self.format_id_into(out, module_index, id_index), |text| write_text(w, text))?
    }

    /// Return a string with the text of a type.
    pub fn format_type(&self, module_index: usize, index: TypeIndex) -> Result<String> {
        self.text(|out| self.format_type_into(out, module_index, index), into_string)
    }

    /// [`format_type`](Self::format_type) as bytes: those of that string.
    pub fn format_type_bytes(&self, module_index: usize, index: TypeIndex) -> Result<Vec<u8>> {
        self.text(|out| self.format_type_into(out, module_index, index), <[u8]>::to_vec)
    }

    /// [`format_type`](Self::format_type) into the start of a buffer, which is left as [`format_function_into`](Self::format_function_into) leaves it.
    pub fn format_type_into(&self, out: &mut [u8], _module_index: usize, index: TypeIndex) -> Result<usize> {
        boundary::placed_format_type(self.types, self.places, out, self.flags.bits(), self.ptr_size.into(), index.0)
    }

    /// How long the text of [`format_type`](Self::format_type) is, and how many indexes are opened for it, in the way of
    /// [`measure_function`](Self::measure_function).
    pub fn measure_type(&self, _module_index: usize, index: TypeIndex) -> Result<Measure> {
        boundary::placed_measure_type(self.types, self.places, self.flags.bits(), self.ptr_size.into(), index.0)
    }

    /// Write out the text of [`format_type`](Self::format_type). Where the call is refused, nothing is written.
    pub fn emit_type(&self, w: &mut impl Write, module_index: usize, index: TypeIndex) -> Result<()> {
        self.text(|out| self.format_type_into(out, module_index, index), |text| write_text(w, text))?
    }

    fn text<T>(&self, call: impl Fn(&mut [u8]) -> Result<usize>, made_of: impl FnOnce(&[u8]) -> T) -> Result<T> {
        text::of(self.text_limit, call, made_of)
    }
}
