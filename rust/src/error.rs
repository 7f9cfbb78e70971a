//! Why a call is refused: the library's seventeen numbers, each with its one detail.
use std::fmt;

/// One of the two streams.
#[derive(Clone, Copy, Debug, PartialEq, Eq, Hash)]
pub enum StreamKind {
    /// The type stream.
    Types,
    /// The id stream.
    Ids,
}

/// Why a call has no text or size.
///
/// Each case but the first is a refusal of the library and has a [`number`](Error::number) and a [`detail`](Error::detail). `Display` says it in words.
///
/// ```
/// use yokberd::Error;
///
/// let error = Error::from_refusal(12, 0x1008).unwrap();
/// assert_eq!(error, Error::CircularTypeDefinition(0x1008));
/// assert_eq!(error.to_string(), "type with index 0x1008 is circular");
/// assert_eq!((error.number(), error.detail()), (12, 0x1008));
/// ```
#[derive(Clone, Copy, Debug, PartialEq, Eq, Hash)]
#[non_exhaustive]
pub enum Error {
    /// The writer that a text was given to failed. No refusal: its number is 0.
    FormatError(fmt::Error),
    /// 1: the flags have a bit that is no flag.
    UnknownFlags(u32),
    /// 2: the pointer size is not 4, 8 or 16.
    PointerSize(u32),
    /// 3: a stream's header is broken, or the stream has more than 16,777,216 bytes. An id stream of no bytes is not refused: there are no ids then.
    Header(StreamKind),
    /// 4: a stream's records do not fill the bytes that its header names.
    Tiling(StreamKind),
    /// 5: a record that is needed is malformed.
    Malformed(u32),
    /// 6: an index with bit 31 set, which is one of another module.
    CrossModule(u32),
    /// 7: a record that is needed has a kind that is not read.
    UnlistedKind(u16),
    /// 8: an index that is not in its stream.
    Missing(u32),
    /// 9: what stands for a method's argument list is none.
    ArgumentTypeNotArgumentList(u32),
    /// 10: the type of a function id is no procedure.
    FunctionIdIsNotProcedureType(u32),
    /// 11: the type of a member function id is no member function.
    MemberFunctionIdIsNotMemberFunctionType(u32),
    /// 12: a type that is met inside itself.
    CircularTypeDefinition(u32),
    /// 13: the 97th index that would be open at once.
    TooManyOpen(u32),
    /// 14: the 33rd record of a chain of array levels, of size steps or of id scopes.
    ChainTooLong(u32),
    /// 15: the text is longer than the buffer, or than the formatter's text limit; of a measure, than [`MEASURE_LIMIT`](crate::MEASURE_LIMIT).
    NoRoom,
    /// 16: an unknown or cut command. Only a line of a sheet has it.
    UnknownCommand(u8),
    /// 17: an entry of the lent places is lacking, or is not that of the type stream; its number, from 0. Only a
    /// [`PlacedFormatter`](crate::PlacedFormatter) and [`fill_places_into`](crate::fill_places_into) give it.
    WrongPlace(u32),
}

impl StreamKind {
    const fn from_detail(detail: u32) -> Option<Self> {
        match detail {
            0 => Some(StreamKind::Types),
            1 => Some(StreamKind::Ids),
            _ => None,
        }
    }

    const fn detail(self) -> u32 {
        match self {
            StreamKind::Types => 0,
            StreamKind::Ids => 1,
        }
    }
}

impl fmt::Display for StreamKind {
    fn fmt(&self, f: &mut fmt::Formatter<'_>) -> fmt::Result {
        f.write_str(match self {
            StreamKind::Types => "type stream",
            StreamKind::Ids => "id stream",
        })
    }
}

impl Error {
    /// The refusal of a number and a detail, as a line of a sheet has them; `None` where there is no such refusal.
    pub fn from_refusal(number: u32, detail: u32) -> Option<Self> {
        Some(match number {
            1 => Error::UnknownFlags(detail),
            2 => Error::PointerSize(detail),
            3 => Error::Header(StreamKind::from_detail(detail)?),
            4 => Error::Tiling(StreamKind::from_detail(detail)?),
            5 => Error::Malformed(detail),
            6 => Error::CrossModule(detail),
            7 => Error::UnlistedKind(detail.try_into().ok()?),
            8 => Error::Missing(detail),
            9 => Error::ArgumentTypeNotArgumentList(detail),
            10 => Error::FunctionIdIsNotProcedureType(detail),
            11 => Error::MemberFunctionIdIsNotMemberFunctionType(detail),
            12 => Error::CircularTypeDefinition(detail),
            13 => Error::TooManyOpen(detail),
            14 => Error::ChainTooLong(detail),
            15 if detail == 0 => Error::NoRoom,
            16 => Error::UnknownCommand(detail.try_into().ok()?),
            17 => Error::WrongPlace(detail),
            _ => return None,
        })
    }

    /// The refusal's number, 1 to 17; 0 for [`Error::FormatError`], which is none.
    pub const fn number(&self) -> u32 {
        match self {
            Error::FormatError(_) => 0,
            Error::UnknownFlags(_) => 1,
            Error::PointerSize(_) => 2,
            Error::Header(_) => 3,
            Error::Tiling(_) => 4,
            Error::Malformed(_) => 5,
            Error::CrossModule(_) => 6,
            Error::UnlistedKind(_) => 7,
            Error::Missing(_) => 8,
            Error::ArgumentTypeNotArgumentList(_) => 9,
            Error::FunctionIdIsNotProcedureType(_) => 10,
            Error::MemberFunctionIdIsNotMemberFunctionType(_) => 11,
            Error::CircularTypeDefinition(_) => 12,
            Error::TooManyOpen(_) => 13,
            Error::ChainTooLong(_) => 14,
            Error::NoRoom => 15,
            Error::UnknownCommand(_) => 16,
            Error::WrongPlace(_) => 17,
        }
    }

    /// The refusal's one detail: an index, a kind, the flags, an entry, or what else its case holds.
    pub const fn detail(&self) -> u32 {
        match self {
            Error::FormatError(_) | Error::NoRoom => 0,
            Error::Header(stream) | Error::Tiling(stream) => stream.detail(),
            Error::UnlistedKind(kind) => *kind as u32,
            Error::UnknownCommand(command) => *command as u32,
            Error::UnknownFlags(detail)
            | Error::PointerSize(detail)
            | Error::Malformed(detail)
            | Error::CrossModule(detail)
            | Error::Missing(detail)
            | Error::ArgumentTypeNotArgumentList(detail)
            | Error::FunctionIdIsNotProcedureType(detail)
            | Error::MemberFunctionIdIsNotMemberFunctionType(detail)
            | Error::CircularTypeDefinition(detail)
            | Error::TooManyOpen(detail)
            | Error::ChainTooLong(detail)
            | Error::WrongPlace(detail) => *detail,
        }
    }
}

impl fmt::Display for Error {
    fn fmt(&self, f: &mut fmt::Formatter<'_>) -> fmt::Result {
        match self {
            Error::FormatError(error) => write!(f, "formatting error: {error}"),
            Error::UnknownFlags(flags) => write!(f, "the flags {flags:#x} have a bit that is no flag"),
            Error::PointerSize(size) => write!(f, "the pointer size {size} is not 4, 8 or 16"),
            Error::Header(stream) => write!(f, "the header of the {stream} is broken"),
            Error::Tiling(stream) => write!(f, "the records of the {stream} do not fill the bytes that its header names"),
            Error::Malformed(index) => write!(f, "the record with index {index:#x} is malformed"),
            Error::CrossModule(index) => write!(f, "index {index:#x} is one of another module"),
            Error::UnlistedKind(kind) => write!(f, "a record that is needed has kind {kind:#x}, which is not read"),
            Error::Missing(index) => write!(f, "index {index:#x} is not in its stream"),
            Error::ArgumentTypeNotArgumentList(index) => {
                write!(f, "the argument list of a method, index {index:#x}, is no argument list")
            }
            Error::FunctionIdIsNotProcedureType(index) => {
                write!(f, "the type of a function id, index {index:#x}, is no procedure")
            }
            Error::MemberFunctionIdIsNotMemberFunctionType(index) => {
                write!(f, "the type of a member function id, index {index:#x}, is no member function")
            }
            Error::CircularTypeDefinition(index) => write!(f, "type with index {index:#x} is circular"),
            Error::TooManyOpen(index) => write!(f, "index {index:#x} would be the 97th that is open at once"),
            Error::ChainTooLong(index) => {
                write!(f, "index {index:#x} is the 33rd record of a chain of array levels, size steps or id scopes")
            }
            Error::NoRoom => f.write_str("the text is longer than its buffer or its limit"),
            Error::UnknownCommand(command) => write!(f, "the command {command:#x} of a sheet is unknown or cut"),
            Error::WrongPlace(entry) => write!(f, "entry {entry} of the places is lacking or not that of the type stream"),
        }
    }
}

impl std::error::Error for Error {
    fn source(&self) -> Option<&(dyn std::error::Error + 'static)> {
        match self {
            Error::FormatError(error) => Some(error),
            _ => None,
        }
    }
}

impl From<fmt::Error> for Error {
    fn from(error: fmt::Error) -> Self {
        Error::FormatError(error)
    }
}
