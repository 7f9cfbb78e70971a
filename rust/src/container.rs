//! The container: how a .pdb file holds its streams, and why one cannot be read out of it.
use crate::boundary;
use std::fmt;

/// The number of the type stream in a .pdb file.
pub const TYPES_STREAM: u32 = 2;

/// The number of the id stream in a .pdb file.
pub const IDS_STREAM: u32 = 4;

/// Why a stream of a .pdb file cannot be read.
///
/// Each case is one of the library and has a [`number`](ContainerError::number) and a [`place`](ContainerError::place): the offset in the file at which the
/// number stands that is wrong. `Display` says it in words.
///
/// ```
/// use yokberd::{read_stream, ContainerError};
///
/// let error = read_stream(b"MZ", 2).unwrap_err();
/// assert_eq!(error, ContainerError::Short(2));
/// assert_eq!(error.to_string(), "the file has 2 bytes, and the header of a .pdb file has 56");
/// ```
#[derive(Clone, Copy, Debug, PartialEq, Eq, Hash)]
#[non_exhaustive]
pub enum ContainerError {
    /// 1: the file has fewer bytes than the superblock. Holds the file's length.
    Short(usize),
    /// 2: the file does not start as a .pdb file does. Holds the place of the first byte that differs.
    Magic(usize),
    /// 3: the block size is no power of two from 512 to 32,768.
    BlockSize(usize),
    /// 4: the free block map is neither block 1 nor block 2.
    FreeBlockMap(usize),
    /// 5: the file has fewer bytes than its blocks take.
    Cut(usize),
    /// 6: the directory's length is 0, no multiple of 4, or more than a block can list the blocks of.
    DirectorySize(usize),
    /// 7: the block with the list of the directory's blocks is outside the file.
    BlockMap(usize),
    /// 8: a block of the directory is outside the file.
    DirectoryBlock(usize),
    /// 9: the streams do not fill the directory exactly.
    Directory(usize),
    /// 10: a block of a stream is outside the file.
    StreamBlock(usize),
    /// 11: there is no stream of this number.
    NoStream(usize),
    /// 12: the stream is longer than the buffer. Holds the stream's length.
    NoRoom(usize),
}

impl ContainerError {
    /// The case of a number and a place, as the library tells them; `None` where there is no such case.
    pub const fn from_case(number: u32, place: usize) -> Option<Self> {
        Some(match number {
            1 => ContainerError::Short(place),
            2 => ContainerError::Magic(place),
            3 => ContainerError::BlockSize(place),
            4 => ContainerError::FreeBlockMap(place),
            5 => ContainerError::Cut(place),
            6 => ContainerError::DirectorySize(place),
            7 => ContainerError::BlockMap(place),
            8 => ContainerError::DirectoryBlock(place),
            9 => ContainerError::Directory(place),
            10 => ContainerError::StreamBlock(place),
            11 => ContainerError::NoStream(place),
            12 => ContainerError::NoRoom(place),
            _ => return None,
        })
    }

    /// The case's number, 1 to 12.
    pub const fn number(&self) -> u32 {
        match self {
            ContainerError::Short(_) => 1,
            ContainerError::Magic(_) => 2,
            ContainerError::BlockSize(_) => 3,
            ContainerError::FreeBlockMap(_) => 4,
            ContainerError::Cut(_) => 5,
            ContainerError::DirectorySize(_) => 6,
            ContainerError::BlockMap(_) => 7,
            ContainerError::DirectoryBlock(_) => 8,
            ContainerError::Directory(_) => 9,
            ContainerError::StreamBlock(_) => 10,
            ContainerError::NoStream(_) => 11,
            ContainerError::NoRoom(_) => 12,
        }
    }

    /// The offset in the file of the number that is wrong; for [`Short`](ContainerError::Short) the file's length and for
    /// [`NoRoom`](ContainerError::NoRoom) the stream's.
    pub const fn place(&self) -> usize {
        match self {
            ContainerError::Short(place)
            | ContainerError::Magic(place)
            | ContainerError::BlockSize(place)
            | ContainerError::FreeBlockMap(place)
            | ContainerError::Cut(place)
            | ContainerError::DirectorySize(place)
            | ContainerError::BlockMap(place)
            | ContainerError::DirectoryBlock(place)
            | ContainerError::Directory(place)
            | ContainerError::StreamBlock(place)
            | ContainerError::NoStream(place)
            | ContainerError::NoRoom(place) => *place,
        }
    }
}

impl fmt::Display for ContainerError {
    fn fmt(&self, f: &mut fmt::Formatter<'_>) -> fmt::Result {
        match self {
            ContainerError::Short(len) => write!(f, "the file has {len} bytes, and the header of a .pdb file has 56"),
            ContainerError::Magic(at) => write!(f, "the file does not start as a .pdb file does (byte {at} differs)"),
            ContainerError::BlockSize(at) => write!(f, "the block size, at byte {at}, is none that a .pdb file has"),
            ContainerError::FreeBlockMap(at) => write!(f, "the block of the free block map, at byte {at}, is neither 1 nor 2"),
            ContainerError::Cut(at) => write!(f, "the file has fewer bytes than its blocks take, whose number is at byte {at}"),
            ContainerError::DirectorySize(at) => write!(f, "the length of the directory, at byte {at}, is none that a directory has"),
            ContainerError::BlockMap(at) => write!(f, "the block that lists the directory's blocks, at byte {at}, is outside the file"),
            ContainerError::DirectoryBlock(at) => write!(f, "a block of the directory, at byte {at}, is outside the file"),
            ContainerError::Directory(at) => write!(f, "the streams do not fill the directory, which starts at byte {at}"),
            ContainerError::StreamBlock(at) => write!(f, "a block of a stream, at byte {at}, is outside the file"),
            ContainerError::NoStream(at) => write!(f, "there is no such stream in the directory (byte {at})"),
            ContainerError::NoRoom(len) => write!(f, "the stream has {len} bytes, more than the buffer"),
        }
    }
}

impl std::error::Error for ContainerError {}

/// The bytes of a stream of a .pdb file, by its number: [`TYPES_STREAM`], [`IDS_STREAM`] or another.
///
/// It allocates as many bytes as the directory says that the stream has. A file that lists a block many times can say up to 4 GiB: where files come from
/// elsewhere, ask [`stream_len`] first, or read by [`Pdb`](crate::Pdb), which refuses what the library does not take.
///
/// ```no_run
/// use yokberd::{read_stream, TypeFormatter, TypeFormatterFlags, IDS_STREAM, TYPES_STREAM};
///
/// let file = std::fs::read("app.pdb")?;
/// let (types, ids) = (read_stream(&file, TYPES_STREAM)?, read_stream(&file, IDS_STREAM)?);
/// let formatter = TypeFormatter::new_from_parts(&types, &ids, 8, TypeFormatterFlags::default());
/// # Ok::<(), Box<dyn std::error::Error>>(())
/// ```
pub fn read_stream(file: &[u8], number: u32) -> Result<Vec<u8>, ContainerError> {
    let mut bytes = vec![0; stream_len(file, number)?];
    read_stream_into(file, number, &mut bytes)?;
    Ok(bytes)
}

/// [`read_stream`] into the start of a buffer; gives the stream's length. The bytes behind the stream stay as they were. Where it is refused, the whole
/// buffer is filled with zeros.
pub fn read_stream_into(file: &[u8], number: u32, out: &mut [u8]) -> Result<usize, ContainerError> {
    boundary::read_stream(file, number, out)
}

/// The length of a stream of a .pdb file.
pub fn stream_len(file: &[u8], number: u32) -> Result<usize, ContainerError> {
    match boundary::read_stream(file, number, &mut []) {
        Err(ContainerError::NoRoom(len)) => Ok(len),
        answer => answer,
    }
}
