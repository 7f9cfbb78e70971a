//! What names need of a .pdb file: both streams and the pointer size.
use crate::{read_stream, stream_len, ContainerError, StreamKind, TypeFormatter, TypeFormatterFlags, IDS_STREAM, STREAM_LIMIT, TYPES_STREAM};
use std::fmt;

// The stream with what the linker says of the program; bytes 58 and 59 of it name the machine.
const DEBUG_STREAM: u32 = 3;
const MACHINE: usize = 58;

// Where no machine is named, as on most machines of today.
const USUAL_POINTER_SIZE: u8 = 8;

/// The streams of a .pdb file that names are made of, and the pointer size of its machine.
///
/// ```no_run
/// use yokberd::{Pdb, TypeFormatterFlags};
///
/// let pdb = Pdb::read(&std::fs::read("app.pdb")?)?;
/// let formatter = pdb.formatter(TypeFormatterFlags::default());
/// println!("{}", formatter.format_id(0, 0x1001.into())?);
/// # Ok::<(), Box<dyn std::error::Error>>(())
/// ```
#[derive(Clone, Debug, PartialEq, Eq)]
pub struct Pdb {
    /// The type stream.
    pub types: Vec<u8>,
    /// The id stream; empty where the program was linked without one, and then each id is written as missing.
    pub ids: Vec<u8>,
    /// 4, 8 or 16, by the machine that the file names as the original has it; 8 where it names none.
    pub pointer_size: u8,
}

/// Why there are no names for a .pdb file.
#[derive(Clone, Copy, Debug, PartialEq, Eq, Hash)]
#[non_exhaustive]
pub enum PdbError {
    /// The stream cannot be read out of the file.
    Container(StreamKind, ContainerError),
    /// The stream has this many bytes, more than [`STREAM_LIMIT`].
    TooLong(StreamKind, usize),
}

impl Pdb {
    /// Reads both streams and the pointer size out of the bytes of a .pdb file. It does not check the streams' records: a formatter does that. In a file
    /// without an id stream, as old linkers write it, there are no ids.
    pub fn read(file: &[u8]) -> Result<Self, PdbError> {
        let types = Self::read_types(file)?;
        let ids = match stream(file, StreamKind::Ids) {
            Err(PdbError::Container(_, ContainerError::NoStream(_))) => Vec::new(),
            read => read?,
        };
        Ok(Pdb { ids, ..types })
    }

    /// The same with the ids left out, for whoever asks for none: `ids` is empty.
    pub fn read_types(file: &[u8]) -> Result<Self, PdbError> {
        Ok(Pdb { types: stream(file, StreamKind::Types)?, ids: Vec::new(), pointer_size: pointer_size(file) })
    }

    /// A formatter over the streams.
    pub fn formatter(&self, flags: TypeFormatterFlags) -> TypeFormatter<'_> {
        TypeFormatter::new_from_parts(&self.types, &self.ids, self.pointer_size, flags)
    }
}

// No more is allocated than the library takes.
fn stream(file: &[u8], kind: StreamKind) -> Result<Vec<u8>, PdbError> {
    let number = match kind {
        StreamKind::Types => TYPES_STREAM,
        StreamKind::Ids => IDS_STREAM,
    };
    match stream_len(file, number) {
        Ok(len) if len > STREAM_LIMIT => Err(PdbError::TooLong(kind, len)),
        Ok(_) => read_stream(file, number).map_err(|error| PdbError::Container(kind, error)),
        Err(error) => Err(PdbError::Container(kind, error)),
    }
}

// A stream that is longer than its file lists a block twice, and is not read.
fn pointer_size(file: &[u8]) -> u8 {
    match stream_len(file, DEBUG_STREAM) {
        Ok(len) if len <= file.len() => read_stream(file, DEBUG_STREAM).map_or(USUAL_POINTER_SIZE, |debug| machine_pointer_size(&debug)),
        _ => USUAL_POINTER_SIZE,
    }
}

// By machine, as the original has it; the numbers are those of PE files.
fn machine_pointer_size(debug: &[u8]) -> u8 {
    const IA64: u16 = 0x0200;
    const RISCV64: u16 = 0x5064;
    const RISCV128: u16 = 0x5128;
    const AMD64: u16 = 0x8664;
    const ARM64: u16 = 0xaa64;
    let Some(machine) = debug.get(MACHINE..MACHINE + 2) else { return USUAL_POINTER_SIZE };
    match u16::from_le_bytes([machine[0], machine[1]]) {
        AMD64 | ARM64 | IA64 | RISCV64 => 8,
        RISCV128 => 16,
        _ => 4,
    }
}

impl fmt::Display for PdbError {
    fn fmt(&self, f: &mut fmt::Formatter<'_>) -> fmt::Result {
        match self {
            PdbError::Container(kind, ContainerError::NoStream(_)) => write!(f, "the file has no {kind}"),
            PdbError::Container(_, error) => error.fmt(f),
            PdbError::TooLong(kind, len) => write!(f, "the {kind} has {len} bytes, and at most {STREAM_LIMIT} are read"),
        }
    }
}

impl std::error::Error for PdbError {
    fn source(&self) -> Option<&(dyn std::error::Error + 'static)> {
        match self {
            PdbError::Container(_, error) => Some(error),
            PdbError::TooLong(..) => None,
        }
    }
}

#[cfg(test)]
mod tests {
    use super::*;

    // Document 01's Rust, `TypeFormatter::new_from_parts`; the machines' numbers are those of the PE format.
    #[test]
    fn pointer_sizes() {
        let named = |machine: u16| machine_pointer_size(&[&[0; 58][..], &machine.to_le_bytes()].concat());
        let sizes = [(0x8664, 8), (0xaa64, 8), (0x200, 8), (0x5064, 8), (0x5128, 16), (0x14c, 4), (0x1c0, 4), (0x5032, 4), (0, 4)];
        for (machine, size) in sizes {
            assert_eq!(named(machine), size, "machine {machine:#x}");
        }
        assert_eq!(machine_pointer_size(&[0; 59]), 8, "a stream that ends before the machine");
        assert_eq!(pointer_size(b"no file"), 8);
    }
}
