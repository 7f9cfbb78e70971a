//! C++ signatures such as `advance(float)` from the type and id indexes of sampled call stacks.
//!
//! A safe API, close to that of the crate pdb-addr2line, over a library in which every function is proved to meet its contract: no stream, index or name
//! makes it loop, read outside a buffer or answer by what was asked before.
//!
//! `tools/staticlib.sh` in the folder above builds the library, once; then `cargo build` links it. It is for Linux on x86-64.
//!
//! From the bytes of a .pdb file, [`Pdb::read`] takes both streams out, and [`Pdb::formatter`] names what is in them; [`TypeFormatter::format_ids`] answers
//! many ids at once. The program `yokberd` of this crate does so on the command line. Over streams that are at hand:
//!
//! ```
//! use yokberd::{IdIndex, TypeFormatter, TypeFormatterFlags};
//!
//! let types = std::fs::read("../crates/test_vectors/data/overloads-types.bin")?;
//! let ids = std::fs::read("../crates/test_vectors/data/overloads-ids.bin")?;
//! let formatter = TypeFormatter::new_from_parts(&types, &ids, 8, TypeFormatterFlags::default());
//! match formatter.format_id(0, IdIndex(0x1002)) {
//!     Ok(text) => assert_eq!(text, "loom::advance(int)"),
//!     Err(error) => panic!("refused by {}: {error}", error.number()),
//! }
//! # Ok::<(), std::io::Error>(())
//! ```
//!
//! [`TypeFormatter::measure_id`] and its like say how long a text is and how many indexes are opened for it, without writing it: [`Measure`].
//!
//! A call takes at most 512 KiB of stack. A thread has 2 MiB where nothing else is said.
//!
//! # Time
//!
//! A [`TypeFormatter`] passes over the records of both streams once, when it is made. Its calls do not: on real streams a call takes as long as its text
//! asks for, however long the streams are. docs/BENCHMARKS.md has figures, beside those of the original.
//!
//! A [`PlacedFormatter`] keeps nothing. Each of its calls passes over all record heads of its streams once, to check them and the lent places; then a
//! look-up of a type passes at most 63 records, and one of an id up to a 64th of the id stream's.
//!
//! Streams that are made to take long are bounded by a product. For each byte of text that there is room for, a call opens at most 95 indexes. To open one
//! it passes at most 7 records from a noted place, compares the index with those that are open, at most 96, and reads the record, which can have a name of
//! 65,000 bytes. For each array that it writes, which takes two bytes of text at least, it can pass once over all records behind the declaration of a
//! struct, to find its definition. So
//!
//! > time of a call ≤ bytes of text × (95 openings + half a pass over the type stream),
//!
//! and what a caller can choose is the first factor: the length of the buffer, or [`TypeFormatter::with_text_limit`]. A sheet has the same bound for each
//! line, with 4,096 bytes of text, and there a look-up passes up to a 1,024th of the stream's records. A call over places has it behind its check, with
//! look-ups as above. A measure has no buffer and no limit: there the first factor is [`MEASURE_LIMIT`].
#![warn(missing_docs)]

mod boundary;
mod container;
mod error;
mod flags;
mod formatter;
mod index;
mod pdb;
mod places;
mod sheet;
mod text;

pub use boundary::{BatchAnswer, Measure, Printed};
pub use container::{read_stream, read_stream_into, stream_len, ContainerError, IDS_STREAM, TYPES_STREAM};
pub use error::{Error, StreamKind};
pub use flags::TypeFormatterFlags;
pub use formatter::{TypeFormatter, MEASURE_LIMIT, STREAM_LIMIT, TEXT_LIMIT};
pub use index::{IdIndex, TypeIndex};
pub use pdb::{Pdb, PdbError};
pub use places::{fill_places, fill_places_into, PlacedFormatter, PLACES_LIMIT};
pub use sheet::{Sheet, NAME_WIDTH};
