//! What is read: the file or the exported streams, and the indexes that are asked for.
use crate::arguments::{function, index, trimmed, Arguments, Files, Item, What};
use crate::messages::{grouped, remark, Failure};
use crate::progress::Progress;
use crate::records::{held, is_function, kinds, Held};
use std::fs::File;
use std::io::{self, ErrorKind, Read};
use std::ops::Range;
use std::path::Path;
use yokberd::{ContainerError, Error, Pdb, PdbError, StreamKind, TypeFormatter, STREAM_LIMIT};

const MAGIC: &[u8] = b"Microsoft C/C++ MSF 7.00\r\n\x1aDS\0\0\0";
const OLD_MAGIC: &[u8] = b"Microsoft C/C++ program database 2.00";

// The version and the length of the header with which a type stream or an id stream starts.
const STREAM_START: [u8; 8] = [0x0b, 0xca, 0x31, 0x01, 56, 0, 0, 0];

// So many bytes are read between two looks at the time.
const PART: u64 = 1 << 24;

const AGAIN: &str = "copy or build it again";

/// The streams that the answers need. Exported ones name no machine: then a pointer has 8 bytes.
pub fn streams(arguments: &Arguments, progress: &mut Progress) -> Result<Pdb, Failure> {
    match &arguments.files {
        Files::Pdb(path) => {
            let file = read(path, progress)?;
            let read = if arguments.what == What::Ids { Pdb::read(&file) } else { Pdb::read_types(&file) };
            read.map_err(|error| Failure::file(path, unread(&file, error)))
        }
        Files::Exported { types, ids } => {
            let types = exported(types, StreamKind::Types, progress)?;
            let ids = ids.as_ref().map_or(Ok(Vec::new()), |ids| exported(ids, StreamKind::Ids, progress))?;
            Ok(Pdb { types, ids, pointer_size: 8 })
        }
    }
}

fn read(path: &Path, progress: &mut Progress) -> Result<Vec<u8>, Failure> {
    let failed = |error: io::Error| match error.kind() {
        ErrorKind::NotFound => Failure::file(path, "there is no such file; see that the path is right"),
        ErrorKind::PermissionDenied => Failure::file(path, "it may not be read; ask for the right to read it"),
        _ => Failure::file(path, format!("it cannot be read ({error}); see that it is a file that can be")),
    };
    let mut file = File::open(path).map_err(failed)?;
    let about = file.metadata().map_err(failed)?;
    if about.is_dir() {
        return Err(Failure::file(path, "it is a directory; name a file in it"));
    }
    let all = about.len() as usize;
    let mut bytes = Vec::with_capacity(all);
    while Read::by_ref(&mut file).take(PART).read_to_end(&mut bytes).map_err(failed)? > 0 {
        progress.tell(bytes.len(), all, "bytes read");
    }
    progress.clear();
    Ok(bytes)
}

// Why the file's streams are not read, and what to do.
fn unread(file: &[u8], error: PdbError) -> String {
    let word = |at: usize| u32::from_le_bytes([file[at], file[at + 1], file[at + 2], file[at + 3]]);
    match error {
        PdbError::Container(_, ContainerError::Short(_) | ContainerError::Magic(_)) => no_pdb(file),
        PdbError::Container(_, ContainerError::Cut(_)) => {
            let len = grouped(file.len());
            format!("it is cut: its header names {} blocks of {} bytes, and it has {len} bytes; {AGAIN}", word(40), word(32))
        }
        PdbError::Container(StreamKind::Types, ContainerError::NoStream(_)) => {
            "it has no type stream; build it with debug information (clang -g -gcodeview, or cl /Zi)".to_string()
        }
        PdbError::TooLong(kind, len) => too_long(&format!("its {kind}"), len),
        _ => format!("it is damaged: {error}; {AGAIN}"),
    }
}

fn too_long(what: &str, len: usize) -> String {
    format!("{what} has {} bytes, and at most {} are read; link the program with less debug information, or in parts", grouped(len), grouped(STREAM_LIMIT))
}

// What a file is that does not start as a .pdb does.
fn no_pdb(file: &[u8]) -> String {
    let starts = |start: &[u8]| file.starts_with(start);
    if file.is_empty() {
        format!("it is empty; {AGAIN}")
    } else if starts(MAGIC) || MAGIC.starts_with(file) {
        format!("it is cut: it has {} bytes, and the header of a .pdb file has 56; {AGAIN}", file.len())
    } else if starts(OLD_MAGIC) {
        "it is a .pdb file of the old form 2.00, which is not read; link the program with a newer linker".to_string()
    } else if starts(b"BSJB") {
        "it is a portable .pdb file of .NET, which has no C++ types; name the .pdb of a native program".to_string()
    } else if starts(b"MZ") {
        "it is a program and no .pdb file; name the .pdb that was written beside it".to_string()
    } else if starts(&STREAM_START) {
        "it is an exported stream and no .pdb file; give it by --types or --ids".to_string()
    } else {
        "it is no .pdb file (its first bytes are not those of one); name the file that the linker wrote".to_string()
    }
}

fn number(kind: StreamKind) -> u32 {
    match kind {
        StreamKind::Types => yokberd::TYPES_STREAM,
        StreamKind::Ids => yokberd::IDS_STREAM,
    }
}

fn exported(path: &Path, kind: StreamKind, progress: &mut Progress) -> Result<Vec<u8>, Failure> {
    let stream = read(path, progress)?;
    if stream.starts_with(MAGIC) || stream.starts_with(OLD_MAGIC) {
        return Err(Failure::file(path, "it is a .pdb file and no exported stream; name it without --types and --ids"));
    }
    if stream.len() > STREAM_LIMIT {
        return Err(Failure::file(path, too_long(&format!("the {kind}"), stream.len())));
    }
    Ok(stream)
}

/// The indexes of the stream that is asked for, where the streams are accepted and each is what it is given as.
pub fn accepted(arguments: &Arguments, formatter: &TypeFormatter, streams: &Pdb) -> Result<Range<u32>, Failure> {
    let indexes = match arguments.what {
        What::Ids => formatter.id_indexes(),
        _ => formatter.type_indexes(),
    };
    match (&arguments.files, indexes) {
        (Files::Pdb(_), Ok(indexes)) => Ok(indexes),
        (Files::Pdb(path), Err(error)) => Err(Failure::file(path, format!("it is damaged: {error}; {AGAIN}"))),
        (Files::Exported { types, ids }, Ok(indexes)) => told_apart(types, ids.as_deref(), streams).map(|()| indexes),
        (Files::Exported { types, ids }, Err(error)) => {
            let ids_are_refused = matches!(error, Error::Header(StreamKind::Ids) | Error::Tiling(StreamKind::Ids));
            let (path, kind) = if ids_are_refused { (ids.as_deref().unwrap_or(types), StreamKind::Ids) } else { (types.as_path(), StreamKind::Types) };
            let export = format!("llvm-pdbutil export --stream={} --out=FILE APP.pdb", number(kind));
            Err(Failure::file(path, format!("it is no whole {kind}: {error}; export it again: {export}")))
        }
    }
}

// Types and ids exchanged, or one given for both. Ids of no bytes are exchanged with nothing.
fn told_apart(types: &Path, ids: Option<&Path>, streams: &Pdb) -> Result<(), Failure> {
    let ids = ids.filter(|_| !streams.ids.is_empty());
    match (ids, held(&streams.types), held(&streams.ids)) {
        (Some(ids), Held::Ids, Held::Types | Held::Nothing) => {
            let exchange = format!("--types {} --ids {}", ids.display(), types.display());
            Err(Failure::file(types, format!("the streams are exchanged: it holds ids; give {exchange}")))
        }
        (_, Held::Ids, _) => Err(Failure::file(types, "it is an id stream; give the type stream, stream 2 of the .pdb, by --types")),
        (Some(ids), _, Held::Types) => Err(Failure::file(ids, "it is a type stream; give the id stream, stream 4 of the .pdb, by --ids")),
        _ => Ok(()),
    }
}

/// What is asked for: what was given, or else the indexes of the stream, of ids only those of functions if all are not asked for.
pub fn asked(arguments: &Arguments, indexes: Range<u32>, streams: &Pdb) -> Result<Vec<Item>, Failure> {
    let bare = |index| Item { index, name: Vec::new() };
    let given = arguments.items.iter().map(|item| Item { index: item.index, name: item.name.clone() });
    if arguments.from_input {
        return Ok(given.chain(from_input(arguments.what)?).collect());
    }
    if !arguments.items.is_empty() {
        return Ok(given.collect());
    }
    if arguments.what == What::Ids && !arguments.all {
        return Ok(indexes.zip(kinds(&streams.ids)).filter(|(_, kind)| is_function(*kind)).map(|(index, _)| bare(index)).collect());
    }
    Ok(indexes.map(bare).collect())
}

/// Where all ids are asked for and there are none, nothing is written; why is said on standard error.
pub fn tell_no_ids(arguments: &Arguments, streams: &Pdb) {
    let all = arguments.what == What::Ids && arguments.items.is_empty() && !arguments.from_input;
    let path = match &arguments.files {
        Files::Pdb(path) => Some(path),
        Files::Exported { ids, .. } => ids.as_ref(),
    };
    if let Some(path) = path.filter(|_| all && streams.ids.is_empty()) {
        remark(path, "it has no ids, as files of old linkers have none; ask for types, sizes or functions, or link it with a newer linker");
    }
}

// A line for each index, with the name behind it where functions are asked for.
fn from_input(what: What) -> Result<Vec<Item>, Failure> {
    let mut bytes = Vec::new();
    let read = io::stdin().lock().read_to_end(&mut bytes);
    read.map_err(|error| Failure::File(format!("standard input: it cannot be read ({error}); give the indexes on it, or by --index")))?;
    let lines = bytes.split(|byte| *byte == b'\n').map(trimmed).enumerate().filter(|(_, line)| !line.is_empty());
    lines
        .map(|(at, line)| {
            let (item, form) = match what {
                What::Functions => (function(line, u8::is_ascii_whitespace), "no index and name; write a line as `0x1001 step`"),
                _ => (index(line).map(|index| Item { index, name: Vec::new() }), "no index; write one a line, decimal or hexadecimal, as 4097 or 0x1001"),
            };
            item.ok_or_else(|| Failure::Use(format!("standard input, line {}: `{}` is {form}", at + 1, String::from_utf8_lossy(line))))
        })
        .collect()
}
