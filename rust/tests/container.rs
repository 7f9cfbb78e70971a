//! Streams of .pdb files, which are laid out here by LLVM's page on the MSF format: every field of the superblock and the directory made wrong.
//! `tools/test-pdb.sh` does the same on real files.
mod common;

use common::real_streams;
use yokberd::{read_stream, read_stream_into, stream_len, ContainerError, Error, IdIndex, Pdb, PdbError, StreamKind, TypeFormatterFlags, TypeIndex};

const NIL: u32 = u32::MAX;

// A file, and where the parts of it are whose numbers the tests change.
struct File {
    bytes: Vec<u8>,
    blocks: u32,
    map: usize,
    directory: usize,
    first_block: usize,
}

fn blocks_of(len: usize, block: usize) -> usize {
    len.div_ceil(block)
}

fn put(bytes: &mut [u8], at: usize, numbers: &[u32]) {
    for (place, number) in bytes[at..].chunks_exact_mut(4).zip(numbers) {
        place.copy_from_slice(&number.to_le_bytes());
    }
}

// The sizes of streams, then the blocks of each, numbered downwards to `lowest` so that none lies behind its predecessor.
fn directory(streams: &[Option<Vec<u8>>], block: usize, lowest: u32) -> Vec<u32> {
    let sizes = streams.iter().map(|stream| stream.as_ref().map_or(NIL, |bytes| bytes.len() as u32));
    let count: usize = streams.iter().flatten().map(|stream| blocks_of(stream.len(), block)).sum();
    [streams.len() as u32].into_iter().chain(sizes).chain((lowest..lowest + count as u32).rev()).collect()
}

// Superblock, two free block maps, the blocks of the streams, those of the directory, and the block map.
fn msf(streams: &[Option<Vec<u8>>], block: usize) -> File {
    let words = directory(streams, block, 3);
    let listed = &words[1 + streams.len()..];
    let (start, held) = (3 + listed.len(), blocks_of(4 * words.len(), block));
    let blocks = (start + held + 1) as u32;
    let mut bytes = vec![0; blocks as usize * block];
    bytes[..32].copy_from_slice(b"Microsoft C/C++ MSF 7.00\r\n\x1aDS\0\0\0");
    put(&mut bytes, 32, &[block as u32, 1, blocks, 4 * words.len() as u32, 0, blocks - 1]);
    let parts = streams.iter().flatten().flat_map(|stream| stream.chunks(block));
    for (number, part) in listed.iter().zip(parts) {
        bytes[*number as usize * block..][..part.len()].copy_from_slice(part);
    }
    put(&mut bytes, start * block, &words);
    let map = (start + held) * block;
    put(&mut bytes, map, &(start as u32..(start + held) as u32).collect::<Vec<_>>());
    File { bytes, blocks, map, directory: start * block, first_block: start * block + 4 * (1 + streams.len()) }
}

fn some_streams() -> Vec<Option<Vec<u8>>> {
    let bytes = |len: usize, from: usize| Some((0..len).map(|at| ((at + from) * 7 % 251) as u8).collect());
    vec![bytes(0, 0), bytes(700, 1), bytes(512, 2), None, bytes(3001, 3), bytes(1, 4)]
}

#[test]
fn every_stream_of_every_block_size() {
    let streams = some_streams();
    for block in [512, 1024, 2048, 4096, 8192, 16384, 32768] {
        let file = msf(&streams, block);
        for (number, stream) in streams.iter().enumerate() {
            let nil = ContainerError::NoStream(file.directory + 4 + 4 * number);
            assert_eq!(read_stream(&file.bytes, number as u32), stream.clone().ok_or(nil), "stream {number} in blocks of {block}");
        }
        assert_eq!(read_stream(&file.bytes, 6), Err(ContainerError::NoStream(file.directory)));
        let longer = [&file.bytes[..], b"behind"].concat();
        assert_eq!(read_stream(&longer, 4).ok(), streams[4], "bytes behind the blocks are passed over");
    }
}

#[test]
fn buffers() {
    let file = msf(&some_streams(), 512);
    assert_eq!(stream_len(&file.bytes, 4), Ok(3001));
    assert_eq!(stream_len(&file.bytes, 0), Ok(0));
    let mut out = vec![0xaa; 3100];
    assert_eq!(read_stream_into(&file.bytes, 4, &mut out), Ok(3001));
    assert!(out[3001..].iter().all(|byte| *byte == 0xaa), "the bytes behind the stream stay");
    let mut short = vec![0xaa; 3000];
    assert_eq!(read_stream_into(&file.bytes, 4, &mut short), Err(ContainerError::NoRoom(3001)));
    assert!(short.iter().all(|byte| *byte == 0), "refused: zeros");
}

#[test]
fn every_field_made_wrong() {
    let file = msf(&some_streams(), 512);
    let end = file.blocks;
    let wrong: [(usize, &[u32], ContainerError); 9] = [
        (32, &[0, 1, 256, 513, 65536, NIL], ContainerError::BlockSize(32)),
        (36, &[0, 3, NIL], ContainerError::FreeBlockMap(36)),
        (40, &[end + 1, NIL], ContainerError::Cut(40)),
        (40, &[0, 1, end - 1], ContainerError::BlockMap(52)),
        (44, &[0, 1, 2, 3, 0xffff_fffc, NIL, 512 * 128 + 4], ContainerError::DirectorySize(44)),
        (52, &[0, end, NIL], ContainerError::BlockMap(52)),
        (file.map, &[0, end, NIL], ContainerError::DirectoryBlock(file.map)),
        (file.directory, &[0, 1, 5, 7, 1000, NIL], ContainerError::Directory(file.directory)),
        (file.first_block + 4, &[0, end, NIL], ContainerError::StreamBlock(file.first_block + 4)),
    ];
    for (at, numbers, error) in wrong {
        for number in numbers {
            let mut bytes = file.bytes.clone();
            put(&mut bytes, at, &[*number]);
            assert_eq!(read_stream(&bytes, 2), Err(error), "{number:#x} at {at}");
        }
    }
    for at in 0..32 {
        let mut bytes = file.bytes.clone();
        bytes[at] ^= 0x20;
        assert_eq!(read_stream(&bytes, 2), Err(ContainerError::Magic(at)));
    }
}

// A size that takes a block more or less, and a directory that is a number longer.
#[test]
fn a_directory_that_is_not_filled() {
    let file = msf(&some_streams(), 512);
    for (at, number) in
        [(file.directory + 12, 513), (file.directory + 8, 512), (file.directory + 16, 1), (file.directory + 12, NIL), (44, 4 * 16), (44, 4 * 18)]
    {
        let mut bytes = file.bytes.clone();
        put(&mut bytes, at, &[number]);
        assert_eq!(read_stream(&bytes, 2), Err(ContainerError::Directory(file.directory)), "{number} at {at}");
    }
}

#[test]
fn cut_files() {
    let file = msf(&some_streams(), 512);
    for len in [0, 1, 31, 55] {
        assert_eq!(read_stream(&file.bytes[..len], 2), Err(ContainerError::Short(len)));
    }
    for len in [56, 512, file.bytes.len() - 1] {
        assert_eq!(read_stream(&file.bytes[..len], 2), Err(ContainerError::Cut(40)));
    }
}

#[test]
fn errors_in_words() {
    for number in 1..=12 {
        let error = ContainerError::from_case(number, 40).unwrap();
        assert_eq!((error.number(), error.place()), (number, 40));
        assert!(error.to_string().contains("40"), "{error}: the place is said");
    }
    assert_eq!((ContainerError::from_case(0, 40), ContainerError::from_case(13, 40)), (None, None));
}

// A shipped pair of streams inside a .pdb file, with the machine that stream 3 names.
fn program(machine: u16) -> Vec<Option<Vec<u8>>> {
    let pair = real_streams().remove(0);
    let debug = [&[0; 58][..], &machine.to_le_bytes(), &[0; 4]].concat();
    vec![Some(vec![]), Some(vec![1]), Some(pair.types), Some(debug), Some(pair.ids)]
}

#[test]
fn names_from_a_file() {
    let pdb = Pdb::read(&msf(&program(0x8664), 4096).bytes).unwrap();
    assert_eq!(pdb.pointer_size, 8);
    // as crates/test_vectors/stdout has it for `overloads`
    assert_eq!(pdb.formatter(TypeFormatterFlags::empty()).format_id(0, IdIndex(0x1002)), Ok("void loom::advance(int)".into()));
    assert_eq!(Pdb::read(&msf(&program(0x14c), 512).bytes).unwrap().pointer_size, 4);
    let mut unnamed = program(0x14c);
    unnamed[3] = None;
    assert_eq!(Pdb::read(&msf(&unnamed, 512).bytes).unwrap().pointer_size, 8, "no machine is named");
}

// Document 02, Note 1: without an id stream, or with one of no bytes, there are no ids, and each is written as missing.
#[test]
fn files_without_ids() {
    let shorter = program(0x8664)[..4].to_vec();
    let [mut absent, mut empty] = [program(0x8664), program(0x8664)];
    (absent[4], empty[4]) = (None, Some(vec![]));
    for streams in [shorter, absent, empty] {
        let pdb = Pdb::read(&msf(&streams, 512).bytes).unwrap();
        assert_eq!((&pdb.ids[..], pdb.pointer_size), (&[][..], 8));
        let formatter = pdb.formatter(TypeFormatterFlags::empty());
        assert_eq!(formatter.id_indexes(), Ok(0..0));
        assert_eq!(formatter.format_id(0, IdIndex(0x1001)), Ok("<missing type 0x1001>".into()));
        assert_eq!(formatter.format_function("advance", 0, TypeIndex(0x1001)), Ok("void advance(float)".into()));
    }
    let mut broken = program(0x8664);
    broken[4] = Some(vec![0]);
    let pdb = Pdb::read(&msf(&broken, 512).bytes).unwrap();
    assert_eq!(pdb.formatter(TypeFormatterFlags::empty()).id_indexes(), Err(Error::Header(StreamKind::Ids)));
    assert_eq!(Pdb::read_types(&msf(&broken, 512).bytes).unwrap().ids, []);
}

#[test]
fn files_without_names() {
    let mut streams = program(0x8664);
    streams[2] = None;
    let file = msf(&streams, 512);
    let error = PdbError::Container(StreamKind::Types, ContainerError::NoStream(file.directory + 4 + 4 * 2));
    assert_eq!(Pdb::read(&file.bytes), Err(error));
    assert_eq!(error.to_string(), "the file has no type stream");
    streams[2] = Some(vec![0; yokberd::STREAM_LIMIT + 1]);
    let error = Pdb::read(&msf(&streams, 4096).bytes).unwrap_err();
    assert_eq!(error, PdbError::TooLong(StreamKind::Types, 16_777_217));
    assert_eq!(error.to_string(), "the type stream has 16777217 bytes, and at most 16777216 are read");
}
