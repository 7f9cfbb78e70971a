//! Streams for the tests and the benchmark: records as cvinfo.h lays them out, random streams, and damage.
#![allow(dead_code)]

pub mod library;

use std::fs;
use std::path::PathBuf;

/// The first index of every stream made here.
pub const FIRST: u32 = 0x1000;

/// A generator with a given seed (splitmix64), so that every run makes the same streams.
pub struct Rng(pub u64);

impl Rng {
    pub fn next(&mut self) -> u64 {
        self.0 = self.0.wrapping_add(0x9e37_79b9_7f4a_7c15);
        let mut z = self.0;
        z = (z ^ (z >> 30)).wrapping_mul(0xbf58_476d_1ce4_e5b9);
        z = (z ^ (z >> 27)).wrapping_mul(0x94d0_49bb_1331_11eb);
        z ^ (z >> 31)
    }

    /// A number below `n`.
    pub fn below(&mut self, n: usize) -> usize {
        (self.next() % n as u64) as usize
    }

    /// Whether one of `n` falls.
    pub fn one_in(&mut self, n: usize) -> bool {
        self.below(n) == 0
    }

    pub fn pick<T: Copy>(&mut self, from: &[T]) -> T {
        from[self.below(from.len())]
    }
}

// Records

pub fn record(kind: u16, fields: &[&[u8]]) -> Vec<u8> {
    let fields = fields.concat();
    let len = u16::try_from(fields.len() + 2).unwrap();
    [&len.to_le_bytes()[..], &kind.to_le_bytes()[..], &fields].concat()
}

fn named(name: &[u8], unique: Option<&[u8]>) -> Vec<u8> {
    let mut bytes = [name, b"\0"].concat();
    if let Some(unique) = unique {
        bytes.extend(unique);
        bytes.push(0);
    }
    bytes
}

fn property(forward: bool, unique: Option<&[u8]>) -> [u8; 2] {
    (u16::from(forward) << 7 | u16::from(unique.is_some()) << 9).to_le_bytes()
}

fn size_number(size: u64) -> Vec<u8> {
    match u16::try_from(size) {
        Ok(small) if small < 0x8000 => small.to_le_bytes().to_vec(),
        _ => [&0x800a_u16.to_le_bytes()[..], &size.to_le_bytes()[..]].concat(),
    }
}

fn counted(entries: &[u32]) -> Vec<u8> {
    let mut bytes = (entries.len() as u32).to_le_bytes().to_vec();
    bytes.extend(entries.iter().flat_map(|entry| entry.to_le_bytes()));
    bytes
}

pub fn modifier(target: u32, bits: u16) -> Vec<u8> {
    record(0x1001, &[&target.to_le_bytes(), &bits.to_le_bytes()])
}

pub fn pointer(target: u32) -> Vec<u8> {
    pointer_of(target, 0, false, 8)
}

pub fn pointer_of(target: u32, mode: u32, is_const: bool, size: u32) -> Vec<u8> {
    let attributes = size << 13 | u32::from(is_const) << 10 | mode << 5 | 0xc;
    let member: &[u8] = if mode == 2 || mode == 3 { &[0; 6] } else { &[] };
    record(0x1002, &[&target.to_le_bytes(), &attributes.to_le_bytes(), member])
}

pub fn procedure(result: u32, arguments: u32, attributes: u8) -> Vec<u8> {
    record(0x1008, &[&result.to_le_bytes(), &[0, attributes, 0, 0], &arguments.to_le_bytes()])
}

pub fn method(result: u32, class: u32, this: u32, arguments: u32, attributes: u8) -> Vec<u8> {
    record(0x1009, &[&result.to_le_bytes(), &class.to_le_bytes(), &this.to_le_bytes(), &[0, attributes, 0, 0], &arguments.to_le_bytes(), &[0; 4]])
}

pub fn arguments(entries: &[u32]) -> Vec<u8> {
    record(0x1201, &[&counted(entries)])
}

pub fn array(element: u32, size: u64) -> Vec<u8> {
    record(0x1503, &[&element.to_le_bytes(), &0x23_u32.to_le_bytes(), &size_number(size), b"\0"])
}

/// A class (0x1504), struct (0x1505) or interface (0x1519).
pub fn class(kind: u16, name: &[u8], unique: Option<&[u8]>, size: u64, forward: bool) -> Vec<u8> {
    record(kind, &[&[0; 2], &property(forward, unique), &[0; 12], &size_number(size), &named(name, unique)])
}

pub fn union(name: &[u8], unique: Option<&[u8]>, size: u64, forward: bool) -> Vec<u8> {
    record(0x1506, &[&[0; 2], &property(forward, unique), &[0; 4], &size_number(size), &named(name, unique)])
}

pub fn enumeration(name: &[u8], unique: Option<&[u8]>, underlying: u32) -> Vec<u8> {
    record(0x1507, &[&[0; 2], &property(false, unique), &underlying.to_le_bytes(), &[0; 4], &named(name, unique)])
}

pub fn enumerate(name: &[u8], value: u16) -> Vec<u8> {
    record(0x1502, &[&[3, 0], &value.to_le_bytes(), &named(name, None)])
}

pub fn function_id(scope: u32, function_type: u32, name: &[u8]) -> Vec<u8> {
    record(0x1601, &[&scope.to_le_bytes(), &function_type.to_le_bytes(), &named(name, None)])
}

pub fn member_id(class: u32, function_type: u32, name: &[u8]) -> Vec<u8> {
    record(0x1602, &[&class.to_le_bytes(), &function_type.to_le_bytes(), &named(name, None)])
}

pub fn string_list(entries: &[u32]) -> Vec<u8> {
    record(0x1604, &[&counted(entries)])
}

pub fn string_id(list: u32, name: &[u8]) -> Vec<u8> {
    record(0x1605, &[&list.to_le_bytes(), &named(name, None)])
}

// Streams

/// A stream of records from `FIRST` on.
pub fn stream(records: &[Vec<u8>]) -> Vec<u8> {
    stream_of(records.len() as u32, &records.concat())
}

/// A stream of so many records from `FIRST` on, by their bytes.
pub fn stream_of(count: u32, body: &[u8]) -> Vec<u8> {
    let mut bytes = Vec::with_capacity(56 + body.len());
    for word in [20040203, 56, FIRST, FIRST + count, body.len() as u32] {
        bytes.extend(word.to_le_bytes());
    }
    bytes.resize(56, 0);
    bytes.extend(body);
    bytes
}

/// Document 01, "A small stream".
pub fn small_stream() -> Vec<u8> {
    stream(&[
        arguments(&[0x74]),
        procedure(3, 0x1000, 0),
        pointer(0x1001),
        modifier(0x70, 1),
        pointer_of(0x1003, 0, true, 8),
        class(0x1505, b"A", None, 4, false),
        array(0x1005, 12),
        array(0x1006, 60),
        pointer(0x1008),
        pointer(0x2000),
    ])
}

/// A type stream and an id stream, with the number of their records.
#[derive(Clone)]
pub struct Streams {
    pub name: String,
    pub types: Vec<u8>,
    pub ids: Vec<u8>,
    pub type_count: u32,
    pub id_count: u32,
}

const NAMES: [&[u8]; 15] = [
    b"A",
    b"B",
    b"loom::Yarn",
    b"advance",
    b"operator()",
    b"",
    b"?A0x1f",
    b"?A0x+",
    b"Caf\xe9",
    b"Caf\xe8",
    b"\xed\xa0\x80*",
    b"\xf0\x9f\x98",
    b"\xe7\xba\xba",
    b"line\nfeed",
    b"std::vector<int,std::allocator<int> >",
];
const PRIMITIVES: [u32; 10] = [0, 3, 0x74, 0x40, 0x70, 0x674, 0x470, 0x14, 0x9ff, 0xff];

/// A name of any bytes but zero: letters and whole sequences of UTF-8, then damaged.
pub fn raw_name(rng: &mut Rng) -> Vec<u8> {
    let mut name = Vec::new();
    for _ in 0..rng.below(12) {
        match rng.below(6) {
            0 => name.push(1 + rng.below(255) as u8),
            1 => name.push(rng.pick(&[0x7f, 0x80, 0x8f, 0x90, 0x9f, 0xa0, 0xbf, 0xc0, 0xc2, 0xdf, 0xe0, 0xed, 0xef, 0xf0, 0xf4, 0xf5, 0xff])),
            2 | 3 => {
                name.extend(rng.pick(&["é", "纺", "😀", "\u{7ff}", "\u{800}", "\u{d7ff}", "\u{e000}", "\u{ffff}", "\u{10000}", "\u{10ffff}"]).bytes())
            }
            _ => name.extend(&b"loom::Yarn<int>*&"[..1 + rng.below(17)]),
        }
    }
    for _ in 0..rng.below(3) {
        let at = rng.below(name.len() + 1);
        match rng.below(3) {
            0 => name.truncate(at),
            1 if at < name.len() => drop(name.remove(at)),
            _ => name.insert(at, 0x80 + rng.below(128) as u8),
        }
    }
    name
}

// An index as a record of stream may have it: mostly of an earlier record, at times of its own, of a later one, missing, or of another module.
fn index(rng: &mut Rng, at: usize, count: usize) -> u32 {
    match rng.below(20) {
        0..=5 => rng.pick(&PRIMITIVES),
        6..=16 => FIRST + rng.below(at.max(1)) as u32,
        17 | 18 => FIRST + rng.below(count.max(1)) as u32,
        _ => rng.pick(&[0x2000, 0x80001000, FIRST + count as u32, 0xffff_ffff]),
    }
}

fn indexes(rng: &mut Rng, at: usize, count: usize) -> Vec<u32> {
    (0..rng.below(5)).map(|_| index(rng, at, count)).collect()
}

fn unique(rng: &mut Rng) -> Option<&'static [u8]> {
    if rng.one_in(3) {
        Some(rng.pick(&NAMES))
    } else {
        None
    }
}

fn random_type(rng: &mut Rng, at: usize, count: usize) -> Vec<u8> {
    let (a, b, c, d) = (index(rng, at, count), index(rng, at, count), index(rng, at, count), index(rng, at, count));
    let name = rng.pick(&NAMES);
    let unique = unique(rng);
    let size = rng.pick(&[0, 1, 4, 12, 24, 60, 0x8000, 70_000, 5_000_000_000]);
    match rng.below(24) {
        0..=2 => modifier(a, rng.below(8) as u16),
        3..=6 => {
            let (mode, size) = (rng.below(5) as u32, rng.pick(&[0, 4, 8, 16]));
            pointer_of(a, mode, rng.one_in(3), size)
        }
        7..=9 => procedure(a, b, rng.below(4) as u8),
        10 | 11 => method(a, b, c, d, rng.below(4) as u8),
        12..=14 => arguments(&indexes(rng, at, count)),
        15 | 16 => array(a, size),
        17..=19 => {
            let kind = rng.pick(&[0x1504, 0x1505, 0x1519]);
            class(kind, name, unique, size, rng.one_in(3))
        }
        20 => union(name, unique, size, rng.one_in(3)),
        21 => enumeration(name, unique, a),
        22 => enumerate(name, rng.below(0x8000) as u16),
        _ => record(rng.pick(&[0x1203, 0x1205, 0x1206, 0x1409, 0x000a, 0x1601]), &[&a.to_le_bytes()]),
    }
}

fn random_id(rng: &mut Rng, at: usize, count: usize, types: usize) -> Vec<u8> {
    let scope = if rng.one_in(2) { 0 } else { index(rng, at, count) };
    let function_type = index(rng, types, types);
    let name = rng.pick(&NAMES);
    match rng.below(10) {
        0..=3 => function_id(scope, function_type, name),
        4..=6 => member_id(index(rng, types, types), function_type, name),
        7 => string_list(&indexes(rng, types, types)),
        8 => string_id(scope, name),
        _ => record(rng.pick(&[0x1603, 0x1606, 0x1607, 0x1608, 0x1001]), &[&scope.to_le_bytes()]),
    }
}

/// Streams of random records, none of them cut.
pub fn random_streams(rng: &mut Rng, case: usize) -> Streams {
    let (types, ids) = (1 + rng.below(60), 1 + rng.below(30));
    random_streams_of(rng, format!("random {case}"), types, ids)
}

/// Streams of so many random records, none of them cut.
pub fn random_streams_of(rng: &mut Rng, name: String, types: usize, ids: usize) -> Streams {
    let type_records: Vec<_> = (0..types).map(|at| random_type(rng, at, types)).collect();
    let id_records: Vec<_> = (0..ids).map(|at| random_id(rng, at, ids, types)).collect();
    Streams { name, types: stream(&type_records), ids: stream(&id_records), type_count: types as u32, id_count: ids as u32 }
}

/// Damage: bytes changed, a cut, bytes added, a broken header.
pub fn damage(rng: &mut Rng, bytes: &mut Vec<u8>) {
    match rng.below(6) {
        0 => bytes.truncate(rng.below(bytes.len() + 1)),
        1 => bytes.extend([0xf3, 0, 7]),
        2 => {
            let at = rng.below(bytes.len().clamp(1, 20));
            if let Some(byte) = bytes.get_mut(at) {
                *byte = rng.next() as u8;
            }
        }
        _ => {
            for _ in 0..1 + rng.below(8) {
                if bytes.len() > 56 {
                    let at = 56 + rng.below(bytes.len() - 56);
                    bytes[at] = rng.pick(&[0, 1, 0x10, 0x12, 0x15, 0x80, 0xff, bytes[at] ^ 1]);
                }
            }
        }
    }
}

/// Random streams, some of them damaged.
pub fn hostile_streams(rng: &mut Rng, case: usize) -> Streams {
    let mut streams = random_streams(rng, case);
    make_hostile(rng, &mut streams);
    streams
}

/// Damages some of the streams that it is given.
pub fn make_hostile(rng: &mut Rng, streams: &mut Streams) {
    if rng.one_in(3) {
        damage(rng, &mut streams.types);
    }
    if rng.one_in(4) {
        damage(rng, &mut streams.ids);
    }
    // a program that was linked without an id stream
    if rng.one_in(10) {
        streams.ids.clear();
    }
}

/// A folder of this repository.
pub fn folder(path: &str) -> PathBuf {
    PathBuf::from(env!("CARGO_MANIFEST_DIR")).join("..").join(path)
}

/// The kinds of records that the original writes as debug text.
pub const UNHANDLED: [u16; 6] = [0x1203, 0x1205, 0x1206, 0x1603, 0x1606, 0x1607];

fn half(stream: &[u8], at: usize) -> u16 {
    u16::from_le_bytes([stream[at], stream[at + 1]])
}

/// Where each record of a well-formed stream stands.
pub fn record_places(stream: &[u8]) -> Vec<usize> {
    let mut at = 56;
    let record = |_| {
        let place = at;
        at += 2 + usize::from(half(stream, at));
        place
    };
    (0..record_count(stream)).map(record).collect()
}

/// The kind of each record of a well-formed stream.
pub fn record_kinds(stream: &[u8]) -> Vec<u16> {
    record_places(stream).into_iter().map(|at| half(stream, at + 2)).collect()
}

fn record_count(stream: &[u8]) -> u32 {
    let word = |at: usize| u32::from_le_bytes(stream[at..at + 4].try_into().unwrap());
    word(12) - word(8)
}

/// The real streams of `test_vectors`, made by clang and lld.
pub fn real_streams() -> Vec<Streams> {
    ["overloads", "methods", "fnptrs", "arrays", "merged"]
        .into_iter()
        .map(|name| {
            let read = |kind: &str| fs::read(folder("crates/test_vectors/data").join(format!("{name}-{kind}.bin"))).unwrap();
            let (types, ids) = (read("types"), read("ids"));
            let (type_count, id_count) = (record_count(&types), record_count(&ids));
            Streams { name: name.to_string(), types, ids, type_count, id_count }
        })
        .collect()
}

/// Groups of records in a row, each made from the index of its first record, and then a pointer to int. The first record leads through them all.
fn row(groups: u32, group: impl Fn(u32) -> Vec<Vec<u8>>) -> Vec<u8> {
    let mut records = Vec::new();
    for _ in 0..groups {
        let at = FIRST + records.len() as u32;
        records.extend(group(at));
    }
    records.push(pointer(0x74));
    stream(&records)
}

/// Rows of as many open indexes as there may be, by what they are of.
pub fn deep_rows() -> Vec<(&'static str, Vec<u8>)> {
    vec![
        ("modifiers of pointers", row(47, |at| vec![modifier(at + 1, 1), pointer(at + 2)])),
        ("pointers", row(94, |at| vec![pointer(at + 1)])),
        ("pointers to methods", row(31, |at| vec![pointer(at + 1), method(3, 0x74, 0, at + 2, 0), arguments(&[at + 3])])),
        ("methods", row(47, |at| vec![method(3, 0x74, 0, at + 1, 0), arguments(&[at + 2])])),
        ("pointers to procedures", row(31, |at| vec![pointer(at + 1), procedure(3, at + 2, 0), arguments(&[at + 3])])),
        ("procedures", row(47, |at| vec![procedure(3, at + 1, 0), arguments(&[at + 2])])),
        ("modifiers of arrays", row(93, |at| vec![modifier(at + 1, 1), array(at + 2, 8)])),
        ("pointers to arrays", row(94, |at| vec![pointer(at + 1), array(at + 2, 8)])),
    ]
}

/// Records before the ones that matter: the shortest that there are.
pub fn fillers(count: usize) -> Vec<Vec<u8>> {
    vec![record(0x1203, &[]); count]
}

/// The modifiers of a chain; with the list and the struct that they end in, 96 indexes are open.
pub const CHAIN: u32 = 94;

/// A chain of modifiers behind so many records, and the index of a list with it as each entry. With NAME_ONLY the text is a comma between each two.
pub fn chains(records: usize, entries: usize) -> (Vec<u8>, u32) {
    let mut all = fillers(records);
    let first = FIRST + records as u32;
    all.push(class(0x1505, b"", None, 0, false));
    all.extend((0..CHAIN).map(|at| modifier(first + at, 0)));
    all.push(arguments(&vec![first + CHAIN; entries]));
    (stream(&all), first + CHAIN + 1)
}

// Calls

use yokberd::{Error, IdIndex, Measure, Sheet, TypeFormatter, TypeFormatterFlags, TypeIndex};

/// One call of a sheet.
#[derive(Clone, Copy, Debug)]
pub enum Call {
    Type(u32),
    Id(u32),
    Function(&'static [u8], u32),
    Size(u32),
}

impl Call {
    /// The text in the start of a buffer. A size call writes its decimal number.
    pub fn ask(self, formatter: &TypeFormatter, out: &mut [u8]) -> Result<usize, Error> {
        match self {
            Call::Type(index) => formatter.format_type_into(out, 0, TypeIndex(index)),
            Call::Id(index) => formatter.format_id_into(out, 0, IdIndex(index)),
            Call::Function(name, index) => formatter.format_function_into(out, name, 0, TypeIndex(index)),
            Call::Size(index) => {
                let size = formatter.get_type_size(0, TypeIndex(index))?.to_string();
                out[..size.len()].copy_from_slice(size.as_bytes());
                Ok(size.len())
            }
        }
    }

    /// How long the text is, and what is opened for it.
    pub fn measure(self, formatter: &TypeFormatter) -> Result<Measure, Error> {
        match self {
            Call::Type(index) => formatter.measure_type(0, TypeIndex(index)),
            Call::Id(index) => formatter.measure_id(0, IdIndex(index)),
            Call::Function(name, index) => formatter.measure_function(name, 0, TypeIndex(index)),
            Call::Size(_) => panic!("a size call writes no text"),
        }
    }

    pub fn add_to(self, sheet: &mut Sheet) {
        match self {
            Call::Type(index) => sheet.type_text(TypeIndex(index)),
            Call::Id(index) => sheet.id_text(IdIndex(index)),
            Call::Function(name, index) => sheet.function_text(name, TypeIndex(index)).unwrap(),
            Call::Size(index) => sheet.type_size(TypeIndex(index)),
        };
    }
}

/// Every type and id of a pair of streams, with the indexes beside them and some that are in no stream.
pub fn all_calls(rng: &mut Rng, streams: &Streams) -> Vec<Call> {
    let others = [0, 0x74, 0x674, 0xfff, 0x9ff, 0x7fff_ffff, 0x8000_0000, 0xffff_ffff];
    let types: Vec<u32> = (FIRST..=FIRST + streams.type_count).chain(others).collect();
    let ids = (FIRST - 1..=FIRST + streams.id_count).chain(others);
    let mut calls: Vec<_> = ids.map(Call::Id).collect();
    for index in types {
        let name: &[u8] = rng.pick(&[b"step", b"", b"loom::advance", b"\xe9\xff", b"0123456789abcdef"]);
        calls.extend([Call::Type(index), Call::Size(index), Call::Function(name, index)]);
    }
    calls
}

/// Those of `all_calls` that write a text.
pub fn text_calls(rng: &mut Rng, streams: &Streams) -> Vec<Call> {
    all_calls(rng, streams).into_iter().filter(|call| !matches!(call, Call::Size(_))).collect()
}

/// How long a command of a sheet is; an unknown one is cut wherever it ends.
pub fn command_len(kind: u8) -> usize {
    match kind {
        0x01 | 0x10..=0x12 => 5,
        0x02 => 2,
        0x13 => 21,
        _ => usize::MAX,
    }
}

/// The number behind a command of a sheet.
pub fn command_number(command: &[u8]) -> u32 {
    u32::from_le_bytes(command[1..5].try_into().unwrap())
}

/// The name of a function in a command, which ends at a zero or with the command.
pub fn command_name(command: &[u8]) -> &[u8] {
    command[5..].split(|byte| *byte == 0).next().unwrap()
}

/// Flags and a pointer size, mostly good ones.
pub fn settings(rng: &mut Rng) -> (TypeFormatterFlags, u8) {
    let flags = match rng.below(16) {
        0 => rng.next() as u32,
        1..=4 => 0,
        _ => rng.below(64) as u32,
    };
    (TypeFormatterFlags::from_bits_retain(flags), rng.pick(&[8, 8, 8, 8, 8, 8, 8, 8, 4, 4, 4, 4, 16, 16, 0, 255]))
}

/// How many cases a test makes: `YOKBERD_CASES`, or a number that takes some seconds.
pub fn case_count(usual: usize) -> usize {
    std::env::var("YOKBERD_CASES").map_or(usual, |count| count.parse().unwrap())
}
