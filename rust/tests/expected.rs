//! Answers held to lines that this crate and the library did not make: the cases of document 01, the lines of its reading in Python over real streams
//! (crates/test_vectors), and the given sheets (crates/test_sheets).
mod common;

use common::{folder, real_streams, small_stream};
use std::fs;
use yokberd::{Error, IdIndex, Sheet, StreamKind, TypeFormatter, TypeFormatterFlags, TypeIndex};

fn formatter<'a>(types: &'a [u8], ids: &'a [u8], flags: u32) -> TypeFormatter<'a> {
    TypeFormatter::new_from_parts(types, ids, 8, TypeFormatterFlags::from_bits_retain(flags))
}

#[test]
fn small_stream_cases() {
    let types = small_stream();
    let plain = formatter(&types, &[], 0);
    let text = |index| plain.format_type(0, TypeIndex(index));
    assert_eq!(text(0x1002), Ok("void (*)(int)".into()));
    assert_eq!(plain.clone().with_text_limit(13).format_type(0, TypeIndex(0x1002)), Ok("void (*)(int)".into()));
    assert_eq!(plain.clone().with_text_limit(12).format_type(0, TypeIndex(0x1002)), Err(Error::NoRoom));
    assert_eq!(text(0x1004), Ok("char const* const".into()));
    let spaced = formatter(&types, &[], TypeFormatterFlags::SPACE_BEFORE_POINTER.bits());
    assert_eq!(spaced.format_type(0, TypeIndex(0x1004)), Ok("char const * const".into()));
    assert_eq!(text(0x1007), Ok("struct A[5][3]".into()));
    assert_eq!(plain.get_type_size(0, TypeIndex(0x1007)), Ok(60));
    assert_eq!(text(0x1001), Ok("void ()(int".into()));
    assert_eq!(text(0x1008), Err(Error::CircularTypeDefinition(0x1008)));
    assert_eq!(text(0x1009), Ok("<missing type 0x2000>".into()));
    let function = |name, index| plain.format_function(name, 0, TypeIndex(index));
    assert_eq!(function("step", 0x1001), Ok("void step(int)".into()));
    let short = formatter(&types, &[], TypeFormatterFlags::NO_ARGUMENTS.bits());
    assert_eq!(short.format_function("step", 0, TypeIndex(0x1001)), Ok("void step".into()));
    assert_eq!(function("step", 0x2000), Err(Error::Missing(0x2000)));
    assert_eq!(function("", 0), Ok("<name omitted>".into()));
    assert_eq!(function("", 0x74), Ok(String::new()));
}

#[test]
fn refusals_before_the_walk() {
    let types = small_stream();
    let unknown = formatter(&types, &[], 0x40);
    assert_eq!(unknown.format_type(0, TypeIndex(0x74)), Err(Error::UnknownFlags(0x40)));
    assert_eq!(unknown.get_type_size(0, TypeIndex(0x74)), Ok(4), "a size call takes no flags");
    let odd = TypeFormatter::new_from_parts(&types, &[], 3, TypeFormatterFlags::empty());
    assert_eq!(odd.get_type_size(0, TypeIndex(0x74)), Err(Error::PointerSize(3)));
    assert_eq!(formatter(&[], &[], 0).format_type(0, TypeIndex(0x74)), Err(Error::Header(StreamKind::Types)));
    assert_eq!(formatter(&types, &[0], 0).format_id(0, IdIndex(0x1000)), Err(Error::Header(StreamKind::Ids)));
    let mut cut = types.clone();
    cut[16] -= 1;
    assert_eq!(formatter(&cut, &[], 0).format_type(0, TypeIndex(0x74)), Err(Error::Tiling(StreamKind::Types)));
    assert_eq!(formatter(&types, &[], 0).format_type(0, TypeIndex(0x8000_0000)), Err(Error::CrossModule(0x8000_0000)));
}

// Document 02, Note 1: "An id stream of length 0 now means no ids at all, so each index that 6 does not refuse is missing and is written so." By hand.
#[test]
fn streams_without_ids() {
    let types = small_stream();
    let none = formatter(&types, &[], 0);
    for (index, text) in [(0, "<missing type 0x0>"), (0x1000, "<missing type 0x1000>"), (0x7fff_ffff, "<missing type 0x7fffffff>")] {
        assert_eq!(none.format_id(0, IdIndex(index)), Ok(text.into()));
        assert_eq!(none.format_ids(&[IdIndex(index)]), [Ok(text.into())]);
    }
    assert_eq!(none.format_id(0, IdIndex(0x8000_1000)), Err(Error::CrossModule(0x8000_1000)));
    assert_eq!(none.format_id_into(&mut [0; 21], 0, IdIndex(0x1000)), Ok(21));
    let mut short = [0xaa; 20];
    assert_eq!((none.format_id_into(&mut short, 0, IdIndex(0x1000)), short), (Err(Error::NoRoom), [0; 20]));
    assert_eq!(none.id_indexes(), Ok(0..0));
    // types come first, and keep their header
    assert_eq!(formatter(&[], &[], 0).format_id(0, IdIndex(0x1000)), Err(Error::Header(StreamKind::Types)));
    assert_eq!(formatter(&[], &[], 0).id_indexes(), Err(Error::Header(StreamKind::Types)));
    for len in [1, 55] {
        assert_eq!(formatter(&types, &types[..len], 0).format_id(0, IdIndex(0x1000)), Err(Error::Header(StreamKind::Ids)));
    }
}

// The same answers as over a header and no records, whatever its first index: for every kind of call, over every index that stands near something.
#[test]
fn no_ids_as_a_header_without_records() {
    let types = small_stream();
    let indexes = [0, 1, 0x74, 0xfff, 0x1000, 0x1001, 0x1fff, 0x2000, 0x7fff_ffff, 0x8000_0000, 0x8000_1000, u32::MAX].map(IdIndex);
    for first in [0x1000_u32, 0x1001, 0x2000, 0x7fff_ffff, 0x8000_0000] {
        let mut ids = common::stream(&[]);
        ids[8..12].copy_from_slice(&first.to_le_bytes());
        ids[12..16].copy_from_slice(&first.to_le_bytes());
        for flags in 0..=0x40 {
            let (none, header) = (formatter(&types, &[], flags), formatter(&types, &ids, flags));
            assert_eq!(none.format_ids(&indexes), header.format_ids(&indexes), "first {first:#x} flags {flags:#x}");
            for index in indexes {
                assert_eq!(none.format_id(0, index), header.format_id(0, index), "{index} first {first:#x} flags {flags:#x}");
            }
        }
    }
}

// "A stream has at most 16,777,216 bytes, or 3"; bytes behind the records are ignored.
#[test]
fn longest_stream() {
    let mut types = small_stream();
    types.resize(16_777_216, 0);
    assert_eq!(formatter(&types, &types, 0).format_id(0, IdIndex(0x2000)), Ok("<missing type 0x2000>".into()));
    assert_eq!(formatter(&types, &[], 0).format_type(0, TypeIndex(0x1007)), Ok("struct A[5][3]".into()));
    let short = types.clone();
    types.push(0);
    assert_eq!(formatter(&types, &[], 0).format_type(0, TypeIndex(0x1007)), Err(Error::Header(StreamKind::Types)));
    assert_eq!(formatter(&short, &types, 0).format_id(0, IdIndex(0x2000)), Err(Error::Header(StreamKind::Ids)));
}

// Document 01's table, rows 5 to 11, by hand: each record leads to the refusal beside it.
#[test]
fn refusals_of_records_and_the_walk() {
    let types = common::stream(&[
        common::record(0x1505, &[]),
        common::record(0x000a, &[]),
        common::modifier(0x1001, 1),
        common::method(3, 0x74, 0, 0x74, 0),
        common::procedure(3, 0x80001234, 0),
        common::pointer(0x1000),
    ]);
    let ids = common::stream(&[common::function_id(0, 0x1003, b"f"), common::member_id(0x74, 0x1004, b"f"), common::record(0x1601, &[])]);
    let plain = formatter(&types, &ids, 0);
    assert_eq!(plain.format_type(0, TypeIndex(0x1000)), Err(Error::Malformed(0x1000)));
    assert_eq!(plain.format_type(0, TypeIndex(0x1001)), Ok("<unimplemented type kind 0xa>".into()));
    assert_eq!(plain.format_type(0, TypeIndex(0x1002)), Err(Error::UnlistedKind(0xa)));
    assert_eq!(plain.format_function("f", 0, TypeIndex(0x1003)), Err(Error::ArgumentTypeNotArgumentList(0x74)));
    assert_eq!(plain.format_function("f", 0, TypeIndex(0x1004)), Err(Error::CrossModule(0x80001234)));
    assert_eq!(plain.format_function("f", 0, TypeIndex(0x1006)), Err(Error::Missing(0x1006)));
    assert_eq!(plain.get_type_size(0, TypeIndex(0x1000)), Ok(0), "what cannot be read has the size 0");
    assert_eq!(plain.format_id(0, IdIndex(0x1000)), Err(Error::FunctionIdIsNotProcedureType(0x1003)));
    assert_eq!(plain.format_id(0, IdIndex(0x1001)), Err(Error::MemberFunctionIdIsNotMemberFunctionType(0x1004)));
    assert_eq!(plain.format_id(0, IdIndex(0x1002)), Err(Error::Malformed(0x1002)));
}

#[test]
fn emit_writes_the_same() {
    let types = small_stream();
    let plain = formatter(&types, &types, 0);
    let mut text = String::from("seen ");
    plain.emit_type(&mut text, 0, TypeIndex(0x1004)).unwrap();
    plain.emit_function(&mut text, " step", 0, TypeIndex(0x1001)).unwrap();
    plain.emit_id(&mut text, 0, IdIndex(0x2000)).unwrap();
    assert_eq!(text, "seen char const* constvoid  step(int)<missing type 0x2000>");
    assert_eq!(plain.emit_type(&mut text, 0, TypeIndex(0x1008)), Err(Error::CircularTypeDefinition(0x1008)));
    assert!(text.ends_with("0x2000>"), "nothing is written where the call is refused");
}

#[test]
fn a_failing_writer_is_told() {
    struct Full;
    impl std::fmt::Write for Full {
        fn write_str(&mut self, _: &str) -> std::fmt::Result {
            Err(std::fmt::Error)
        }
    }
    let types = small_stream();
    assert_eq!(formatter(&types, &[], 0).emit_type(&mut Full, 0, TypeIndex(0x74)), Err(Error::FormatError(std::fmt::Error)));
}

#[test]
fn names_that_are_not_utf8() {
    let types = common::stream(&[common::class(0x1505, b"Caf\xe9", None, 4, false)]);
    let short = formatter(&types, &[], TypeFormatterFlags::NAME_ONLY.bits());
    assert_eq!(short.format_type_bytes(0, TypeIndex(0x1000)), Ok(b"Caf\xef\xbf\xbd".to_vec()));
    assert_eq!(short.format_type(0, TypeIndex(0x1000)), Ok("Caf\u{fffd}".into()));
    assert_eq!(short.format_function_bytes(b"\xff", 0, TypeIndex(0)), Ok(b"\xff".to_vec()));
}

// Texts of more bytes than the first buffer of a formatter, up to its limit.
#[test]
fn long_texts() {
    let name = vec![b'n'; 60_000];
    let types = common::stream(&[common::class(0x1505, &name, None, 4, false), common::arguments(&[0x1000; 20])]);
    let short = formatter(&types, &[], TypeFormatterFlags::NAME_ONLY.bits());
    assert_eq!(short.format_type_bytes(0, TypeIndex(0x1000)), Ok(name.clone()));
    let list = vec![name.as_slice(); 20].join(&b","[..]);
    assert!(list.len() > yokberd::TEXT_LIMIT);
    assert_eq!(short.format_type_bytes(0, TypeIndex(0x1001)), Err(Error::NoRoom));
    assert_eq!(short.clone().with_text_limit(list.len()).format_type_bytes(0, TypeIndex(0x1001)), Ok(list.clone()));
    assert_eq!(short.clone().with_text_limit(list.len() - 1).format_type_bytes(0, TypeIndex(0x1001)), Err(Error::NoRoom));
}

// Lists of lists whose text would have 2^60 entries: refused at the limit.
#[test]
fn endless_texts() {
    let lists: Vec<_> = (0..60).map(|at| common::arguments(&[if at == 0 { 0x74 } else { 0x1000 + at - 1 }; 2])).collect();
    let types = common::stream(&lists);
    let plain = formatter(&types, &[], 0);
    assert_eq!(plain.format_type(0, TypeIndex(0x1001)), Ok("int,int,int,int".into()));
    assert_eq!(plain.format_type(0, TypeIndex(0x103b)), Err(Error::NoRoom));
}

// A line as `test_vectors` prints it behind the index: refusal, detail and text.
fn shown(answer: Result<Vec<u8>, Error>) -> String {
    match answer {
        Ok(text) => format!("0 0x0 {}", String::from_utf8(text).unwrap()),
        Err(error) => format!("{} {:#x}", error.number(), error.detail()),
    }
}

#[test]
fn real_streams_by_the_reading_in_python() {
    let lines = fs::read_to_string(folder("crates/test_vectors/stdout")).unwrap();
    let all = real_streams();
    let mut streams = &all[0];
    let (mut section, mut flags, mut count) = ("", 0, 0);
    for line in lines.lines() {
        if let Some(name) = line.strip_prefix("== ") {
            streams = all.iter().find(|streams| streams.name == name).unwrap();
            continue;
        }
        let Some(rest) = line.strip_prefix("0x") else {
            let mut words = line.split(" flags 0x");
            section = words.next().unwrap();
            flags = words.next().map_or(0, |bits| u32::from_str_radix(bits, 16).unwrap());
            continue;
        };
        let (index, expected) = rest.split_once(' ').unwrap();
        let index = u32::from_str_radix(index, 16).unwrap();
        let formatter = formatter(&streams.types, &streams.ids, flags);
        let answer = match section {
            "ids" => formatter.format_id_bytes(0, IdIndex(index)),
            "types" => formatter.format_type_bytes(0, TypeIndex(index)),
            "functions" => formatter.format_function_bytes(b"f", 0, TypeIndex(index)),
            "sizes" => formatter.get_type_size(0, TypeIndex(index)).map(|size| size.to_string().into_bytes()),
            other => panic!("an unknown section {other}"),
        };
        assert_eq!(shown(answer), expected, "{} {section} {index:#x} flags {flags:#x}", streams.name);
        count += 1;
    }
    assert!(count > 3000, "only {count} lines");
}

// The given sheets, in buffers from the least that takes any line.
#[test]
fn given_sheets() {
    let data = folder("crates/test_sheets/data");
    let cases = fs::read_to_string(folder("crates/test_sheets/args")).unwrap();
    let expected = fs::read(folder("crates/test_sheets/stdout")).unwrap();
    for room in [4150, 4151, 9000, 1 << 16] {
        let mut printed = Vec::new();
        for case in cases.lines() {
            // `names` and `test_sheets` read so many bytes of a file; one that is not there has none
            let read = |kind: &str| {
                let mut bytes = fs::read(data.join(format!("{case}-{kind}.bin"))).unwrap_or_default();
                bytes.truncate(16_384);
                bytes
            };
            let (types, ids, sheet) = (read("types"), read("ids"), Sheet::from_bytes(read("sheet")));
            let formatter = formatter(&types, &ids, 0);
            let mut page = vec![0; room];
            let mut skip = 0;
            loop {
                let part = formatter.print_sheet(&sheet, &mut page, skip);
                printed.extend_from_slice(&page[..part.bytes]);
                skip += part.lines;
                if !part.more {
                    break;
                }
                assert!(part.lines > 0, "a buffer of 4,150 bytes takes a line");
            }
            if room == 1 << 16 {
                assert!(printed.ends_with(&formatter.sheet_lines(&sheet)));
            }
        }
        assert!(printed == expected, "the lines of a buffer of {room} bytes differ");
    }
}

// The lines of document 01's sheet, in buffers of every length and with every number of lines to skip: as many whole lines as fit, the rest untouched.
#[test]
fn a_sheet_in_every_room() {
    let types = small_stream();
    let plain = formatter(&types, &[], 0);
    let sheet = Sheet::from_bytes(b"\x10\x07\x10\0\0\x11\x07\x10\0\0\x10\x08\x10\0\0".to_vec());
    let lines = ["1 0 0x0 struct A[5][3]\n", "2 0 0x0 60\n", "3 12 0x1008\n"];
    for (skip, room) in (0..5).flat_map(|skip| (0..60).map(move |room| (skip, room))) {
        let (mut expected, mut fitting) = (String::new(), 0);
        let rest = lines.get(skip..).unwrap_or_default();
        for line in rest {
            if expected.len() + line.len() > room {
                break;
            }
            expected += line;
            fitting += 1;
        }
        let mut out = vec![0xaa; room];
        let printed = plain.print_sheet(&sheet, &mut out, skip);
        assert_eq!((printed.bytes, printed.lines, printed.more), (expected.len(), fitting, fitting < rest.len()), "skip {skip} room {room}");
        assert_eq!(&out[..printed.bytes], expected.as_bytes());
        assert!(out[printed.bytes..].iter().all(|byte| *byte == 0xaa));
    }
}

#[test]
fn every_refusal_in_words() {
    for number in 1..=17 {
        let error = Error::from_refusal(number, 0).unwrap();
        assert_eq!((error.number(), error.detail()), (number, 0));
        assert!(error.to_string().len() > 20, "{error}");
        if ![3, 4, 15].contains(&number) {
            let detail = if number == 16 { 0x7f } else { 0x1234 };
            let error = Error::from_refusal(number, detail).unwrap();
            assert_eq!((error.number(), error.detail()), (number, detail));
            let said = error.to_string();
            assert!(said.contains(&format!("{detail:#x}")) || said.contains(&detail.to_string()), "{said}");
        }
    }
    assert_eq!(Error::from_refusal(0, 0), None);
    assert_eq!(Error::from_refusal(18, 0), None);
    assert_eq!(Error::from_refusal(3, 2), None);
    assert_eq!(Error::from_refusal(7, 0x10000), None);
    assert_eq!(Error::from_refusal(15, 1), None);
    assert_eq!(Error::Tiling(StreamKind::Ids).to_string(), "the records of the id stream do not fill the bytes that its header names");
}

#[test]
fn flags_of_the_original() {
    assert_eq!(TypeFormatterFlags::default().bits(), 0b10111);
    let mut flags = TypeFormatterFlags::empty();
    flags |= TypeFormatterFlags::NO_ARGUMENTS;
    flags.set(TypeFormatterFlags::NAME_ONLY, true);
    assert_eq!(flags, TypeFormatterFlags::NO_ARGUMENTS | TypeFormatterFlags::NAME_ONLY);
    assert_eq!(flags - TypeFormatterFlags::NAME_ONLY, TypeFormatterFlags::NO_ARGUMENTS);
    assert!(flags.intersects(TypeFormatterFlags::all()) && !flags.contains(TypeFormatterFlags::all()));
    assert_eq!(TypeFormatterFlags::from_bits(0x3f), Some(TypeFormatterFlags::all()));
    assert_eq!(TypeFormatterFlags::from_bits(0x7f), None);
    assert_eq!(TypeFormatterFlags::from_bits_truncate(0x7f), TypeFormatterFlags::all());
}

#[test]
fn names_that_a_sheet_cannot_hold() {
    let mut sheet = Sheet::new();
    assert!(sheet.function_text(b"12345678901234567", TypeIndex(0)).is_none());
    assert!(sheet.function_text(b"a\0b", TypeIndex(0)).is_none());
    assert_eq!(sheet.as_bytes(), b"");
    assert!(sheet.function_text(b"1234567890123456", TypeIndex(0)).is_some());
    assert_eq!(formatter(&small_stream(), &[], 0).sheet_lines(&sheet), b"1 0 0x0 1234567890123456\n");
}
