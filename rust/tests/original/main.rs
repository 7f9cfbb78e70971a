//! Texts and sizes held to the writers of the original: docs/src/type_formatter.rs as it is, compiled over stand-ins for the crates that it needs.
//!
//! What is compared is what document 01 calls the compared domain: a fresh formatter for each call, no string table, well-formed records of the kinds that
//! are read, each full name defined once and behind its forward references, no limit met; and, since Note 2 of document 02, record names of any bytes. The
//! layouts of records are not compared, since the stand-in for the crate `pdb` is ours.
mod asked;
#[path = "../common/mod.rs"]
mod common;
mod error;
#[allow(dead_code)]
mod pdb_stand_in;
mod range_collections_stand_in;
#[allow(dead_code, unreachable_patterns, clippy::all)]
#[rustfmt::skip]
mod type_formatter;

extern crate self as bitflags;
extern crate self as pdb;
extern crate self as range_collections;
pub use pdb_stand_in::*;
pub use range_collections_stand_in::{range_set, RangeSet, RangeSet2};

use asked::{refusal, Answer, Original};
use common::{case_count, raw_name, real_streams, record_kinds, Call, Rng, Streams, FIRST, UNHANDLED};
use type_formatter::TypeFormatterFlags;

fn ours(streams: &Streams, call: Call, flags: u32, ptr_size: u8) -> Answer {
    let flags = yokberd::TypeFormatterFlags::from_bits_retain(flags);
    let formatter = yokberd::TypeFormatter::new_from_parts(&streams.types, &streams.ids, ptr_size, flags);
    let mut out = vec![0; 1 << 16];
    let len = call.ask(&formatter, &mut out).map_err(refusal)?;
    Ok(String::from_utf8(out[..len].to_vec()).unwrap())
}

// How many answers agree: texts and sizes, and errors by their number.
#[derive(Default, Debug)]
struct Agreed {
    answers: usize,
    errors: [usize; 13],
}

impl Agreed {
    fn compare(&mut self, streams: &Streams, calls: &[Call], flags: u32, ptr_size: u8, machine: MachineType) {
        let original = Original::new(streams);
        for call in calls {
            let answer = ours(streams, *call, flags, ptr_size);
            match answer {
                Ok(_) => self.answers += 1,
                // a limit was met: outside the compared domain, and perhaps without end in the original
                Err((13..=15, _)) => continue,
                Err((number, _)) => self.errors[number as usize] += 1,
            }
            // a fresh formatter for each call
            let expected = asked::answer(&original.formatter(flags, machine), *call);
            assert_eq!(answer, expected, "{} {call:?} flags {flags:#x}", streams.name);
        }
    }
}

// Calls for every record, and for what stands in no stream.
fn calls(streams: &Streams) -> Vec<Call> {
    let types = (FIRST..=FIRST + streams.type_count).chain([0x74, 0x674, 0x9ff, 0xff, 0x8000_1000]);
    let ids = FIRST..=FIRST + streams.id_count;
    let of_type = |index| [Call::Function(b"step", index), Call::Function(b"", index), Call::Type(index), Call::Size(index)];
    types.flat_map(of_type).chain(ids.map(Call::Id)).chain([Call::Function(b"step", 0), Call::Function(b"", 0)]).collect()
}

#[test]
fn flags_are_the_originals() {
    macro_rules! same {
        ($($flag:ident)*) => {
            $(assert_eq!(yokberd::TypeFormatterFlags::$flag.bits(), TypeFormatterFlags::$flag.bits());)*
        };
    }
    same!(NO_FUNCTION_RETURN NO_MEMBER_FUNCTION_STATIC SPACE_AFTER_COMMA SPACE_BEFORE_POINTER NAME_ONLY NO_ARGUMENTS);
    assert_eq!(yokberd::TypeFormatterFlags::default().bits(), TypeFormatterFlags::default().bits());
}

// Real streams

#[test]
fn real_streams_have_the_originals_texts() {
    let mut agreed = Agreed::default();
    for streams in real_streams() {
        // what the original writes of an unhandled record is debug text
        let (types, ids) = (record_kinds(&streams.types), record_kinds(&streams.ids));
        let written = |kinds: &[u16], index: u32| {
            let kind = index.checked_sub(FIRST).and_then(|at| kinds.get(at as usize));
            kind.is_none_or(|kind| !UNHANDLED.contains(kind))
        };
        let handled = |call: &Call| match *call {
            Call::Id(index) => written(&ids, index),
            Call::Type(index) => written(&types, index),
            _ => true,
        };
        let asked: Vec<_> = calls(&streams).into_iter().filter(handled).collect();
        for flags in 0..64 {
            agreed.compare(&streams, &asked, flags, 8, MachineType::Amd64);
        }
    }
    println!("real streams: {agreed:?}");
    assert!(agreed.answers > 50_000);
}

// An id stream of no bytes here, one of no records there: the same marks (document 02, Note 1).
#[test]
fn no_ids_have_the_originals_marks() {
    for streams in real_streams() {
        let ids = (FIRST..FIRST + streams.id_count).map(Call::Id).chain([Call::Id(0x7fff_ffff), Call::Id(0x8000_1000)]);
        let [none, no_records] =
            [vec![], common::stream(&[])].map(|ids| Streams { name: streams.name.clone(), types: streams.types.clone(), ids, ..streams });
        let original = Original::new(&no_records);
        for (call, flags) in ids.flat_map(|call| (0..64).map(move |flags| (call, flags))) {
            let expected = asked::answer(&original.formatter(flags, MachineType::Amd64), call);
            assert_eq!(ours(&none, call, flags, 8), expected, "{} {call:?} flags {flags:#x}", streams.name);
        }
    }
}

// Random streams of the compared domain

// A type index: of an earlier record, a primitive, now and then of none. `later` allows records behind, and so circles.
fn index(rng: &mut Rng, at: u32, count: u32, later: bool) -> u32 {
    match rng.below(12) {
        0..=3 => rng.pick(&[3, 0x74, 0x40, 0x70, 0x674, 0x403, 0x30]),
        4 if later => FIRST + rng.below(count as usize) as u32,
        5 if rng.one_in(6) => rng.pick(&[0x9ff, 0x2000, 0x8000_1000, FIRST + count]),
        _ if at == 0 => 0x74,
        _ => FIRST + rng.below(at as usize) as u32,
    }
}

// The name of a record: a number that no other has, in bytes that one in three are not UTF-8. `letter` is one that a code page has there: names that differ
// in it alone are shown alike.
fn own_name(of: u32, letter: u8) -> Vec<u8> {
    let mut name = format!("loom::S{of}").into_bytes();
    match of % 6 {
        0 => name.push(letter),
        1 => name.extend(raw_name(&mut Rng(of.into()))),
        _ => {}
    }
    name
}

// A class or union: a full one has a name of its own; a forward reference has that of a later record, or now and then one that is only shown like it.
fn named(rng: &mut Rng, at: u32, count: u32) -> Vec<u8> {
    let forward = rng.one_in(3) && at + 1 < count;
    let of = if forward { at + 1 + rng.below((count - at - 1) as usize) as u32 } else { at };
    let letter = if forward && rng.one_in(3) { 0xe8 } else { 0xe9 };
    let (name, unique) = (own_name(of, letter), [b".?AU", &own_name(of, letter)[..], b"@@"].concat());
    let unique = if of % 2 == 0 { Some(&unique[..]) } else { None };
    let size = if forward { 0 } else { rng.pick(&[0, 1, 4, 12, 24, 40_000, 70_000]) };
    match rng.below(4) {
        0 => common::union(&name, unique, size, forward),
        kind => common::class([0x1504, 0x1505, 0x1519][kind - 1], &name, unique, size, forward),
    }
}

fn random_type(rng: &mut Rng, at: u32, count: u32) -> Vec<u8> {
    let any = |rng: &mut Rng| index(rng, at, count, true);
    match rng.below(20) {
        0 | 1 => common::modifier(index(rng, at, count, false), rng.below(4) as u16),
        2..=5 => {
            let (target, mode, is_const) = (any(rng), rng.below(5) as u32, rng.one_in(3));
            common::pointer_of(target, mode, is_const, rng.pick(&[4, 8]))
        }
        6..=8 => {
            let result = if rng.one_in(5) { 0 } else { any(rng) };
            common::procedure(result, any(rng), rng.below(4) as u8)
        }
        9..=11 => {
            let this = if rng.one_in(3) { 0 } else { any(rng) };
            common::method(any(rng), any(rng), this, any(rng), rng.below(4) as u8)
        }
        12..=14 => {
            let entries: Vec<_> = (0..rng.below(4)).map(|_| any(rng)).collect();
            common::arguments(&entries)
        }
        15 => common::array(index(rng, at, count, false), rng.pick(&[0, 8, 24, 96, 960, 80_000])),
        16 => common::enumeration(&raw_name(rng), None, index(rng, at, count, false)),
        17 => common::enumerate(&raw_name(rng), rng.below(100) as u16),
        18 if rng.one_in(3) => common::record(0x1234, &[&[0; 4]]),
        _ => named(rng, at, count),
    }
}

fn random_id(rng: &mut Rng, at: u32, types: u32) -> Vec<u8> {
    let of = |rng: &mut Rng| FIRST + rng.below(types as usize) as u32;
    let raw = raw_name(rng);
    let name = rng.pick(&[&raw[..], b"advance", b"", b"operator()", b"?A0x1f", b"?A0x+2", b"?A0x", b"?A0x1f\xe9", "纺织".as_bytes()]);
    match rng.below(8) {
        0..=2 => {
            let scope = if at == 0 || rng.one_in(2) { 0 } else { FIRST + rng.below(at as usize) as u32 };
            common::function_id(scope, of(rng), name)
        }
        3..=5 => common::member_id(of(rng), of(rng), name),
        6 => common::string_id(0, name),
        _ => common::string_list(&[of(rng), of(rng)]),
    }
}

fn random_streams(rng: &mut Rng, case: usize) -> Streams {
    let (count, ids) = (2 + rng.below(40) as u32, 1 + rng.below(20) as u32);
    let types: Vec<_> = (0..count).map(|at| random_type(rng, at, count)).collect();
    let mut id_records: Vec<_> = (0..ids).map(|at| random_id(rng, at, count)).collect();
    id_records.extend((0..count).map(|at| common::string_list(&[FIRST + at])));
    Streams {
        name: format!("compared {case}"),
        types: common::stream(&types),
        ids: common::stream(&id_records),
        type_count: count,
        id_count: id_records.len() as u32,
    }
}

#[test]
fn random_streams_have_the_originals_texts() {
    let mut rng = Rng(0x60_08);
    let (mut agreed, cases) = (Agreed::default(), case_count(1000));
    for case in 0..cases {
        let streams = random_streams(&mut rng, case);
        let (ptr_size, machine) = rng.pick(&[(8, MachineType::Amd64), (4, MachineType::X86), (16, MachineType::RiscV128)]);
        agreed.compare(&streams, &calls(&streams), rng.below(64) as u32, ptr_size, machine);
    }
    println!("{cases} random pairs: {agreed:?}");
    // every kind of error but 5, which the stand-in would decide
    assert!(cases < 1000 || agreed.answers > 50_000 && agreed.errors[6..].iter().all(|count| *count > 0));
}
