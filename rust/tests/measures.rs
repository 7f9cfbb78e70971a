//! Measures, document 02's Note 4: how long a text is and how many indexes are opened for it, without writing it. The length is held against the text calls:
//! a buffer of so many bytes is enough, one byte less is not, and refusals are those of a buffer of 16,777,215 bytes. The openings are held against lines
//! that were given and against numbers worked out by hand. Plain measures, those over places and those over streams checked once are the same.
mod common;

use common::library::{Number, Plain};
use common::{arguments, chains, class, deep_rows, method, modifier, pointer, procedure, stream, string_id, string_list, CHAIN, FIRST};
use common::{case_count, command_len, command_name, command_number, folder, hostile_streams, real_streams, settings, text_calls, Call, Rng, Streams};
use std::cell::RefCell;
use std::fs;
use yokberd::{fill_places, Error, Measure, PlacedFormatter, StreamKind, TypeFormatter, TypeFormatterFlags, MEASURE_LIMIT};

type Answer = Result<Measure, Error>;

// A refusal that comes within so many bytes is the same with more room.
const ROOM: usize = 1 << 16;

// Of so many refusals one is looked for in the longest buffer, which a refused call fills with zeros.
const LONG: usize = 200;

thread_local! {
    static LONGEST: RefCell<Vec<u8>> = RefCell::new(vec![0; MEASURE_LIMIT]);
}

fn plain(streams: &Streams, flags: u32, pointer_size: u8) -> Plain<'_> {
    Plain { types: &streams.types, ids: &streams.ids, pointer_size: pointer_size.into(), flags }
}

fn formatter<'a>(plain: &Plain<'a>) -> TypeFormatter<'a> {
    let flags = TypeFormatterFlags::from_bits_retain(plain.flags);
    TypeFormatter::new_from_parts(plain.types, plain.ids, plain.pointer_size as u8, flags)
}

fn placed<'a>(plain: &Plain<'a>, places: &'a [u32]) -> PlacedFormatter<'a> {
    let flags = TypeFormatterFlags::from_bits_retain(plain.flags);
    PlacedFormatter::new(plain.types, plain.ids, places, plain.pointer_size as u8, flags)
}

fn over_places(plain: &Plain, places: &[u32], call: Call) -> Answer {
    let formatter = placed(plain, places);
    match call {
        Call::Type(index) => formatter.measure_type(0, index.into()),
        Call::Id(index) => formatter.measure_id(0, index.into()),
        Call::Function(name, index) => formatter.measure_function(name, 0, index.into()),
        Call::Size(_) => panic!("a size call writes no text"),
    }
}

// The text in the start of a buffer.
fn text_over_places(plain: &Plain, places: &[u32], call: Call, out: &mut [u8]) -> Number {
    let formatter = placed(plain, places);
    let length = match call {
        Call::Type(index) => formatter.format_type_into(out, 0, index.into()),
        Call::Id(index) => formatter.format_id_into(out, 0, index.into()),
        Call::Function(name, index) => formatter.format_function_into(out, name, 0, index.into()),
        Call::Size(_) => panic!("a size call writes no text"),
    };
    length.map(|length| length as u64)
}

// The measure, which is the same whichever way it is asked for.
fn measured(plain: &Plain, formatter: &TypeFormatter, places: &[u32], call: Call) -> Answer {
    let measure = plain.measure(call);
    assert_eq!(call.measure(formatter), measure, "{call:?} over streams checked once");
    assert_eq!(over_places(plain, places, call), measure, "{call:?} over places");
    measure
}

fn refused(ask: impl Fn(&mut [u8]) -> Number, error: Error, long: bool) {
    let mut answer = ask(&mut vec![0; ROOM]);
    if long || answer == Err(Error::NoRoom) {
        answer = LONGEST.with(|out| ask(&mut out.borrow_mut()));
    }
    assert_eq!(answer, Err(error));
}

// A measure against the text call that it is of.
fn held_to_text(ask: impl Fn(&mut [u8]) -> Number, measure: Answer, long: bool) {
    let length = match measure {
        Err(error) => return refused(ask, error, long),
        Ok(measure) => measure.length,
    };
    assert!(length <= MEASURE_LIMIT);
    let mut out = vec![0xaa; length + 1];
    assert_eq!(ask(&mut out[..length]), Ok(length as u64));
    assert_eq!(out[length], 0xaa);
    if length > 0 {
        assert_eq!(ask(&mut out[..length - 1]), Err(Error::NoRoom));
    }
}

// Every text call over streams, with right places and with wrong ones.
fn held(rng: &mut Rng, streams: &Streams) {
    let (flags, pointer_size) = settings(rng);
    let plain = plain(streams, flags.bits(), pointer_size);
    let (formatter, places) = (formatter(&plain), fill_places(&streams.types).unwrap_or_default());
    let checks = [0, 1, 64].map(|stride| plain.checked(stride));
    for call in text_calls(rng, streams) {
        let measure = measured(&plain, &formatter, &places, call);
        held_to_text(|out| call.ask(&formatter, out).map(|len| len as u64), measure, rng.one_in(LONG));
        let checked = &checks[rng.below(checks.len())];
        assert_eq!(plain.measure_checked(checked, call), measure, "{call:?} over {} numbers", checked.len());
        assert_eq!(call.measure(&formatter.clone().with_text_limit(rng.below(30))), measure, "{call:?} does not depend on the text limit");
        held_to_places(rng, &plain, &places, call, measure);
    }
}

// Over places of which one is wrong, behind the refusals of settings and streams.
fn held_to_places(rng: &mut Rng, plain: &Plain, right: &[u32], call: Call, measure: Answer) {
    let mut lent = right.to_vec();
    if right.is_empty() {
        return;
    }
    let at = rng.below(right.len());
    lent[at] = lent[at].wrapping_add(1 + rng.below(60) as u32);
    let expected = match measure {
        Err(error) if error.number() <= 4 => measure,
        _ => Err(Error::WrongPlace(at as u32)),
    };
    assert_eq!(over_places(plain, &lent, call), expected, "{call:?} over {lent:?}");
    assert_eq!(over_places(plain, &lent[..at], call), expected, "{call:?} over {at} entries");
}

#[test]
fn shipped_streams() {
    let mut rng = Rng(0x41_01);
    for streams in real_streams() {
        for _ in 0..case_count(4).min(4) {
            held(&mut rng, &streams);
        }
    }
}

#[test]
fn random_and_damaged_streams() {
    let mut rng = Rng(0x42_02);
    for case in 0..case_count(200) {
        let streams = hostile_streams(&mut rng, case);
        held(&mut rng, &streams);
    }
}

// With any numbers in place of what a check noted, a measure is that of the text call that goes by the same numbers.
#[test]
fn any_numbers() {
    let mut rng = Rng(0x43_03);
    for case in 0..case_count(100) {
        let streams = hostile_streams(&mut rng, case);
        let (flags, pointer_size) = settings(&mut rng);
        let plain = plain(&streams, flags.bits(), pointer_size);
        let mut checked = plain.checked(rng.pick(&[0, 1, 8]));
        let one_in = rng.pick(&[1, 4, 20]);
        for number in &mut checked {
            if rng.one_in(one_in) {
                *number = rng.pick(&[0, 1, 56, FIRST, u32::MAX, number.wrapping_add(4), streams.types.len() as u32]);
            }
        }
        checked.truncate(if rng.one_in(4) { rng.below(checked.len() + 1) } else { checked.len() });
        for call in text_calls(&mut rng, &streams) {
            held_to_text(|out| plain.ask_checked(&checked, call, out), plain.measure_checked(&checked, call), rng.one_in(LONG));
        }
    }
}

// Worked out by hand

fn length_and_opened(types: &[u8], ids: &[u8], flags: TypeFormatterFlags, call: Call) -> Result<(usize, u64), Error> {
    let plain = Plain { types, ids, pointer_size: 8, flags: flags.bits() };
    let places = fill_places(types)?;
    measured(&plain, &formatter(&plain), &places, call).map(|measure| (measure.length, measure.opened))
}

// Document 01's small stream.
#[test]
fn small_stream() {
    let types = common::small_stream();
    let measure = |flags, call| length_and_opened(&types, &[], flags, call);
    let of_type = |index| measure(TypeFormatterFlags::empty(), Call::Type(index));
    assert_eq!(of_type(0x1000), Ok((3, 2)), "the list and int");
    assert_eq!(of_type(0x1001), Ok((11, 4)), "void ()(int: itself, void, the list, int");
    assert_eq!(of_type(0x1002), Ok((13, 5)), "void (*)(int): itself, 0x1001, void, the list, int");
    assert_eq!(of_type(0x1004), Ok((17, 3)), "char const* const: itself, 0x1003, char");
    assert_eq!(of_type(0x1007), Ok((14, 1)), "struct A[5][3]: elements are not opened");
    assert_eq!(of_type(0x1008), Err(Error::CircularTypeDefinition(0x1008)));
    assert_eq!(of_type(0x1009), Ok((21, 2)), "a target is opened before it is found missing");
    assert_eq!(of_type(0x2000), Ok((21, 0)), "a mark replaces it");
    assert_eq!(of_type(0x74), Ok((3, 1)));
    assert_eq!(of_type(0x8000_0000), Err(Error::CrossModule(0x8000_0000)));
    let function = |flags, name, index| measure(flags, Call::Function(name, index));
    assert_eq!(function(TypeFormatterFlags::empty(), b"step", 0x1001), Ok((14, 4)));
    assert_eq!(function(TypeFormatterFlags::NO_ARGUMENTS, b"step", 0x1001), Ok((9, 2)));
    assert_eq!(function(TypeFormatterFlags::empty(), b"step", 0), Ok((4, 0)), "function type 0");
    assert_eq!(function(TypeFormatterFlags::empty(), b"", 0), Ok((14, 0)), "<name omitted>");
    assert_eq!(function(TypeFormatterFlags::empty(), b"", 0x74), Ok((0, 1)), "no bytes");
    assert_eq!(function(TypeFormatterFlags::empty(), b"step", 0x2000), Err(Error::Missing(0x2000)));
    assert_eq!(function(TypeFormatterFlags::from_bits_retain(0x200), b"step", 0), Err(Error::UnknownFlags(0x200)));
    assert_eq!(length_and_opened(&types[..55], &[], TypeFormatterFlags::empty(), Call::Type(0)), Err(Error::Header(StreamKind::Types)));
}

// What is opened again counts again, and ids are not opened.
#[test]
fn other_records() {
    let types =
        stream(&[arguments(&[0x74, 0x74]), method(3, 0x74, 0, 0x2000, 0), pointer(0x1000), arguments(&[0x1000, 0x2000, 0x1000]), procedure(3, 0x1000, 0)]);
    let ids = stream(&[
        string_id(0, b""),
        common::function_id(0, 0x1004, b"f"),
        common::function_id(0x1001, 0x1004, b"g"),
        common::function_id(0x1005, 0x1004, b"h"),
        string_list(&[0x74, 0x2000, 0x74]),
        string_id(0, b"loom"),
    ]);
    let measure = |call| length_and_opened(&types, &ids, TypeFormatterFlags::empty(), call);
    assert_eq!(measure(Call::Type(0x1000)), Ok(("int,int".len(), 3)));
    assert_eq!(measure(Call::Type(0x1001)).map(|measure| measure.1), Ok(3), "itself, void, and its list, which is opened before it is found missing");
    assert_eq!(measure(Call::Type(0x1002)), Ok(("int,int*".len(), 4)));
    assert_eq!(measure(Call::Type(0x1003)), Ok(("int,int,<missing type 0x2000>,int,int".len(), 7)), "itself and twice the list");
    assert_eq!(measure(Call::Id(0x1000)), Ok((0, 0)), "an empty string");
    assert_eq!(measure(Call::Id(0x1001)), Ok(("void f(int,int)".len(), 5)), "the procedure, void, the list, int, int");
    assert_eq!(measure(Call::Id(0x1002)), Ok(("void void f(int,int)::g(int,int)".len(), 10)), "those of the scope, and its own");
    assert_eq!(measure(Call::Id(0x1003)), Ok(("void loom::h(int,int)".len(), 5)), "a scope that is a string opens nothing");
    assert_eq!(measure(Call::Id(0x1004)), Ok(("\"int\" \"<missing type 0x2000>\" \"int\"".len(), 2)), "int and int");
    assert_eq!(measure(Call::Id(0x1006)), Ok(("<missing type 0x1006>".len(), 0)));
    assert_eq!(length_and_opened(&types, &ids[..55], TypeFormatterFlags::empty(), Call::Id(0x1000)), Err(Error::Header(StreamKind::Ids)));
}

// Rows of as many open indexes as there may be, and chains of which each writes a comma.
#[test]
fn deep_and_wide() {
    for (name, types) in deep_rows() {
        let measure = length_and_opened(&types, &[], TypeFormatterFlags::empty(), Call::Type(FIRST)).unwrap();
        if name == "pointers" || name == "modifiers of pointers" {
            assert_eq!(measure.1, 96, "{name}: 95 records and int");
        }
    }
    let (types, index) = chains(10, 300);
    let measure = length_and_opened(&types, &[], TypeFormatterFlags::NAME_ONLY, Call::Type(index));
    assert_eq!(measure, Ok((299, 1 + 300 * (u64::from(CHAIN) + 1))), "the list, and 300 times the modifiers and the struct");
}

// At the longest text that is measured: 512 names of 32,767 bytes and the commas between them. What comes behind it is not looked at.
#[test]
fn bound() {
    let name = class(0x1505, &[b'n'; 32_767], None, 4, false);
    let list = |more: &[u32]| arguments(&[&[FIRST; 512], more].concat());
    let types = stream(&[name, class(0x1505, b"", None, 4, false), list(&[]), list(&[FIRST + 1]), list(&[0x8000_0000]), modifier(FIRST + 2, 0)]);
    let measure = |index| length_and_opened(&types, &[], TypeFormatterFlags::NAME_ONLY, Call::Type(index));
    assert_eq!(measure(FIRST + 2), Ok((MEASURE_LIMIT, 513)));
    assert_eq!(measure(FIRST + 3), Err(Error::NoRoom), "one comma more");
    assert_eq!(measure(FIRST + 4), Err(Error::NoRoom), "the comma comes before an index of another module");
    assert_eq!(measure(FIRST + 5), Ok((MEASURE_LIMIT, 514)));
    let plain = Plain { types: &types, ids: &[], pointer_size: 8, flags: TypeFormatterFlags::NAME_ONLY.bits() };
    for index in FIRST..FIRST + 6 {
        held_to_text(|out| plain.ask(Call::Type(index), out), plain.measure(Call::Type(index)), true);
    }
    let function = |name: &'static [u8]| length_and_opened(&types, &[], TypeFormatterFlags::empty(), Call::Function(name, 0));
    static NAME: [u8; MEASURE_LIMIT + 1] = [b'n'; MEASURE_LIMIT + 1];
    assert_eq!(function(&NAME[1..]), Ok((MEASURE_LIMIT, 0)));
    assert_eq!(function(&NAME), Err(Error::NoRoom));
}

// Given lines

// A case of crates/test_measures, whose sheet and lines are given; of some the calls are lent places.
struct Case {
    types: Vec<u8>,
    ids: Vec<u8>,
    sheet: Vec<u8>,
    places: Option<Vec<u32>>,
}

impl Case {
    fn read(name: &str) -> Self {
        // one that is not there has no bytes
        let bytes = |part: &str| fs::read(folder("crates/test_measures/data").join(format!("{name}-{part}.bin"))).unwrap_or_default();
        let numbers: Vec<u32> = bytes("places").chunks_exact(4).map(|number| u32::from_le_bytes(number.try_into().unwrap())).collect();
        // how many entries are lent, then these
        let places = numbers.split_first().map(|(count, entries)| entries[..*count as usize].to_vec());
        Case { types: bytes("types"), ids: bytes("ids"), sheet: bytes("sheet"), places }
    }

    // What a command is answered, over the places or in every way, held against the text.
    fn answer(&self, command: &[u8], flags: u32, pointer_size: u32) -> Answer {
        let index = command_number(command);
        let call = match command[0] {
            0x10 => Call::Type(index),
            0x12 => Call::Id(index),
            // the few names of a case are kept to the end
            _ => Call::Function(command_name(command).to_vec().leak(), index),
        };
        let plain = Plain { types: &self.types, ids: &self.ids, pointer_size, flags };
        if let Some(places) = &self.places {
            let measure = over_places(&plain, places, call);
            held_to_text(|out| text_over_places(&plain, places, call, out), measure, false);
            return measure;
        }
        let measure = measured(&plain, &formatter(&plain), &fill_places(&self.types).unwrap_or_default(), call);
        held_to_text(|out| plain.ask(call, out), measure, false);
        measure
    }

    fn lines(&self) -> String {
        let (mut flags, mut pointer_size) = (0, 8);
        let (mut lines, mut count, mut rest) = (String::new(), 0, &self.sheet[..]);
        while let Some(kind) = rest.first() {
            let command;
            (command, rest) = rest.split_at(command_len(*kind));
            match kind {
                0x01 => flags = command_number(command),
                0x02 => pointer_size = command[1].into(),
                // a size has no measure
                0x11 => {}
                _ => {
                    count += 1;
                    lines += &line(count, self.answer(command, flags, pointer_size));
                }
            }
        }
        lines
    }
}

fn line(count: usize, answer: Answer) -> String {
    match answer {
        Ok(Measure { length, opened }) => format!("{count} 0 0x0 {length} {opened}\n"),
        Err(error) => format!("{count} {} {:#x}\n", error.number(), error.detail()),
    }
}

#[test]
fn given_cases() {
    let expected = fs::read_to_string(folder("crates/test_measures/stdout")).unwrap();
    let mut given = 0;
    for case in expected.split("== ").skip(1) {
        let (name, lines) = case.split_once('\n').unwrap();
        let printed = Case::read(name).lines();
        let differs = printed.lines().zip(lines.lines()).find(|(printed, line)| printed != line);
        assert_eq!((differs, printed.len()), (None, lines.len()), "{name}");
        given += 1;
    }
    assert!(given > 0);
}
