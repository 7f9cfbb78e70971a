//! Record places kept beside the stream, document 02's Note 3. Over right places every call answers as the plain one does; over others it is refused by the
//! first entry that is not right, behind the refusals of settings and streams. What is right is found here by going from record to record.
mod common;

use common::library::{Number, Plain};
use common::{all_calls, case_count, command_len, command_name, command_number, folder, make_hostile, random_streams_of, real_streams};
use common::{record_places, settings, Call, Rng, Streams, FIRST};
use std::fs;
use yokberd::{fill_places, fill_places_into, Error, PlacedFormatter, StreamKind, TypeFormatterFlags, PLACES_LIMIT, STREAM_LIMIT};

const ROOM: usize = 4096;

// What a buffer of places holds before it is filled.
const BEFORE: u32 = 0xaaaa_aaaa;

fn plain(streams: &Streams, flags: u32, pointer_size: u8) -> Plain<'_> {
    Plain { types: &streams.types, ids: &streams.ids, pointer_size: pointer_size.into(), flags }
}

fn placed<'a>(plain: &Plain<'a>, places: &'a [u32]) -> PlacedFormatter<'a> {
    let flags = TypeFormatterFlags::from_bits_retain(plain.flags);
    PlacedFormatter::new(plain.types, plain.ids, places, plain.pointer_size as u8, flags)
}

// An answer and the whole buffer, which had this byte everywhere.
fn asked(ask: impl Fn(&mut [u8]) -> Number, room: usize) -> (Number, Vec<u8>) {
    let mut out = vec![0xaa; room];
    (ask(&mut out), out)
}

fn by_places(formatter: &PlacedFormatter, call: Call, room: usize) -> (Number, Vec<u8>) {
    asked(
        |out| match call {
            Call::Function(name, index) => formatter.format_function_into(out, name, 0, index.into()).map(|len| len as u64),
            Call::Id(index) => formatter.format_id_into(out, 0, index.into()).map(|len| len as u64),
            Call::Type(index) => formatter.format_type_into(out, 0, index.into()).map(|len| len as u64),
            Call::Size(index) => formatter.get_type_size(0, index.into()),
        },
        room,
    )
}

// The places of a stream, or why it is refused.
fn right_places(types: &[u8]) -> Result<Vec<u32>, Error> {
    Plain { types, ids: &[], pointer_size: 8, flags: 0 }.ask(Call::Size(0x74), &mut [])?;
    Ok(record_places(types).into_iter().step_by(64).map(|at| at as u32).collect())
}

// The first entry that is lacking or not right.
fn first_wrong(right: &[u32], lent: &[u32]) -> Option<u32> {
    (0..right.len()).find(|at| lent.get(*at) != right.get(*at)).map(|at| at as u32)
}

// What the plain call answers, or refusal 17 at its place in the order.
fn expected(plain: &Plain, wrong: Option<u32>, call: Call, room: usize) -> (Number, Vec<u8>) {
    let (answer, out) = asked(|out| plain.ask(call, out), room);
    match (answer, wrong, call) {
        (Err(error), _, _) if error.number() <= 4 => (answer, out),
        (_, Some(entry), Call::Size(_)) => (Err(Error::WrongPlace(entry)), out),
        (_, Some(entry), _) => (Err(Error::WrongPlace(entry)), vec![0; room]),
        _ => (answer, out),
    }
}

// Calls over lent places, each into a buffer of some length.
fn held_over(plain: &Plain, calls: &[Call], right: &[u32], lent: &[u32], rooms: &[usize], name: &str) {
    let (formatter, wrong) = (placed(plain, lent), first_wrong(right, lent));
    for (call, room) in calls.iter().zip(rooms.iter().cycle()) {
        let answer = by_places(&formatter, *call, *room);
        assert!(answer == expected(plain, wrong, *call, *room), "{name}: {call:?} in {room} bytes over {lent:?}: {:?}", answer.0);
    }
}

// The pass in buffers of all lengths up to some that are longer than needed.
fn filled(types: &[u8], right: &Result<Vec<u32>, Error>, name: &str) {
    let needed = right.as_ref().map_or(0, Vec::len);
    assert_eq!(fill_places(types), *right, "{name}");
    for len in (0..needed + 4).chain([needed + 70]) {
        let mut places = vec![BEFORE; len];
        let answer = fill_places_into(types, &mut places);
        match right {
            Err(error) => assert_eq!((answer, places), (Err(*error), vec![0; len]), "{name}"),
            Ok(_) if len < needed => assert_eq!((answer, places), (Err(Error::WrongPlace(len as u32)), vec![0; len]), "{name}"),
            Ok(right) => assert_eq!((answer, places), (Ok(needed), [&right[..], &vec![BEFORE; len - needed]].concat()), "{name}"),
        }
    }
}

// Another number in place of an entry: near it, of another record, or any.
fn other(rng: &mut Rng, entry: u32) -> u32 {
    let number = rng.next() as u32;
    let near = rng.pick(&[1, 2, 4, 56]);
    rng.pick(&[0, entry.wrapping_sub(near), entry.wrapping_add(near), entry | 0x8000_0000, !entry, u32::MAX, number])
}

// The right places, longer, shorter and changed ones.
fn some_lent(rng: &mut Rng, right: &[u32]) -> Vec<Vec<u32>> {
    let (needed, more) = (right.len(), 1 + rng.below(8));
    let noise: Vec<u32> = (0..needed + more).map(|_| rng.next() as u32).collect();
    let mut changed = right.to_vec();
    for _ in 0..needed.min(1 + rng.below(2)) {
        let at = rng.below(needed);
        changed[at] = other(rng, changed[at]);
    }
    let (cut, changed_cut) = (right[..rng.below(needed + 1)].to_vec(), changed[..rng.below(needed + 1)].to_vec());
    vec![right.to_vec(), [right, &noise[needed..]].concat(), cut, changed, changed_cut, noise, vec![0; needed], Vec::new()]
}

// The pass, and every call over all that may be lent.
fn held(rng: &mut Rng, streams: &Streams) {
    let (flags, pointer_size) = settings(rng);
    let plain = plain(streams, flags.bits(), pointer_size);
    let right = right_places(&streams.types);
    filled(&streams.types, &right, &streams.name);
    let (calls, right) = (all_calls(rng, streams), right.unwrap_or_default());
    for lent in some_lent(rng, &right) {
        let rooms = [ROOM, rng.below(40), ROOM];
        held_over(&plain, &calls, &right, &lent, &rooms, &streams.name);
    }
}

#[test]
fn shipped_streams() {
    let mut rng = Rng(0x31_01);
    for streams in real_streams() {
        held(&mut rng, &streams);
        let right = right_places(&streams.types).unwrap();
        for (flags, pointer_size) in [(0, 8), (0x17, 8), (0x3f, 4), (0x28, 16), (0x200, 8), (0, 3)] {
            let plain = plain(&streams, flags, pointer_size);
            held_over(&plain, &all_calls(&mut rng, &streams), &right, &right, &[ROOM], &streams.name);
        }
    }
}

// The most records of a stream: several blocks of those in which places are checked, but not where few cases are asked for, as under valgrind.
fn most_records() -> usize {
    if case_count(150) < 100 {
        1000
    } else {
        10_000
    }
}

// At the borders of 64 records and of the blocks in which places are checked, and some way behind them.
#[test]
fn borders() {
    let mut rng = Rng(0x32_02);
    for types in [0, 1, 2, 62, 63, 64, 65, 66, 127, 128, 129, 191, 192, 193, 256, 257, 320, 700, 4096, 4097, 4353, 8193]
        .into_iter()
        .filter(|types| *types <= most_records())
    {
        let mut streams = random_streams_of(&mut rng, format!("{types} records"), types, 20);
        held(&mut rng, &streams);
        make_hostile(&mut rng, &mut streams);
        held(&mut rng, &streams);
    }
}

#[test]
fn random_and_damaged_streams() {
    let mut rng = Rng(0x33_03);
    for case in 0..case_count(150) {
        let (types, ids) = (rng.below(300), rng.below(30));
        let mut streams = random_streams_of(&mut rng, format!("random {case}"), types, ids);
        make_hostile(&mut rng, &mut streams);
        held(&mut rng, &streams);
    }
}

// Each entry changed, alone and with one behind it, and each cut: the first entry that is not right is told, by every kind of call and whatever it reads.
#[test]
fn every_wrong_entry() {
    let mut rng = Rng(0x34_04);
    let long = random_streams_of(&mut rng, "long".into(), most_records().min(4500), 20);
    for streams in real_streams().into_iter().chain([long]) {
        let (plain, right) = (plain(&streams, 0, 8), right_places(&streams.types).unwrap());
        let some = [Call::Function(b"f", 0), Call::Type(0x74), Call::Size(FIRST), Call::Id(0), Call::Type(0x8000_0000), Call::Id(FIRST)];
        for at in 0..right.len() {
            for change in [1, 2, 4, u32::MAX, 56_u32.wrapping_neg(), 1 << 31, right[0].wrapping_sub(right[at])] {
                let mut lent = right.clone();
                lent[at] = lent[at].wrapping_add(change);
                held_over(&plain, &some, &right, &lent, &[90], &streams.name);
                let behind = at + rng.below(right.len() - at);
                lent[behind] = lent[behind].wrapping_add(1);
                held_over(&plain, &some, &right, &lent, &[90], &streams.name);
            }
            held_over(&plain, &some, &right, &right[..at], &[90], &streams.name);
        }
    }
}

// What stands behind the entries that are needed is of no account.
#[test]
fn entries_behind() {
    let mut rng = Rng(0x35_05);
    for streams in real_streams() {
        let (plain, right) = (plain(&streams, 0x17, 8), right_places(&streams.types).unwrap());
        let calls = all_calls(&mut rng, &streams);
        for behind in [&[0][..], &[56], &[u32::MAX; 3], &[1, 2, 3, 4, 5, 6, 7], &[BEFORE; 1000]] {
            held_over(&plain, &calls, &right, &[&right, behind].concat(), &[ROOM], &streams.name);
        }
    }
}

// By hand, of 200 records of four bytes.
#[test]
fn small_cases() {
    let types = common::stream(&vec![common::record(0x1203, &[]); 200]);
    let ask = |places: &[u32]| PlacedFormatter::new(&types, &[], places, 8, TypeFormatterFlags::empty()).format_function("f", 0, 0.into());
    assert_eq!(fill_places(&types), Ok(vec![56, 312, 568, 824]));
    assert_eq!(ask(&[56, 312, 568, 824]), Ok("f".into()));
    assert_eq!(ask(&[56, 312, 568, 824, 1080]), Ok("f".into()));
    assert_eq!(ask(&[56, 312, 568, 825]), Err(Error::WrongPlace(3)));
    assert_eq!(ask(&[56, 313, 568]), Err(Error::WrongPlace(1)));
    assert_eq!(ask(&[56, 312, 568]), Err(Error::WrongPlace(3)));
    assert_eq!(ask(&[0, 256, 512, 768]), Err(Error::WrongPlace(0)));
    assert_eq!(ask(&[]), Err(Error::WrongPlace(0)));
    let none = common::stream(&[]);
    assert_eq!(fill_places(&none), Ok(vec![]));
    assert_eq!(PlacedFormatter::new(&none, &[], &[7], 8, TypeFormatterFlags::empty()).format_type(0, 0x74.into()), Ok("int".into()));
}

// 17 stands behind 1, 2, 3 and 4, those of ids too, and before what the walk refuses.
#[test]
fn order_of_refusals() {
    let streams = real_streams().remove(0);
    let (types, ids) = (&streams.types[..], &streams.ids[..]);
    let over = |types, ids, flags, size| PlacedFormatter::new(types, ids, &[57], size, TypeFormatterFlags::from_bits_retain(flags));
    let id = |types, ids, flags, size| over(types, ids, flags, size).format_id(0, 0x8000_0000.into());
    assert_eq!(id(types, ids, 0x200, 3), Err(Error::UnknownFlags(0x200)));
    assert_eq!(id(types, ids, 0, 3), Err(Error::PointerSize(3)));
    assert_eq!(id(&types[..55], &ids[..55], 0, 8), Err(Error::Header(StreamKind::Types)));
    assert_eq!(id(types, &ids[..55], 0, 8), Err(Error::Header(StreamKind::Ids)));
    assert_eq!(id(types, ids, 0, 8), Err(Error::WrongPlace(0)));
    assert_eq!(id(types, &[], 0, 8), Err(Error::WrongPlace(0)));
    assert_eq!(over(types, &ids[..55], 0, 8).format_type(0, 0x8000_0000.into()), Err(Error::WrongPlace(0)), "a type call looks at no ids");
    assert_eq!(over(types, ids, 0x200, 8).get_type_size(0, 0x74.into()), Err(Error::WrongPlace(0)), "a size call takes no flags");
    assert_eq!(over(types, ids, 0, 3).get_type_size(0, 0x74.into()), Err(Error::PointerSize(3)));
    assert_eq!(Error::WrongPlace(3).to_string(), "entry 3 of the places is lacking or not that of the type stream");
}

// The longest stream of the shortest records needs the most places.
#[test]
fn most_places() {
    let count = (STREAM_LIMIT - 56) / 4;
    let mut types = common::stream_of(count as u32, &common::record(0x1203, &[]).repeat(count));
    assert_eq!(types.len(), STREAM_LIMIT);
    let places = fill_places(&types).unwrap();
    assert_eq!((places.len(), places[PLACES_LIMIT - 1]), (PLACES_LIMIT, 56 + 256 * (PLACES_LIMIT as u32 - 1)));
    let last = FIRST + count as u32 - 1;
    let text = |places| PlacedFormatter::new(&types, &[], places, 8, TypeFormatterFlags::empty()).format_type(0, last.into());
    assert_eq!(text(&places), Ok("unhandled type /* 0x1203 */".into()));
    assert_eq!(text(&places[..PLACES_LIMIT - 1]), Err(Error::WrongPlace(PLACES_LIMIT as u32 - 1)));
    let mut short = vec![BEFORE; PLACES_LIMIT - 1];
    assert_eq!(fill_places_into(&types, &mut short), Err(Error::WrongPlace(PLACES_LIMIT as u32 - 1)));
    assert!(short.iter().all(|entry| *entry == 0));
    types.push(0);
    assert_eq!(fill_places(&types), Err(Error::Header(StreamKind::Types)));
}

// The forms that allocate and those that write give the same text, up to the limit.
#[test]
fn other_forms() {
    let streams = real_streams().remove(1);
    let places = fill_places(&streams.types).unwrap();
    let formatter = PlacedFormatter::new(&streams.types, &streams.ids, &places, 8, TypeFormatterFlags::default());
    for index in FIRST..FIRST + streams.type_count {
        let text = formatter.format_type(0, index.into());
        assert_eq!(formatter.format_type_bytes(0, index.into()), text.clone().map(String::into_bytes));
        let function = formatter.format_function("step", 0, index.into());
        assert_eq!(formatter.format_function_bytes(b"step", 0, index.into()), function.clone().map(String::into_bytes));
        let mut written = String::new();
        let told = formatter.emit_type(&mut written, 0, index.into()).and(formatter.emit_function(&mut written, "step", 0, index.into()));
        assert_eq!(told.map(|()| written), text.and_then(|text| Ok(text + &function?)));
    }
    for index in FIRST..FIRST + streams.id_count {
        let (text, mut written) = (formatter.format_id(0, index.into()).unwrap(), String::new());
        formatter.emit_id(&mut written, 0, index.into()).unwrap();
        assert_eq!((formatter.format_id_bytes(0, index.into()), &written), (Ok(text.clone().into_bytes()), &text));
        assert_eq!(formatter.with_text_limit(text.len()).format_id(0, index.into()), Ok(text.clone()));
        if let Some(less) = text.len().checked_sub(1) {
            assert_eq!(formatter.with_text_limit(less).format_id(0, index.into()), Err(Error::NoRoom));
        }
    }
    let long = common::stream(&[common::class(0x1505, &[b'n'; 60_000], None, 4, false)]);
    let text = PlacedFormatter::new(&long, &[], &[56], 8, TypeFormatterFlags::NAME_ONLY).format_type_bytes(0, FIRST.into());
    assert_eq!(text, Ok(vec![b'n'; 60_000]), "longer than the first buffer");
}

// A case of crates/test_places, whose sheet and lines are given.
struct Case {
    types: Vec<u8>,
    ids: Vec<u8>,
    places: Vec<u32>,
    sheet: Vec<u8>,
    lengths: Vec<u32>,
}

impl Case {
    fn read(name: &str) -> Self {
        // one that is not there has no bytes
        let bytes = |part: &str| fs::read(folder("crates/test_places/data").join(format!("{name}-{part}.bin"))).unwrap_or_default();
        let numbers = |part: &str| bytes(part).chunks_exact(4).map(|number| u32::from_le_bytes(number.try_into().unwrap())).collect();
        Case { types: bytes("types"), ids: bytes("ids"), places: numbers("places"), sheet: bytes("sheet"), lengths: numbers("lengths") }
    }

    // What a command that makes a line is answered.
    fn answer(&self, command: &[u8], flags: u32, pointer_size: u8) -> Result<Vec<u8>, Error> {
        let index = command_number(command);
        let flags = TypeFormatterFlags::from_bits_retain(flags);
        let formatter = PlacedFormatter::new(&self.types, &self.ids, &self.places, pointer_size, flags).with_text_limit(ROOM);
        match command[0] {
            0x10 => formatter.format_type_bytes(0, index.into()),
            0x11 => formatter.get_type_size(0, index.into()).map(|size| size.to_string().into_bytes()),
            0x12 => formatter.format_id_bytes(0, index.into()),
            _ => formatter.format_function_bytes(command_name(command), 0, index.into()),
        }
    }

    // The lines of the sheet, where every call takes the places.
    fn sheet_lines(&self) -> Vec<u8> {
        let (mut flags, mut pointer_size) = (0, 8);
        let (mut lines, mut count, mut rest) = (Vec::new(), 0, &self.sheet[..]);
        while let Some(kind) = rest.first() {
            let command = rest.get(..command_len(*kind));
            match command {
                Some([0x01, ..]) => flags = command_number(rest),
                Some([0x02, size]) => pointer_size = *size,
                _ => {
                    count += 1;
                    let answer = command.map_or(Err(Error::UnknownCommand(*kind)), |command| self.answer(command, flags, pointer_size));
                    lines.extend(line(count, answer));
                }
            }
            rest = command.map_or(&[], |command| &rest[command.len()..]);
        }
        lines
    }

    // A line for each length of the buffer that the pass is lent.
    fn pass_lines(&self) -> String {
        let line = |len: &u32| {
            let mut places = vec![BEFORE; *len as usize];
            let filled = fill_places_into(&self.types, &mut places);
            let behind = filled.map_or(0, |filled| filled);
            assert!(places[behind..].iter().all(|entry| *entry == if filled.is_ok() { BEFORE } else { 0 }), "{len} entries");
            let entries: String = places[..behind].iter().map(|entry| format!(" {entry}")).collect();
            filled.map_or_else(|error| format!("{len} {} {:#x} zeros\n", error.number(), error.detail()), |_| format!("{len} 0 0x0{entries}\n"))
        };
        self.lengths.iter().map(line).collect()
    }
}

fn line(count: usize, answer: Result<Vec<u8>, Error>) -> Vec<u8> {
    match answer {
        Ok(text) => [format!("{count} 0 0x0 ").as_bytes(), &text, b"\n"].concat(),
        Err(error) => format!("{count} {} {:#x}\n", error.number(), error.detail()).into_bytes(),
    }
}

#[test]
fn given_cases() {
    let names = fs::read_to_string(folder("crates/test_places/args")).unwrap();
    let printed: Vec<u8> = names
        .lines()
        .flat_map(|name| {
            let case = Case::read(name);
            [format!("== {name}\n").into_bytes(), case.sheet_lines(), case.pass_lines().into_bytes()].concat()
        })
        .collect();
    let expected = fs::read(folder("crates/test_places/stdout")).unwrap();
    let differs = (0..expected.len().max(printed.len())).find(|at| printed.get(*at) != expected.get(*at));
    let around = |bytes: &[u8], at: usize| String::from_utf8_lossy(&bytes[at.min(bytes.len()).saturating_sub(60)..bytes.len().min(at + 60)]).into_owned();
    assert_eq!(differs, None, "{:?} and not {:?}", differs.map(|at| around(&printed, at)), differs.map(|at| around(&expected, at)));
}
