//! Streams checked once: with what the check noted, every call answers as the plain call does; with any other numbers it ends, and touches nothing else.
mod common;

use common::library::{Number, Plain};
use common::{all_calls, case_count, damage, hostile_streams, real_streams, settings, Call, Rng, Streams};
use yokberd::{Error, Sheet, StreamKind, TypeFormatter, TypeFormatterFlags};

const ROOM: usize = 4096;

fn plain(streams: &Streams, flags: u32, pointer_size: u8) -> Plain<'_> {
    Plain { types: &streams.types, ids: &streams.ids, pointer_size: pointer_size.into(), flags }
}

// An answer and the whole buffer, which had this byte everywhere.
fn asked(ask: impl Fn(&mut [u8]) -> Number, room: usize) -> (Number, Vec<u8>) {
    let mut out = vec![0xaa; room];
    (ask(&mut out), out)
}

// A formatter's answer in the same form.
fn of_formatter(formatter: &TypeFormatter, call: Call, room: usize) -> (Number, Vec<u8>) {
    asked(
        |out| match call {
            Call::Function(name, index) => formatter.format_function_into(out, name, 0, index.into()).map(|len| len as u64),
            Call::Id(index) => formatter.format_id_into(out, 0, index.into()).map(|len| len as u64),
            Call::Type(index) => formatter.format_type_into(out, 0, index.into()).map(|len| len as u64),
            Call::Size(index) => formatter.get_type_size(0, index.into()),
        },
        room,
    )
}

// What the forms that allocate give.
fn bytes_of(formatter: &TypeFormatter, call: Call) -> Option<Result<Vec<u8>, Error>> {
    match call {
        Call::Function(name, index) => Some(formatter.format_function_bytes(name, 0, index.into())),
        Call::Id(index) => Some(formatter.format_id_bytes(0, index.into())),
        Call::Type(index) => Some(formatter.format_type_bytes(0, index.into())),
        Call::Size(_) => None,
    }
}

// Every call over streams, by a formatter and by what several checks noted.
fn held(rng: &mut Rng, streams: &Streams) {
    let (flags, pointer_size) = settings(rng);
    let plain = plain(streams, flags.bits(), pointer_size);
    let formatter = TypeFormatter::new_from_parts(&streams.types, &streams.ids, pointer_size, flags);
    let checks = [0, 1, 3, 8, 64, 1000, u32::MAX].map(|stride| plain.checked(stride));
    for call in all_calls(rng, streams) {
        for room in [ROOM, rng.below(40)] {
            let expected = asked(|out| plain.ask(call, out), room);
            assert!(of_formatter(&formatter, call, room) == expected, "{}: {call:?} in {room} bytes by a formatter", streams.name);
            for checked in &checks {
                let answer = asked(|out| plain.ask_checked(checked, call, out), room);
                assert!(answer == expected, "{}: {call:?} in {room} bytes, over {} numbers", streams.name, checked.len());
            }
        }
        let (number, out) = asked(|out| plain.ask(call, out), 1 << 16);
        let text = number.map(|len| out[..out.len().min(len as usize)].to_vec());
        assert!(bytes_of(&formatter, call).map_or(true, |bytes| bytes == text), "{}: {call:?} as bytes", streams.name);
    }
}

#[test]
fn shipped_streams() {
    let mut rng = Rng(0xa0_0c);
    for streams in real_streams() {
        held(&mut rng, &streams);
    }
}

#[test]
fn random_and_damaged_streams() {
    let mut rng = Rng(0xb0_0d);
    for case in 0..case_count(200) {
        let streams = hostile_streams(&mut rng, case);
        held(&mut rng, &streams);
    }
}

// Broken headers, cut streams and records that do not tile: refused by each call, in the order of the plain ones.
#[test]
fn refused_streams() {
    let mut rng = Rng(0xc0_0e);
    for case in 0..case_count(200) {
        let mut streams = real_streams().remove(case % 5);
        let before = (streams.types.clone(), streams.ids.clone());
        while rng.one_in(2) || (&streams.types, &streams.ids) == (&before.0, &before.1) {
            let bytes = if rng.one_in(2) { &mut streams.types } else { &mut streams.ids };
            match rng.below(3) {
                0 => bytes.truncate(rng.below(bytes.len() + 1)),
                1 if bytes.len() > 20 => bytes[16] = bytes[16].wrapping_add(1 + rng.below(255) as u8),
                _ => damage(&mut rng, bytes),
            }
        }
        held(&mut rng, &streams);
    }
}

// Numbers that are too few for all places: the same answers.
#[test]
fn fewer_numbers_than_serve() {
    let mut rng = Rng(0xd0_0f);
    for streams in real_streams() {
        let plain = plain(&streams, 0, 8);
        let calls = all_calls(&mut rng, &streams);
        let expected: Vec<_> = calls.iter().map(|call| asked(|out| plain.ask(*call, out), ROOM)).collect();
        for stride in [0, 1, 8] {
            let serving = plain.checked(stride).len();
            for len in (19..serving.min(60)).chain([serving / 2, serving - 1, serving + 1, 2 * serving]).filter(|len| *len >= 19) {
                let mut checked = vec![0; len];
                plain.check(stride, &mut checked);
                for (call, expected) in calls.iter().zip(&expected).step_by(1 + len % 7) {
                    assert!(asked(|out| plain.ask_checked(&checked, *call, out), ROOM) == *expected, "{}: {call:?} over {len} numbers", streams.name);
                }
            }
        }
    }
}

// Numbers that no check has seen: refusal 3 for the types, behind 1 and 2.
#[test]
fn unchecked_numbers() {
    let mut rng = Rng(0xe0_10);
    for streams in real_streams() {
        for (flags, pointer_size) in [(0, 8), (0x40, 8), (0, 3)] {
            let plain = plain(&streams, flags, pointer_size);
            let refused = Plain { types: &[], ..plain };
            for len in [0, 1, 18, 19, 20, 100] {
                for call in all_calls(&mut rng, &streams) {
                    let answer = asked(|out| plain.ask_checked(&vec![0; len], call, out), ROOM);
                    assert!(answer == asked(|out| refused.ask(call, out), ROOM), "{call:?} over {len} zeros");
                }
            }
        }
    }
    let streams = real_streams().remove(0);
    // A check that is lent too few numbers leaves zeros, which are refused; the 19 without any place are enough.
    let plain = plain(&streams, 0, 8);
    let mut short = vec![7; 18];
    plain.check(8, &mut short);
    assert_eq!(short, vec![0; 18]);
    assert_eq!(plain.ask_checked(&short, Call::Type(0x74), &mut [0; 8]), Err(Error::Header(StreamKind::Types)));
    let mut numbers = plain.checked(8);
    numbers.truncate(19);
    assert_eq!(plain.ask_checked(&numbers, Call::Type(0x74), &mut [0; 8]), Ok(3));
    // int
}

// Any numbers: every call ends, writes its text or zeros, and nothing behind a text. `tools/test-rust.sh` runs this under valgrind too.
#[test]
fn any_numbers() {
    let mut rng = Rng(0xf0_11);
    for case in 0..case_count(300) {
        let streams = if case % 4 == 0 { real_streams().remove(rng.below(5)) } else { hostile_streams(&mut rng, case) };
        let plain = plain(&streams, rng.below(64) as u32, 8);
        let mut checked = plain.checked(rng.pick(&[0, 1, 8, 64]));
        spoil(&mut rng, &mut checked, &streams);
        for call in all_calls(&mut rng, &streams) {
            let room = rng.pick(&[0, 5, 80, ROOM]);
            let (answer, out) = asked(|out| plain.ask_checked(&checked, call, out), room);
            match (call, answer) {
                (Call::Size(_), _) => {}
                (_, Ok(len)) => assert!(len as usize <= room && out[len as usize..].iter().all(|byte| *byte == 0xaa), "{call:?}"),
                (_, Err(_)) => assert!(out.iter().all(|byte| *byte == 0), "{call:?}"),
            }
        }
    }
}

// Some or all numbers changed: to any, to small ones, to places in the streams or just outside; or the numbers cut.
fn spoil(rng: &mut Rng, checked: &mut Vec<u32>, streams: &Streams) {
    let all = rng.one_in(3);
    let (types, ids) = (streams.types.len() as u32, streams.ids.len() as u32);
    for (at, number) in checked.iter_mut().enumerate() {
        // the first of them say more
        if all || rng.one_in(if at < 19 { 4 } else { 10 }) {
            *number = match rng.below(6) {
                0 => rng.next() as u32,
                1 => rng.below(64) as u32,
                2 => rng.pick(&[0, 1, 56, 0x1000, 0x7fff_ffff, 0x8000_0000, u32::MAX - 1, u32::MAX]),
                3 => types.wrapping_sub(3).wrapping_add(rng.below(6) as u32),
                4 => ids.wrapping_sub(3).wrapping_add(rng.below(6) as u32),
                _ => rng.below(types as usize + 1) as u32,
            };
        }
    }
    if rng.one_in(4) {
        checked.truncate(rng.below(checked.len() + 1));
    }
}

// What was noted of one pair of streams, handed in with another.
#[test]
fn numbers_of_other_streams() {
    let mut rng = Rng(0x11_12);
    let all = real_streams();
    for (one, other) in all.iter().flat_map(|one| all.iter().map(move |other| (one, other))) {
        let checked = plain(one, 0, 8).checked(8);
        for call in all_calls(&mut rng, other) {
            let _ = asked(|out| plain(other, 0, 8).ask_checked(&checked, call, out), ROOM);
        }
    }
}

// A sheet of all calls over streams, with settings between them, some of which are refused.
fn some_sheet(rng: &mut Rng, streams: &Streams) -> Sheet {
    let mut sheet = Sheet::new();
    for call in all_calls(rng, streams) {
        let (flags, pointer_size) = settings(rng);
        if rng.one_in(9) {
            sheet.flags(flags);
        }
        if rng.one_in(9) {
            sheet.pointer_size(if rng.one_in(4) { 3 } else { pointer_size });
        }
        call.add_to(&mut sheet);
    }
    sheet
}

// Its bytes, which may go on with an unknown or cut command.
fn some_bytes(rng: &mut Rng, sheet: &Sheet) -> Vec<u8> {
    let mut bytes = sheet.as_bytes().to_vec();
    if rng.one_in(2) {
        bytes.push(rng.next() as u8);
    }
    bytes
}

// The parts of a sheet in so much room, each with its whole page; where a line has no room, those before it.
fn parts(print: impl Fn(&mut [u8], usize) -> (bool, usize, usize), room: usize) -> Vec<((bool, usize, usize), Vec<u8>)> {
    let mut parts: Vec<((bool, usize, usize), Vec<u8>)> = Vec::new();
    let mut skip = 0;
    loop {
        let mut page = vec![0xaa; room];
        let told = print(&mut page, skip);
        skip += told.2;
        parts.push((told, page));
        if !told.0 || told.2 == 0 {
            return parts;
        }
    }
}

// Sheets over what several checks noted are the plain ones, part by part, and so are those of a formatter.
#[test]
fn sheets() {
    let mut rng = Rng(0x12_13);
    for case in 0..case_count(40) {
        let mut streams = if case < 5 { real_streams().remove(case) } else { hostile_streams(&mut rng, case) };
        if case % 3 == 2 {
            damage(&mut rng, &mut streams.types);
        }
        let plain = plain(&streams, 0, 8);
        let built = some_sheet(&mut rng, &streams);
        let formatter = TypeFormatter::new_from_parts(&streams.types, &streams.ids, 8, TypeFormatterFlags::empty());
        let mut page = vec![0; 1 << 22];
        let (more, bytes, _) = plain.print(built.as_bytes(), &mut page, 0);
        assert!(!more && formatter.sheet_lines(&built) == page[..bytes], "{}: a sheet by a formatter", streams.name);
        let sheet = some_bytes(&mut rng, &built);
        for room in [0, 100, 4150, 1 << 16] {
            let expected = parts(|page, skip| plain.print(&sheet, page, skip), room);
            for stride in [0, 1, 8, 1000] {
                let mut checked = plain.checked(stride);
                checked.truncate(checked.len().max(19) - rng.below(checked.len() - 18));
                plain.check(stride, &mut checked);
                let got = parts(|page, skip| plain.print_checked(&checked, &sheet, page, skip), room);
                assert!(got == expected, "{}: a sheet in {room} bytes over {} numbers", streams.name, checked.len());
            }
        }
    }
}

// Over any numbers a sheet ends, and writes whole lines and nothing behind them; over zeros it is that of no types.
#[test]
fn sheets_over_any_numbers() {
    let mut rng = Rng(0x13_14);
    for case in 0..case_count(100) {
        let streams = if case % 4 == 0 { real_streams().remove(rng.below(5)) } else { hostile_streams(&mut rng, case) };
        let plain = plain(&streams, 0, 8);
        let built = some_sheet(&mut rng, &streams);
        let sheet = some_bytes(&mut rng, &built);
        let none = Plain { types: &[], ..plain };
        let expected = parts(|page, skip| none.print(&sheet, page, skip), 4150);
        assert!(parts(|page, skip| plain.print_checked(&[0; 30], &sheet, page, skip), 4150) == expected, "{}: a sheet over zeros", streams.name);
        let mut checked = plain.checked(rng.pick(&[0, 1, 8, 64]));
        spoil(&mut rng, &mut checked, &streams);
        for ((more, bytes, lines), page) in parts(|page, skip| plain.print_checked(&checked, &sheet, page, skip), 4150) {
            assert!(!more || lines > 0, "a part of no lines, with lines left");
            assert!(bytes == 0 || page[bytes - 1] == b'\n', "a part that does not end a line");
            assert!(page[bytes..].iter().all(|byte| *byte == 0xaa), "bytes behind a part");
        }
    }
}

// A writer that asks the same formatter again while it is handed a text.
#[test]
fn a_text_inside_another() {
    struct Asking<'a>(TypeFormatter<'a>, Vec<String>);
    impl std::fmt::Write for Asking<'_> {
        fn write_str(&mut self, text: &str) -> std::fmt::Result {
            self.1.push(text.to_string());
            self.1.push(self.0.format_type(0, 0x74.into()).unwrap());
            Ok(())
        }
    }
    let types = common::small_stream();
    let formatter = TypeFormatter::new_from_parts(&types, &[], 8, TypeFormatterFlags::empty());
    let mut asking = Asking(formatter.clone(), Vec::new());
    formatter.emit_type(&mut asking, 0, 0x1007.into()).unwrap();
    assert_eq!(asking.1, ["struct A[5][3]", "int"]);
}
