//! What holds of every call, on random and damaged streams with a fixed seed.
//!
//! `YOKBERD_CASES` sets how many pairs of streams are made. Where `YOKBERD_WRITE` names a folder, the sheets and their lines are written there, for
//! `tools/reading.py sheets` to compare.
mod common;

use common::{all_calls, case_count, hostile_streams, real_streams, settings, Call, Rng, Streams};
use std::path::Path;
use std::{env, fs};
use yokberd::{Error, IdIndex, Sheet, TypeFormatter, TypeIndex};

// The text buffer of a sheet's calls.
const SHEET_TEXT: usize = 4096;

fn noise(rng: &mut Rng, len: usize) -> Vec<u8> {
    (0..len).map(|_| rng.next() as u8 | 1).collect()
}

// Lends a buffer of no zero, and looks at every byte of it: a text and then what was there, or all zeros. A size call has no buffer.
fn lent(rng: &mut Rng, formatter: &TypeFormatter, call: Call, room: usize) -> Result<Vec<u8>, Error> {
    let before = noise(rng, room);
    let mut out = before.clone();
    let answer = call.ask(formatter, &mut out);
    match answer {
        Ok(len) => {
            assert!(len <= room, "{call:?}: a length of {len} in {room} bytes");
            assert_eq!(out[len..], before[len..], "{call:?}: bytes behind the text changed");
            out.truncate(len);
            Ok(out)
        }
        Err(error) => {
            assert!(matches!(call, Call::Size(_)) || out.iter().all(|byte| *byte == 0), "{call:?}: no zeros after {error}");
            Err(error)
        }
    }
}

// Buffers of every length up to a little more than the text, or, for a long one, of the lengths around it.
fn rooms(len: usize) -> Vec<usize> {
    if len <= 80 {
        return (0..len + 4).collect();
    }
    (0..4).chain([len / 3, len / 2]).chain(len - 4..len + 4).collect()
}

// A text is the same in every buffer that is long enough, and is refused by 15 in each shorter one. Where a long buffer has another refusal, a shorter one
// has 15 up to some length and that refusal from there on.
fn every_room(rng: &mut Rng, formatter: &TypeFormatter, call: Call) -> Result<Vec<u8>, Error> {
    let whole = lent(rng, formatter, call, SHEET_TEXT);
    if let Call::Size(_) = call {
        return whole;
    }
    match &whole {
        Ok(text) => {
            for room in rooms(text.len()) {
                let expected = if room < text.len() { Err(Error::NoRoom) } else { whole.clone() };
                assert_eq!(lent(rng, formatter, call, room), expected, "{call:?} in {room} bytes");
            }
        }
        Err(error) => {
            let mut refused = false;
            for room in rooms(40) {
                let answer = lent(rng, formatter, call, room).expect_err("a text in a short buffer and none in a long one");
                assert!(answer == *error || answer == Error::NoRoom && !refused, "{call:?} in {room} bytes: {answer}");
                refused = answer == *error;
            }
        }
    }
    whole
}

// The forms that allocate have the same answer, which is UTF-8 where a given name is, and write nothing where they are refused.
fn emitted(formatter: &TypeFormatter, call: Call, whole: &Result<Vec<u8>, Error>) {
    let (formatter, mut text) = (formatter.clone().with_text_limit(SHEET_TEXT), String::new());
    let done = match call {
        Call::Type(index) => formatter.emit_type(&mut text, 0, TypeIndex(index)),
        Call::Id(index) => formatter.emit_id(&mut text, 0, IdIndex(index)),
        Call::Function(name, index) => match std::str::from_utf8(name) {
            Ok(name) => formatter.emit_function(&mut text, name, 0, TypeIndex(index)),
            Err(_) => return,
        },
        Call::Size(_) => return,
    };
    let expected = whole.as_ref().map_or(String::new(), |text| String::from_utf8(text.clone()).unwrap());
    assert_eq!((done.err(), text), (whole.as_ref().err().copied(), expected), "{call:?}");
}

fn line(number: usize, answer: &Result<Vec<u8>, Error>) -> Vec<u8> {
    match answer {
        Ok(text) => [format!("{number} 0 0x0 ").as_bytes(), text, b"\n"].concat(),
        Err(error) => format!("{number} {} {:#x}\n", error.number(), error.detail()).into_bytes(),
    }
}

// A sheet in turns, with a buffer that takes a line at least: whole lines, bytes behind them unchanged, and all lines in the end.
fn in_turns(rng: &mut Rng, formatter: &TypeFormatter, sheet: &Sheet, room: usize) -> Vec<u8> {
    let mut lines = Vec::new();
    let mut skip = 0;
    loop {
        let before = noise(rng, room);
        let mut page = before.clone();
        let printed = formatter.print_sheet(sheet, &mut page, skip);
        assert_eq!(page[printed.bytes..], before[printed.bytes..], "bytes behind the lines changed");
        assert!(printed.lines > 0 || !printed.more);
        lines.extend_from_slice(&page[..printed.bytes]);
        skip += printed.lines;
        if !printed.more {
            return lines;
        }
    }
}

fn write_case(folder: &Path, streams: &Streams, sheet: &Sheet, lines: &[u8]) {
    let folder = folder.join(streams.name.replace(' ', "-"));
    fs::create_dir_all(&folder).unwrap();
    for (file, bytes) in [("types.bin", &streams.types[..]), ("ids.bin", &streams.ids), ("sheet.bin", sheet.as_bytes()), ("expected.txt", lines)] {
        fs::write(folder.join(file), bytes).unwrap();
    }
}

// Every call by itself, in buffers of many lengths, and all of them in one sheet.
fn held(rng: &mut Rng, streams: &Streams) -> Vec<Result<Vec<u8>, Error>> {
    let (flags, ptr_size) = settings(rng);
    let formatter = TypeFormatter::new_from_parts(&streams.types, &streams.ids, ptr_size, flags);
    let mut sheet = formatter.sheet();
    let (mut lines, mut answers) = (Vec::new(), Vec::new());
    for (at, call) in all_calls(rng, streams).into_iter().enumerate() {
        call.add_to(&mut sheet);
        let answer = every_room(rng, &formatter, call);
        emitted(&formatter, call, &answer);
        lines.extend(line(at + 1, &answer));
        answers.push(answer);
    }
    assert!(formatter.sheet_lines(&sheet) == lines, "{}: single calls and their sheet differ", streams.name);
    assert!(in_turns(rng, &formatter, &sheet, 4150) == lines, "{}: the sheet in turns differs", streams.name);
    if let Some(folder) = env::var_os("YOKBERD_WRITE") {
        write_case(Path::new(&folder), streams, &sheet, &lines);
    }
    answers
}

#[test]
fn random_and_damaged_streams() {
    let mut rng = Rng(0x10_03);
    let (mut texts, mut refusals) = (0, [0; 17]);
    let cases = case_count(300);
    for case in 0..cases {
        let streams = hostile_streams(&mut rng, case);
        for answer in held(&mut rng, &streams) {
            match answer {
                Ok(_) => texts += 1,
                Err(error) => refusals[error.number() as usize] += 1,
            }
        }
    }
    println!("{cases} pairs of streams, {texts} texts and sizes, refusals by number {:?}", &refusals[1..]);
    // 13 takes a long row (see `limits`), 14 is met by chance, 15 in short buffers only (see `every_room`), and 16 takes a bad sheet
    for number in (1..=12).filter(|_| cases >= 300) {
        assert!(refusals[number] > 0, "refusal {number} was never met");
    }
    assert!(cases < 300 || texts > 1000);
}

#[test]
fn real_streams_damaged() {
    let mut rng = Rng(0x20_04);
    for case in 0..case_count(100) / 10 {
        for mut streams in real_streams() {
            streams.name = format!("{} {case}", streams.name);
            for _ in 0..case % 8 {
                let bytes = if rng.one_in(2) { &mut streams.types } else { &mut streams.ids };
                common::damage(&mut rng, bytes);
            }
            held(&mut rng, &streams);
        }
    }
}

// A sheet of random bytes prints lines up to its first bad command.
#[test]
fn sheets_of_noise() {
    let mut rng = Rng(0x30_05);
    let types = common::small_stream();
    let formatter = TypeFormatter::new_from_parts(&types, &[], 8, Default::default());
    for _ in 0..case_count(300) {
        let len = rng.below(60);
        let commands = [0x01, 0x02, 0x10, 0x11, 0x12, 0x13, 0x10, 0x00, 0x74];
        let sheet = Sheet::from_bytes((0..len).map(|_| rng.pick(&commands)).collect());
        let lines = formatter.sheet_lines(&sheet);
        assert_eq!(in_turns(&mut rng, &formatter, &sheet, 4150), lines);
        let numbers: Vec<_> = lines.split(|byte| *byte == b'\n').filter_map(|line| line.split(|byte| *byte == b' ').nth(1)).collect();
        let all_but_the_last = &numbers[..numbers.len().saturating_sub(1)];
        assert!(!all_but_the_last.contains(&b"16".as_slice()));
    }
}

// "95 pointers in a row to int have a text, 96 give 13; 32 array levels pass, 33 give 14"
#[test]
fn limits() {
    let mut rng = Rng(0x40_06);
    let row = |count: u32, first: u32, next: fn(u32) -> Vec<u8>| {
        let records: Vec<_> = (0..count).map(|at| next(if at == 0 { first } else { common::FIRST + at - 1 })).collect();
        common::stream(&records)
    };
    let mut asked = |types: &[u8], count: u32| {
        let formatter = TypeFormatter::new_from_parts(types, &[], 8, yokberd::TypeFormatterFlags::empty());
        every_room(&mut rng, &formatter, Call::Type(common::FIRST + count - 1))
    };
    assert_eq!(asked(&row(95, 0x74, common::pointer), 95), Ok([&b"int"[..], &[b'*'; 95]].concat()));
    assert_eq!(asked(&row(96, 0x74, common::pointer), 96), Err(Error::TooManyOpen(0x74)));
    let levels = |element| common::array(element, 4);
    assert_eq!(asked(&row(32, 0x74, levels), 32), Ok([&b"int"[..], &b"[1]".repeat(32)].concat()));
    assert_eq!(asked(&row(33, 0x74, levels), 33), Err(Error::ChainTooLong(common::FIRST)));
}
