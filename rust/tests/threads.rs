//! Many threads at once over the same streams: each has the answers that one thread has alone, on a small stack too.
mod common;

use common::{all_calls, case_count, deep_rows, hostile_streams, Call, Rng, FIRST};
use std::thread;
use yokberd::{Error, Sheet, TypeFormatter, TypeFormatterFlags, TypeIndex};

fn shared<T: Send + Sync>(_: &T) {}

fn answer(formatter: &TypeFormatter, call: Call) -> Result<Vec<u8>, Error> {
    let mut out = vec![7; 4096];
    let len = call.ask(formatter, &mut out)?;
    out.truncate(len);
    Ok(out)
}

#[test]
fn many_threads() {
    let mut rng = Rng(0x50_07);
    for case in 0..case_count(200).div_ceil(10) {
        let streams = hostile_streams(&mut rng, case);
        let formatter = TypeFormatter::new_from_parts(&streams.types, &streams.ids, 8, TypeFormatterFlags::default());
        let calls = all_calls(&mut rng, &streams);
        let mut sheet = Sheet::new();
        calls.iter().for_each(|call| call.add_to(&mut sheet));
        shared(&formatter);
        shared(&sheet);
        let alone: Vec<_> = calls.iter().map(|call| answer(&formatter, *call)).collect();
        let lines = formatter.sheet_lines(&sheet);
        thread::scope(|scope| {
            for turn in 0..16 {
                let (formatter, calls, alone, sheet, lines) = (&formatter, &calls, &alone, &sheet, &lines);
                scope.spawn(move || {
                    for step in 0..calls.len() {
                        let at = (step + turn * 31) % calls.len();
                        assert_eq!(answer(formatter, calls[at]), alone[at]);
                    }
                    assert!(formatter.sheet_lines(sheet) == *lines);
                });
            }
        });
    }
}

// The deepest rows that the rules allow do with 512 KiB of stack (docs/BENCHMARKS.md) and what the thread itself takes.
#[test]
fn small_stack() {
    for (name, types) in deep_rows() {
        let asked = move || {
            let formatter = TypeFormatter::new_from_parts(&types, &types, 8, TypeFormatterFlags::empty());
            let mut sheet = Sheet::new();
            sheet.type_text(TypeIndex(FIRST));
            (formatter.format_type(0, TypeIndex(FIRST)), formatter.measure_type(0, TypeIndex(FIRST)), formatter.sheet_lines(&sheet))
        };
        let (text, measure, lines) = thread::Builder::new().stack_size(600 << 10).spawn(asked).unwrap().join().unwrap();
        let text = text.unwrap();
        assert_eq!(measure.map(|measure| measure.length), Ok(text.len()), "{name}");
        assert_eq!(lines, format!("1 0 0x0 {text}\n").into_bytes(), "{name}");
    }
}
