//! What bounds the time of a call on streams that are made to take long: the cost of an opening, of a scan for a full record and of a name's byte, on
//! streams of growing length, as Markdown tables. `tools/hostile.sh` runs it; docs/BENCHMARKS.md has the figures of one run.
#[path = "../../tests/common/mod.rs"]
mod common;
#[path = "../calls/table.rs"]
#[allow(dead_code)]
mod table;
#[path = "../calls/timing.rs"]
mod timing;

use common::library::Plain;
use common::{chains, fillers, Call, CHAIN, FIRST};
use std::hint::black_box;
use table::{head, micros, row, thousands};
use timing::{in_turns, Contender};
use yokberd::{TypeFormatter, TypeFormatterFlags};

const RECORDS: [usize; 5] = [1000, 10_000, 100_000, 1_000_000, 4_000_000];

// A text of so many bytes at most.
const ROOM: usize = 1 << 20;

// Entries of a list that are asked for, so that one call ends soon where an opening is dear.
const ENTRIES: [usize; 3] = [1, 16, 4000];

// Arrays of a struct that is declared and never defined, before so many records. The text of an entry is `[]`.
fn arrays(records: usize, entries: usize) -> (Vec<u8>, u32) {
    let mut all = vec![common::class(0x1505, b"", None, 0, true), common::array(FIRST, 0), common::arguments(&vec![FIRST + 1; entries])];
    all.extend(fillers(records));
    (common::stream(&all), FIRST + 2)
}

// A struct with no name and a long unique name. The text of an entry is empty.
fn names(bytes: usize, entries: usize) -> (Vec<u8>, u32) {
    let all = [common::class(0x1505, b"", Some(&vec![b'u'; bytes]), 0, false), common::arguments(&vec![FIRST; entries])];
    (common::stream(&all), FIRST + 1)
}

// The seconds of a call, single and checked once: a call for the text, less one for a primitive's, for each entry.
fn entry_times(made: &dyn Fn(usize) -> (Vec<u8>, u32), bytes_of: fn(usize) -> usize) -> [f64; 2] {
    let mut times = [0.0; 2];
    for entries in ENTRIES {
        let (types, index) = made(entries);
        let flags = TypeFormatterFlags::NAME_ONLY;
        let plain = Plain { types: &types, ids: &[], pointer_size: 8, flags: flags.bits() };
        let formatter = TypeFormatter::new_from_parts(&types, &[], 8, flags);
        let mut out = vec![0; ROOM];
        assert_eq!(plain.ask(Call::Type(index), &mut out), Ok(bytes_of(entries) as u64));
        assert_eq!(Call::Type(index).ask(&formatter, &mut out), Ok(bytes_of(entries)));
        let (mut plain_out, mut plain_none, mut checked_out, mut checked_none) = (out.clone(), out.clone(), out.clone(), out);
        let works: [Box<dyn FnMut() + '_>; 4] = [
            Box::new(|| assert!(black_box(plain.ask(Call::Type(index), &mut plain_out)).is_ok())),
            Box::new(|| assert!(black_box(plain.ask(Call::Type(0x74), &mut plain_none)).is_ok())),
            Box::new(|| assert!(black_box(Call::Type(index).ask(&formatter, &mut checked_out)).is_ok())),
            Box::new(|| assert!(black_box(Call::Type(0x74).ask(&formatter, &mut checked_none)).is_ok())),
        ];
        let [single, single_none, checked, checked_none] = in_turns(works.map(|work| Contender { calls: 1, work }).into()).try_into().unwrap();
        times = [single - single_none, checked - checked_none].map(|time| time.max(0.0) / entries as f64);
        if single > 0.05 {
            break;
        }
    }
    times
}

fn commas(entries: usize) -> usize {
    entries - 1
}

fn brackets(entries: usize) -> usize {
    3 * entries - 1
}

fn seconds(time: f64) -> String {
    match time {
        time if time < 100.0 => format!("{time:.2}"),
        time => thousands(time),
    }
}

fn main() {
    let columns =
        ["Records", "An opening, single, ns", "Checked once, ns", "4,096 bytes, single, s", "Checked once, s", "1 MiB, single, s", "Checked once, s"];
    head("94 openings for a byte of text", &columns);
    for records in RECORDS {
        let times = entry_times(&|entries| chains(records, entries), commas);
        let opening = times.map(|time| format!("{:.0}", time * 1e9 / f64::from(CHAIN + 1)));
        let texts = [4096.0, (1 << 20) as f64].map(|bytes| times.map(|time| seconds(time * bytes)));
        row(&[&[thousands(records as f64)], &opening[..], &texts.concat()].concat());
    }
    let columns =
        ["Records", "A scan, single, µs", "Checked once, µs", "4,096 bytes, single, s", "Checked once, s", "1 MiB, single, s", "Checked once, s"];
    head("A scan for three bytes of text", &columns);
    for records in RECORDS {
        let times = entry_times(&|entries| arrays(records, entries), brackets);
        let texts = [4096.0, (1 << 20) as f64].map(|bytes| times.map(|time| seconds(time * bytes / 3.0)));
        row(&[&[thousands(records as f64)], &times.map(micros)[..], &texts.concat()].concat());
    }
    let columns = ["Bytes of the name", "A reading, single, µs", "Checked once, µs", "ns a byte", "4,096 bytes, s", "1 MiB, s"];
    head("A long unique name for a byte of text", &columns);
    for bytes in [16, 1000, 16_000, 65_000] {
        let times = entry_times(&|entries| names(bytes, entries), commas);
        let texts = [4096.0, (1 << 20) as f64].map(|room| seconds(times[1] * room));
        row(&[&[thousands(bytes as f64)], &times.map(micros)[..], &[format!("{:.2}", times[1] * 1e9 / bytes as f64)], &texts].concat());
    }
}
